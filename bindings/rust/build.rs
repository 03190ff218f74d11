//! Finds the proved library, or makes it: `../library` brings target/staticlib of the repository up to date by `rt`.
//! Where there is no Rattle kit, HEDDLEPLUME_LIB_DIR names a folder that holds a finished libheddleplume.a.
use std::env;
use std::path::{Path, PathBuf};
use std::process::{Command, exit};

const LIBRARY: &str = "libheddleplume.a";

fn fail(message: &str) -> ! {
    eprintln!("heddleplume: {message}");
    exit(1)
}

/// The top folder of the repository, two above this crate.
fn top() -> PathBuf {
    Path::new(&env::var("CARGO_MANIFEST_DIR").expect("cargo sets it")).join("../..")
}

/// Has the library brought up to date, which proves for some minutes the first time. Cargo shows what is said here only if it fails, so
/// notes go on as warnings.
fn made(top: &Path) -> PathBuf {
    let script = top.join("bindings/library");
    let run = match Command::new(&script).output() {
        Ok(run) => run,
        Err(error) => {
            fail(&format!("{} could not be run ({error}): name the folder of a finished library in HEDDLEPLUME_LIB_DIR", script.display()))
        }
    };
    let said = String::from_utf8_lossy(&run.stderr);
    eprint!("{said}");
    if !run.status.success() {
        fail(&format!("there is no library to link ({})", run.status));
    }
    for note in said.lines().filter_map(|line| line.strip_prefix("note: ")) {
        println!("cargo::warning={note}");
    }
    String::from_utf8_lossy(&run.stdout).trim_end().into()
}

/// Makes cargo run this again after a change.
fn watch(path: &Path) {
    println!("cargo::rerun-if-changed={}", path.display());
}

fn main() {
    println!("cargo::rerun-if-env-changed=HEDDLEPLUME_LIB_DIR");
    watch(Path::new("build.rs"));
    // Only what is there: a path that is not would make cargo run this each time.
    for path in ["crates", "crates.txt", "bindings/library"].map(|name| top().join(name)) {
        if path.exists() {
            watch(&path);
        }
    }
    let named = env::var_os("HEDDLEPLUME_LIB_DIR").filter(|folder| !folder.is_empty()).map(PathBuf::from);
    let folder = named.unwrap_or_else(|| made(&top()));
    let library = folder.join(LIBRARY);
    if !library.is_file() {
        fail(&format!("there is no {}", library.display()));
    }
    // One that this run has made is younger than the run, so that cargo comes here once more, and then finds nothing to make.
    watch(&library);
    println!("cargo::rustc-link-search=native={}", folder.display());
    println!("cargo::rustc-link-lib=static=heddleplume");
}
