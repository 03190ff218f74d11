//! Copies `vec2d.rs` of docs/src with one line more, which notes the leftovers that the branches of the rounding are about to see.
use std::{env, fs, path::Path};

const SOURCE: &str = "../../docs/src/src/coord/vec2d.rs";

/// After it both leftovers are there, and no branch has been taken.
const LAST: &str = "let r2 = x2 - f64::from(m2);";

fn main() {
    println!("cargo:rerun-if-changed={SOURCE}");
    let source = fs::read_to_string(SOURCE).unwrap_or_else(|e| panic!("{SOURCE} cannot be read: {e}"));
    let found = source.matches(LAST).count();
    assert!(found == 1, "the leftovers are noted after `{LAST}`, which must stand in {SOURCE} once and stands there {found} times");
    let out = env::var("OUT_DIR").expect("cargo names a folder");
    let write = |name: &str, text: &str| fs::write(Path::new(&out).join(name), text).expect("a file written beside the build");
    write("vec2d.rs", &source.replace(LAST, &format!("{LAST}\n        super::note(r1, r2);")));
    // the source begins with `//!`, which only a file of its own may: so what is included has nothing but its name
    write("leftovers.rs", "mod vec2d;\n");
}
