//! The program, run as a person runs it: what it prints on both outputs, and what it ends with.
mod batch;
mod questions;
mod regions;
mod usage;

use std::fs;
use std::io::Write;
use std::path::{Path, PathBuf};
use std::process::{Command, Output, Stdio};

/// The program with these words.
fn program(words: &str) -> Command {
    let mut command = Command::new(env!("CARGO_BIN_EXE_heddleplume"));
    command.args(words.split_whitespace()).stdin(Stdio::null()).stdout(Stdio::piped()).stderr(Stdio::piped());
    command
}

/// Exit status, standard output and standard error.
fn ended(output: Output) -> (Option<i32>, String, String) {
    let text = |bytes| String::from_utf8(bytes).expect("it prints text");
    (output.status.code(), text(output.stdout), text(output.stderr))
}

fn asked(words: &str) -> (Option<i32>, String, String) {
    ended(program(words).output().expect("the program runs"))
}

/// The same with an input, which must fit into a pipe together with the answers.
fn fed(words: &str, input: &[u8]) -> (Option<i32>, String, String) {
    ended(output_of(&mut program(words), input))
}

fn output_of(command: &mut Command, input: &[u8]) -> Output {
    let mut child = command.stdin(Stdio::piped()).spawn().expect("the program runs");
    // A program that ends before it has read all is judged by what it printed.
    let _ = child.stdin.take().expect("it is piped").write_all(input);
    child.wait_with_output().expect("it ends")
}

/// A folder of its own for a test, in which the program runs; gone when the test ends.
struct Folder(PathBuf);

impl Folder {
    fn of(test: &str) -> Folder {
        let path = Path::new(env!("CARGO_TARGET_TMPDIR")).join(format!("{test}-{}", std::process::id()));
        fs::create_dir_all(&path).expect("there is room");
        Folder(path)
    }

    fn program(&self, words: &str) -> Command {
        let mut command = program(words);
        command.current_dir(&self.0);
        command
    }

    fn asked(&self, words: &str) -> (Option<i32>, String, String) {
        ended(self.program(words).output().expect("the program runs"))
    }

    fn fed(&self, words: &str, input: &[u8]) -> (Option<i32>, String, String) {
        ended(output_of(&mut self.program(words), input))
    }

    fn put(&self, name: &str, bytes: &[u8]) {
        fs::write(self.0.join(name), bytes).expect("there is room");
    }

    fn bytes(&self, name: &str) -> Vec<u8> {
        fs::read(self.0.join(name)).expect("it is there")
    }

    /// What lies in it, in order.
    fn names(&self) -> Vec<String> {
        let entries = fs::read_dir(&self.0).expect("it is there");
        let mut names: Vec<String> = entries.map(|entry| entry.unwrap().file_name().into_string().unwrap()).collect();
        names.sort();
        names
    }
}

impl Drop for Folder {
    fn drop(&mut self) {
        let _ = fs::remove_dir_all(&self.0);
    }
}
