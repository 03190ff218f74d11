//! The program for persons: one question as words of the command line, a whole file of vectors as a batch, or a region list. All on the
//! default frame.
//! It ends with 0 if it answered, 1 if the question was refused or nothing could be read or written, 2 if the words are no question.
#![deny(unsafe_code)]

mod answers;
mod arguments;
mod batch;
mod damage;
mod failure;
mod help;
mod lines;
mod places;
mod region;
mod rows;
mod whole_file;

use std::env;
use std::ffi::OsString;
use std::io::{self, Write};
use std::process::ExitCode;

use arguments::Words;
use failure::Failure;

/// The command line as text. `env::args` would panic on what is none.
fn words() -> Result<Vec<String>, Failure> {
    let word = |word: OsString| word.into_string().map_err(|word| Failure::Usage(format!("{} is no text", word.to_string_lossy())));
    env::args_os().skip(1).map(word).collect()
}

/// Says it on standard error. Where even that fails, nobody is left to be told; `eprintln` would panic.
fn tell(text: &str) {
    let _ = writeln!(io::stderr(), "{text}");
}

fn print(text: &str) -> Result<(), Failure> {
    let mut output = io::stdout().lock();
    writeln!(output, "{text}").and_then(|()| output.flush()).map_err(Failure::Written)
}

fn answer() -> Result<(), Failure> {
    let words = words()?;
    let Some((name, rest)) = words.split_first() else {
        return Err(Failure::Usage("what is the question?".into()));
    };
    if words.iter().any(|word| word == "--help" || word == "-h") {
        return print(&help::whole());
    }
    match name.as_str() {
        "--version" | "-V" => print(concat!("heddleplume ", env!("CARGO_PKG_VERSION"))),
        "help" => print(&help::on(rest)?),
        "batch" => batch::from_words(Words::new(rest)).map_err(|failure| failure.about("batch")),
        "region" => region::from_words(rest),
        _ => print(&answers::to(name, rest)?),
    }
}

fn main() -> ExitCode {
    match answer() {
        Ok(()) => ExitCode::SUCCESS,
        Err(failure) => {
            tell(&format!("heddleplume: {failure}"));
            failure.status().into()
        }
    }
}
