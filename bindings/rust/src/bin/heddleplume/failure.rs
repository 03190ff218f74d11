//! Why there is no answer: in words that say what to do, and as an exit status.
use std::fmt;
use std::io::{self, ErrorKind};

use heddleplume::Refusal;

use crate::help;

#[derive(Debug)]
pub enum Failure {
    /// The words are no question.
    Usage(String),
    /// The library refused the question, or the whole batch.
    Refused(Refusal),
    /// The same, where the question has an advice of its own.
    Advised(Refusal, String),
    /// The input could not be read.
    Read(io::Error),
    /// The output could not be written.
    Written(io::Error),
    /// A file, or the lines for one, could not be read, and nothing was answered.
    Unread(String, io::Error),
    /// A file could not be written, and what stood there before stands there still.
    Kept(String, io::Error),
}

impl Failure {
    pub fn status(&self) -> u8 {
        match self {
            Failure::Usage(_) => 2,
            Failure::Refused(_)
            | Failure::Advised(..)
            | Failure::Read(_)
            | Failure::Written(_)
            | Failure::Unread(..)
            | Failure::Kept(..) => 1,
        }
    }

    /// The same, with the form of the question that was meant.
    pub fn about(self, name: &str) -> Failure {
        match (self, help::usage_of(name)) {
            (Failure::Usage(what), Some(usage)) => Failure::Usage(format!("{what}\n{usage}")),
            (failure, _) => failure,
        }
    }
}

impl From<Refusal> for Failure {
    fn from(refusal: Refusal) -> Failure {
        Failure::Refused(refusal)
    }
}

impl fmt::Display for Failure {
    fn fmt(&self, f: &mut fmt::Formatter<'_>) -> fmt::Result {
        match self {
            Failure::Usage(what) => write!(f, "{what}\n`heddleplume --help` lists the questions and how numbers are written"),
            Failure::Refused(refusal) => write!(f, "{refusal}"),
            Failure::Advised(refusal, advice) => write!(f, "refused {} {refusal:?}: {advice}", refusal.number()),
            Failure::Read(error) => write!(f, "the input could not be read, so the answers are not whole: {error}"),
            Failure::Written(error) if error.kind() == ErrorKind::BrokenPipe => {
                write!(f, "the output is not whole: the program that reads it has stopped")
            }
            Failure::Written(error) => write!(f, "the output could not be written and is not whole: {error}; make room and ask again"),
            Failure::Unread(name, error) => write!(f, "{name} could not be read: {error}"),
            Failure::Kept(name, error) => write!(f, "{name} could not be written and stays as it was: {error}"),
        }
    }
}
