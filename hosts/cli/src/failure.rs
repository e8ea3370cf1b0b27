//! Why a command failed.

use multisize::{Refusal, LARGEST_SIDE, LONGEST_FILE};
use std::fmt;
use std::io;

/// Why a command failed, and what it names.
#[derive(Debug)]
pub enum Failure {
    /// The words of the command line make no command.
    Usage(String),
    /// A file can't be read or written.
    File { name: String, error: io::Error },
    /// What stands in a file is refused. A hint says what is served.
    Refused {
        name: String,
        refusal: Refusal,
        meaning: String,
        hint: Option<String>,
    },
    /// More is in a file than is ever served.
    Long { name: String },
}

impl Failure {
    pub fn usage(text: impl Into<String>) -> Failure {
        Failure::Usage(text.into())
    }

    /// The status that the program ends with. Whoever reads what it writes may stop
    /// when they have enough: that is no failure.
    pub fn status(&self) -> u8 {
        match self {
            _ if self.is_closed_pipe() => 0,
            Failure::Refused { .. } | Failure::Long { .. } => 1,
            Failure::Usage(_) | Failure::File { .. } => 2,
        }
    }

    /// Whether nobody reads any more what is written.
    pub fn is_closed_pipe(&self) -> bool {
        matches!(self, Failure::File { error, .. } if error.kind() == io::ErrorKind::BrokenPipe)
    }
}

/// These with commas between them, and `or` ahead of the last.
pub fn any_of(names: &[String]) -> String {
    match names {
        [others @ .., last] if !others.is_empty() => format!("{} or {last}", others.join(", ")),
        _ => names.concat(),
    }
}

impl fmt::Display for Failure {
    fn fmt(&self, f: &mut fmt::Formatter) -> fmt::Result {
        match self {
            Failure::Usage(text) => write!(f, "{text} (multisize --help says more)"),
            Failure::File { name, error } => write!(f, "{name}: {error}"),
            Failure::Refused {
                name,
                refusal,
                meaning,
                hint,
            } => {
                write!(f, "{name}: refused ({}): {meaning}", refusal.number())?;
                hint.iter().try_for_each(|hint| write!(f, "; {hint}"))
            }
            Failure::Long { name } => {
                let longest = format!("a picture of {LARGEST_SIDE} by {LARGEST_SIDE}");
                write!(
                    f,
                    "{name}: refused: it is over {LONGEST_FILE} bytes, longer than any file of {longest}"
                )
            }
        }
    }
}
