use crate::ffi;
use std::error::Error;
use std::fmt;

/// Why a call has no answer.
#[derive(Clone, Copy, Debug, PartialEq, Eq, Hash)]
#[non_exhaustive]
pub enum Refusal {
    /// The words ask for nothing.
    Usage,
    /// The text is no script.
    Syntax {
        /// The line in which the first broken item begins, counted from 1.
        line: u64,
    },
    /// No memory is left.
    Memory,
    /// The calls of the script place more than an arena holds.
    ArenaFull,
    /// A text has more than 16,777,216 bytes.
    TooLong,
    /// The text is no predicate.
    Predicate,
    /// A status that this crate does not know.
    Other(u8),
}

impl Refusal {
    /// The refusal of a status, with its line as it is printed.
    pub(crate) fn of(status: u8, output: &[u8]) -> Refusal {
        match status {
            ffi::USAGE => Refusal::Usage,
            ffi::SYNTAX => line_of(output).map_or(Refusal::Other(status), |line| Refusal::Syntax { line }),
            ffi::MEMORY => Refusal::Memory,
            ffi::ARENA_FULL => Refusal::ArenaFull,
            ffi::TOO_LONG => Refusal::TooLong,
            ffi::PREDICATE => Refusal::Predicate,
            _ => Refusal::Other(status),
        }
    }

    /// The refusal of a question about options, which tells no line: a run over the options has it.
    pub(crate) fn of_question(status: u8, options: &[u8]) -> Refusal {
        if status != ffi::SYNTAX {
            return Refusal::of(status, b"");
        }
        let (status, output) = ffi::run(b"", options);
        Refusal::of(if status == ffi::OK { ffi::SYNTAX } else { status }, &output)
    }
}

/// The number in `error syntax at line 3`.
fn line_of(output: &[u8]) -> Option<u64> {
    let text = std::str::from_utf8(output).ok()?;
    text.strip_prefix("error syntax at line ")?.trim_end().parse().ok()
}

impl fmt::Display for Refusal {
    fn fmt(&self, f: &mut fmt::Formatter<'_>) -> fmt::Result {
        match self {
            Refusal::Usage => f.write_str("the words ask for nothing"),
            Refusal::Syntax { line } => write!(f, "no script: a fault at line {line}"),
            Refusal::Memory => f.write_str("no memory is left"),
            Refusal::ArenaFull => f.write_str("an arena is full"),
            Refusal::TooLong => f.write_str("a text of more than 16,777,216 bytes"),
            Refusal::Predicate => f.write_str("no predicate"),
            Refusal::Other(status) => write!(f, "status {status}"),
        }
    }
}

impl Error for Refusal {}
