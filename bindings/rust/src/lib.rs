//! Whether a macro call of Rust is switched on, why not, what switches it on, and what its format string becomes: the static
//! library `juqabhino_c`, for Rust. The language of scripts is that of `docs/SCRIPT.md`.
//!
//! ```
//! let output = juqabhino::run(b"format \"hi\"")?;
//! assert_eq!(output, b"0 code Arguments::from_str(s\"6869\")\n");
//! # Ok::<(), juqabhino::Refusal>(())
//! ```
#![warn(missing_docs)]
#![deny(unsafe_op_in_unsafe_fn)]

mod ffi;
mod options;
mod predicate;
mod refusal;

pub use options::Options;
pub use predicate::{Hint, Hints, Predicate};
pub use refusal::Refusal;

/// Runs a script, and gives what is printed of its calls.
///
/// ```
/// use juqabhino::Refusal;
///
/// assert_eq!(juqabhino::run(b"cfg a\nformat \"\""), Ok(b"0 off\n0 reason a is disabled\n0 hint enable a\n".to_vec()));
/// assert_eq!(juqabhino::run(b"\nformat"), Err(Refusal::Syntax { line: 2 }));
/// ```
pub fn run(script: &[u8]) -> Result<Vec<u8>, Refusal> {
    run_words("", script)
}

/// The same with the words of the program, one space between two: none, `run` or `gen 4`.
///
/// ```
/// use juqabhino::Refusal;
///
/// assert_eq!(juqabhino::run_words("run", b""), Ok(Vec::new()));
/// assert_eq!(juqabhino::run_words("walk", b""), Err(Refusal::Usage));
/// ```
pub fn run_words(words: &str, script: &[u8]) -> Result<Vec<u8>, Refusal> {
    match ffi::run(words.as_bytes(), script) {
        (ffi::OK, output) => Ok(output),
        (status, output) => Err(Refusal::of(status, &output)),
    }
}

/// The summary of the script that is made for a number.
///
/// ```
/// assert_eq!(juqabhino::generate(4)?, b"calls 5\noff 1\ncode 4\nhints 2\nexprs 75\n");
/// # Ok::<(), juqabhino::Refusal>(())
/// ```
pub fn generate(number: u32) -> Result<Vec<u8>, Refusal> {
    run_words(&format!("gen {number}"), b"")
}
