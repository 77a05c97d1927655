use crate::ffi;
use crate::options::Options;
use crate::refusal::Refusal;
use std::fmt;
use std::iter::FusedIterator;

/// A predicate, as it stands behind `cfg` in a script.
#[derive(Clone, Debug, PartialEq, Eq)]
pub struct Predicate {
    text: String,
}

impl Predicate {
    /// The predicate of a text.
    ///
    /// ```
    /// use juqabhino::{Predicate, Refusal};
    ///
    /// assert!(Predicate::parse("all(unix, not(windows))").is_ok());
    /// assert_eq!(Predicate::parse("all(unix").unwrap_err(), Refusal::Predicate);
    /// ```
    pub fn parse(text: &str) -> Result<Predicate, Refusal> {
        let predicate = Predicate { text: text.to_owned() };
        predicate.check(&Options::default())?;
        Ok(predicate)
    }

    /// What the predicate reads under options: `None` where it is neither true nor false.
    ///
    /// ```
    /// use juqabhino::{Options, Predicate};
    ///
    /// let options = Options::new("opt unix")?;
    /// assert_eq!(Predicate::parse("unix")?.check(&options)?, Some(true));
    /// assert_eq!(Predicate::parse("windows")?.check(&options)?, Some(false));
    /// assert_eq!(Predicate::parse("version(\"1.70\")")?.check(&options)?, None);
    /// # Ok::<(), juqabhino::Refusal>(())
    /// ```
    pub fn check(&self, options: &Options) -> Result<Option<bool>, Refusal> {
        let asked = options.text().as_bytes();
        match ffi::check(asked, self.text.as_bytes()) {
            (ffi::OK, reads) => Ok(match reads {
                0 => Some(false),
                1 => Some(true),
                _ => None,
            }),
            (status, _) => Err(Refusal::of_question(status, asked)),
        }
    }

    /// Why the predicate is off, where that can be told.
    ///
    /// ```
    /// use juqabhino::{Options, Predicate};
    ///
    /// let reason = Predicate::parse("all(any(a, b), c)")?.reason(&Options::default())?;
    /// assert_eq!(reason.as_deref(), Some("a, b and c are disabled"));
    /// # Ok::<(), juqabhino::Refusal>(())
    /// ```
    pub fn reason(&self, options: &Options) -> Result<Option<String>, Refusal> {
        let asked = options.text().as_bytes();
        match ffi::reason(asked, self.text.as_bytes()) {
            (ffi::OK, text) => Ok(Some(text_of(text))),
            (ffi::NONE, _) => Ok(None),
            (status, _) => Err(Refusal::of_question(status, asked)),
        }
    }

    /// What switches the predicate on: each way, one by one.
    ///
    /// ```
    /// use juqabhino::{Options, Predicate};
    ///
    /// let predicate = Predicate::parse("all(any(a, b), c)")?;
    /// let options = Options::default();
    /// let hints: Vec<_> = predicate.hints(&options).collect::<Result<_, _>>()?;
    /// assert_eq!(hints[0].text(), "enable a and c");
    /// assert_eq!(hints[1].to_string(), "enable b and c");
    /// assert_eq!(hints.len(), 2);
    /// # Ok::<(), juqabhino::Refusal>(())
    /// ```
    pub fn hints<'a>(&'a self, options: &'a Options) -> Hints<'a> {
        Hints {
            predicate: self,
            options,
            number: Some(0),
        }
    }

    /// The text that was parsed.
    pub fn text(&self) -> &str {
        &self.text
    }
}

impl fmt::Display for Predicate {
    fn fmt(&self, f: &mut fmt::Formatter<'_>) -> fmt::Result {
        f.write_str(&self.text)
    }
}

/// One way to switch a predicate on, as `enable a; disable b`.
#[derive(Clone, Debug, PartialEq, Eq)]
pub struct Hint {
    text: String,
}

impl Hint {
    /// The hint as it is printed.
    pub fn text(&self) -> &str {
        &self.text
    }
}

impl fmt::Display for Hint {
    fn fmt(&self, f: &mut fmt::Formatter<'_>) -> fmt::Result {
        f.write_str(&self.text)
    }
}

/// The hints of a predicate under options. Behind a refusal there are no more.
#[derive(Clone, Debug)]
pub struct Hints<'a> {
    predicate: &'a Predicate,
    options: &'a Options,
    number: Option<u64>,
}

impl Iterator for Hints<'_> {
    type Item = Result<Hint, Refusal>;

    fn next(&mut self) -> Option<Self::Item> {
        let mut number = self.number.take()?;
        let asked = self.options.text().as_bytes();
        match ffi::hint(asked, self.predicate.text.as_bytes(), &mut number) {
            (ffi::OK, text) => {
                self.number = number.checked_add(1);
                Some(Ok(Hint { text: text_of(text) }))
            }
            (ffi::NONE, _) => None,
            (status, _) => Some(Err(Refusal::of_question(status, asked))),
        }
    }
}

impl FusedIterator for Hints<'_> {}

/// The text of an output. The library writes UTF-8.
fn text_of(output: Vec<u8>) -> String {
    String::from_utf8_lossy(&output).into_owned()
}
