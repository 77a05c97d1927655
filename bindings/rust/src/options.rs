use crate::ffi;
use crate::refusal::Refusal;

/// The options under which a predicate is asked: what `cfg` sets, as lines of the language of scripts.
#[derive(Clone, Debug, Default, PartialEq, Eq)]
pub struct Options {
    text: String,
}

impl Options {
    /// The options of a script. Its items `opt` and `version` count, and no others.
    ///
    /// ```
    /// use juqabhino::{Options, Refusal};
    ///
    /// assert!(Options::new("opt unix\nopt feature = \"std\"\n").is_ok());
    /// assert_eq!(Options::new("opt unix\nopt").unwrap_err(), Refusal::Syntax { line: 2 });
    /// ```
    pub fn new(text: &str) -> Result<Options, Refusal> {
        ask(text)?;
        Ok(Options { text: text.to_owned() })
    }

    /// Sets a flag. Where the name is no word it is refused, and nothing changes.
    ///
    /// ```
    /// use juqabhino::{Options, Predicate};
    ///
    /// let mut options = Options::default();
    /// options.insert_flag("unix")?;
    /// assert_eq!(Predicate::parse("unix")?.check(&options)?, Some(true));
    /// assert!(options.insert_flag("a\nopt b").is_err());
    /// # Ok::<(), juqabhino::Refusal>(())
    /// ```
    pub fn insert_flag(&mut self, name: &str) -> Result<(), Refusal> {
        self.insert(name, "")
    }

    /// Sets a key with a value. Where the key is no word it is refused, and nothing changes.
    ///
    /// ```
    /// use juqabhino::{Options, Predicate};
    ///
    /// let mut options = Options::default();
    /// options.insert_key_value("feature", "std")?;
    /// assert_eq!(Predicate::parse("feature = \"std\"")?.check(&options)?, Some(true));
    /// # Ok::<(), juqabhino::Refusal>(())
    /// ```
    pub fn insert_key_value(&mut self, key: &str, value: &str) -> Result<(), Refusal> {
        self.insert(key, &format!(" = {}", quoted(value)))
    }

    /// The lines.
    pub fn text(&self) -> &str {
        &self.text
    }

    /// Puts a line behind the others, once it is known to be one item. A word has no blank, line feed or mark in it, and the
    /// library judges its other characters.
    fn insert(&mut self, word: &str, behind: &str) -> Result<(), Refusal> {
        let before = if self.text.is_empty() || self.text.ends_with('\n') {
            ""
        } else {
            "\n"
        };
        let line = format!("opt {word}{behind}\n");
        let is_sure = word
            .chars()
            .all(|c| !c.is_ascii() || c.is_ascii_alphanumeric() || c == '_');
        let asked = if is_sure {
            ask(&line)
        } else {
            Err(Refusal::Syntax { line: 1 })
        };
        asked.map_err(|refusal| self.behind_text(refusal, before))?;
        self.text.push_str(before);
        self.text.push_str(&line);
        Ok(())
    }

    /// A refusal of a line that would stand behind the text.
    fn behind_text(&self, refusal: Refusal, before: &str) -> Refusal {
        match refusal {
            Refusal::Syntax { line } => {
                let lines = self.text.matches('\n').count() + before.len();
                Refusal::Syntax {
                    line: line + lines as u64,
                }
            }
            other => other,
        }
    }
}

/// Whether a text is a script, by a question that every option answers.
fn ask(text: &str) -> Result<(), Refusal> {
    match ffi::check(text.as_bytes(), b"all()") {
        (ffi::OK, _) => Ok(()),
        (status, _) => Err(Refusal::of_question(status, text.as_bytes())),
    }
}

/// A plain string of this value.
fn quoted(value: &str) -> String {
    let mut text = String::from("\"");
    for c in value.chars() {
        match c {
            '\\' => text.push_str("\\\\"),
            '"' => text.push_str("\\\""),
            '\n' => text.push_str("\\n"),
            '\r' => text.push_str("\\r"),
            '\t' => text.push_str("\\t"),
            '\0' => text.push_str("\\0"),
            other => text.push(other),
        }
    }
    text.push('"');
    text
}
