//! Says which predicates are off under the options of a target, why, and what switches them on.
//!
//! The options are the lines of `rustc --print cfg`, or with `-` as the first word those of standard input. The other words
//! are predicates.

use juqabhino::{Options, Predicate};
use std::error::Error;
use std::io::Read;
use std::process::Command;

const PREDICATES: [&str; 3] = [
    "windows",
    "all(unix, target_arch = \"aarch64\")",
    "not(debug_assertions)",
];

fn main() -> Result<(), Box<dyn Error>> {
    let mut words: Vec<String> = std::env::args().skip(1).collect();
    let is_piped = words.first().is_some_and(|word| word == "-");
    let lines = if is_piped { read_input()? } else { ask_rustc()? };
    if is_piped {
        words.remove(0);
    }
    if words.is_empty() {
        words = PREDICATES.map(str::to_owned).to_vec();
    }
    let options = options_of(&lines)?;
    for word in words {
        explain(&Predicate::parse(&word)?, &options)?;
    }
    Ok(())
}

fn read_input() -> std::io::Result<String> {
    let mut lines = String::new();
    std::io::stdin().read_to_string(&mut lines)?;
    Ok(lines)
}

fn ask_rustc() -> Result<String, Box<dyn Error>> {
    let told = Command::new("rustc").args(["--print", "cfg"]).output()?;
    Ok(String::from_utf8(told.stdout)?)
}

/// Each line is a flag, or a key, `=` and a value between quotes.
fn options_of(lines: &str) -> Result<Options, Box<dyn Error>> {
    let mut options = Options::default();
    for line in lines.lines().filter(|line| !line.is_empty()) {
        match line.split_once('=') {
            None => options.insert_flag(line)?,
            Some((key, value)) => options.insert_key_value(key, value.trim_matches('"'))?,
        }
    }
    Ok(options)
}

fn explain(predicate: &Predicate, options: &Options) -> Result<(), Box<dyn Error>> {
    match predicate.check(options)? {
        Some(true) => println!("{predicate}: on"),
        None => println!("{predicate}: neither on nor off"),
        Some(false) => {
            let reason = predicate.reason(options)?.unwrap_or_default();
            println!("{predicate}: off, {reason}");
            for hint in predicate.hints(options) {
                println!("    {}", hint?);
            }
        }
    }
    Ok(())
}
