//! What the calls answer, with values from docs/SCRIPT.md and the files of examples/.

use juqabhino::{Options, Predicate, Refusal, run, run_words};
use std::fs;
use std::path::Path;

const MOST: usize = 16_777_216;

#[test]
fn rows_of_examples() {
    let folder = Path::new(env!("CARGO_MANIFEST_DIR")).join("../../examples");
    let mut rows = 0;
    for entry in fs::read_dir(folder).unwrap() {
        let script = entry.unwrap().path();
        if script.extension().is_some_and(|end| end == "script") {
            let output = fs::read(script.with_extension("out")).unwrap();
            assert_eq!(run(&fs::read(&script).unwrap()), Ok(output), "{}", script.display());
            rows += 1;
        }
    }
    assert!(rows >= 12, "only {rows} rows");
}

#[test]
fn refusals() {
    assert_eq!(run(b"opt a\nopt \xFF\n"), Err(Refusal::Syntax { line: 2 }));
    assert_eq!(run(b"format \"hi\"\n\nformat\n"), Err(Refusal::Syntax { line: 3 }));
    assert_eq!(run_words("caf\u{e9}", b""), Err(Refusal::Usage));
    assert_eq!(run(&vec![b'\n'; MOST + 1]), Err(Refusal::TooLong));
    assert_eq!(Predicate::parse("\""), Err(Refusal::Predicate));
    assert_eq!(Options::new("opt a\n\nopt (\n"), Err(Refusal::Syntax { line: 3 }));
}

#[test]
fn output_beyond_the_first_room() {
    let name = "abcdefgh".repeat(100);
    let call = format!("cfg {name}\nformat \"\"\n");
    let line =
        |number: usize| format!("{number} off\n{number} reason {name} is disabled\n{number} hint enable {name}\n");
    let wanted: String = (0..50).map(line).collect();
    assert_eq!(run(call.repeat(50).as_bytes()), Ok(wanted.into_bytes()));
    let options = Options::default();
    let predicate = Predicate::parse(&name).unwrap();
    assert_eq!(predicate.reason(&options), Ok(Some(format!("{name} is disabled"))));
    let hints: Vec<String> = predicate
        .hints(&options)
        .map(|hint| hint.unwrap().to_string())
        .collect();
    assert_eq!(hints, [format!("enable {name}")]);
}

#[test]
fn the_longest_script() {
    let mut script = vec![b'\n'; MOST - 11];
    script.extend_from_slice(b"format \"hi\"");
    assert_eq!(run(&script), Ok(b"0 code Arguments::from_str(s\"6869\")\n".to_vec()));
}

#[test]
fn values_between_quotes() {
    for (value, literal) in [
        ("a\"b", "r#\"a\"b\"#"),
        ("a\\b", "r\"a\\b\""),
        ("", "\"\""),
        ("a = b", "\"a = b\""),
    ] {
        let mut options = Options::new("opt other").unwrap();
        options.insert_key_value("key", value).unwrap();
        let predicate = Predicate::parse(&format!("all(other, key = {literal})")).unwrap();
        assert_eq!(predicate.check(&options), Ok(Some(true)), "{value}");
    }
}

#[test]
fn names_that_are_no_words() {
    let mut options = Options::new("opt a").unwrap();
    for name in ["", "b c", "b\nopt c", "b = \"c\"", "#", "1b", "\u{2028}"] {
        assert_eq!(options.insert_flag(name), Err(Refusal::Syntax { line: 2 }), "{name:?}");
        assert_eq!(
            options.insert_key_value(name, "v"),
            Err(Refusal::Syntax { line: 2 }),
            "{name:?}"
        );
    }
    assert_eq!(options.text(), "opt a");
}

#[test]
fn two_threads_at_once() {
    let work = |script: &'static str, wanted: &'static str| {
        move || (0..2000).all(|_| run(script.as_bytes()).as_deref() == Ok(wanted.as_bytes()))
    };
    let one = std::thread::spawn(work("format \"hi\"", "0 code Arguments::from_str(s\"6869\")\n"));
    let two = std::thread::spawn(work("format \"he\"", "0 code Arguments::from_str(s\"6865\")\n"));
    assert!(one.join().unwrap());
    assert!(two.join().unwrap());
}
