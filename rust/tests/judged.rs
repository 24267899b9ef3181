//! The cases that another engine judged (`crates/test_trials/data`): all matches with their groups, in UTF-8, in UTF-16, and with
//! ample steps and work.

use regress_match::{Bounds, Match, Regex, Syntax};
use std::fmt::Write;
use std::fs;

const CASES: &str = concat!(env!("CARGO_MANIFEST_DIR"), "/../crates/test_trials/data/");

/// The text of a field, or its number.
fn field(line: &str, name: &str) -> String {
    let key = format!("\"{name}\":");
    let at = line.find(&key).expect("the field is there") + key.len();
    let value = &line[at..];
    match value.strip_prefix('"') {
        Some(text) => unescaped(text),
        None => value.chars().take_while(char::is_ascii_digit).collect(),
    }
}

// What a text of JSON says, up to its end.
fn unescaped(text: &str) -> String {
    let mut units: Vec<u16> = Vec::new();
    let mut chars = text.chars();
    while let Some(c) = chars.next().filter(|c| *c != '"') {
        let c = match c {
            '\\' => match chars.next().expect("an escape ends") {
                'u' => {
                    let digits: String = chars.by_ref().take(4).collect();
                    units.push(u16::from_str_radix(&digits, 16).expect("four digits"));
                    continue;
                }
                'n' => '\n',
                'r' => '\r',
                't' => '\t',
                'b' => '\u{8}',
                'f' => '\u{C}',
                other => other,
            },
            other => other,
        };
        units.extend_from_slice(c.encode_utf16(&mut [0; 2]));
    }
    String::from_utf16(&units).expect("a case is of characters")
}

// The lines of these matches, with offsets as they are told.
fn lines(found: impl Iterator<Item = Match>, offset: impl Fn(usize) -> usize) -> String {
    let mut text = String::new();
    for m in found {
        let groups = m.groups().map(|group| match group {
            Some(range) => format!("{}..{}", offset(range.start), offset(range.end)),
            None => "-".to_string(),
        });
        writeln!(text, "{}", groups.collect::<Vec<_>>().join(" ")).unwrap();
    }
    text
}

// The offset in bytes of each offset in units.
fn offsets(text: &str) -> Vec<usize> {
    let mut offsets = Vec::new();
    for (at, c) in text.char_indices() {
        offsets.extend(std::iter::repeat(at).take(c.len_utf16()));
    }
    offsets.push(text.len());
    offsets
}

#[test]
fn judged_cases_of_the_profile_agree() {
    assert_eq!(count_agreeing("v8.jsonl", Syntax::Profile), 1469);
}

#[test]
fn judged_cases_of_the_whole_language_agree() {
    assert_eq!(count_agreeing("es2018.jsonl", Syntax::default()), 840);
}

// Compares the cases of a file, and returns their number.
fn count_agreeing(file: &str, syntax: Syntax) -> usize {
    let cases = fs::read_to_string(format!("{CASES}{file}")).expect("the cases are there");
    let mut count = 0;
    for line in cases.lines() {
        let [pattern, flags, text, stdout] =
            ["pattern", "flags", "text", "stdout"].map(|name| field(line, name));
        let re = Regex::with_syntax(&pattern, flags.as_str(), syntax, Bounds::NONE);
        assert_eq!(re.is_err(), field(line, "status") == "2", "{line}");
        if let Ok(re) = re {
            assert_eq!(lines(re.find_iter(&text), |at| at), stdout, "{line}");
            let limited = re
                .find_from_limited(&text, 0, u64::MAX)
                .map(|item| item.expect("ample steps"));
            assert_eq!(lines(limited, |at| at), stdout, "with ample steps: {line}");
            let limited = re
                .find_from_in_work(&text, 0, u64::MAX)
                .map(|item| item.expect("ample work"));
            assert_eq!(lines(limited, |at| at), stdout, "with ample work: {line}");
            let units: Vec<u16> = text.encode_utf16().collect();
            let bytes = offsets(&text);
            assert_eq!(
                lines(re.find_from_utf16(&units, 0), |at| bytes[at]),
                stdout,
                "in UTF-16: {line}"
            );
        }
        count += 1;
    }
    count
}
