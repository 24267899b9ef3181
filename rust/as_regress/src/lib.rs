//! A program that uses the name `regress`, as if it was written for that crate. The tests use each function that the pages of
//! `regress` show, and each type that programs name in signatures.
#![cfg(test)]

use regress::{escape, AsciiMatches, Error, Flags, Match, Matches, Range, Regex};
use std::iter::FusedIterator;

/// A pattern with its flags, as programs keep them.
struct Rule {
    re: Regex,
    flags: Flags,
}

impl Rule {
    fn new(pattern: &str, letters: &str) -> Result<Rule, Error> {
        let flags = Flags::from(letters);
        let re = Regex::with_flags(pattern, flags)?;
        Ok(Rule { re, flags })
    }

    fn matches<'r, 't>(&'r self, text: &'t str) -> Matches<'r, 't> {
        self.re.find_iter(text)
    }

    fn ascii_matches<'r, 't>(&'r self, text: &'t str) -> AsciiMatches<'r, 't> {
        self.re.find_iter_ascii(text)
    }
}

fn whole(found: Option<Match>) -> Option<Range> {
    found.map(|m| m.range())
}

#[test]
fn a_text_has_a_match() {
    let re = Regex::new(r"\d{4}").unwrap();
    assert!(re.find("since 1999").is_some());
    assert!(re.find("since 99").is_none());
    assert!("[".parse::<Regex>().is_err());
}

#[test]
fn a_match_has_its_text() {
    let text = "weight 42 kg";
    let m = Regex::new(r"\d+").unwrap().find(text).unwrap();
    assert_eq!((m.as_str(text), m.start(), m.end()), ("42", 7, 9));
    assert_eq!(&text[m.range], "42");
}

#[test]
fn matches_are_iterated_over() {
    let rule = Rule::new("[a-c]+", "i").unwrap();
    let text = "Ab1c2CBA";
    let words: Vec<&str> = rule.matches(text).map(|m| &text[m.range()]).collect();
    assert_eq!(words, ["Ab", "c", "CBA"]);
    assert!(rule
        .matches(text)
        .map(|m| m.range)
        .eq(rule.ascii_matches(text).map(|m| m.range)));
    assert_eq!(
        (rule.flags.to_string(), rule.flags.icase),
        ("i".to_string(), true)
    );
}

#[test]
fn groups_are_read_by_number_and_by_name() {
    let re = Regex::new(r"(?<hour>\d\d):(?<minute>\d\d)(:\d\d)?").unwrap();
    let text = "at 08:15";
    let m = re.find(text).unwrap();
    assert_eq!(&text[m.group(1).unwrap()], "08");
    assert_eq!(&text[m.named_group("minute").unwrap()], "15");
    assert_eq!(m.captures, [Some(3..5), Some(6..8), None]);
    assert_eq!(m.groups().len(), 4);
    assert_eq!(m.named_groups().len(), 2);
    let names: Vec<&str> = m.named_groups().map(|(name, _)| name).collect();
    assert_eq!(names, ["hour", "minute"]);
}

#[test]
fn a_group_stands_once_more() {
    let re = Regex::new(r#"(["'])(.*?)\1"#).unwrap();
    let text = r#"say "it's" now"#;
    let m = re.find(text).unwrap();
    assert_eq!(&text[m.group(2).unwrap()], "it's");
}

#[test]
fn a_search_that_begins_later_sees_what_stands_before() {
    let re = Regex::new("(?<=a)b").unwrap();
    let text = "abab";
    assert_eq!(whole(re.find(&text[1..])), Some(2..3));
    assert_eq!(whole(re.find_from(text, 1).next()), Some(1..2));
    assert_eq!(re.find_from(text, 5).count(), 0);
    assert_eq!(re.find_from_ascii(text, 2).count(), 1);
}

#[test]
fn the_first_match_is_replaced() {
    let names = Regex::new(r"(\w+), (\w+)").unwrap();
    assert_eq!(names.replace("Lovelace, Ada", "$2 $1"), "Ada Lovelace");
    let days = Regex::new(r"(\d\d)\.(\d\d)\.(\d{4})").unwrap();
    assert_eq!(
        days.replace("31.12.1999, 01.01.2000", "$3-$2-$1"),
        "1999-12-31, 01.01.2000"
    );
    assert_eq!(days.replace("none", "$0"), "none");
}

#[test]
fn all_matches_are_replaced() {
    let pairs = Regex::new(r"(\w)=(\w)").unwrap();
    assert_eq!(pairs.replace_all("a=1 b=2", "$2:$1"), "1:a 2:b");
    let initials = Regex::new(r"\b(\w)(\w*)").unwrap();
    assert_eq!(initials.replace_all("ab c", "$$$1[$2]"), "$a[b] $c[]");
    let named = Regex::new("(?<unit>k?m)").unwrap();
    assert_eq!(named.replace_all("3 km, 5 m", "<${unit}>"), "3 <km>, 5 <m>");
}

#[test]
fn closures_make_replacements() {
    let re = Regex::new(r"\d+").unwrap();
    let text = "7 of 12";
    let doubled = |m: &Match| {
        let number: u32 = m.as_str(text).parse().unwrap();
        (number * 2).to_string()
    };
    assert_eq!(re.replace_with(text, doubled), "14 of 12");
    assert_eq!(re.replace_all_with(text, doubled), "14 of 24");
    let moved = vec![String::from("n")];
    assert_eq!(
        re.replace_with(text, |_| moved.into_iter().collect()),
        "n of 12"
    );
}

#[test]
fn texts_are_escaped() {
    assert_eq!(escape("1 + 1 = 2?"), r"1 \+ 1 = 2\?");
    assert_eq!(escape("{a}|[b]^$"), r"\{a\}\|\[b\]\^\$");
    assert_eq!(escape(r"\("), r"\\\(");
}

#[test]
fn units_of_16_bits_are_searched() {
    let re = Regex::with_flags(
        "^.$",
        Flags {
            unicode: true,
            ..Flags::default()
        },
    )
    .unwrap();
    let text: Vec<u16> = "🌷".encode_utf16().collect();
    assert_eq!(whole(re.find_from_utf16(&text, 0).next()), Some(0..2));
    assert_eq!(re.find_from_ucs2(&text, 0).count(), 0);
}

#[test]
fn patterns_are_given_by_code_points() {
    let letters = "iz".chars().map(u32::from);
    let re = Regex::from_unicode("É|b".chars().map(u32::from), Flags::new(letters)).unwrap();
    assert_eq!(whole(re.find("aB")), Some(1..2));
}

#[test]
fn refusals_have_a_text() {
    let error: Error = Regex::new("(a").unwrap_err();
    assert!(!error.text.is_empty());
    assert_eq!(error.text, error.to_string());
    let boxed: Box<dyn std::error::Error> = error.clone().into();
    assert_eq!(boxed.to_string(), error.text);
}

#[test]
fn types_have_the_traits_that_programs_ask_for() {
    fn shared<T: Clone + std::fmt::Debug + Send + Sync>() {}
    fn searched<T: Iterator<Item = Match> + FusedIterator + std::fmt::Debug>() {}
    shared::<Regex>();
    shared::<Match>();
    shared::<Flags>();
    shared::<Error>();
    searched::<Matches>();
    searched::<AsciiMatches>();
}
