//! Each call once, and what it does where a program may go wrong.

use regress_match::{
    escape, library_version, AsciiMatches, Bounds, Cause, Error, Flags, Match, Matches, Regex,
    SearchError, Syntax, Unbounded,
};
use std::error;
use std::fmt::Debug;
use std::iter::FusedIterator;
use std::thread;

fn ranges(found: impl Iterator<Item = Match>) -> Vec<std::ops::Range<usize>> {
    found.map(|m| m.range()).collect()
}

fn utf16(text: &str) -> Vec<u16> {
    text.encode_utf16().collect()
}

#[test]
fn matches_come_in_turn() {
    let re = Regex::new("a*").unwrap();
    assert_eq!(ranges(re.find_iter("aab")), [0..2, 2..2, 3..3]);
    assert_eq!(ranges(re.find_from("éa", 2)), [2..3, 3..3]);
    assert_eq!(ranges(re.find_from("a", 2)), []);
    assert_eq!(re.find("b").unwrap().range(), 0..0);
    assert!(Regex::new("z").unwrap().find("b").is_none());
    let mut once = re.find_iter("");
    assert!(once.next().is_some() && once.next().is_none() && once.next().is_none());
}

#[test]
fn patterns_are_of_the_whole_language_by_default() {
    for pattern in [r"\101|(?=a)*b", r"(?<\u0061>b)|\cA", "[^\u{E9}]\\8"] {
        assert!(Regex::new(pattern).is_ok(), "{pattern}");
        assert!(pattern.parse::<Regex>().is_ok());
        assert!(Regex::with_syntax(pattern, "", Syntax::Profile, Bounds::NONE).is_err());
    }
    assert_eq!(Regex::new(r"\101").unwrap().find("A").unwrap().range(), 0..1);
    assert_eq!(ranges(Regex::with_flags(r"\p{Lu}", "u").unwrap().find_iter("aÉB")), [1..3, 3..4]);
    let folded = Regex::with_flags("é", "i").unwrap();
    let plain = Regex::with_syntax("é", "i", Syntax::Profile, Bounds::NONE).unwrap();
    assert_eq!((folded.find("É").is_some(), plain.find("É").is_some()), (true, false));
    let octal = || r"\101".chars().map(u32::from);
    assert!(Regex::from_unicode(octal(), "").unwrap().find("A").is_some());
    assert!(Regex::from_unicode_with_syntax(octal(), "", Syntax::Profile).is_err());
    let short = Bounds { length: 3, nesting: 0 };
    let error = Regex::with_syntax("a\\p{x}", "u", Syntax::default(), short).unwrap_err();
    assert_eq!(error.cause(), Cause::TooLong);
    assert_eq!(Regex::with_flags("a\\p{x}", "u").unwrap_err().position(), Some(1));
}

#[test]
fn many_matches_come_once_each() {
    let re = Regex::new("(a)|(b)").unwrap();
    let text = "abb".repeat(1000);
    let found: Vec<Match> = re.find_iter(&text).collect();
    assert_eq!(found.len(), 3000);
    for (at, m) in found.iter().enumerate() {
        let (first, second) = if at % 3 == 0 {
            (Some(at..at + 1), None)
        } else {
            (None, Some(at..at + 1))
        };
        assert_eq!(m.captures, [first, second]);
    }
}

#[test]
fn groups_have_numbers_and_names() {
    let re = Regex::new(r"(?<year>\d{4})-(\d\d)(?<rest>-\d\d)?").unwrap();
    assert_eq!(re.group_count(), 3);
    assert_eq!(
        re.group_names().collect::<Vec<_>>(),
        [Some("year"), None, Some("rest")]
    );
    let text = "in 2018-06";
    let m = re.find(text).unwrap();
    assert_eq!((m.start(), m.end(), m.as_str(text)), (3, 10, "2018-06"));
    assert_eq!(m.group(0), Some(3..10));
    assert_eq!(m.group(1), Some(3..7));
    assert_eq!((m.group(3), m.group(4)), (None, None));
    assert_eq!(m.named_group("year"), Some(3..7));
    assert_eq!(
        (
            m.named_group("rest"),
            m.named_group("month"),
            m.named_group("")
        ),
        (None, None, None)
    );
    assert_eq!(
        m.groups().collect::<Vec<_>>(),
        [Some(3..10), Some(3..7), Some(8..10), None]
    );
    assert_eq!(m.groups().len(), 4);
    assert_eq!(
        m.named_groups().collect::<Vec<_>>(),
        [("year", Some(3..7)), ("rest", None)]
    );
    assert_eq!(m, m.clone());
}

#[test]
fn iterators_say_how_many_are_left() {
    fn exact_and_fused(items: &(impl ExactSizeIterator + FusedIterator)) -> usize {
        items.len()
    }
    let re = Regex::new("(?<a>a)(b)(?<c>c)?(?<d>d)").unwrap();
    let m = re.find("abd").unwrap();
    let mut named = m.named_groups();
    let mut groups = m.groups();
    for left in (0..=3).rev() {
        assert_eq!(exact_and_fused(&named), left);
        assert_eq!(named.next().is_some(), left > 0);
    }
    for left in (0..=5).rev() {
        assert_eq!(exact_and_fused(&groups), left);
        assert_eq!(groups.next().is_some(), left > 0);
    }
    assert!(named.next().is_none() && groups.next().is_none());
    assert_eq!((exact_and_fused(&named), exact_and_fused(&groups)), (0, 0));
    let unnamed = Regex::new("(a)").unwrap();
    assert_eq!(unnamed.find("a").unwrap().named_groups().len(), 0);
}

#[test]
fn searches_are_debug_and_fused() {
    fn shown(search: impl Debug + FusedIterator) -> String {
        format!("{search:?}")
    }
    let re = Regex::new("a").unwrap();
    let matches: Matches = re.find_iter("a");
    let ascii: AsciiMatches = re.find_iter_ascii("a");
    assert!(shown(matches).contains("Regex(/a/)"));
    assert!(shown(ascii).contains("Regex(/a/)"));
    assert!(shown(re.find_from_limited("a", 0, 7)).contains("Steps(7)"));
    assert!(shown(re.find_from_in_work("a", 0, 7)).contains("Work(7)"));
    assert!(shown(re.bounded().unwrap().find_from("", 0, 9)).contains("work_left"));
}

#[test]
fn a_match_begins_at_one_place_alone() {
    let re = Regex::new("a|ab(c)?").unwrap();
    let range = |m: Option<Match>| m.map(|m| m.range());
    assert_eq!(range(re.match_at("xab", 1)), Some(1..2));
    assert_eq!(range(re.match_at("xab", 0)), None);
    assert_eq!(range(re.match_at("xab", 3)), None);
    assert_eq!(range(re.match_at("xab", 4)), None);
    assert_eq!(range(re.match_at_ascii("xab", 1)), Some(1..2));
    let behind = Regex::new("(?<=é)(?<b>b)|$").unwrap();
    assert_eq!(
        behind.match_at("éb", 2).unwrap().named_group("b"),
        Some(2..3)
    );
    assert_eq!(range(behind.match_at("éb", 3)), Some(3..3));
    let any = Regex::with_flags(".", "s").unwrap();
    assert_eq!(range(any.match_at_utf16(&utf16("a😀"), 1)), Some(1..3));
    assert_eq!(range(any.match_at_ucs2(&utf16("a😀"), 1)), Some(1..2));
    assert_eq!(range(any.match_at_ucs2(&utf16("a😀"), 2)), Some(2..3));
    assert_eq!(any.try_match_at("", 0), Ok(None));
    assert_eq!(any.try_match_at_utf16(&[], 0), Ok(None));
    assert_eq!(any.try_match_at_ucs2(&[], 0), Ok(None));
    assert!(std::panic::catch_unwind(|| any.match_at("é", 1)).is_err());
    assert!(std::panic::catch_unwind(|| any.try_match_at("é", 1)).is_err());
    assert!(std::panic::catch_unwind(|| any.match_at_utf16(&utf16("😀"), 1)).is_err());
}

#[test]
fn work_is_bounded() {
    let re = Regex::new("(a)|b").unwrap();
    let bounded = re.bounded().unwrap();
    assert_eq!(re.work_per_unit(), Ok(bounded.work_per_unit()));
    for count in [0, 1, 31, 32, 33, 256, 1000] {
        let text = "ab".repeat(count);
        let enough = bounded.work_per_unit() * (text.len() as u64 + 1);
        let mut within = bounded.find_from(&text, 0, enough);
        assert!(
            within.by_ref().map(Result::unwrap).eq(re.find_iter(&text)),
            "{count}"
        );
        assert!(within.next().is_none());
        let taken = enough - within.work_left();
        assert_eq!(bounded.find_iter(&text).count(), 2 * count);
        let exact = bounded.find_from(&text, 0, taken);
        assert_eq!(
            (exact.work_left(), exact.filter(Result::is_ok).count()),
            (0, 2 * count)
        );
        if let Some(short) = taken.checked_sub(1) {
            let mut short = bounded.find_from(&text, 0, short);
            assert_eq!(short.work_left(), 0);
            assert_eq!(
                short.by_ref().find(Result::is_err),
                Some(Err(SearchError::WorkLimit))
            );
            assert!(short.next().is_none());
        }
    }
    let explodes = Regex::new("(?:a|a)*b").unwrap();
    assert!(explodes
        .bounded()
        .unwrap()
        .find_iter(&"a".repeat(3000))
        .next()
        .is_none());
    assert_eq!(bounded.find_from("éa", 2, u64::MAX).count(), 1);
    assert_eq!(bounded.find_from("a", 2, u64::MAX).count(), 0);
    assert!(std::panic::catch_unwind(|| bounded.find_from("é", 1, 9)).is_err());
    let lazy = ".+?".repeat(12);
    for (pattern, reason, text) in [
        ("(?=a*)b", Unbounded::Lookaround, "a lookaround has a loop, or alternatives before its end"),
        (r"(a)\1", Unbounded::Backreference, "the pattern has a backreference"),
        (
            "(?:a|a){0,65}",
            Unbounded::Count,
            "counts are too large, or loops are nested too deeply",
        ),
        (&lazy, Unbounded::BoundTooLarge, "the bound is too large, or lookarounds are nested too deeply"),
    ] {
        let re = Regex::new(pattern).unwrap();
        assert_eq!(re.bounded().err(), Some(reason), "{pattern}");
        assert_eq!(re.work_per_unit(), Err(reason), "{pattern}");
        assert_eq!(reason.to_string(), format!("no work bound is known: {text}"));
    }
    assert_eq!(SearchError::WorkLimit.to_string(), "the work limit is reached");
}

#[test]
fn encodings_have_their_units() {
    let re = Regex::with_flags(".", "s").unwrap();
    let text = utf16("a😀b");
    assert_eq!(ranges(re.find_from_utf16(&text, 0)), [0..1, 1..3, 3..4]);
    assert_eq!(
        ranges(re.find_from_ucs2(&text, 0)),
        [0..1, 1..2, 2..3, 3..4]
    );
    assert_eq!(ranges(re.find_from_ucs2(&text, 2)), [2..3, 3..4]);
    assert_eq!(ranges(re.find_iter("a😀b")), [0..1, 1..5, 5..6]);
    assert_eq!(ranges(re.find_iter_ascii("ab")), [0..1, 1..2]);
    assert_eq!(ranges(re.find_from_ascii("ab", 1)), [1..2]);
    assert_eq!(re.find_ascii("ab").unwrap().range(), 0..1);
    assert!(re.try_find_from_utf16(&text, 1).all(|item| item.is_ok()));
    assert!(re.try_find_from_ucs2(&text, 1).all(|item| item.is_ok()));
}

#[test]
fn patterns_are_code_points_too() {
    let re =
        Regex::from_unicode([u32::from('('), 0x1F600, u32::from(')')].into_iter(), "u").unwrap();
    assert_eq!(re.find("a😀").unwrap().group(1), Some(1..5));
    let lone = Regex::from_unicode([0xD800].into_iter(), "").unwrap();
    assert_eq!(
        ranges(lone.find_from_ucs2(&[0x61, 0xD800, 0xDC00], 0)),
        [1..2]
    );
    assert_eq!(
        Regex::from_unicode([0x11_0000].into_iter(), "")
            .unwrap_err()
            .cause(),
        Cause::Syntax
    );
    let error =
        Regex::from_unicode([0x1F600, u32::from('*'), u32::from('+')].into_iter(), "").unwrap_err();
    assert_eq!(error.to_string(), "nothing to repeat at 2");
    assert_eq!(error.below("😀*+"), "😀*+\n  ^ nothing to repeat");
    let halves = [0xD83D, 0xDE00, 0x29];
    let error = Regex::from_unicode(halves.into_iter(), "u").unwrap_err();
    assert_eq!(error.to_string(), "unopened group at 2");
    assert_eq!(error.below("😀)"), "😀)\n ^ unopened group");
}

#[test]
fn errors_say_where() {
    let error = Regex::new("é(a").unwrap_err();
    assert_eq!(error.to_string(), "unclosed group at 2");
    assert_eq!(
        (error.text.as_str(), error.reason()),
        ("unclosed group at 2", "unclosed group")
    );
    assert_eq!((error.cause(), error.position()), (Cause::Syntax, Some(2)));
    assert_eq!(error.below("é(a"), "é(a\n ^ unclosed group");
    let lines = "a\tb\nc\t(d\ne";
    assert_eq!(
        Regex::new(lines).unwrap_err().below(lines),
        "c (d\n  ^ unclosed group"
    );
    let boxed: Box<dyn error::Error + Send + Sync> = Box::new(error);
    assert!(boxed.source().is_none());
    let parsed: Result<Regex, Error> = "a)".parse();
    assert_eq!(parsed.unwrap_err().text, "unopened group at 1");
    let groups = Regex::new(&"()".repeat(65_536)).unwrap_err();
    assert_eq!(
        (groups.cause(), groups.to_string().as_str()),
        (Cause::TooManyGroups, "too many groups (at most 65535)")
    );
    assert_eq!(
        (groups.position(), groups.below("()").as_str()),
        (None, "too many groups (at most 65535)")
    );
    let loops = Regex::new(&"(?:a)*".repeat(65_537)).unwrap_err();
    assert_eq!(loops.cause(), Cause::TooManyLoops);
    assert_eq!(SearchError::StepLimit.to_string(), "the step limit is reached");
}

#[test]
fn patterns_are_bounded() {
    let bounds = Bounds {
        length: 5,
        nesting: 1,
    };
    assert!(Regex::with_bounds("(é)bc", "", bounds).is_ok());
    assert_eq!(
        Regex::with_bounds("(a)bcd", "", bounds)
            .unwrap_err()
            .cause(),
        Cause::TooLong
    );
    assert_eq!(
        Regex::with_bounds("((a))", "", bounds).unwrap_err().cause(),
        Cause::TooDeep
    );
    assert!(Regex::with_bounds("((a))", "", Bounds::NONE).is_ok());
}

#[test]
fn flags_are_letters() {
    let flags = Flags::from("smig");
    assert_eq!(flags.to_string(), "mis");
    assert_eq!(
        Flags::new("uv".chars().map(u32::from)),
        Flags::from(String::from("vu"))
    );
    let re = Regex::with_flags(
        "^B.",
        Flags {
            icase: true,
            multiline: true,
            dot_all: true,
            ..Flags::default()
        },
    )
    .unwrap();
    assert_eq!(re.find("a\nb\n").unwrap().range(), 2..4);
    assert_eq!(format!("{re:?}"), "Regex(/^B./mis)");
}

#[test]
fn steps_are_limited() {
    let light = Regex::new("[b]c").unwrap();
    let mut within = light.find_from_limited("aabbc", 0, 5);
    assert_eq!(within.next().unwrap().unwrap().range(), 3..5);
    assert_eq!(within.steps_left(), Some(0));
    assert_eq!(within.next(), None);
    let mut short = light.find_from_limited("aabbc", 0, 4);
    assert_eq!(short.next(), Some(Err(SearchError::StepLimit)));
    assert_eq!(short.next(), None);
    let heavy = Regex::new("(?:a|a)*b").unwrap();
    let text = "a".repeat(40) + "c";
    assert_eq!(
        heavy.find_from_limited(&text, 0, 100_000).next(),
        Some(Err(SearchError::StepLimit))
    );
    assert_eq!(light.try_find_from("aabbc", 0).steps_left(), None);
    // The steps of two matches do not depend on the number of matches after them.
    let left_after_two = |text: &str| {
        let mut within = light.find_from_limited(text, 0, 1000);
        assert!(within.by_ref().take(2).all(|item| item.is_ok()));
        within.steps_left()
    };
    assert_eq!(left_after_two("aabbcaabbc"), Some(990));
    assert_eq!(left_after_two(&"aabbc".repeat(50)), Some(990));
}

#[test]
fn work_is_limited_for_each_pattern() {
    let twice = Regex::new(r"([ab])\1").unwrap();
    let text = "aabbc";
    let mut ample = twice.find_from_in_work(text, 0, 1000);
    assert_eq!(ample.steps_left(), None);
    let taken_until = [0..2, 2..4].map(|range| {
        assert_eq!(ample.next().unwrap().unwrap().range(), range);
        1000 - ample.work_left().unwrap()
    });
    assert_eq!(ample.next(), None);
    let taken = 1000 - ample.work_left().unwrap();
    assert!(0 < taken_until[0] && taken_until[0] < taken_until[1] && taken_until[1] <= taken);
    // Exactly as much work is enough for the first match, and not for the second.
    let mut exact = twice.find_from_in_work(text, 0, taken_until[0]);
    assert_eq!(exact.next().unwrap().unwrap().range(), 0..2);
    assert_eq!(exact.work_left(), Some(0));
    assert_eq!(exact.next(), Some(Err(SearchError::WorkLimit)));
    assert_eq!((exact.next(), exact.work_left()), (None, Some(0)));
    let mut short = twice.find_from_in_work(text, 0, taken_until[0] - 1);
    assert_eq!(short.next(), Some(Err(SearchError::WorkLimit)));
    assert_eq!(short.next(), None);
    // A start past the end takes no work.
    let mut past = twice.find_from_in_work(text, 6, 0);
    assert_eq!((past.next(), past.work_left()), (None, Some(0)));
    let heavy = Regex::new("(?:a|a)*b").unwrap();
    let text = "a".repeat(40) + "c";
    assert_eq!(
        heavy.find_from_in_work(&text, 0, 100_000).next(),
        Some(Err(SearchError::WorkLimit))
    );
    assert_eq!(heavy.try_find_from("b", 0).work_left(), None);
}

#[test]
fn texts_are_replaced() {
    let re = Regex::new(r"(?<d>\d+)").unwrap();
    assert_eq!(re.replace("a1b22", "<$1>"), "a<1>b22");
    assert_eq!(re.replace_all("a1b22", "${d}$$"), "a1$b22$");
    assert_eq!(
        re.replace_all("é1", &"$0é".repeat(100)),
        format!("é{}", "1é".repeat(100))
    );
    assert_eq!(re.replace("", ""), "");
    let text = "Price: 123, 7";
    let double = |m: &Match| (2 * m.as_str(text).parse::<u32>().unwrap()).to_string();
    assert_eq!(re.replace_with(text, double), "Price: 246, 7");
    assert_eq!(re.replace_all_with(text, double), "Price: 246, 14");
    let owned = String::from("x");
    assert_eq!(re.replace_with("1 2", |_| owned), "x 2");
    let mut count = 0;
    let numbered = |_: &Match| {
        count += 1;
        count.to_string()
    };
    assert_eq!(re.replace_all_with("9 9 9", numbered), "1 2 3");
    assert_eq!(escape("a.b*c[é]"), r"a\.b\*c\[é\]");
    assert_eq!(escape(""), "");
}

#[test]
fn a_start_that_cuts_a_character_panics() {
    let re = Regex::new("a").unwrap();
    assert!(std::panic::catch_unwind(|| re.find_from("é", 1).count()).is_err());
    assert!(std::panic::catch_unwind(|| re.find_from_utf16(&utf16("😀"), 1).count()).is_err());
    assert_eq!(re.find("a").unwrap().range(), 0..1);
}

#[test]
fn threads_share_a_pattern() {
    let re = Regex::new(r"(?<word>\w+) (\d+)").unwrap();
    let text = "one 1, two 22, three 333; ".repeat(200);
    let wanted: Vec<Match> = re.find_iter(&text).collect();
    thread::scope(|scope| {
        for _ in 0..4 {
            scope.spawn(|| {
                for _ in 0..5 {
                    assert!(re.find_iter(&text).eq(wanted.iter().cloned()));
                }
            });
        }
    });
    let (copy, ours) = (re.clone(), text.clone());
    let elsewhere = thread::spawn(move || copy.find_iter(&ours).count());
    assert_eq!(elsewhere.join().unwrap(), wanted.len());
}

#[test]
fn searches_go_on_within_one_another() {
    let re = Regex::new("a").unwrap();
    let mut pairs = 0;
    for _ in re.find_iter("aaa") {
        pairs += re.find_iter("aa").count();
    }
    assert_eq!(pairs, 6);
}

#[test]
fn the_library_has_the_version_of_the_crate() {
    let [major, minor, patch] = ["MAJOR", "MINOR", "PATCH"].map(|part| match part {
        "MAJOR" => env!("CARGO_PKG_VERSION_MAJOR").parse::<u32>().unwrap(),
        "MINOR" => env!("CARGO_PKG_VERSION_MINOR").parse().unwrap(),
        _ => env!("CARGO_PKG_VERSION_PATCH").parse().unwrap(),
    });
    assert_eq!(library_version(), 10_000 * major + 100 * minor + patch);
}
