//! Searches with many matches. The library is asked for 1, 2, 4, 8, 16 and then for 32 matches a call, so calls end behind the
//! matches 1, 3, 7, 15, 31, 63, 95 and so on. With a step limit each call asks for one.

use regress_match::{Match, Regex, SearchError};

const COUNTS: [usize; 18] = [
    0, 1, 2, 3, 4, 7, 8, 15, 16, 31, 32, 33, 62, 63, 64, 65, 95, 96,
];

/// Returns the matches that a search yields. It must not fail.
fn all(found: impl Iterator<Item = Result<Match, SearchError>>) -> Vec<Match> {
    found.map(|item| item.unwrap()).collect()
}

/// Asserts that these are the matches of `(a)|(?<b>b)(c)?` in `éa` and `ébc` in turn, after an `é` of `width` units.
fn assert_matches(found: &[Match], count: usize, width: usize) {
    assert_eq!(found.len(), count);
    let mut at = 0;
    for (number, m) in found.iter().enumerate() {
        at += width;
        let groups = if number % 2 == 0 {
            assert_eq!(m.range(), at..at + 1);
            [Some(at..at + 1), None, None]
        } else {
            assert_eq!(m.range(), at..at + 2);
            [None, Some(at..at + 1), Some(at + 1..at + 2)]
        };
        assert_eq!(m.captures, groups);
        assert_eq!(m.named_group("b"), groups[1]);
        at = m.end();
    }
}

#[test]
fn all_matches_have_their_groups() {
    let re = Regex::new("(a)|(?<b>b)(c)?").unwrap();
    for count in COUNTS {
        let text: String = (0..count).map(|n| ["éa", "ébc"][n % 2]).collect();
        let units: Vec<u16> = text.encode_utf16().collect();
        assert_matches(&re.find_iter(&text).collect::<Vec<_>>(), count, 2);
        assert_matches(&all(re.try_find_from(&text, 0)), count, 2);
        assert_matches(&all(re.find_from_limited(&text, 0, u64::MAX)), count, 2);
        assert_matches(&all(re.bounded().unwrap().find_iter(&text)), count, 2);
        assert_matches(&re.find_from_utf16(&units, 0).collect::<Vec<_>>(), count, 1);
        assert_matches(&re.find_from_ucs2(&units, 0).collect::<Vec<_>>(), count, 1);
        let in_braces = re.replace_all_with(&text, |m| format!("<{}>", m.as_str(&text)));
        assert_eq!(in_braces, re.replace_all(&text, "<$0>"));
        assert_eq!(in_braces.matches('<').count(), count);
    }
}

#[test]
fn empty_matches_are_between_all_characters() {
    let re = Regex::with_flags("x*", "u").unwrap();
    for count in COUNTS {
        let starts = |width: usize| (0..=count).map(move |n| n * width);
        let text = "é".repeat(count);
        assert!(re.find_iter(&text).map(|m| m.start()).eq(starts(2)));
        assert!(re.find_iter(&text).all(|m| m.range().is_empty()));
        let units: Vec<u16> = "😀".repeat(count).encode_utf16().collect();
        assert!(re
            .find_from_utf16(&units, 0)
            .map(|m| m.start())
            .eq(starts(2)));
    }
}

#[test]
fn searches_may_be_dropped_early() {
    let re = Regex::new("(a)").unwrap();
    let text = "a".repeat(100);
    for taken in 0..=100 {
        assert_eq!(re.find_iter(&text).take(taken).count(), taken);
        let mut found = re.find_iter(&text);
        assert_eq!(
            found.by_ref().take(taken).last().map_or(0, |m| m.end()),
            taken
        );
        let (from, other) = (100 - taken, re.find_from(&text, taken));
        assert_eq!(found.count(), from);
        assert_eq!(other.count(), from);
    }
}

#[test]
fn the_error_of_a_limit_comes_after_the_matches() {
    let re = Regex::new("[b]c").unwrap();
    let text = "aabbc".repeat(65);
    for count in COUNTS.into_iter().filter(|count| *count < 65) {
        for more in 0..5 {
            let mut within = re.find_from_limited(&text, 0, 5 * count as u64 + more);
            for number in 0..count {
                let end = within.next().unwrap().unwrap().end();
                assert_eq!(end, 5 * (number + 1));
                assert_eq!(
                    within.steps_left(),
                    Some(5 * (count - number - 1) as u64 + more)
                );
            }
            assert_eq!(within.next(), Some(Err(SearchError::StepLimit)));
            assert_eq!((within.next(), within.steps_left()), (None, Some(0)));
        }
    }
    assert_eq!(all(re.find_from_limited(&text, 0, 5 * 65)).len(), 65);
}
