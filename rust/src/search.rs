//! Iterators over the matches in a text.

use crate::error::SearchError;
use crate::found::Match;
use crate::raw::{code, Limit, Reply, Search, Span, Text, UNMATCHED};
use crate::regex::Regex;
use std::fmt;
use std::iter::FusedIterator;
use std::ops::Range;

// The maximum number of matches that one call of the library is asked for.
const MOST_AT_ONCE: usize = 32;

/// An iterator over the matches in a text. If the search fails, the error is its last item.
///
/// Without a limit the library finds up to 32 matches a call, so the search may be ahead of the items that were yielded.
pub struct TryMatches<'r, 't> {
    re: &'r Regex,
    search: Search<'t>,
    limit: Limit,
    // the ranges of the matches that the last call found, and how many of these were yielded
    spans: Vec<Span>,
    found: usize,
    yielded: usize,
    // how many matches the next call asks for: one at first, since a caller of `find` needs no more
    at_once: usize,
    code: u32,
}

impl<'r, 't> TryMatches<'r, 't> {
    /// # Panics
    ///
    /// If the start splits a character.
    pub(crate) fn new(re: &'r Regex, text: Text<'t>, start: usize, limit: Limit) -> Self {
        let Ok(search) = Search::open(text, start) else {
            splits_character(start);
        };
        TryMatches {
            re,
            search,
            limit,
            spans: Vec::new(),
            found: 0,
            yielded: 0,
            at_once: 1,
            code: code::DONE,
        }
    }

    /// Returns how many steps are left, or `None` if they are not limited.
    ///
    /// With a limit, each call of `next` searches for one match and no further. The number is therefore the limit minus the steps of
    /// the items that were yielded. After a `StepLimit` it is 0.
    pub fn steps_left(&self) -> Option<u64> {
        match self.limit {
            Limit::Steps(left) => Some(left),
            _ => None,
        }
    }

    /// Returns how much work is left, or `None` if it is not limited.
    ///
    /// With a limit, each call of `next` searches for one match and no further. The number is therefore the limit minus the work of
    /// the items that were yielded. After a `WorkLimit` it is 0.
    pub fn work_left(&self) -> Option<u64> {
        match self.limit {
            Limit::Work(left) => Some(left),
            _ => None,
        }
    }

    fn fill(&mut self) {
        let (code, found) = match self.next_reply() {
            Ok(reply) => (reply.code, reply.count),
            Err(_) => (code::MEMORY, 0),
        };
        (self.code, self.found, self.yielded) = (code, found, 0);
        // With a limit, one match is searched for at a time, so that nothing is spent on matches that nobody asked for.
        if let Limit::Nothing = self.limit {
            self.at_once = MOST_AT_ONCE.min(2 * self.at_once);
        }
    }

    fn next_reply(&mut self) -> Result<Reply, SearchError> {
        make_room(&mut self.spans, self.at_once * self.re.ranges())?;
        let (search, limit, spans) = (&mut self.search, &mut self.limit, &mut self.spans);
        self.re.with(|handle| search.next(handle, limit, spans))
    }

    // Drops the matches that were not yielded, and ends the iteration.
    fn stop(&mut self) {
        self.yielded = self.found;
        self.code = code::NO_MATCH;
    }
}

/// Lengthens a buffer to `length` ranges. A longer one stays as it is.
///
/// # Errors
///
/// `Memory` if the allocation fails. The buffer stays as it is.
pub(crate) fn make_room(spans: &mut Vec<Span>, length: usize) -> Result<(), SearchError> {
    let more = length.saturating_sub(spans.len());
    reserve(spans, more)?;
    spans.resize(spans.len() + more, Span::default());
    Ok(())
}

fn reserve<T>(values: &mut Vec<T>, more: usize) -> Result<(), SearchError> {
    values
        .try_reserve_exact(more)
        .map_err(|_| SearchError::Memory)
}

/// Returns the match with these ranges: that of the whole match, and that of each group.
///
/// # Errors
///
/// `Memory` if the allocation for the groups fails.
pub(crate) fn match_of(re: &Regex, spans: &[Span]) -> Result<Match, SearchError> {
    let (whole, groups) = spans.split_first().expect("a match has a range");
    let mut captures = Vec::new();
    // Without this condition a match without groups takes a third more instructions here.
    if !groups.is_empty() {
        reserve(&mut captures, groups.len())?;
        captures.extend(groups.iter().map(range_of));
    }
    Ok(Match {
        range: whole.start..whole.end,
        captures,
        names: re.names().clone(),
    })
}

fn range_of(span: &Span) -> Option<Range<usize>> {
    (span.start != UNMATCHED).then_some(span.start..span.end)
}

/// Returns the match with this index among several, whose ranges follow one another in `spans`.
pub(crate) fn match_at_index(
    re: &Regex,
    spans: &[Span],
    index: usize,
) -> Result<Match, SearchError> {
    let ranges = re.ranges();
    match_of(re, &spans[index * ranges..(index + 1) * ranges])
}

impl Iterator for TryMatches<'_, '_> {
    type Item = Result<Match, SearchError>;

    fn next(&mut self) -> Option<Self::Item> {
        if self.yielded == self.found && self.code == code::DONE {
            self.fill();
        }
        if self.yielded < self.found {
            self.yielded += 1;
            let found = match_at_index(self.re, &self.spans, self.yielded - 1);
            if found.is_err() {
                self.stop();
            }
            return Some(found);
        }
        let told = match self.code {
            code::MEMORY => Some(Err(SearchError::Memory)),
            code::STEP_LIMIT => Some(Err(SearchError::StepLimit)),
            code::WORK_LIMIT => Some(Err(SearchError::WorkLimit)),
            _ => None,
        };
        self.stop();
        told
    }
}

impl FusedIterator for TryMatches<'_, '_> {}

impl fmt::Debug for TryMatches<'_, '_> {
    fn fmt(&self, f: &mut fmt::Formatter<'_>) -> fmt::Result {
        f.debug_struct("TryMatches")
            .field("re", self.re)
            .field("limit", &self.limit)
            .finish_non_exhaustive()
    }
}

/// An iterator over the matches in a text.
#[derive(Debug)]
pub struct Matches<'r, 't> {
    matches: TryMatches<'r, 't>,
}

/// An iterator over the matches in an ASCII text.
pub type AsciiMatches<'r, 't> = Matches<'r, 't>;

impl<'r, 't> Matches<'r, 't> {
    pub(crate) fn of(matches: TryMatches<'r, 't>) -> Self {
        Matches { matches }
    }
}

impl Iterator for Matches<'_, '_> {
    type Item = Match;

    fn next(&mut self) -> Option<Match> {
        match self.matches.next()? {
            Ok(found) => Some(found),
            Err(_) => out_of_memory(),
        }
    }
}

impl FusedIterator for Matches<'_, '_> {}

#[cold]
pub(crate) fn out_of_memory() -> ! {
    panic!("regress_match: out of memory");
}

#[cold]
pub(crate) fn splits_character(start: usize) -> ! {
    panic!("regress_match: the offset {start} splits a character");
}
