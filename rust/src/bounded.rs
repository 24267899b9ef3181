//! Searches with a work limit.

use crate::error::{SearchError, Unbounded};
use crate::found::Match;
use crate::raw::{code, Span};
use crate::regex::Regex;
use crate::search::{make_room, match_at_index, splits_character};
use std::fmt;
use std::iter::FusedIterator;

// The number of matches that the first search has room for, and the factor by which the room grows.
const FIRST_ROOM: usize = 32;
const GROWTH: usize = 8;

/// A pattern with a known work bound: one search for all matches in a text of n bytes takes at most `work_per_unit` × (n + 1) work.
///
/// A unit of work is one step of a thread, one backtrack to a pending thread, one thread that is dropped because it is known to fail,
/// one character that a loop examines, or one record of a failure that is reached. On most texts these searches take longer than
/// those of `Regex`, but no text makes them take exponential time.
#[derive(Clone, Debug)]
pub struct BoundedRegex<'r> {
    re: &'r Regex,
    per_unit: u64,
}

impl<'r> BoundedRegex<'r> {
    pub(crate) fn new(re: &'r Regex, per_unit: u64) -> Self {
        BoundedRegex { re, per_unit }
    }

    /// Returns the work bound: in a text of n bytes, `work_per_unit` × (n + 1) work is enough for all matches.
    pub fn work_per_unit(&self) -> u64 {
        self.per_unit
    }

    /// Returns an iterator over the matches in `text` from byte offset `start` on. Each search that it makes (see below) takes at most
    /// `work` work for all matches together.
    ///
    /// The items are the list of matches, or a beginning of it followed by an error. The error is `WorkLimit` if more work is needed.
    /// It never occurs if `work` is at least `work_per_unit` × (n + 1) for a text of n bytes (tested, not proved).
    ///
    /// This call searches the whole text; the iterator only reads the result. The first search has room for 32 matches. If there are
    /// more, the text is searched again with room for eight times as many, and so on. Each of these searches has the full limit.
    ///
    /// ```
    /// let re = regress_match::Regex::new("(?:a|a)*b").unwrap();
    /// let bounded = re.bounded().unwrap();
    /// let text = "a".repeat(1000);
    /// let enough = bounded.work_per_unit() * (text.len() as u64 + 1);
    /// assert_eq!(bounded.find_from(&text, 0, enough).count(), 0);
    /// ```
    ///
    /// # Panics
    ///
    /// If the start is within the text and splits a character.
    pub fn find_from(&self, text: &str, start: usize, work: u64) -> MatchesInWork<'r> {
        // Each match begins at another offset.
        let most = text.len().saturating_sub(start) + 1;
        let mut room = FIRST_ROOM;
        loop {
            room = room.min(most);
            let matches = self.find_as_many(text, start, work, room);
            if matches.code != code::DONE || room == most {
                return matches;
            }
            room *= GROWTH;
        }
    }

    /// Returns an iterator over all matches in `text`, with as much work as the bound says. It never yields a `WorkLimit` (tested).
    pub fn find_iter(&self, text: &str) -> MatchesInWork<'r> {
        let units = (text.len() as u64).saturating_add(1);
        self.find_from(text, 0, self.per_unit.saturating_mul(units))
    }

    fn find_as_many(&self, text: &str, start: usize, work: u64, room: usize) -> MatchesInWork<'r> {
        let mut matches = MatchesInWork {
            re: self.re,
            spans: Vec::new(),
            found: 0,
            yielded: 0,
            work_left: work,
            code: code::DONE,
        };
        let (spans, left) = (&mut matches.spans, &mut matches.work_left);
        let reply = make_room(spans, room * self.re.ranges()).and_then(|()| {
            self.re
                .with(|handle| handle.find_all_in_work(text, start, left, spans))
        });
        match reply {
            Err(_) => matches.code = code::MEMORY,
            Ok(reply) => (matches.code, matches.found) = (reply.code, reply.count),
        }
        match matches.code {
            code::NOT_BOUNDARY => splits_character(start),
            code if Unbounded::of(code).is_some() => {
                unreachable!("the bound of this pattern is known")
            }
            _ => matches,
        }
    }
}

/// An iterator over the matches in a text that were found with a work limit. If the search fails, the error is its last item.
pub struct MatchesInWork<'r> {
    re: &'r Regex,
    spans: Vec<Span>,
    found: usize,
    yielded: usize,
    work_left: u64,
    code: u32,
}

impl MatchesInWork<'_> {
    /// Returns how much work was left after the last search (see `find_from`).
    pub fn work_left(&self) -> u64 {
        self.work_left
    }

    // Drops the matches that were not yielded, and ends the iteration.
    fn stop(&mut self) {
        self.yielded = self.found;
        self.code = code::NO_MATCH;
    }
}

impl Iterator for MatchesInWork<'_> {
    type Item = Result<Match, SearchError>;

    fn next(&mut self) -> Option<Self::Item> {
        if self.yielded < self.found {
            self.yielded += 1;
            let found = match_at_index(self.re, &self.spans, self.yielded - 1);
            if found.is_err() {
                self.stop();
            }
            return Some(found);
        }
        let told = match self.code {
            code::MEMORY => Some(Err(SearchError::Memory)),
            code::WORK_LIMIT => Some(Err(SearchError::WorkLimit)),
            _ => None,
        };
        self.stop();
        told
    }
}

impl FusedIterator for MatchesInWork<'_> {}

impl fmt::Debug for MatchesInWork<'_> {
    fn fmt(&self, f: &mut fmt::Formatter<'_>) -> fmt::Result {
        f.debug_struct("MatchesInWork")
            .field("re", self.re)
            .field("work_left", &self.work_left)
            .finish_non_exhaustive()
    }
}
