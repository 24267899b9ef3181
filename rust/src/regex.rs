//! Compiled patterns.

use crate::bounded::BoundedRegex;
use crate::error::{Cause, Error, Place, SearchError, Unbounded};
use crate::flags::Flags;
use crate::found::{Match, Names};
use crate::raw::{self, code, Handle, Limit, RawBounds, Reading, Reply, Text};
use crate::search::{make_room, match_of, out_of_memory, splits_character};
use crate::search::{AsciiMatches, Matches, TryMatches};
use std::fmt;
use std::str::FromStr;
use std::sync::{Arc, Mutex, MutexGuard, PoisonError, TryLockError};

/// The language of a pattern.
#[derive(Clone, Copy, Debug, Default, PartialEq, Eq, Hash)]
pub enum Syntax {
    /// The profile of ECMAScript 2018 that `docs/PROFILE.md` describes. With `i`, only ASCII letters fold.
    Profile,
    /// The whole language of ECMAScript 2018, with annex B. With `i`, letters beyond ASCII fold too.
    #[default]
    EcmaScript2018,
}

impl Syntax {
    fn reading(self, flags: &str) -> Reading<'_> {
        let syntax = match self {
            Syntax::Profile => raw::syntax::PROFILE,
            Syntax::EcmaScript2018 => raw::syntax::ES2018,
        };
        Reading { flags, syntax }
    }
}

/// The maximum size of a pattern.
#[derive(Clone, Copy, Debug, PartialEq, Eq)]
pub struct Bounds {
    /// The maximum length in code points.
    pub length: usize,
    /// The maximum number of parentheses that are open at once, outside of classes.
    pub nesting: usize,
}

impl Bounds {
    /// No bounds.
    pub const NONE: Bounds = Bounds {
        length: usize::MAX,
        nesting: usize::MAX,
    };

    fn raw(self) -> RawBounds {
        RawBounds {
            length: self.length,
            nesting: self.nesting,
        }
    }
}

// Only one call at a time may use a handle. One thread at a time uses `first`; threads that search at the same time use clones
// of it, which are kept.
struct Handles {
    first: Mutex<Handle>,
    more: Mutex<Vec<Handle>>,
}

// No code that could panic runs while a lock is held, so a poisoned lock still guards a valid value.
fn locked<T>(lock: &Mutex<T>) -> MutexGuard<'_, T> {
    lock.lock().unwrap_or_else(PoisonError::into_inner)
}

/// A compiled pattern. A clone shares the compiled pattern with its original.
#[derive(Clone)]
pub struct Regex {
    handles: Arc<Handles>,
    names: Names,
    ranges: usize,
    pattern: Arc<str>,
    flags: Flags,
}

impl Regex {
    /// Compiles a pattern without flags.
    ///
    /// # Errors
    ///
    /// `Syntax` if the pattern has a syntax error, `TooManyGroups`, `TooManyLoops` or `TooManyInstructions` if it is too large, and
    /// `Memory` if an allocation of the C library fails. If one of this crate fails, which copies the pattern and its names, the process
    /// ends.
    pub fn new(pattern: &str) -> Result<Regex, Error> {
        Regex::with_flags(pattern, Flags::default())
    }

    /// Compiles a pattern with flags, for example `"im"`.
    ///
    /// # Errors
    ///
    /// Those of `new`.
    pub fn with_flags<F: Into<Flags>>(pattern: &str, flags: F) -> Result<Regex, Error> {
        Regex::with_bounds(pattern, flags, Bounds::NONE)
    }

    /// Compiles a pattern if it is within bounds. Compiling takes stack in proportion to the nesting, so patterns of users should have
    /// bounds.
    ///
    /// # Errors
    ///
    /// Those of `new`, and `TooLong` or `TooDeep` if the pattern exceeds a bound.
    pub fn with_bounds<F: Into<Flags>>(
        pattern: &str,
        flags: F,
        bounds: Bounds,
    ) -> Result<Regex, Error> {
        Regex::with_syntax(pattern, flags, Syntax::default(), bounds)
    }

    /// Compiles a pattern of a language if it is within bounds. The other functions compile patterns of
    /// [`Syntax::EcmaScript2018`].
    ///
    /// ```
    /// use regress_match::{Bounds, Regex, Syntax};
    ///
    /// let pattern = r"\101";
    /// assert!(Regex::new(pattern).unwrap().find("A").is_some());
    /// assert!(Regex::with_syntax(pattern, "", Syntax::Profile, Bounds::NONE).is_err());
    /// ```
    ///
    /// # Errors
    ///
    /// Those of `with_bounds`.
    pub fn with_syntax<F: Into<Flags>>(
        pattern: &str,
        flags: F,
        syntax: Syntax,
        bounds: Bounds,
    ) -> Result<Regex, Error> {
        let flags = flags.into();
        let letters = flags.to_string();
        let reading = syntax.reading(&letters);
        match Handle::from_utf8(pattern, &reading, bounds.raw()) {
            Ok(handle) => Ok(Regex::of(handle, Arc::from(pattern), flags)),
            Err(code) => Err(refusal(
                code,
                |at, cause| raw::diagnose_utf8(pattern, &reading, at, cause),
                |at| Place {
                    position: at,
                    characters: pattern
                        .char_indices()
                        .take_while(|(start, _)| *start < at)
                        .count(),
                },
            )),
        }
    }

    /// Compiles a pattern that is given by its code points. A high surrogate followed by a low surrogate is one character.
    ///
    /// # Errors
    ///
    /// Those of `new`.
    pub fn from_unicode<I, F>(pattern: I, flags: F) -> Result<Regex, Error>
    where
        I: Iterator<Item = u32>,
        F: Into<Flags>,
    {
        Regex::from_unicode_with_syntax(pattern, flags, Syntax::default())
    }

    /// Compiles a pattern of a language that is given by its code points, like `from_unicode`.
    ///
    /// # Errors
    ///
    /// Those of `new`.
    pub fn from_unicode_with_syntax<I, F>(
        pattern: I,
        flags: F,
        syntax: Syntax,
    ) -> Result<Regex, Error>
    where
        I: Iterator<Item = u32>,
        F: Into<Flags>,
    {
        let flags = flags.into();
        let letters = flags.to_string();
        let reading = syntax.reading(&letters);
        let (units, lengths) = units_of(pattern)?;
        match Handle::from_utf16(&units, &reading, Bounds::NONE.raw()) {
            Ok(handle) => {
                let text = String::from_utf16_lossy(&units);
                Ok(Regex::of(handle, Arc::from(text.as_str()), flags))
            }
            Err(code) => Err(refusal(
                code,
                |at, cause| raw::diagnose_utf16(&units, &reading, at, cause),
                |at| place_in_units(&units, &lengths, at),
            )),
        }
    }

    fn of(mut handle: Handle, pattern: Arc<str>, flags: Flags) -> Regex {
        let ranges = handle.range_count();
        let names: Arc<[Box<str>]> = (1..ranges)
            .map(|number| name_of(&mut handle, number))
            .collect();
        let named = names.iter().any(|name| !name.is_empty());
        Regex {
            handles: Arc::new(Handles {
                first: Mutex::new(handle),
                more: Mutex::new(Vec::new()),
            }),
            names: named.then_some(names),
            ranges,
            pattern,
            flags,
        }
    }

    /// Calls `call` with a handle that no other call uses.
    ///
    /// # Errors
    ///
    /// `Memory` if all handles are in use and one more cannot be allocated.
    pub(crate) fn with<T>(&self, call: impl FnOnce(&mut Handle) -> T) -> Result<T, SearchError> {
        match self.handles.first.try_lock() {
            Ok(mut handle) => return Ok(call(&mut handle)),
            Err(TryLockError::Poisoned(lock)) => return Ok(call(&mut lock.into_inner())),
            Err(TryLockError::WouldBlock) => {}
        }
        let kept = locked(&self.handles.more).pop();
        let mut handle = match kept {
            Some(handle) => handle,
            None => locked(&self.handles.first)
                .again()
                .map_err(|_| SearchError::Memory)?,
        };
        let answer = call(&mut handle);
        let mut more = locked(&self.handles.more);
        // A handle is freed if there is no memory to keep it.
        if more.try_reserve(1).is_ok() {
            more.push(handle);
        }
        Ok(answer)
    }

    /// Returns the number of ranges of a match: one for the whole match, and one for each group.
    pub(crate) fn ranges(&self) -> usize {
        self.ranges
    }

    pub(crate) fn names(&self) -> &Names {
        &self.names
    }

    /// Returns the number of groups, without the whole match.
    pub fn group_count(&self) -> usize {
        self.ranges - 1
    }

    /// Returns an iterator over the names of the groups, from number 1 on. An unnamed group yields `None`.
    pub fn group_names(&self) -> impl ExactSizeIterator<Item = Option<&str>> {
        let names = self.names.as_deref().unwrap_or_default();
        (0..self.group_count()).map(|id| {
            let name = &**names.get(id)?;
            Some(name).filter(|name| !name.is_empty())
        })
    }

    /// Returns the first match in `text`.
    ///
    /// # Panics
    ///
    /// If an allocation fails, as in all searches that have neither `try_` in their names nor a limit.
    pub fn find(&self, text: &str) -> Option<Match> {
        self.find_iter(text).next()
    }

    /// Returns an iterator over the matches in `text`.
    pub fn find_iter<'r, 't>(&'r self, text: &'t str) -> Matches<'r, 't> {
        self.find_from(text, 0)
    }

    /// Returns an iterator over the matches in `text` from byte offset `start` on. Lookbehinds and `\b` see the text before the start.
    /// There are no matches if the start is past the end.
    ///
    /// # Panics
    ///
    /// If the start is within the text and splits a character.
    pub fn find_from<'r, 't>(&'r self, text: &'t str, start: usize) -> Matches<'r, 't> {
        Matches::of(self.try_find_from(text, start))
    }

    /// Returns the first match in an ASCII text, like `find`.
    pub fn find_ascii(&self, text: &str) -> Option<Match> {
        self.find(text)
    }

    /// Returns an iterator over the matches in an ASCII text, like `find_iter`.
    pub fn find_iter_ascii<'r, 't>(&'r self, text: &'t str) -> AsciiMatches<'r, 't> {
        self.find_iter(text)
    }

    /// Returns an iterator over the matches in an ASCII text from an offset on, like `find_from`.
    pub fn find_from_ascii<'r, 't>(&'r self, text: &'t str, start: usize) -> AsciiMatches<'r, 't> {
        self.find_from(text, start)
    }

    /// Returns an iterator over the matches in a UTF-16 text from an offset in code units on. An unpaired surrogate is a character.
    ///
    /// # Panics
    ///
    /// If the start is within the text and splits a pair of surrogates.
    pub fn find_from_utf16<'r, 't>(&'r self, text: &'t [u16], start: usize) -> Matches<'r, 't> {
        Matches::of(self.try_find_from_utf16(text, start))
    }

    /// Returns an iterator over the matches in a UCS-2 text from an offset in code units on. Each code unit is a character.
    pub fn find_from_ucs2<'r, 't>(&'r self, text: &'t [u16], start: usize) -> Matches<'r, 't> {
        Matches::of(self.try_find_from_ucs2(text, start))
    }

    /// Like `find_from`, but yields an error as the last item if an allocation fails.
    ///
    /// # Panics
    ///
    /// If the start splits a character.
    pub fn try_find_from<'r, 't>(&'r self, text: &'t str, start: usize) -> TryMatches<'r, 't> {
        TryMatches::new(self, Text::Utf8(text), start, Limit::Nothing)
    }

    /// Like `try_find_from`, with at most `steps` steps for all items together. If more steps are needed, the last item is `StepLimit`.
    /// The number of steps depends on the pattern and the text only, not on time.
    ///
    /// # Panics
    ///
    /// If the start splits a character.
    pub fn find_from_limited<'r, 't>(
        &'r self,
        text: &'t str,
        start: usize,
        steps: u64,
    ) -> TryMatches<'r, 't> {
        TryMatches::new(self, Text::Utf8(text), start, Limit::Steps(steps))
    }

    /// Like `try_find_from`, with at most `work` units of work for all items together. If more work is needed, the last item is
    /// `WorkLimit`.
    ///
    /// A unit of work is one executed operation, one character that a loop over characters tries, one code unit that a backreference
    /// compares or a search skips, or one resumed choice point. The work that a search took suffices to search again (tested, not
    /// proved). Any pattern may be searched for, but no number suffices for every text, since a search may take exponential work; see
    /// `bounded` for one that does.
    ///
    /// ```
    /// use regress_match::{Regex, SearchError};
    ///
    /// let re = Regex::new(r"(a+)+\1b").unwrap();
    /// let mut matches = re.find_from_in_work("aab, aaaaaaaaaaaaaaaaaaaaaaaaaaaaaaaaaaaaaaaa", 0, 10_000);
    /// assert_eq!(matches.next().unwrap().unwrap().range(), 0..3);
    /// assert_eq!(matches.next(), Some(Err(SearchError::WorkLimit)));
    /// assert_eq!(matches.work_left(), Some(0));
    /// ```
    ///
    /// # Panics
    ///
    /// If the start splits a character.
    pub fn find_from_in_work<'r, 't>(
        &'r self,
        text: &'t str,
        start: usize,
        work: u64,
    ) -> TryMatches<'r, 't> {
        TryMatches::new(self, Text::Utf8(text), start, Limit::Work(work))
    }

    /// Like `find_from_utf16`, but yields an error as the last item if an allocation fails.
    ///
    /// # Panics
    ///
    /// If the start splits a pair of surrogates.
    pub fn try_find_from_utf16<'r, 't>(
        &'r self,
        text: &'t [u16],
        start: usize,
    ) -> TryMatches<'r, 't> {
        TryMatches::new(self, Text::Utf16(text), start, Limit::Nothing)
    }

    /// Like `find_from_ucs2`, but yields an error as the last item if an allocation fails.
    pub fn try_find_from_ucs2<'r, 't>(
        &'r self,
        text: &'t [u16],
        start: usize,
    ) -> TryMatches<'r, 't> {
        TryMatches::new(self, Text::Ucs2(text), start, Limit::Nothing)
    }

    /// Returns the match that begins at byte offset `at`, as JavaScript does with the flag `y`. No other place is searched.
    ///
    /// Returns `None` if no match begins there, or if `at` is past the end. Lookbehinds and `\b` see the text before `at`.
    ///
    /// ```
    /// let re = regress_match::Regex::new(r"\d+").unwrap();
    /// assert_eq!(re.match_at("a12", 1).unwrap().range(), 1..3);
    /// assert!(re.match_at("a12", 0).is_none());
    /// ```
    ///
    /// # Panics
    ///
    /// If the offset is within the text and splits a character; and if an allocation fails.
    pub fn match_at(&self, text: &str, at: usize) -> Option<Match> {
        self.try_match_at(text, at)
            .unwrap_or_else(|_| out_of_memory())
    }

    /// Like `match_at`, in an ASCII text.
    pub fn match_at_ascii(&self, text: &str, at: usize) -> Option<Match> {
        self.match_at(text, at)
    }

    /// Like `match_at`, in a UTF-16 text, at an offset in code units.
    ///
    /// # Panics
    ///
    /// If the offset is within the text and splits a pair of surrogates; and if an allocation fails.
    pub fn match_at_utf16(&self, text: &[u16], at: usize) -> Option<Match> {
        self.try_match_at_utf16(text, at)
            .unwrap_or_else(|_| out_of_memory())
    }

    /// Like `match_at`, in a UCS-2 text, in which each code unit is a character.
    ///
    /// # Panics
    ///
    /// If an allocation fails.
    pub fn match_at_ucs2(&self, text: &[u16], at: usize) -> Option<Match> {
        self.try_match_at_ucs2(text, at)
            .unwrap_or_else(|_| out_of_memory())
    }

    /// Like `match_at`, but returns an error if an allocation fails.
    ///
    /// # Errors
    ///
    /// `Memory` if an allocation fails.
    ///
    /// # Panics
    ///
    /// If the offset is within the text and splits a character.
    pub fn try_match_at(&self, text: &str, at: usize) -> Result<Option<Match>, SearchError> {
        self.matched_at(Text::Utf8(text), at)
    }

    /// Like `match_at_utf16`, but returns an error if an allocation fails.
    ///
    /// # Errors
    ///
    /// `Memory` if an allocation fails.
    ///
    /// # Panics
    ///
    /// If the offset is within the text and splits a pair of surrogates.
    pub fn try_match_at_utf16(
        &self,
        text: &[u16],
        at: usize,
    ) -> Result<Option<Match>, SearchError> {
        self.matched_at(Text::Utf16(text), at)
    }

    /// Like `match_at_ucs2`, but returns an error if an allocation fails.
    ///
    /// # Errors
    ///
    /// `Memory` if an allocation fails.
    pub fn try_match_at_ucs2(&self, text: &[u16], at: usize) -> Result<Option<Match>, SearchError> {
        self.matched_at(Text::Ucs2(text), at)
    }

    fn matched_at(&self, text: Text<'_>, at: usize) -> Result<Option<Match>, SearchError> {
        let mut spans = Vec::new();
        make_room(&mut spans, self.ranges)?;
        let reply = self.with(|handle| handle.match_at(text, at, &mut spans))?;
        match reply.code {
            code::DONE => match_of(self, &spans).map(Some),
            code::NO_MATCH => Ok(None),
            code::NOT_BOUNDARY => splits_character(at),
            _ => Err(SearchError::Memory),
        }
    }

    /// Returns the pattern with its work bound, for searches with a work limit.
    ///
    /// # Errors
    ///
    /// Why no bound is known (`docs/LINEAR.md`).
    ///
    /// # Panics
    ///
    /// If an allocation fails.
    pub fn bounded(&self) -> Result<BoundedRegex<'_>, Unbounded> {
        let bound = self.with(Handle::work_per_unit);
        match bound.unwrap_or_else(|_| out_of_memory()) {
            Ok(per_unit) => Ok(BoundedRegex::new(self, per_unit)),
            Err(code) => Err(Unbounded::of(code).unwrap_or_else(|| out_of_memory())),
        }
    }

    /// Returns the work bound: in a text of n bytes, `work_per_unit` × (n + 1) work is enough for all matches.
    ///
    /// # Errors
    ///
    /// Why no bound is known (`docs/LINEAR.md`).
    ///
    /// # Panics
    ///
    /// If an allocation fails.
    pub fn work_per_unit(&self) -> Result<u64, Unbounded> {
        self.bounded().map(|bounded| bounded.work_per_unit())
    }

    /// Replaces the first match in `text`. In the replacement, `$1` stands for a group by number, `${name}` for a group by name, `$0`
    /// for the whole match, and `$$` for `$`.
    pub fn replace(&self, text: &str, replacement: &str) -> String {
        self.replaced(text, replacement, false)
    }

    /// Replaces all matches in `text`. The replacement is as in `replace`.
    pub fn replace_all(&self, text: &str, replacement: &str) -> String {
        self.replaced(text, replacement, true)
    }

    fn replaced(&self, text: &str, replacement: &str, all: bool) -> String {
        written(text.len() + replacement.len(), |made| {
            self.with(|handle| handle.replace(text, replacement, all, made))
                .unwrap_or_else(|_| out_of_memory())
        })
    }

    /// Replaces the first match in `text` with the text that the closure returns.
    pub fn replace_with<F: FnOnce(&Match) -> String>(&self, text: &str, replacement: F) -> String {
        let mut made = String::with_capacity(text.len());
        let mut from = 0;
        if let Some(found) = self.find(text) {
            made.push_str(&text[..found.start()]);
            made.push_str(&replacement(&found));
            from = found.end();
        }
        made.push_str(&text[from..]);
        made
    }

    /// Replaces each match in `text` with the text that the closure returns.
    pub fn replace_all_with<F: FnMut(&Match) -> String>(
        &self,
        text: &str,
        mut replacement: F,
    ) -> String {
        let mut made = String::with_capacity(text.len());
        let mut from = 0;
        for found in self.find_iter(text) {
            made.push_str(&text[from..found.start()]);
            made.push_str(&replacement(&found));
            from = found.end();
        }
        made.push_str(&text[from..]);
        made
    }
}

/// Returns a pattern that matches `text`, and without the flag `i` nothing else: each syntax character gets a backslash.
pub fn escape(text: &str) -> String {
    written(2 * text.len(), |escaped| raw::escape(text, escaped))
}

// Returns the text that a call writes. The first call has room for `room` bytes.
fn written(room: usize, mut write: impl FnMut(&mut [u8]) -> Reply) -> String {
    let mut text = vec![0; room];
    let mut reply = write(&mut text);
    if reply.code == code::SHORT_BUFFER {
        text.resize(reply.count, 0);
        reply = write(&mut text);
    }
    if reply.code == code::MEMORY {
        out_of_memory();
    }
    text.truncate(reply.count);
    String::from_utf8(text).expect("the library writes UTF-8")
}

fn name_of(handle: &mut Handle, number: usize) -> Box<str> {
    written(32, |name| handle.group_name(number, name)).into_boxed_str()
}

// Returns the 16-bit code units of these code points, and the number of code units of each.
fn units_of(pattern: impl Iterator<Item = u32>) -> Result<(Vec<u16>, Vec<usize>), Error> {
    let (mut units, mut lengths) = (Vec::new(), Vec::new());
    for c in pattern {
        let before = units.len();
        match (u16::try_from(c), char::from_u32(c)) {
            (Ok(unit), _) => units.push(unit),
            (Err(_), Some(c)) => units.extend_from_slice(c.encode_utf16(&mut [0; 2])),
            (Err(_), None) => {
                let reason = "code point past U+10FFFF".to_string();
                let place = place_in_units(&units, &lengths, before);
                return Err(Error::new(Cause::Syntax, reason, Some(place)));
            }
        }
        lengths.push(units.len() - before);
    }
    Ok((units, lengths))
}

// Returns the place of an offset in code units, for a pattern that was given by its code points.
fn place_in_units(units: &[u16], lengths: &[usize], at: usize) -> Place {
    let ends = lengths.iter().scan(0, |end, length| {
        *end += length;
        Some(*end)
    });
    Place {
        position: ends.take_while(|end| *end <= at).count(),
        characters: char::decode_utf16(units[..at].iter().copied()).count(),
    }
}

// Returns the error of a code. A syntax error takes the reason and the offset of the diagnosis, and `place` makes a place of it.
fn refusal(
    code: u32,
    diagnose: impl FnOnce(&mut usize, &mut [u8]) -> Reply,
    place: impl FnOnce(usize) -> Place,
) -> Error {
    let (cause, reason) = match code {
        code::SYNTAX => return syntax(diagnose, place),
        code::TOO_MANY_GROUPS => (Cause::TooManyGroups, "too many groups (at most 65535)"),
        code::TOO_MANY_LOOPS => (Cause::TooManyLoops, "too many loops (at most 65535)"),
        code::TOO_MANY_INSTRUCTIONS => (Cause::TooManyInstructions, "too many instructions (at most 4294967295)"),
        code::TOO_LONG => (Cause::TooLong, "the pattern is too long"),
        code::TOO_DEEP => (Cause::TooDeep, "the pattern is nested too deeply"),
        _ => (Cause::Memory, "out of memory"),
    };
    Error::new(cause, reason.to_string(), None)
}

fn syntax(
    diagnose: impl FnOnce(&mut usize, &mut [u8]) -> Reply,
    place: impl FnOnce(usize) -> Place,
) -> Error {
    let mut words = [0; 128];
    let mut at = 0;
    let reply = diagnose(&mut at, &mut words);
    if reply.code == code::SYNTAX {
        let reason = String::from_utf8_lossy(&words[..reply.count]).into_owned();
        Error::new(Cause::Syntax, reason, Some(place(at)))
    } else {
        Error::new(Cause::Syntax, "the pattern has a syntax error".to_string(), None)
    }
}

impl FromStr for Regex {
    type Err = Error;

    fn from_str(pattern: &str) -> Result<Regex, Error> {
        Regex::new(pattern)
    }
}

impl fmt::Debug for Regex {
    fn fmt(&self, f: &mut fmt::Formatter<'_>) -> fmt::Result {
        write!(f, "Regex(/{}/{})", self.pattern, self.flags)
    }
}
