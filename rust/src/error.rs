//! Errors of patterns and of searches.

use crate::raw::code;
use std::error;
use std::fmt;

/// The kind of an error in a pattern.
#[derive(Clone, Copy, Debug, PartialEq, Eq, Hash)]
#[non_exhaustive]
pub enum Cause {
    /// The pattern has a syntax error.
    Syntax,
    /// The pattern has more than 65,535 groups.
    TooManyGroups,
    /// The pattern has more than 65,535 loops.
    TooManyLoops,
    /// The program of the pattern has more than 2^32 - 1 instructions.
    TooManyInstructions,
    /// The pattern is longer than the bounds allow.
    TooLong,
    /// The pattern is nested deeper than the bounds allow.
    TooDeep,
    /// An allocation failed.
    Memory,
}

/// An error in a pattern. It displays as `unclosed group at 3`.
#[derive(Clone, Debug, PartialEq, Eq)]
pub struct Error {
    /// The text that is displayed: the reason, and the position if there is one.
    pub text: String,
    cause: Cause,
    reason: String,
    place: Option<Place>,
}

/// The place at which an error begins in a pattern.
#[derive(Clone, Copy, Debug, PartialEq, Eq)]
pub(crate) struct Place {
    /// The offset, in bytes or in code points, as the pattern was given.
    pub position: usize,
    /// The number of characters before it.
    pub characters: usize,
}

impl Error {
    pub(crate) fn new(cause: Cause, reason: String, place: Option<Place>) -> Error {
        Error {
            text: match place {
                Some(place) => format!("{reason} at {}", place.position),
                None => reason.clone(),
            },
            cause,
            reason,
            place,
        }
    }

    /// Returns the kind of the error.
    pub fn cause(&self) -> Cause {
        self.cause
    }

    /// Returns the reason without the position, for example `unclosed group`.
    pub fn reason(&self) -> &str {
        &self.reason
    }

    /// Returns the offset in the pattern at which the error begins: in bytes, or in code points for `Regex::from_unicode`. Returns
    /// `None` for errors of the whole pattern, for example `TooManyGroups`.
    pub fn position(&self) -> Option<usize> {
        self.place.map(|place| place.position)
    }

    /// Returns a message of two lines for a terminal: the line of the pattern that contains the error, and a line with `^` below the
    /// error and the reason. `pattern` is the pattern that was refused. Each character takes one column, and control characters are
    /// shown as blanks. Returns only the reason if the error has no position.
    ///
    /// ```
    /// let pattern = r"a(\d+";
    /// let error = regress_match::Regex::new(pattern).unwrap_err();
    /// assert_eq!(error.below(pattern), "a(\\d+\n ^ unclosed group");
    /// ```
    pub fn below(&self, pattern: &str) -> String {
        let Some(place) = self.place else {
            return self.reason.clone();
        };
        let at = match pattern.char_indices().nth(place.characters) {
            Some((at, _)) => at,
            None => pattern.len(),
        };
        let start = pattern[..at].rfind('\n').map_or(0, |newline| newline + 1);
        let end = pattern[at..]
            .find('\n')
            .map_or(pattern.len(), |newline| at + newline);
        let line: String = pattern[start..end].chars().map(visible).collect();
        let column = pattern[start..at].chars().count();
        format!("{line}\n{:column$}^ {}", "", self.reason)
    }
}

// A control character would not take exactly one column.
fn visible(c: char) -> char {
    if c.is_control() {
        ' '
    } else {
        c
    }
}

impl fmt::Display for Error {
    fn fmt(&self, f: &mut fmt::Formatter<'_>) -> fmt::Result {
        f.write_str(&self.text)
    }
}

impl error::Error for Error {}

/// An error of a search.
#[derive(Clone, Copy, Debug, PartialEq, Eq, Hash)]
#[non_exhaustive]
pub enum SearchError {
    /// An allocation failed.
    Memory,
    /// The step limit is reached.
    StepLimit,
    /// The work limit is reached.
    WorkLimit,
}

impl fmt::Display for SearchError {
    fn fmt(&self, f: &mut fmt::Formatter<'_>) -> fmt::Result {
        f.write_str(match self {
            SearchError::Memory => "out of memory",
            SearchError::StepLimit => "the step limit is reached",
            SearchError::WorkLimit => "the work limit is reached",
        })
    }
}

impl error::Error for SearchError {}

/// Why no work bound of a pattern is known.
#[derive(Clone, Copy, Debug, PartialEq, Eq, Hash)]
#[non_exhaustive]
pub enum Unbounded {
    /// The contents of a lookahead or a lookbehind have a loop or join alternatives (`docs/LINEAR.md`).
    Lookaround,
    /// The pattern has a backreference.
    Backreference,
    /// The counts of loops are too large, or loops are nested too deeply.
    Count,
    /// The bound would be too large, as with many lazy loops in sequence, or lookarounds are nested
    /// too deeply.
    BoundTooLarge,
}

impl Unbounded {
    // Returns the reason that a code of the C library gives.
    pub(crate) fn of(code: u32) -> Option<Self> {
        match code {
            code::UNBOUNDED_LOOKAROUND => Some(Unbounded::Lookaround),
            code::UNBOUNDED_BACKREFERENCE => Some(Unbounded::Backreference),
            code::UNBOUNDED_COUNT => Some(Unbounded::Count),
            code::UNBOUNDED_BOUND_TOO_LARGE => Some(Unbounded::BoundTooLarge),
            _ => None,
        }
    }
}

impl fmt::Display for Unbounded {
    fn fmt(&self, f: &mut fmt::Formatter<'_>) -> fmt::Result {
        f.write_str("no work bound is known: ")?;
        f.write_str(match self {
            Unbounded::Lookaround => "a lookaround has a loop, or alternatives before its end",
            Unbounded::Backreference => "the pattern has a backreference",
            Unbounded::Count => "counts are too large, or loops are nested too deeply",
            Unbounded::BoundTooLarge => {
                "the bound is too large, or lookarounds are nested too deeply"
            }
        })
    }
}

impl error::Error for Unbounded {}
