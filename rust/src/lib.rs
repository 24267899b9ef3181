//! Regular expressions with the syntax and meaning of ECMAScript 2018, under the names of the crate `regress`, by a match engine
//! that is formally verified.
//!
//! ```
//! use regress_match::Regex;
//!
//! let re = Regex::new(r"(?<year>\d{4})-\d\d-\d\d").unwrap();
//! let text = "from 2018-06-27 to 2019-01-15";
//! let found = re.find(text).unwrap();
//! assert_eq!(found.as_str(text), "2018-06-27");
//! assert_eq!(found.named_group("year"), Some(5..9));
//! assert_eq!(re.find_iter(text).count(), 2);
//! ```
//!
//! A pattern is one of the whole language, with annex B; [`Regex::with_syntax`] also compiles patterns of the profile of
//! `docs/PROFILE.md`.
//!
//! The C library that it calls (`crates/regress_c`) is proved. This crate is plain Rust over that library and is not proved.
#![deny(missing_docs, unsafe_op_in_unsafe_fn)]

mod bounded;
mod error;
mod flags;
mod found;
#[allow(missing_docs)]
mod raw;
mod regex;
mod search;

pub use crate::bounded::{BoundedRegex, MatchesInWork};
pub use crate::error::{Cause, Error, SearchError, Unbounded};
pub use crate::flags::Flags;
pub use crate::found::{Groups, Match, NamedGroups};
pub use crate::regex::{escape, Bounds, Regex, Syntax};
pub use crate::search::{AsciiMatches, Matches, TryMatches};

/// A range of a text, in units of its encoding.
pub type Range = std::ops::Range<usize>;

/// Returns the version of the C library, as a number: 10203 for `1.2.3`.
pub fn library_version() -> u32 {
    raw::version()
}
