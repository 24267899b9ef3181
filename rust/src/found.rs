//! Matches, and their groups.

use std::fmt;
use std::iter::FusedIterator;
use std::ops::Range;
use std::sync::Arc;

/// The names of the groups from number 1 on. The name of an unnamed group is empty. It is `None` if no group has a name, so that
/// matches of such patterns count no references.
pub(crate) type Names = Option<Arc<[Box<str>]>>;

/// A match: the range of the whole match, and the ranges of its groups, in units of the text.
#[derive(Clone)]
pub struct Match {
    /// The range of the whole match.
    pub range: Range<usize>,
    /// The range of each group, from number 1 on. It is `None` for a group that did not match.
    pub captures: Vec<Option<Range<usize>>>,
    pub(crate) names: Names,
}

impl Match {
    /// Returns the range of the whole match.
    pub fn range(&self) -> Range<usize> {
        self.range.clone()
    }

    /// Returns the offset at which the match begins.
    pub fn start(&self) -> usize {
        self.range.start
    }

    /// Returns the offset at which the match ends.
    pub fn end(&self) -> usize {
        self.range.end
    }

    /// Returns the text of the match. `text` is the text that was searched.
    pub fn as_str<'t>(&self, text: &'t str) -> &'t str {
        &text[self.range()]
    }

    /// Returns the range of a group by its number; 0 is the whole match. Returns `None` if the group did not match or does not exist.
    pub fn group(&self, number: usize) -> Option<Range<usize>> {
        match number.checked_sub(1) {
            None => Some(self.range()),
            Some(id) => self.captures.get(id).cloned().flatten(),
        }
    }

    /// Returns the range of a group by its name. Returns `None` if the group did not match or does not exist.
    pub fn named_group(&self, name: &str) -> Option<Range<usize>> {
        if name.is_empty() {
            return None;
        }
        let id = self.names().iter().position(|other| **other == *name)?;
        self.captures.get(id).cloned().flatten()
    }

    /// Returns an iterator over the ranges of the whole match and of each group, in order of their numbers.
    pub fn groups(&self) -> Groups<'_> {
        Groups {
            found: self,
            number: 0,
        }
    }

    /// Returns an iterator over the names and ranges of the named groups, in order of their numbers.
    pub fn named_groups(&self) -> NamedGroups<'_> {
        NamedGroups { found: self, id: 0 }
    }

    fn names(&self) -> &[Box<str>] {
        self.names.as_deref().unwrap_or_default()
    }
}

impl PartialEq for Match {
    fn eq(&self, other: &Match) -> bool {
        self.range == other.range && self.captures == other.captures && self.names == other.names
    }
}

impl Eq for Match {}

impl fmt::Debug for Match {
    fn fmt(&self, f: &mut fmt::Formatter<'_>) -> fmt::Result {
        f.debug_struct("Match")
            .field("range", &self.range)
            .field("captures", &self.captures)
            .finish_non_exhaustive()
    }
}

/// An iterator over the ranges of the whole match and of each group.
#[derive(Clone, Debug)]
pub struct Groups<'m> {
    found: &'m Match,
    number: usize,
}

impl Iterator for Groups<'_> {
    type Item = Option<Range<usize>>;

    fn next(&mut self) -> Option<Self::Item> {
        if self.number > self.found.captures.len() {
            return None;
        }
        let group = self.found.group(self.number);
        self.number += 1;
        Some(group)
    }

    fn size_hint(&self) -> (usize, Option<usize>) {
        let left = self.found.captures.len() + 1 - self.number;
        (left, Some(left))
    }
}

impl ExactSizeIterator for Groups<'_> {}

impl FusedIterator for Groups<'_> {}

/// An iterator over the names and ranges of the named groups.
#[derive(Clone, Debug)]
pub struct NamedGroups<'m> {
    found: &'m Match,
    id: usize,
}

impl<'m> Iterator for NamedGroups<'m> {
    type Item = (&'m str, Option<Range<usize>>);

    fn next(&mut self) -> Option<Self::Item> {
        while let Some(name) = self.found.names().get(self.id) {
            let id = self.id;
            self.id += 1;
            if !name.is_empty() {
                return Some((name, self.found.captures.get(id).cloned().flatten()));
            }
        }
        None
    }

    fn size_hint(&self) -> (usize, Option<usize>) {
        let names = self.found.names().iter().skip(self.id);
        let left = names.filter(|name| !name.is_empty()).count();
        (left, Some(left))
    }
}

impl ExactSizeIterator for NamedGroups<'_> {}

impl FusedIterator for NamedGroups<'_> {}
