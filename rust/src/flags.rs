//! The flags of a pattern.

use std::fmt;

/// Flags that say how a pattern is read and matched.
#[derive(Clone, Copy, Debug, Default, PartialEq, Eq, Hash)]
pub struct Flags {
    /// Letters match regardless of case (`i`): by upper case, or with `u` by simple case folding.
    pub icase: bool,
    /// `^` and `$` also match at line terminators (`m`).
    pub multiline: bool,
    /// `.` also matches line terminators (`s`).
    pub dot_all: bool,
    /// Has no effect. The crate `regress` compiles without its optimizer if it is set.
    pub no_opt: bool,
    /// The pattern is read as a sequence of code points, by the stricter grammar (`u`).
    pub unicode: bool,
    /// Set operations and nested classes, which `v` adds to classes, are refused (`v`). `Syntax::EcmaScript2018` ignores it.
    pub unicode_sets: bool,
}

impl Flags {
    /// Sets the flags whose letters (`i`, `m`, `s`, `u`, `v`) are among these code points, and ignores all others.
    pub fn new<T: Iterator<Item = u32>>(letters: T) -> Flags {
        let mut flags = Flags::default();
        for letter in letters {
            match char::from_u32(letter) {
                Some('i') => flags.icase = true,
                Some('m') => flags.multiline = true,
                Some('s') => flags.dot_all = true,
                Some('u') => flags.unicode = true,
                Some('v') => flags.unicode_sets = true,
                _ => {}
            }
        }
        flags
    }
}

impl From<&str> for Flags {
    fn from(letters: &str) -> Flags {
        Flags::new(letters.chars().map(u32::from))
    }
}

impl From<String> for Flags {
    fn from(letters: String) -> Flags {
        Flags::from(letters.as_str())
    }
}

impl fmt::Display for Flags {
    fn fmt(&self, f: &mut fmt::Formatter<'_>) -> fmt::Result {
        let letters = [
            (self.multiline, "m"),
            (self.icase, "i"),
            (self.dot_all, "s"),
            (self.unicode, "u"),
            (self.unicode_sets, "v"),
        ];
        letters
            .iter()
            .filter(|(set, _)| *set)
            .try_for_each(|(_, letter)| f.write_str(letter))
    }
}
