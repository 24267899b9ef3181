//! The functions of the C library. All `unsafe` code of the crate is here.
//!
//! Types meet the conditions of the header: slices are not null, a `&mut` has no other borrow, a handle is created empty, is not
//! copied, and is freed once, and a search holds the borrow of its text.

use std::marker::PhantomData;
use std::ptr;

/// The codes that functions return (`c/regress_c.h`).
pub mod code {
    pub const DONE: u32 = 0;
    pub const NO_MATCH: u32 = 1;
    pub const NOT_BOUNDARY: u32 = 5;
    pub const SHORT_BUFFER: u32 = 6;
    pub const MEMORY: u32 = 7;
    pub const STEP_LIMIT: u32 = 8;
    pub const SYNTAX: u32 = 9;
    pub const TOO_MANY_GROUPS: u32 = 10;
    pub const TOO_MANY_LOOPS: u32 = 11;
    pub const TOO_MANY_INSTRUCTIONS: u32 = 12;
    pub const TOO_LONG: u32 = 14;
    pub const TOO_DEEP: u32 = 15;
    pub const UNBOUNDED_LOOKAROUND: u32 = 19;
    pub const WORK_LIMIT: u32 = 20;
    pub const UNBOUNDED_BACKREFERENCE: u32 = 22;
    pub const UNBOUNDED_COUNT: u32 = 23;
    pub const UNBOUNDED_BOUND_TOO_LARGE: u32 = 24;
}

/// The languages of patterns.
pub mod syntax {
    pub const PROFILE: u32 = 0;
    pub const ES2018: u32 = 1;
}

/// How a pattern is read.
#[derive(Clone, Copy, Debug)]
pub struct Reading<'f> {
    /// The letters of its flags.
    pub flags: &'f str,
    /// One of the numbers of `syntax`.
    pub syntax: u32,
}

/// Both ends of the range of a group that did not match.
pub const UNMATCHED: usize = usize::MAX;

/// A range of the text, in units of its encoding.
#[repr(C)]
#[derive(Clone, Copy, Debug, Default)]
pub struct Span {
    pub start: usize,
    pub end: usize,
}

/// A code and a count.
#[repr(C)]
#[derive(Clone, Copy, Debug)]
pub struct Reply {
    pub code: u32,
    pub count: usize,
}

/// The maximum size of a pattern.
#[repr(C)]
#[derive(Clone, Copy, Debug)]
pub struct RawBounds {
    pub length: usize,
    pub nesting: usize,
}

#[repr(C)]
struct RawPattern {
    held: *mut u8,
}

#[repr(C)]
struct RawSearch {
    bytes: *const u8,
    bytes_len: usize,
    units: *const u16,
    units_len: usize,
    next: usize,
    encoding: usize,
}

extern "C" {
    fn regress_c_version() -> u32;
    fn regress_c_compile_utf8_with_syntax(
        pattern: *mut RawPattern,
        text: *const u8,
        text_len: usize,
        flags: *const u8,
        flags_len: usize,
        syntax: u32,
        bounds: *const RawBounds,
    ) -> u32;
    fn regress_c_compile_utf16_with_syntax(
        pattern: *mut RawPattern,
        text: *const u16,
        text_len: usize,
        flags: *const u8,
        flags_len: usize,
        syntax: u32,
        bounds: *const RawBounds,
    ) -> u32;
    fn regress_c_diagnose_utf8_with_syntax(
        text: *const u8,
        text_len: usize,
        flags: *const u8,
        flags_len: usize,
        syntax: u32,
        at: *mut usize,
        cause: *mut u8,
        cause_len: usize,
    ) -> Reply;
    fn regress_c_diagnose_utf16_with_syntax(
        text: *const u16,
        text_len: usize,
        flags: *const u8,
        flags_len: usize,
        syntax: u32,
        at: *mut usize,
        cause: *mut u8,
        cause_len: usize,
    ) -> Reply;
    fn regress_c_clone(pattern: *mut RawPattern, into: *mut RawPattern) -> u32;
    fn regress_c_free(pattern: *mut RawPattern);
    fn regress_c_range_count(pattern: *mut RawPattern) -> Reply;
    fn regress_c_group_name(
        pattern: *mut RawPattern,
        number: usize,
        name: *mut u8,
        name_len: usize,
    ) -> Reply;
    fn regress_c_search_utf8(
        search: *mut RawSearch,
        text: *const u8,
        text_len: usize,
        start: usize,
    ) -> u32;
    fn regress_c_search_utf16(
        search: *mut RawSearch,
        text: *const u16,
        text_len: usize,
        start: usize,
    ) -> u32;
    fn regress_c_search_ucs2(
        search: *mut RawSearch,
        text: *const u16,
        text_len: usize,
        start: usize,
    ) -> u32;
    fn regress_c_next(
        pattern: *mut RawPattern,
        search: *mut RawSearch,
        spans: *mut Span,
        spans_len: usize,
    ) -> Reply;
    fn regress_c_next_within(
        pattern: *mut RawPattern,
        search: *mut RawSearch,
        steps: *mut u64,
        spans: *mut Span,
        spans_len: usize,
    ) -> Reply;
    fn regress_c_next_in_work(
        pattern: *mut RawPattern,
        search: *mut RawSearch,
        work: *mut u64,
        spans: *mut Span,
        spans_len: usize,
    ) -> Reply;
    fn regress_c_match_at_utf8(
        pattern: *mut RawPattern,
        text: *const u8,
        text_len: usize,
        at: usize,
        spans: *mut Span,
        spans_len: usize,
    ) -> Reply;
    fn regress_c_match_at_utf16(
        pattern: *mut RawPattern,
        text: *const u16,
        text_len: usize,
        at: usize,
        spans: *mut Span,
        spans_len: usize,
    ) -> Reply;
    fn regress_c_match_at_ucs2(
        pattern: *mut RawPattern,
        text: *const u16,
        text_len: usize,
        at: usize,
        spans: *mut Span,
        spans_len: usize,
    ) -> Reply;
    fn regress_c_work_per_unit(pattern: *mut RawPattern, per_unit: *mut u64) -> u32;
    fn regress_c_find_all_utf8_in_work(
        pattern: *mut RawPattern,
        text: *const u8,
        text_len: usize,
        start: usize,
        work: *mut u64,
        spans: *mut Span,
        spans_len: usize,
    ) -> Reply;
    fn regress_c_replace_utf8(
        pattern: *mut RawPattern,
        text: *const u8,
        text_len: usize,
        replacement: *const u8,
        replacement_len: usize,
        made: *mut u8,
        made_len: usize,
    ) -> Reply;
    fn regress_c_replace_all_utf8(
        pattern: *mut RawPattern,
        text: *const u8,
        text_len: usize,
        replacement: *const u8,
        replacement_len: usize,
        made: *mut u8,
        made_len: usize,
    ) -> Reply;
    fn regress_c_escape_utf8(
        text: *const u8,
        text_len: usize,
        escaped: *mut u8,
        escaped_len: usize,
    ) -> Reply;
}

/// Returns the version of the library.
pub fn version() -> u32 {
    // SAFETY: it has no conditions.
    unsafe { regress_c_version() }
}

/// A text to search.
#[derive(Clone, Copy)]
pub enum Text<'t> {
    Utf8(&'t str),
    Utf16(&'t [u16]),
    Ucs2(&'t [u16]),
}

/// A compiled pattern, which is freed when it is dropped.
pub struct Handle {
    raw: RawPattern,
}

// SAFETY: by the header, a pattern may be passed on to another thread.
unsafe impl Send for Handle {}

impl Drop for Handle {
    fn drop(&mut self) {
        // SAFETY: the handle is exclusive, and is not used afterwards.
        unsafe { regress_c_free(&mut self.raw) }
    }
}

impl Handle {
    fn empty() -> Handle {
        Handle {
            raw: RawPattern {
                held: ptr::null_mut(),
            },
        }
    }

    pub fn from_utf8(text: &str, reading: &Reading<'_>, bounds: RawBounds) -> Result<Handle, u32> {
        let mut handle = Handle::empty();
        // SAFETY: the handle is empty and exclusive, and the slices are valid.
        let code = unsafe {
            regress_c_compile_utf8_with_syntax(
                &mut handle.raw,
                text.as_ptr(),
                text.len(),
                reading.flags.as_ptr(),
                reading.flags.len(),
                reading.syntax,
                &bounds,
            )
        };
        done(code, handle)
    }

    pub fn from_utf16(
        text: &[u16],
        reading: &Reading<'_>,
        bounds: RawBounds,
    ) -> Result<Handle, u32> {
        let mut handle = Handle::empty();
        // SAFETY: the handle is empty and exclusive, and the slices are valid.
        let code = unsafe {
            regress_c_compile_utf16_with_syntax(
                &mut handle.raw,
                text.as_ptr(),
                text.len(),
                reading.flags.as_ptr(),
                reading.flags.len(),
                reading.syntax,
                &bounds,
            )
        };
        done(code, handle)
    }

    /// Copies the pattern.
    pub fn again(&mut self) -> Result<Handle, u32> {
        let mut handle = Handle::empty();
        // SAFETY: both handles are exclusive, and one is empty.
        let code = unsafe { regress_c_clone(&mut self.raw, &mut handle.raw) };
        done(code, handle)
    }

    /// Returns the number of ranges of a match.
    pub fn range_count(&mut self) -> usize {
        // SAFETY: the handle is exclusive.
        unsafe { regress_c_range_count(&mut self.raw) }.count
    }

    /// Writes the name of a group.
    pub fn group_name(&mut self, number: usize, name: &mut [u8]) -> Reply {
        // SAFETY: the handle and `name` are exclusive, and the slice is valid.
        unsafe { regress_c_group_name(&mut self.raw, number, name.as_mut_ptr(), name.len()) }
    }

    /// Writes the match that begins at an offset.
    pub fn match_at(&mut self, text: Text<'_>, at: usize, spans: &mut [Span]) -> Reply {
        let (raw, room, len) = (&mut self.raw, spans.as_mut_ptr(), spans.len());
        // SAFETY: the handle and `spans` are exclusive, and the slices are valid.
        unsafe {
            match text {
                Text::Utf8(t) => regress_c_match_at_utf8(raw, t.as_ptr(), t.len(), at, room, len),
                Text::Utf16(t) => regress_c_match_at_utf16(raw, t.as_ptr(), t.len(), at, room, len),
                Text::Ucs2(t) => regress_c_match_at_ucs2(raw, t.as_ptr(), t.len(), at, room, len),
            }
        }
    }

    /// Returns the work bound, or one of the codes `UNBOUNDED_..` or `MEMORY`.
    pub fn work_per_unit(&mut self) -> Result<u64, u32> {
        let mut per_unit = 0;
        // SAFETY: the handle and the number are exclusive.
        let code = unsafe { regress_c_work_per_unit(&mut self.raw, &mut per_unit) };
        done(code, per_unit)
    }

    /// Writes all matches, with a work limit, which becomes the work that is left.
    pub fn find_all_in_work(
        &mut self,
        text: &str,
        start: usize,
        work: &mut u64,
        spans: &mut [Span],
    ) -> Reply {
        // SAFETY: the handle, `work` and `spans` are exclusive, and the slices are valid.
        unsafe {
            regress_c_find_all_utf8_in_work(
                &mut self.raw,
                text.as_ptr(),
                text.len(),
                start,
                work,
                spans.as_mut_ptr(),
                spans.len(),
            )
        }
    }

    /// Writes the text with its first match, or all matches, replaced.
    pub fn replace(&mut self, text: &str, replacement: &str, all: bool, made: &mut [u8]) -> Reply {
        let call = if all {
            regress_c_replace_all_utf8
        } else {
            regress_c_replace_utf8
        };
        // SAFETY: the handle and `made` are exclusive, and the slices are valid.
        unsafe {
            call(
                &mut self.raw,
                text.as_ptr(),
                text.len(),
                replacement.as_ptr(),
                replacement.len(),
                made.as_mut_ptr(),
                made.len(),
            )
        }
    }
}

fn done<T>(code: u32, value: T) -> Result<T, u32> {
    match code {
        code::DONE => Ok(value),
        code => Err(code),
    }
}

/// Writes what is wrong with a pattern in UTF-8.
pub fn diagnose_utf8(
    text: &str,
    reading: &Reading<'_>,
    at: &mut usize,
    cause: &mut [u8],
) -> Reply {
    // SAFETY: `at` and `cause` are exclusive, and the slices are valid.
    unsafe {
        regress_c_diagnose_utf8_with_syntax(
            text.as_ptr(),
            text.len(),
            reading.flags.as_ptr(),
            reading.flags.len(),
            reading.syntax,
            at,
            cause.as_mut_ptr(),
            cause.len(),
        )
    }
}

/// Writes what is wrong with a pattern in UTF-16.
pub fn diagnose_utf16(
    text: &[u16],
    reading: &Reading<'_>,
    at: &mut usize,
    cause: &mut [u8],
) -> Reply {
    // SAFETY: `at` and `cause` are exclusive, and the slices are valid.
    unsafe {
        regress_c_diagnose_utf16_with_syntax(
            text.as_ptr(),
            text.len(),
            reading.flags.as_ptr(),
            reading.flags.len(),
            reading.syntax,
            at,
            cause.as_mut_ptr(),
            cause.len(),
        )
    }
}

/// Writes a pattern that matches the text, and without the flag `i` nothing else.
pub fn escape(text: &str, escaped: &mut [u8]) -> Reply {
    // SAFETY: `escaped` is exclusive, and the slices are valid.
    unsafe {
        regress_c_escape_utf8(
            text.as_ptr(),
            text.len(),
            escaped.as_mut_ptr(),
            escaped.len(),
        )
    }
}

/// What limits a search, and how much of it is left.
#[derive(Clone, Copy, Debug)]
pub enum Limit {
    Nothing,
    Steps(u64),
    Work(u64),
}

/// A search over a text that is borrowed for `'t`.
pub struct Search<'t> {
    raw: RawSearch,
    text: PhantomData<&'t [u16]>,
}

// SAFETY: it consists of numbers and of pointers to a text that is only read.
unsafe impl Send for Search<'_> {}
unsafe impl Sync for Search<'_> {}

impl<'t> Search<'t> {
    fn closed() -> Search<'t> {
        Search {
            raw: RawSearch {
                bytes: ptr::NonNull::dangling().as_ptr(),
                bytes_len: 0,
                units: ptr::NonNull::dangling().as_ptr(),
                units_len: 0,
                next: 0,
                encoding: 0,
            },
            text: PhantomData,
        }
    }

    /// Opens a search from an offset on. The code is `NOT_BOUNDARY` if the offset splits a character.
    pub fn open(text: Text<'t>, start: usize) -> Result<Search<'t>, u32> {
        let mut search = Search::closed();
        let raw = &mut search.raw;
        // SAFETY: the search is exclusive, and the text stays valid for `'t`.
        let code = unsafe {
            match text {
                Text::Utf8(t) => regress_c_search_utf8(raw, t.as_ptr(), t.len(), start),
                Text::Utf16(t) => regress_c_search_utf16(raw, t.as_ptr(), t.len(), start),
                Text::Ucs2(t) => regress_c_search_ucs2(raw, t.as_ptr(), t.len(), start),
            }
        };
        done(code, search)
    }

    /// Writes the next matches within the limit, which becomes what is left of it.
    pub fn next(&mut self, pattern: &mut Handle, limit: &mut Limit, spans: &mut [Span]) -> Reply {
        let (raw, search) = (&mut pattern.raw, &mut self.raw);
        let (room, len) = (spans.as_mut_ptr(), spans.len());
        // SAFETY: the handle, the search, the limit and `spans` are exclusive, and the text of the search is still valid.
        unsafe {
            match limit {
                Limit::Nothing => regress_c_next(raw, search, room, len),
                Limit::Steps(steps) => regress_c_next_within(raw, search, steps, room, len),
                Limit::Work(work) => regress_c_next_in_work(raw, search, work, room, len),
            }
        }
    }
}
