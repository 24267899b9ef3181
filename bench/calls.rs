//! What the programs of `layer` and `rust` share: how they time calls.

use std::time::Instant;

/// How often a pass over a whole text is repeated.
pub const PASSES: u32 = 5;

/// How often a short call is repeated.
pub const CALLS: u32 = 200;

/// The length of a short text, in bytes.
const SHORT: usize = 100;

/// The nanoseconds of the fastest of `times` calls.
pub fn fastest(times: u32, mut call: impl FnMut()) -> u128 {
    (0..times)
        .map(|_| {
            let start = Instant::now();
            call();
            start.elapsed().as_nanos()
        })
        .min()
        .unwrap_or(0)
}

/// The beginning of a text, at most as long as a short text.
pub fn short(text: &str) -> &str {
    let mut end = text.len().min(SHORT);
    while !text.is_char_boundary(end) {
        end -= 1;
    }
    &text[..end]
}
