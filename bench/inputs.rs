//! Times the loops of the static library `bench_inputs` beside the same loops in Rust. For each it prints the
//! least time of many runs of both, in nanoseconds for a unit of text, and their ratio. The runs alternate.

use std::hint::black_box;
use std::time::Instant;

const LENGTH: usize = 1 << 16;
const RUNS: usize = 600;

// A character that stands in none of the texts.
const STOP: u32 = '#' as u32;

#[link(name = "bench_inputs", kind = "static")]
#[link(name = "libc_c", kind = "static")]
unsafe extern "C" {
    fn regress_input_bench_utf8_right(bytes: *const u8, len: usize, stop: u32) -> usize;
    fn regress_input_bench_utf8_left(bytes: *const u8, len: usize, stop: u32) -> usize;
    fn regress_input_bench_ascii_right(bytes: *const u8, len: usize, stop: u32) -> usize;
    fn regress_input_bench_ascii_left(bytes: *const u8, len: usize, stop: u32) -> usize;
    fn regress_input_bench_utf16_right(units: *const u16, len: usize, stop: u32) -> usize;
    fn regress_input_bench_utf16_left(units: *const u16, len: usize, stop: u32) -> usize;
    fn regress_input_bench_ucs2_right(units: *const u16, len: usize, stop: u32) -> usize;
    fn regress_input_bench_ucs2_left(units: *const u16, len: usize, stop: u32) -> usize;
    fn regress_input_bench_bracket(bytes: *const u8, len: usize) -> usize;
    fn regress_input_bench_utf16_bracket(units: *const u16, len: usize) -> usize;
    fn regress_input_bench_ucs2_bracket(units: *const u16, len: usize) -> usize;
    fn regress_input_bench_bitmap(bytes: *const u8, len: usize) -> usize;
    fn regress_input_bench_literal(bytes: *const u8, len: usize) -> usize;
    fn regress_input_bench_find_one(bytes: *const u8, len: usize, byte: u8) -> usize;
    fn regress_input_bench_find_three(bytes: *const u8, len: usize, byte: u8) -> usize;
    fn regress_input_bench_find_bitmap(bytes: *const u8, len: usize, byte: u8) -> usize;
}

// ---- The same in Rust

fn count_until(characters: impl Iterator<Item = u32>) -> usize {
    let stop = black_box(STOP);
    let mut count = 0;
    for c in characters {
        if c == stop {
            return count;
        }
        count += 1;
    }
    count
}

fn utf8_right(text: &str) -> usize {
    count_until(text.chars().map(u32::from))
}

fn utf8_left(text: &str) -> usize {
    count_until(text.chars().rev().map(u32::from))
}

fn ascii_right(text: &str) -> usize {
    count_until(text.bytes().map(u32::from))
}

fn ascii_left(text: &str) -> usize {
    count_until(text.bytes().rev().map(u32::from))
}

// Reads of UTF-16, in which a pair of surrogates is one character.

fn is_pair(high: u16, low: u16) -> bool {
    high & 0xFC00 == 0xD800 && low & 0xFC00 == 0xDC00
}

fn of_pair(high: u16, low: u16) -> u32 {
    0x1_0000 + ((high as u32 & 0x3FF) << 10 | low as u32 & 0x3FF)
}

fn characters_of_utf16(units: &[u16]) -> impl Iterator<Item = u32> {
    let mut at = 0;
    std::iter::from_fn(move || {
        let &unit = units.get(at)?;
        at += 1;
        match units.get(at) {
            Some(&low) if is_pair(unit, low) => {
                at += 1;
                Some(of_pair(unit, low))
            }
            _ => Some(unit as u32),
        }
    })
}

fn utf16_right(units: &[u16]) -> usize {
    count_until(characters_of_utf16(units))
}

fn utf16_left(units: &[u16]) -> usize {
    let mut rest = units;
    count_until(std::iter::from_fn(|| match rest {
        [before @ .., high, low] if is_pair(*high, *low) => {
            rest = before;
            Some(of_pair(*high, *low))
        }
        [before @ .., unit] => {
            rest = before;
            Some(*unit as u32)
        }
        [] => None,
    }))
}

fn ucs2_right(units: &[u16]) -> usize {
    count_until(units.iter().map(|&unit| unit as u32))
}

fn ucs2_left(units: &[u16]) -> usize {
    count_until(units.iter().rev().map(|&unit| unit as u32))
}

struct Class {
    intervals: Vec<(u32, u32)>,
    invert: bool,
}

impl Class {
    fn accepts(&self, c: u32) -> bool {
        let mut low = 0;
        let mut high = self.intervals.len();
        while low < high {
            let middle = low + (high - low) / 2;
            let (first, last) = self.intervals[middle];
            if last < c {
                low = middle + 1;
            } else if c < first {
                high = middle;
            } else {
                return !self.invert;
            }
        }
        self.invert
    }
}

fn count_in_class(characters: impl Iterator<Item = u32>) -> usize {
    let intervals = [
        (0x30, 0x39),
        (0x41, 0x5A),
        (0x5F, 0x5F),
        (0x61, 0x7A),
        (0xC0, 0x24F),
        (0x370, 0x3FF),
    ];
    let class = Class {
        intervals: black_box(intervals.to_vec()),
        invert: black_box(false),
    };
    characters.take_while(|&c| class.accepts(c)).count()
}

fn bracket(text: &str) -> usize {
    count_in_class(text.chars().map(u32::from))
}

fn utf16_bracket(units: &[u16]) -> usize {
    count_in_class(characters_of_utf16(units))
}

fn ucs2_bracket(units: &[u16]) -> usize {
    count_in_class(units.iter().map(|&unit| unit as u32))
}

struct Bitmap([u64; 2]);

impl Bitmap {
    fn contains(&self, byte: u8) -> bool {
        byte < 128 && self.0[(byte / 64) as usize] >> (byte % 64) & 1 != 0
    }
}

fn bitmap(text: &str) -> usize {
    let mut set = Bitmap([0; 2]);
    for byte in b'a'..=b'z' {
        set.0[(byte / 64) as usize] |= 1 << (byte % 64);
    }
    text.bytes().take_while(|&byte| set.contains(byte)).count()
}

fn literal(text: &str) -> usize {
    let bytes = text.as_bytes();
    let mut count = 0;
    for at in 0..bytes.len() {
        if bytes[at..].starts_with(b"needle") {
            count += 1;
        }
    }
    count
}

fn found_or_end(text: &str, at: Option<usize>) -> usize {
    at.unwrap_or(text.len())
}

fn find_one(text: &str) -> usize {
    let byte = black_box(b'#');
    found_or_end(text, text.bytes().position(|b| b == byte))
}

fn find_three(text: &str) -> usize {
    let byte = black_box(b'#');
    found_or_end(
        text,
        text.bytes()
            .position(|b| b == byte || b == b'@' || b == b'$'),
    )
}

fn find_bitmap(text: &str) -> usize {
    let mut table = [false; 256];
    table[black_box(b'#') as usize] = true;
    table[b'@' as usize] = true;
    found_or_end(text, text.bytes().position(|b| table[b as usize]))
}

// ---- Texts, of characters in no order

struct Random(u64);

impl Random {
    fn below(&mut self, n: usize) -> usize {
        self.0 = self
            .0
            .wrapping_mul(6364136223846793005)
            .wrapping_add(1442695040888963407);
        (self.0 >> 33) as usize % n
    }
}

fn text_of(choices: &[&str]) -> String {
    let mut random = Random(42);
    let mut text = String::new();
    while text.len() < LENGTH {
        text.push_str(choices[random.below(choices.len())]);
    }
    text
}

// ---- Timing

fn nanoseconds(f: &dyn Fn() -> usize) -> f64 {
    let start = Instant::now();
    black_box(f());
    start.elapsed().as_nanos() as f64
}

fn compare<T: ?Sized>(
    name: &str,
    units: usize,
    text: &T,
    ours: &dyn Fn(&T) -> usize,
    theirs: &dyn Fn(&T) -> usize,
) {
    assert_eq!(ours(text), theirs(text), "{name}");
    let (mut least, mut least_of_rust) = (f64::MAX, f64::MAX);
    for _ in 0..RUNS {
        least = least.min(nanoseconds(&|| ours(black_box(text))));
        least_of_rust = least_of_rust.min(nanoseconds(&|| theirs(black_box(text))));
    }
    let units = units as f64;
    println!(
        "{name:28} {:7.3} {:7.3} {:6.2}",
        least / units,
        least_of_rust / units,
        least / least_of_rust
    );
}

// The exported function, as a function of a text or of units.
macro_rules! call {
    ($f:ident, $($more:expr)?) => {
        &|text| unsafe { $f(text.as_ptr(), text.len() $(, $more)?) }
    };
}

fn compare_texts(name: &str, text: &str, ours: &dyn Fn(&str) -> usize, theirs: fn(&str) -> usize) {
    compare(name, text.len(), text, ours, &theirs);
}

fn compare_units(
    name: &str,
    units: &[u16],
    ours: &dyn Fn(&[u16]) -> usize,
    theirs: fn(&[u16]) -> usize,
) {
    compare(name, units.len(), units, ours, &theirs);
}

fn main() {
    let letters: Vec<String> = ('a'..='z').map(String::from).collect();
    let letters: Vec<&str> = letters.iter().map(String::as_str).collect();
    let and = |more: &[&str]| text_of(&[&letters[..], more].concat());
    let ascii = and(&[]);
    let mostly_ascii = and(&["\u{e9}", "\u{20ac}"]);
    let mixed = text_of(&[
        "a",
        "b",
        "c",
        "\u{e9}",
        "\u{3b1}",
        "\u{20ac}",
        "\u{6f22}",
        "\u{1f600}",
    ]);
    let in_class = and(&["A", "Z", "7", "_", "\u{e9}", "\u{3b1}"]);
    let needles = and(&["needle"]);
    let units: Vec<u16> = mixed.encode_utf16().collect();
    let units_in_class: Vec<u16> = in_class.encode_utf16().collect();

    println!(
        "{:28} {:>7} {:>7} {:>6}",
        "ns a unit", "here", "Rust", "ratio"
    );
    for (kind, text) in [
        ("ASCII", &ascii),
        ("mostly ASCII", &mostly_ascii),
        ("mixed", &mixed),
    ] {
        let right = format!("UTF-8 right, {kind}");
        compare_texts(
            &right,
            text,
            call!(regress_input_bench_utf8_right, STOP),
            utf8_right,
        );
        let left = format!("UTF-8 left, {kind}");
        compare_texts(
            &left,
            text,
            call!(regress_input_bench_utf8_left, STOP),
            utf8_left,
        );
    }
    compare_texts(
        "ASCII right",
        &ascii,
        call!(regress_input_bench_ascii_right, STOP),
        ascii_right,
    );
    compare_texts(
        "ASCII left",
        &ascii,
        call!(regress_input_bench_ascii_left, STOP),
        ascii_left,
    );
    compare_units(
        "UTF-16 right",
        &units,
        call!(regress_input_bench_utf16_right, STOP),
        utf16_right,
    );
    compare_units(
        "UTF-16 left",
        &units,
        call!(regress_input_bench_utf16_left, STOP),
        utf16_left,
    );
    compare_units(
        "UCS-2 right",
        &units,
        call!(regress_input_bench_ucs2_right, STOP),
        ucs2_right,
    );
    compare_units(
        "UCS-2 left",
        &units,
        call!(regress_input_bench_ucs2_left, STOP),
        ucs2_left,
    );
    compare_texts(
        "bracket, UTF-8",
        &in_class,
        call!(regress_input_bench_bracket,),
        bracket,
    );
    compare_units(
        "bracket, UTF-16",
        &units_in_class,
        call!(regress_input_bench_utf16_bracket,),
        utf16_bracket,
    );
    compare_units(
        "bracket, UCS-2",
        &units_in_class,
        call!(regress_input_bench_ucs2_bracket,),
        ucs2_bracket,
    );
    compare_texts(
        "ASCII bitmap",
        &ascii,
        call!(regress_input_bench_bitmap,),
        bitmap,
    );
    compare_texts(
        "literal",
        &needles,
        call!(regress_input_bench_literal,),
        literal,
    );
    compare_texts(
        "find one byte",
        &ascii,
        call!(regress_input_bench_find_one, b'#'),
        find_one,
    );
    compare_texts(
        "find three bytes",
        &ascii,
        call!(regress_input_bench_find_three, b'#'),
        find_three,
    );
    compare_texts(
        "find a byte set",
        &mixed,
        call!(regress_input_bench_find_bitmap, b'#'),
        find_bitmap,
    );
}
