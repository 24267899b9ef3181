//! `bench_layer PATTERN FLAGS FILE`: the number of matches by the crate of `rust/`, and the nanoseconds of the fastest of
//! some passes; then those of single calls.

#[path = "../../calls.rs"]
mod calls;

use calls::{fastest, short, CALLS, PASSES};
use std::hint::black_box;

fn main() {
    let words: Vec<String> = std::env::args().skip(1).collect();
    let [pattern, flags, file] = words.as_slice() else {
        panic!("usage: bench_layer PATTERN FLAGS FILE");
    };
    let text = std::fs::read_to_string(file).expect("the file cannot be read");
    let re = regress_match::Regex::with_flags(pattern, flags.as_str()).expect("pattern refused");
    let mut matches = 0;
    let all = fastest(PASSES, || matches = re.find_iter(&text).count());
    let limited = fastest(PASSES, || {
        let _ = black_box(re.find_from_limited(&text, 0, u64::MAX).count());
    });
    let compiling = fastest(CALLS, || {
        let _ = black_box(regress_match::Regex::with_flags(pattern, flags.as_str()).is_ok());
    });
    let in_short = fastest(CALLS, || {
        let _ = black_box(re.find_iter(short(&text)).count());
    });
    println!(
        "{matches} matches, {all} ns; {limited} ns with a step limit, {compiling} ns to compile, {in_short} ns in a short text"
    );
}
