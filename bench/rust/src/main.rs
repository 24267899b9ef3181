//! `bench_regex PATTERN FLAGS FILE`: the number of matches by the crate `regex`, and the nanoseconds of the fastest of
//! some passes; then those of single calls. Groups are asked for where the pattern has some, as the other engines answer
//! them.

#[path = "../../calls.rs"]
mod calls;

use calls::{fastest, short, CALLS, PASSES};
use std::hint::black_box;

fn compile(pattern: &str, flags: &str) -> Option<regex::Regex> {
    regex::RegexBuilder::new(pattern)
        .case_insensitive(flags.contains('i'))
        .multi_line(flags.contains('m'))
        .dot_matches_new_line(flags.contains('s'))
        .build()
        .ok()
}

fn count(re: &regex::Regex, text: &str) -> usize {
    if re.captures_len() == 1 {
        return re.find_iter(text).count();
    }
    re.captures_iter(text).count()
}

fn main() {
    let words: Vec<String> = std::env::args().skip(1).collect();
    let [pattern, flags, file] = words.as_slice() else {
        panic!("usage: bench_regex PATTERN FLAGS FILE");
    };
    let text = std::fs::read_to_string(file).expect("the file cannot be read");
    let re = compile(pattern, flags).expect("pattern refused");
    let mut matches = 0;
    let all = fastest(PASSES, || matches = count(&re, &text));
    let compiling = fastest(CALLS, || {
        let _ = black_box(compile(pattern, flags).is_some());
    });
    let in_short = fastest(CALLS, || {
        let _ = black_box(count(&re, short(&text)));
    });
    println!("{matches} matches, {all} ns; {compiling} ns to compile, {in_short} ns in a short text");
}
