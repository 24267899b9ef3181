//! Searches whose allocations by Rust are refused, one at a time. Allocations of the library are not refused here.

use regress_match::{Match, Regex, SearchError};
use std::alloc::{GlobalAlloc, Layout, System};
use std::cell::Cell;
use std::panic::{catch_unwind, AssertUnwindSafe};
use std::ptr::null_mut;

thread_local! {
    // How many more allocations of this thread succeed before one is refused; `usize::MAX` refuses none.
    static GRANTED: Cell<usize> = const { Cell::new(usize::MAX) };
}

struct Refusing;

unsafe impl GlobalAlloc for Refusing {
    unsafe fn alloc(&self, layout: Layout) -> *mut u8 {
        let granted = GRANTED.with(Cell::get);
        if granted == 0 {
            GRANTED.with(|left| left.set(usize::MAX));
            return null_mut();
        }
        if granted != usize::MAX {
            GRANTED.with(|left| left.set(granted - 1));
        }
        System.alloc(layout)
    }

    unsafe fn dealloc(&self, allocation: *mut u8, layout: Layout) {
        System.dealloc(allocation, layout)
    }
}

#[global_allocator]
static REFUSING: Refusing = Refusing;

/// Refuses the allocation of this number in `call`. Returns the result, and whether there was an allocation of that number.
fn refused<T>(number: usize, call: impl FnOnce() -> T) -> (T, bool) {
    GRANTED.with(|left| left.set(number));
    let result = call();
    let all_granted = GRANTED.with(|left| left.replace(usize::MAX)) != usize::MAX;
    (result, !all_granted)
}

/// Asserts that each refused allocation of a search is its last item, after a beginning of `wanted`. Returns their number.
fn refusals<I>(wanted: &[Match], search: impl Fn() -> I) -> usize
where
    I: Iterator<Item = Result<Match, SearchError>>,
{
    let mut number = 0;
    loop {
        let ((found, failed, ended), was_refused) = refused(number, || {
            let (mut found, mut items) = (0, search());
            for item in items.by_ref() {
                match item {
                    Ok(m) if m == wanted[found] => found += 1,
                    Ok(_) => return (found, false, false),
                    Err(error) => {
                        return (found, error == SearchError::Memory, items.next().is_none())
                    }
                }
            }
            (found, false, true)
        });
        assert!(ended, "allocation {number}, match {found}");
        assert_eq!(failed, was_refused, "allocation {number}");
        if !was_refused {
            assert_eq!(found, wanted.len());
            return number;
        }
        number += 1;
    }
}

#[test]
fn refused_allocations_are_errors_of_try_calls() {
    let re = Regex::new("(a)|(?<b>b)").unwrap();
    let text = "ab".repeat(50);
    let wanted: Vec<Match> = re.find_iter(&text).collect();
    // Each match has an allocation of its own, and the buffer of a search has some.
    assert!(refusals(&wanted, || re.try_find_from(&text, 0)) > wanted.len());
    assert!(refusals(&wanted, || re.find_from_limited(&text, 0, u64::MAX)) > wanted.len());
    assert!(refusals(&wanted, || re.find_from_in_work(&text, 0, u64::MAX)) > wanted.len());
    let units: Vec<u16> = text.encode_utf16().collect();
    assert!(refusals(&wanted, || re.try_find_from_utf16(&units, 0)) > wanted.len());
    let bounded = re.bounded().unwrap();
    assert!(refusals(&wanted, || bounded.find_iter(&text)) > wanted.len());
    for number in 0..2 {
        assert_eq!(
            refused(number, || re.try_match_at(&text, 1)),
            (Err(SearchError::Memory), true)
        );
    }
    assert_eq!(re.try_match_at(&text, 1).unwrap().as_ref(), wanted.get(1));
}

#[test]
fn refused_allocations_panic_in_other_calls() {
    let re = Regex::new("(a)").unwrap();
    for number in 0..8 {
        let (counted, was_refused) = refused(number, || {
            catch_unwind(AssertUnwindSafe(|| re.find_iter("aaaaaaaa").count()))
        });
        assert!(was_refused && counted.is_err());
        assert_eq!(re.find_iter("aaaaaaaa").count(), 8);
    }
}
