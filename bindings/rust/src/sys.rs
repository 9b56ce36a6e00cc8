//! The archive's functions as they are, with the rules of include/juwenfo.h.
#![allow(missing_docs)]

#[repr(C)]
#[must_use]
#[derive(Clone, Copy)]
pub struct Maybe {
    pub number: i64,
    pub there: bool,
}

#[repr(C)]
#[must_use]
#[derive(Clone, Copy)]
pub struct Answer {
    pub count: usize,
    pub number: u8,
    pub flag: bool,
}

#[repr(C)]
#[must_use]
#[derive(Clone, Copy)]
pub struct Member {
    pub member: i64,
    pub number: u8,
}

#[repr(C)]
#[must_use]
#[derive(Clone, Copy)]
pub struct Part {
    pub start: usize,
    pub length: usize,
}

#[repr(C)]
#[must_use]
#[derive(Clone, Copy)]
pub struct Verdict {
    pub line: usize,
    pub count: usize,
    pub number: u8,
}

#[repr(C)]
#[must_use]
#[derive(Clone, Copy)]
pub struct Text {
    pub count: usize,
    pub line: usize,
    pub number: u8,
}

extern "C" {
    pub fn juwenfo_number_neg(x: i64) -> i64;
    pub fn juwenfo_number_abs(x: i64) -> i64;
    pub fn juwenfo_number_add(x: i64, y: i64) -> i64;
    pub fn juwenfo_number_sub(x: i64, y: i64) -> i64;
    pub fn juwenfo_number_mul(x: i64, y: i64) -> i64;
    pub fn juwenfo_number_div(x: i64, y: i64) -> Maybe;
    pub fn juwenfo_number_rem(x: i64, y: i64) -> Maybe;
    pub fn juwenfo_number_next(x: i64) -> Maybe;
    pub fn juwenfo_number_prev(x: i64) -> Maybe;
    pub fn juwenfo_number_as_bool(x: i64) -> bool;
    pub fn juwenfo_number_not(x: i64) -> i64;
    pub fn juwenfo_number_and(x: i64, y: i64) -> i64;
    pub fn juwenfo_number_or(x: i64, y: i64) -> i64;
    pub fn juwenfo_number_le(x: i64, y: i64) -> i64;
    pub fn juwenfo_number_lt(x: i64, y: i64) -> i64;
    pub fn juwenfo_number_ne(x: i64, y: i64) -> i64;

    pub fn juwenfo_set_neg(l: *const i64, ln: usize, flag: bool, w: *mut i64, wn: usize, o: *mut i64, on: usize) -> Answer;
    pub fn juwenfo_set_abs(l: *const i64, ln: usize, flag: bool, w: *mut i64, wn: usize, o: *mut i64, on: usize) -> Answer;
    pub fn juwenfo_set_add(l: *const i64, ln: usize, flag: bool, r: *const i64, rn: usize, w: *mut i64, wn: usize, o: *mut i64, on: usize) -> Answer;
    pub fn juwenfo_set_sub(l: *const i64, ln: usize, flag: bool, r: *const i64, rn: usize, w: *mut i64, wn: usize, o: *mut i64, on: usize) -> Answer;
    pub fn juwenfo_set_mul(l: *const i64, ln: usize, flag: bool, r: *const i64, rn: usize, w: *mut i64, wn: usize, o: *mut i64, on: usize) -> Answer;
    pub fn juwenfo_set_div(l: *const i64, ln: usize, flag: bool, r: *const i64, rn: usize, w: *mut i64, wn: usize, o: *mut i64, on: usize) -> Answer;
    pub fn juwenfo_set_rem(l: *const i64, ln: usize, flag: bool, r: *const i64, rn: usize, w: *mut i64, wn: usize, o: *mut i64, on: usize) -> Answer;
    pub fn juwenfo_set_not(l: *const i64, ln: usize, o: *mut i64, on: usize) -> Answer;
    pub fn juwenfo_set_and(l: *const i64, ln: usize, r: *const i64, rn: usize, o: *mut i64, on: usize) -> Answer;
    pub fn juwenfo_set_or(l: *const i64, ln: usize, r: *const i64, rn: usize, o: *mut i64, on: usize) -> Answer;
    pub fn juwenfo_set_le(l: *const i64, ln: usize, r: *const i64, rn: usize, o: *mut i64, on: usize) -> Answer;
    pub fn juwenfo_set_lt(l: *const i64, ln: usize, r: *const i64, rn: usize, o: *mut i64, on: usize) -> Answer;
    pub fn juwenfo_set_ne(l: *const i64, ln: usize, r: *const i64, rn: usize, o: *mut i64, on: usize) -> Answer;
    pub fn juwenfo_set_union(l: *const i64, ln: usize, r: *const i64, rn: usize, o: *mut i64, on: usize) -> Answer;
    pub fn juwenfo_set_intersect(l: *const i64, ln: usize, r: *const i64, rn: usize, o: *mut i64, on: usize) -> Answer;
    pub fn juwenfo_set_nearest(s: *const i64, sn: usize, x: i64) -> Member;
    pub fn juwenfo_set_within(s: *const i64, sn: usize, x: i64, distance: u64, o: *mut i64, on: usize) -> Answer;

    pub fn juwenfo_line(text: *const u8, len: usize, n: usize) -> Part;
    pub fn juwenfo_judge(text: *const u8, len: usize) -> Verdict;
    pub fn juwenfo_check(text: *const u8, len: usize, sets: *mut i64, sn: usize, work: *mut i64, wn: usize) -> Verdict;
    pub fn juwenfo_run(text: *const u8, len: usize, lent: *mut i64, n: usize) -> Verdict;
    pub fn juwenfo_listing(text: *const u8, len: usize, out: *mut u8, n: usize) -> Text;
    pub fn juwenfo_page(text: *const u8, len: usize, out: *mut u8, n: usize) -> Text;
}
