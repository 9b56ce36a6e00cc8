//! The archive's calls, as they are declared in include/juwenfo.h. A flag of an answer is read as a byte, so that one that is neither 0 nor 1 shows.

#[repr(C)]
#[derive(Clone, Copy, Debug, PartialEq, Eq)]
pub struct Answer {
    pub count: usize,
    pub number: u8,
    pub flag: u8,
}

#[repr(C)]
#[derive(Clone, Copy, Debug, PartialEq, Eq)]
pub struct Maybe {
    pub number: i64,
    pub there: u8,
}

#[cfg(setpoints)]
#[repr(C)]
#[derive(Clone, Copy, Debug, PartialEq, Eq)]
pub struct Member {
    pub member: i64,
    pub number: u8,
}

#[cfg(sheets)]
#[repr(C)]
#[derive(Clone, Copy, Debug, PartialEq, Eq)]
pub struct Verdict {
    pub line: usize,
    pub count: usize,
    pub number: u8,
}

#[cfg(pages)]
#[repr(C)]
#[derive(Clone, Copy, Debug, PartialEq, Eq)]
pub struct Text {
    pub count: usize,
    pub line: usize,
    pub number: u8,
}

pub type OneWork = unsafe extern "C" fn(*const i64, usize, bool, *mut i64, usize, *mut i64, usize) -> Answer;
pub type TwoWork = unsafe extern "C" fn(*const i64, usize, bool, *const i64, usize, *mut i64, usize, *mut i64, usize) -> Answer;
pub type One = unsafe extern "C" fn(*const i64, usize, *mut i64, usize) -> Answer;
pub type Two = unsafe extern "C" fn(*const i64, usize, *const i64, usize, *mut i64, usize) -> Answer;

extern "C" {
    fn juwenfo_set_neg(l: *const i64, ln: usize, f: bool, w: *mut i64, wn: usize, o: *mut i64, on: usize) -> Answer;
    fn juwenfo_set_abs(l: *const i64, ln: usize, f: bool, w: *mut i64, wn: usize, o: *mut i64, on: usize) -> Answer;
    fn juwenfo_set_add(l: *const i64, ln: usize, f: bool, r: *const i64, rn: usize, w: *mut i64, wn: usize, o: *mut i64, on: usize) -> Answer;
    fn juwenfo_set_sub(l: *const i64, ln: usize, f: bool, r: *const i64, rn: usize, w: *mut i64, wn: usize, o: *mut i64, on: usize) -> Answer;
    fn juwenfo_set_mul(l: *const i64, ln: usize, f: bool, r: *const i64, rn: usize, w: *mut i64, wn: usize, o: *mut i64, on: usize) -> Answer;
    fn juwenfo_set_div(l: *const i64, ln: usize, f: bool, r: *const i64, rn: usize, w: *mut i64, wn: usize, o: *mut i64, on: usize) -> Answer;
    fn juwenfo_set_rem(l: *const i64, ln: usize, f: bool, r: *const i64, rn: usize, w: *mut i64, wn: usize, o: *mut i64, on: usize) -> Answer;
    fn juwenfo_set_not(l: *const i64, ln: usize, o: *mut i64, on: usize) -> Answer;
    fn juwenfo_set_and(l: *const i64, ln: usize, r: *const i64, rn: usize, o: *mut i64, on: usize) -> Answer;
    fn juwenfo_set_or(l: *const i64, ln: usize, r: *const i64, rn: usize, o: *mut i64, on: usize) -> Answer;
    fn juwenfo_set_le(l: *const i64, ln: usize, r: *const i64, rn: usize, o: *mut i64, on: usize) -> Answer;
    fn juwenfo_set_lt(l: *const i64, ln: usize, r: *const i64, rn: usize, o: *mut i64, on: usize) -> Answer;
    fn juwenfo_set_ne(l: *const i64, ln: usize, r: *const i64, rn: usize, o: *mut i64, on: usize) -> Answer;
    fn juwenfo_set_union(l: *const i64, ln: usize, r: *const i64, rn: usize, o: *mut i64, on: usize) -> Answer;
    fn juwenfo_set_intersect(l: *const i64, ln: usize, r: *const i64, rn: usize, o: *mut i64, on: usize) -> Answer;

    #[cfg(setpoints)]
    pub fn juwenfo_set_nearest(s: *const i64, sn: usize, x: i64) -> Member;
    #[cfg(setpoints)]
    pub fn juwenfo_set_within(s: *const i64, sn: usize, x: i64, distance: u64, o: *mut i64, on: usize) -> Answer;

    #[cfg(sheets)]
    pub fn juwenfo_check(text: *const u8, n: usize, sets: *mut i64, sn: usize, work: *mut i64, wn: usize) -> Verdict;

    #[cfg(pages)]
    pub fn juwenfo_page(text: *const u8, n: usize, out: *mut u8, on: usize) -> Text;

    pub fn juwenfo_number_neg(x: i64) -> i64;
    pub fn juwenfo_number_abs(x: i64) -> i64;
    pub fn juwenfo_number_add(x: i64, y: i64) -> i64;
    pub fn juwenfo_number_sub(x: i64, y: i64) -> i64;
    pub fn juwenfo_number_mul(x: i64, y: i64) -> i64;
    pub fn juwenfo_number_div(x: i64, y: i64) -> Maybe;
    pub fn juwenfo_number_rem(x: i64, y: i64) -> Maybe;
    pub fn juwenfo_number_next(x: i64) -> Maybe;
    pub fn juwenfo_number_prev(x: i64) -> Maybe;
    pub fn juwenfo_number_as_bool(x: i64) -> bool;
    pub fn juwenfo_number_not(x: i64) -> i64;
    pub fn juwenfo_number_and(x: i64, y: i64) -> i64;
    pub fn juwenfo_number_or(x: i64, y: i64) -> i64;
    pub fn juwenfo_number_le(x: i64, y: i64) -> i64;
    pub fn juwenfo_number_lt(x: i64, y: i64) -> i64;
    pub fn juwenfo_number_ne(x: i64, y: i64) -> i64;
}

#[derive(Clone, Copy)]
pub enum Call {
    OneWork(OneWork),
    TwoWork(TwoWork),
    One(One),
    Two(Two),
}

/// A set operation: its name, its call, and k, so that work needs 2·k·n·m numbers.
#[derive(Clone, Copy)]
pub struct Op {
    pub name: &'static str,
    pub call: Call,
    pub factor: usize,
}

const fn op(name: &'static str, call: Call, factor: usize) -> Op {
    Op { name, call, factor }
}

pub const OPS: [Op; 15] = [
    op("neg", Call::OneWork(juwenfo_set_neg), 2),
    op("abs", Call::OneWork(juwenfo_set_abs), 2),
    op("add", Call::TwoWork(juwenfo_set_add), 2),
    op("sub", Call::TwoWork(juwenfo_set_sub), 2),
    op("mul", Call::TwoWork(juwenfo_set_mul), 2),
    op("div", Call::TwoWork(juwenfo_set_div), 12),
    op("rem", Call::TwoWork(juwenfo_set_rem), 16),
    op("not", Call::One(juwenfo_set_not), 0),
    op("and", Call::Two(juwenfo_set_and), 0),
    op("or", Call::Two(juwenfo_set_or), 0),
    op("le", Call::Two(juwenfo_set_le), 0),
    op("lt", Call::Two(juwenfo_set_lt), 0),
    op("ne", Call::Two(juwenfo_set_ne), 0),
    op("union", Call::Two(juwenfo_set_union), 0),
    op("intersect", Call::Two(juwenfo_set_intersect), 0),
];

impl Op {
    pub fn is_binary(&self) -> bool {
        matches!(self.call, Call::TwoWork(_) | Call::Two(_))
    }

    /// How many numbers of work the call needs.
    pub fn need(&self, left: &[i64], right: &[i64]) -> usize {
        let m = if self.is_binary() { right.len() / 2 } else { 1 };
        2 * self.factor * (left.len() / 2) * m
    }

    pub fn run(&self, left: &[i64], flag: bool, right: &[i64], work: &mut [i64], out: &mut [i64]) -> Answer {
        let (l, ln, r, rn) = (left.as_ptr(), left.len(), right.as_ptr(), right.len());
        let (w, wn, o, on) = (work.as_mut_ptr(), work.len(), out.as_mut_ptr(), out.len());
        // Each pointer is good for the length beside it, and the two exclusive slices overlap nothing.
        unsafe {
            match self.call {
                Call::OneWork(f) => f(l, ln, flag, w, wn, o, on),
                Call::TwoWork(f) => f(l, ln, flag, r, rn, w, wn, o, on),
                Call::One(f) => f(l, ln, o, on),
                Call::Two(f) => f(l, ln, r, rn, o, on),
            }
        }
    }
}
