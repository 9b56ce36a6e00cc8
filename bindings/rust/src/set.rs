//! Set operations. A set is the ends of its intervals, start and end in turn; it is normal if every start is at most its end and at least one number
//! is missing between neighbours. Each call but [`nearest`] writes its answer, again a normal set, to `out`.
//!
//! Refusals, in this order: 2 and 1 of the left set, 2 and 1 of the right set, 3 (`work` is shorter than [`need`]), 4 (`out` is shorter than the answer).
//! After 1, 2 and 3 every slice is as lent; after 4 `out` is; what stands behind the answer, or behind the need, is never written.
//! [`nearest`] and [`within`] refuse an empty set with 10, after 2 and 1 and before 4.
//!
//! One flag does not speak for the calls before it: no call asks for the right set's, and `not`, `and`, `or`, `le`, `lt`, `ne`, `union`, `intersect`
//! and `within` answer false. So who chains calls keeps the OR of the flags of all answers on the way.
use crate::sys;

/// How many numbers were written to `out`, and the flag of the answer.
#[derive(Clone, Copy, Debug, PartialEq, Eq)]
pub struct Written {
    /// Numbers, two for each interval.
    pub count: usize,
    /// The flag lent with the left set, or this call is a `div` or `rem` whose left set has a member and whose right set holds 0; false where no flag is lent.
    pub flag: bool,
}

/// The number of a refusal, 1 to 4 or 10.
#[derive(Clone, Copy, Debug, PartialEq, Eq)]
pub struct Refused(pub u8);

/// What a set call returns.
pub type Reply = Result<Written, Refused>;

fn reply(a: sys::Answer) -> Reply {
    match a.number {
        0 => Ok(Written { count: a.count, flag: a.flag }),
        k => Err(Refused(k)),
    }
}

/// k of `neg`, `abs`, `add`, `sub` and `mul`.
pub const PLAIN: usize = 2;
/// k of `div`.
pub const DIV: usize = 12;
/// k of `rem`.
pub const REM: usize = 16;

/// The numbers of work that a call needs: 2·k for each pair of intervals. `right` is a set of one interval for `neg` and `abs`.
#[must_use]
pub const fn need(k: usize, left: &[i64], right: &[i64]) -> usize {
    2 * k * (left.len() / 2) * (right.len() / 2)
}

// Each pointer is good for its slice's length, and the borrow checker keeps exclusive slices apart from all others.
macro_rules! one_work {
    ($(#[$doc:meta])* $name:ident, $call:ident) => {
        $(#[$doc])*
        pub fn $name(left: &[i64], flag: bool, work: &mut [i64], out: &mut [i64]) -> Reply {
            reply(unsafe { sys::$call(left.as_ptr(), left.len(), flag, work.as_mut_ptr(), work.len(), out.as_mut_ptr(), out.len()) })
        }
    };
}

macro_rules! two_work {
    ($(#[$doc:meta])* $name:ident, $call:ident) => {
        $(#[$doc])*
        pub fn $name(left: &[i64], flag: bool, right: &[i64], work: &mut [i64], out: &mut [i64]) -> Reply {
            reply(unsafe {
                sys::$call(left.as_ptr(), left.len(), flag, right.as_ptr(), right.len(), work.as_mut_ptr(), work.len(), out.as_mut_ptr(), out.len())
            })
        }
    };
}

macro_rules! two {
    ($(#[$doc:meta])* $name:ident, $call:ident) => {
        $(#[$doc])*
        pub fn $name(left: &[i64], right: &[i64], out: &mut [i64]) -> Reply {
            reply(unsafe { sys::$call(left.as_ptr(), left.len(), right.as_ptr(), right.len(), out.as_mut_ptr(), out.len()) })
        }
    };
}

one_work!(
    /// Just the negatives of the members, wrapped. Work: 4 numbers an interval.
    neg, juwenfo_set_neg
);
one_work!(
    /// Just the magnitudes of the members, wrapped. Work: 4 numbers an interval.
    abs, juwenfo_set_abs
);
two_work!(
    /// Just the sums of members, wrapped. Work: 4 numbers a pair.
    add, juwenfo_set_add
);
two_work!(
    /// Just the differences of members, wrapped. Work: 4 numbers a pair.
    sub, juwenfo_set_sub
);
two_work!(
    /// At least the products of members, as [`crate::number::mul`] gives them, and nothing outside −9223372036854775 to 9223372036854775. Work: 4 numbers a pair.
    mul, juwenfo_set_mul
);
two_work!(
    /// At least the quotients of members; a 0 in the divisor sets the flag if the left set has a member. Work: 24 numbers a pair.
    div, juwenfo_set_div
);
two_work!(
    /// At least the remainders of members; a 0 in the divisor sets the flag if the left set has a member. Work: 32 numbers a pair.
    rem, juwenfo_set_rem
);
two!(
    /// What [`crate::number::and`] can give: a set of 0 and 1000.
    and, juwenfo_set_and
);
two!(
    /// What [`crate::number::or`] can give: a set of 0 and 1000.
    or, juwenfo_set_or
);
two!(
    /// What [`crate::number::le`] can give: a set of 0 and 1000.
    le, juwenfo_set_le
);
two!(
    /// What [`crate::number::lt`] can give: a set of 0 and 1000.
    lt, juwenfo_set_lt
);
two!(
    /// What [`crate::number::ne`] can give: a set of 0 and 1000.
    ne, juwenfo_set_ne
);
two!(
    /// Just the members of either set.
    union, juwenfo_set_union
);
two!(
    /// Just the members of both sets.
    intersect, juwenfo_set_intersect
);

/// What [`crate::number::not`] can give: a set of 0 and 1000.
pub fn not(left: &[i64], out: &mut [i64]) -> Reply {
    reply(unsafe { sys::juwenfo_set_not(left.as_ptr(), left.len(), out.as_mut_ptr(), out.len()) })
}

/// The member closest to `x`; of two at the same distance the lower one.
pub fn nearest(set: &[i64], x: i64) -> Result<i64, Refused> {
    let m = unsafe { sys::juwenfo_set_nearest(set.as_ptr(), set.len(), x) };
    match m.number {
        0 => Ok(m.member),
        k => Err(Refused(k)),
    }
}

/// Just the members at most `distance` away from `x`; distances do not wrap. An `out` as long as `set` is never too short.
pub fn within(set: &[i64], x: i64, distance: u64, out: &mut [i64]) -> Reply {
    reply(unsafe { sys::juwenfo_set_within(set.as_ptr(), set.len(), x, distance, out.as_mut_ptr(), out.len()) })
}
