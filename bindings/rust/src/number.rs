//! Point operations on numbers. A number is an `i64`, a count of thousandths; sums, differences and products wrap at its ends.
use crate::sys;

fn maybe(m: sys::Maybe) -> Option<i64> {
    m.there.then_some(m.number)
}

// Every function of this file is a call with numbers alone, which is good for any of them.
macro_rules! one {
    ($(#[$doc:meta])* $name:ident, $call:ident) => {
        $(#[$doc])*
        #[must_use]
        pub fn $name(x: i64) -> i64 {
            unsafe { sys::$call(x) }
        }
    };
}

macro_rules! two {
    ($(#[$doc:meta])* $name:ident, $call:ident) => {
        $(#[$doc])*
        #[must_use]
        pub fn $name(x: i64, y: i64) -> i64 {
            unsafe { sys::$call(x, y) }
        }
    };
}

one!(
    /// The negative of `x`; that of `i64::MIN` is itself.
    neg, juwenfo_number_neg
);
one!(
    /// The magnitude of `x`; that of `i64::MIN` is itself.
    abs, juwenfo_number_abs
);
one!(
    /// 1000 where `x` is 0, else 0.
    not, juwenfo_number_not
);
two!(
    /// The sum, wrapped.
    add, juwenfo_number_add
);
two!(
    /// The difference, wrapped.
    sub, juwenfo_number_sub
);
two!(
    /// The product as thousandths: wrapped, then divided by 1000, so from −9223372036854775 to 9223372036854775.
    mul, juwenfo_number_mul
);
two!(
    /// 1000 where neither is 0, else 0.
    and, juwenfo_number_and
);
two!(
    /// 1000 where one of the two is not 0, else 0.
    or, juwenfo_number_or
);
two!(
    /// 1000 where `x` is at most `y`, else 0.
    le, juwenfo_number_le
);
two!(
    /// 1000 where `x` is below `y`, else 0.
    lt, juwenfo_number_lt
);
two!(
    /// 1000 where `x` is not `y`, else 0.
    ne, juwenfo_number_ne
);

/// The quotient as thousandths: 1000 times `x`, wrapped, divided by `y` toward 0; a divisor 0 has none.
#[must_use]
pub fn div(x: i64, y: i64) -> Option<i64> {
    maybe(unsafe { sys::juwenfo_number_div(x, y) })
}

/// The remainder, with the sign of `x`; a divisor 0 has none.
#[must_use]
pub fn rem(x: i64, y: i64) -> Option<i64> {
    maybe(unsafe { sys::juwenfo_number_rem(x, y) })
}

/// The number after `x`; there is none after `i64::MAX`.
#[must_use]
pub fn next(x: i64) -> Option<i64> {
    maybe(unsafe { sys::juwenfo_number_next(x) })
}

/// The number before `x`; there is none before `i64::MIN`.
#[must_use]
pub fn prev(x: i64) -> Option<i64> {
    maybe(unsafe { sys::juwenfo_number_prev(x) })
}

/// Nonzero is true.
#[must_use]
pub fn as_bool(x: i64) -> bool {
    unsafe { sys::juwenfo_number_as_bool(x) }
}
