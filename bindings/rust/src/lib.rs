//! Safe calls of Juwenfo: point operations ([`number`]), set operations ([`set`]), and sheets. Nothing is allocated.
#![no_std]
#![warn(missing_docs)]

pub mod number;
pub mod set;
pub mod sys;
mod words;

pub use words::WORDS;

/// The version of the library and of its callers, from include/juwenfo.h.
pub const VERSION: &str = env!("JUWENFO_VERSION");

/// Numbers that the check needs for its sets: [`SLOT`] for each of the 16 registers.
pub const SETS: usize = 528;
/// The numbers of one register: how many intervals, then 32 for their ends.
pub const SLOT: usize = 33;
/// Numbers of work that the check needs.
pub const WORK: usize = 8192;
/// Numbers that the run needs, one a register.
pub const LENT: usize = 16;
/// Bytes that hold any listing.
pub const LISTING: usize = 11081;
/// Bytes that hold any page.
pub const PAGE: usize = 18688;

/// A refusal (3 to 8) or a finding (20 to 22), and its line; the line is 0 for 3, 4 and 5.
#[derive(Clone, Copy, Debug, PartialEq, Eq)]
pub struct Trouble {
    /// The number of the refusal or finding.
    pub number: u8,
    /// Counted from 1.
    pub line: usize,
}

fn verdict(v: sys::Verdict) -> Result<usize, Trouble> {
    match v.number {
        0 => Ok(v.count),
        number => Err(Trouble { number, line: v.line }),
    }
}

fn written(t: sys::Text) -> Result<usize, Trouble> {
    match t.number {
        0 => Ok(t.count),
        number => Err(Trouble { number, line: t.line }),
    }
}

/// Line `n` of any bytes, counted from 1, without its LF; line 0, and a line that no LF ends, are empty.
#[must_use]
pub fn line(text: &[u8], n: usize) -> &[u8] {
    let part = unsafe { sys::juwenfo_line(text.as_ptr(), text.len(), n) };
    &text[part.start..part.start + part.length]
}

/// Reads a sheet without working it: how many lines it has.
pub fn judge(text: &[u8]) -> Result<usize, Trouble> {
    verdict(unsafe { sys::juwenfo_judge(text.as_ptr(), text.len()) })
}

/// Checks a sheet: how many lines it has if it passes. The first [`SETS`] numbers of `sets` are then the registers' sets after the last line; otherwise
/// `sets` is as lent. `work` needs [`WORK`] numbers, which are 0 afterwards unless the sheet was refused with 3 or 5 to 8. The set of a register that no line
/// has written is that from MIN to MAX.
pub fn check(text: &[u8], sets: &mut [i64], work: &mut [i64]) -> Result<usize, Trouble> {
    verdict(unsafe { sys::juwenfo_check(text.as_ptr(), text.len(), sets.as_mut_ptr(), sets.len(), work.as_mut_ptr(), work.len()) })
}

/// The ends of a register's set in the numbers that a passed check left. Panics on other numbers, or where `register` is past 15.
#[must_use]
pub fn ends(sets: &[i64], register: usize) -> &[i64] {
    let slot = &sets[SLOT * register..SLOT * (register + 1)];
    &slot[1..1 + 2 * slot[0] as usize]
}

/// Runs a sheet on the numbers that its registers hold before the first line, the first [`LENT`] of `lent`: how many lines it has if it is done. They are then the
/// registers after the last line, after 20 to 22 those before that line, and after a refusal they are as lent. A register that no line puts keeps its number.
pub fn run(text: &[u8], lent: &mut [i64]) -> Result<usize, Trouble> {
    verdict(unsafe { sys::juwenfo_run(text.as_ptr(), text.len(), lent.as_mut_ptr(), lent.len()) })
}

/// The listing of any text at the front of `out`, as the program prints it: how many bytes it has. The rest of `out` is as lent. Trouble is 4 alone, where
/// the listing is longer than `out`, and then all of `out` is as lent; [`LISTING`] bytes are always enough.
pub fn listing(text: &[u8], out: &mut [u8]) -> Result<usize, Trouble> {
    written(unsafe { sys::juwenfo_listing(text.as_ptr(), text.len(), out.as_mut_ptr(), out.len()) })
}

/// The page of a sheet that passes at the front of `out`: how many bytes it has, 73 for each interval. The rest of `out` is as lent. Trouble is that of the
/// check (5 to 8, 20, 21), or else 4, where the page is longer than `out`, and then all of `out` is as lent; [`PAGE`] bytes are always enough.
pub fn page(text: &[u8], out: &mut [u8]) -> Result<usize, Trouble> {
    written(unsafe { sys::juwenfo_page(text.as_ptr(), text.len(), out.as_mut_ptr(), out.len()) })
}
