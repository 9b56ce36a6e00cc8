//! The archive against the original and against document 01's rules: answers, refusals, flags, and every number of the lent slices.
use crate::calls::*;
use crate::cases::{edge_spans, ends, Rng};
use crate::reading;
use yogi_oracle::call::{point_call, set_call};

/// Numbers kept on each side of a lent slice, which no call may alter.
pub const GUARD: usize = 8;

pub struct Tally {
    pub cases: u64,
    pub refused: [u64; 11],
    pub named: u64,
    pub original: u64,
    pub faults: u64,
}

/// Lent memory, used again for every case.
pub struct Lent {
    work: Vec<i64>,
    out: Vec<i64>,
}

impl Lent {
    pub fn new() -> Lent {
        Lent { work: vec![0; 9000], out: vec![0; 9000] }
    }
}

pub fn fault(tally: &mut Tally, what: &str, case: std::fmt::Arguments) {
    tally.faults += 1;
    if tally.faults <= 20 {
        println!("FAULT: {what}: {case}");
    }
}

/// What document 01 says a call returns.
fn expected(op: &Op, left: &[i64], right: &[i64], work: usize, out: usize, answer: &(Vec<i64>, bool)) -> Answer {
    let refuse = |number| Answer { count: 0, number, flag: 0 };
    let mut k = reading::refusal(left);
    if k == 0 && op.is_binary() {
        k = reading::refusal(right);
    }
    if k != 0 {
        refuse(k)
    } else if work < op.need(left, right) {
        refuse(3)
    } else if out < answer.0.len() {
        refuse(4)
    } else {
        Answer { count: answer.0.len(), number: 0, flag: answer.1 as u8 }
    }
}

pub fn untouched(memory: &[i64], from: usize, to: usize, dirt: i64) -> bool {
    memory[from..to].iter().all(|&x| x == dirt)
}

/// Calls the archive on lent slices of the lengths `wn` and `on`, filled with dirt, and compares all that can be seen.
fn call(t: &mut Tally, lent: &mut Lent, op: &Op, left: &[i64], flag: bool, right: &[i64], wn: usize, on: usize, dirt: i64, answer: &(Vec<i64>, bool)) {
    let (we, oe) = (GUARD + wn, GUARD + on);
    lent.work[..we + GUARD].fill(dirt);
    lent.out[..oe + GUARD].fill(dirt);
    let (l, r) = (left.to_vec(), right.to_vec());
    let got = op.run(left, flag, right, &mut lent.work[GUARD..we], &mut lent.out[GUARD..oe]);
    let want = expected(op, left, right, wn, on, answer);
    let (name, n) = (op.name, want.count);
    if got != want {
        fault(t, "returned", format_args!("{name} flag {flag} left {left:?} right {right:?} work {wn} out {on}: {got:?}, should be {want:?}"));
    }
    if lent.out[GUARD..GUARD + n] != answer.0[..n] {
        fault(t, "answer", format_args!("{name} flag {flag} left {left:?} right {right:?}: {:?}, should be {:?}", &lent.out[GUARD..GUARD + n], answer.0));
    }
    let zeroed = if op.factor > 0 && matches!(want.number, 0 | 4) { op.need(left, right) } else { 0 };
    let kept = untouched(&lent.out, 0, GUARD, dirt)
        && untouched(&lent.out, GUARD + n, oe + GUARD, dirt)
        && untouched(&lent.work, 0, GUARD, dirt)
        && untouched(&lent.work, GUARD, GUARD + zeroed, 0)
        && untouched(&lent.work, GUARD + zeroed, we + GUARD, dirt)
        && left == l
        && right == r;
    if !kept {
        fault(t, "slices", format_args!("{name} flag {flag} left {left:?} right {right:?} work {wn} out {on}"));
    }
    t.cases += 1;
    t.refused[want.number as usize] += 1;
}

/// Document 01's answer, as 02 amends it; outside the differences that 01 names, the original's must be the same, its product intersected with the range of
/// products by 02 (vii).
fn settled(t: &mut Tally, op: &Op, left: &[i64], flag: bool, right: &[i64], right_flag: bool) -> (Vec<i64>, bool) {
    let (set, mark) = reading::answer(op.name, left, flag, right);
    let ours = (ends(&set), mark);
    if reading::named(op.name, left, right) {
        t.named += 1;
        return ours;
    }
    let (mark, mut set) = set_call(op.name, flag, left, right_flag, right).unwrap();
    if op.name == "le" {
        set.sort_unstable();
    }
    if op.name == "mul" {
        let cut: Vec<reading::Span> = reading::spans(&set).filter_map(reading::among_products).collect();
        set = ends(&cut);
    }
    t.original += 1;
    if (&set, mark) != (&ours.0, ours.1) {
        fault(t, "a difference that 01 does not name", format_args!("{} flag {flag} left {left:?} right {right:?}: original {set:?} {mark}, 01 {ours:?}", op.name));
    }
    ours
}

/// One random case.
pub fn random(t: &mut Tally, lent: &mut Lent, g: &mut Rng, op: &Op) {
    let spoil = g.below(12);
    let left = if spoil == 0 || spoil == 2 { g.spoilt() } else { g.set() };
    let right = match (op.is_binary(), spoil) {
        (false, _) => vec![],
        (true, 1 | 2) => g.spoilt(),
        _ => g.set(),
    };
    let flag = g.one_in(4);
    let good = reading::refusal(&left) == 0 && reading::refusal(&right) == 0;
    let right_flag = g.one_in(2);
    let answer = if good { settled(t, op, &left, flag, &right, right_flag) } else { (vec![], false) };
    let need = op.need(&left, &right).min(8192);
    let (wn, on) = (if op.factor > 0 { g.length(need) } else { 0 }, g.length(answer.0.len()));
    let dirt = g.next() as i64 | 1;
    call(t, lent, op, &left, flag, &right, wn, on, dirt, &answer);
}

/// Every pair of intervals with their ends at the edges.
pub fn edges(t: &mut Tally, lent: &mut Lent, op: &Op) {
    let spans = edge_spans();
    let none: [&[i64]; 1] = [&[]];
    let rights: Vec<&[i64]> = if op.is_binary() { spans.iter().map(|s| &s[..]).collect() } else { none.to_vec() };
    for left in &spans {
        for right in &rights {
            let answer = settled(t, op, left, false, right, false);
            let need = if op.factor > 0 { op.need(left, right) } else { 0 };
            call(t, lent, op, left, false, right, need, answer.0.len(), 77, &answer);
        }
    }
}

fn truth(b: bool) -> i64 {
    1000 * b as i64
}

/// The point operations on two numbers, those of the original by its own answers.
pub fn points(t: &mut Tally, x: i64, y: i64) {
    let whole = |n: i64| Maybe { number: n, there: 1 };
    let ours = unsafe {
        [
            ("neg", whole(juwenfo_number_neg(x))),
            ("abs", whole(juwenfo_number_abs(x))),
            ("add", whole(juwenfo_number_add(x, y))),
            ("sub", whole(juwenfo_number_sub(x, y))),
            ("mul", whole(juwenfo_number_mul(x, y))),
            ("div", juwenfo_number_div(x, y)),
            ("rem", juwenfo_number_rem(x, y)),
            ("next", juwenfo_number_next(x)),
            ("prev", juwenfo_number_prev(x)),
            ("not", whole(juwenfo_number_not(x))),
            ("as_bool", whole(juwenfo_number_as_bool(x) as i64)),
            ("and", whole(juwenfo_number_and(x, y))),
            ("or", whole(juwenfo_number_or(x, y))),
            ("le", whole(juwenfo_number_le(x, y))),
            ("lt", whole(juwenfo_number_lt(x, y))),
            ("ne", whole(juwenfo_number_ne(x, y))),
        ]
    };
    for (name, got) in ours {
        let want = match name {
            "as_bool" => Some((x != 0) as i64),
            "and" => Some(truth(x != 0 && y != 0)),
            "or" => Some(truth(x != 0 || y != 0)),
            "le" => Some(truth(x <= y)),
            "lt" => Some(truth(x < y)),
            "ne" => Some(truth(x != y)),
            _ => {
                t.original += 1;
                point_call(name, x, y).unwrap()
            }
        };
        let want = want.map_or(Maybe { number: 0, there: 0 }, whole);
        t.cases += 1;
        t.refused[0] += 1;
        if got != want {
            fault(t, "number", format_args!("{name} {x} {y}: {got:?}, should be {want:?}"));
        }
    }
}
