//! The members around a number: nearest and within against their definitions in plain arithmetic, and their times beside intersect.
use crate::bench::{comb, SHAPES};
use crate::calls::*;
use crate::cases::Rng;
use crate::compare::{fault, untouched, Tally, GUARD};
use crate::reading::{refusal, MAX, MIN};
use std::hint::black_box;
use std::time::Instant;

fn nearest(set: &[i64], x: i64) -> Member {
    // The pointer is good for the length beside it; so are those of within, and its two slices do not overlap.
    unsafe { juwenfo_set_nearest(set.as_ptr(), set.len(), x) }
}

fn within(set: &[i64], x: i64, distance: u64, out: &mut [i64]) -> Answer {
    unsafe { juwenfo_set_within(set.as_ptr(), set.len(), x, distance, out.as_mut_ptr(), out.len()) }
}

fn away(x: i64, y: i64) -> i128 {
    (x as i128 - y as i128).abs()
}

/// No member is closer than x itself, where it is one, or else than some end.
fn closest(set: &[i64], x: i64) -> i64 {
    let inside = set.chunks(2).any(|i| i[0] <= x && x <= i[1]);
    set.iter().copied().chain(inside.then_some(x)).min_by_key(|&m| (away(x, m), m)).unwrap()
}

fn cut(set: &[i64], x: i64, distance: u64) -> Vec<i64> {
    let (lo, hi) = (x as i128 - distance as i128, x as i128 + distance as i128);
    let parts = set.chunks(2).map(|i| [lo.max(i[0] as i128), hi.min(i[1] as i128)]);
    parts.filter(|p| p[0] <= p[1]).flatten().map(|z| z as i64).collect()
}

/// Anywhere, beside an end, or in the middle of two ends.
fn number(g: &mut Rng, set: &[i64]) -> i64 {
    if set.is_empty() || g.one_in(3) {
        return g.number();
    }
    let (i, j, near) = (g.below(set.len()), g.below(set.len()), g.below(3) as i128 - 1);
    let middle = (set[i] as i128 + set[if g.one_in(2) { i } else { j }] as i128).div_euclid(2);
    (middle + near).clamp(MIN, MAX) as i64
}

/// Any, the longest ones, or about as far as an end is.
fn distance(g: &mut Rng, set: &[i64], x: i64) -> u64 {
    let near = g.below(3) as i128 - 1;
    match g.below(4) {
        0 => g.next() >> g.below(64),
        1 => u64::MAX - g.below(3) as u64,
        _ if set.is_empty() => g.below(3) as u64,
        _ => (away(x, set[g.below(set.len())]) + near).clamp(0, u64::MAX as i128) as u64,
    }
}

fn case(t: &mut Tally, g: &mut Rng, memory: &mut [i64]) {
    let set = if g.one_in(8) { g.spoilt() } else { g.set() };
    let x = number(g, &set);
    let (d, dirt) = (distance(g, &set, x), g.next() as i64 | 1);
    let mut refused = refusal(&set);
    if refused == 0 && set.is_empty() {
        refused = 10;
    }
    let (member, answer) = if refused == 0 { (closest(&set, x), cut(&set, x, d)) } else { (0, vec![]) };
    let end = GUARD + if g.one_in(3) { set.len() } else { g.length(answer.len()) };
    let short = refused == 0 && end - GUARD < answer.len();
    let (number, n) = if short { (4, 0) } else { (refused, answer.len()) };

    memory[..end + GUARD].fill(dirt);
    let kept = set.clone();
    let (m, a) = (nearest(&set, x), within(&set, x, d, &mut memory[GUARD..end]));
    if m != (Member { member, number: refused }) {
        fault(t, "nearest", format_args!("{set:?} {x}: {m:?}, should be {member}, {refused}"));
    }
    if a != (Answer { count: n, number, flag: 0 }) || memory[GUARD..GUARD + n] != answer[..n] {
        fault(t, "within", format_args!("{set:?} {x} {d}: {a:?} {:?}, should be {number}, {answer:?}", &memory[GUARD..GUARD + n]));
    }
    if !untouched(memory, 0, GUARD, dirt) || !untouched(memory, GUARD + n, end + GUARD, dirt) || set != kept {
        fault(t, "slices", format_args!("{set:?} {x} {d} out {}", end - GUARD));
    }
    t.cases += 1;
    t.refused[number as usize] += 1;
}

pub fn random(mut t: Tally, cases: u64, seed: u64) {
    let (mut g, mut memory) = (Rng::new(seed), vec![0; 100]);
    for _ in 0..cases {
        case(&mut t, &mut g, &mut memory);
    }
    let r = t.refused;
    println!("setpoints: {} cases of both calls, refused with 1: {}, 2: {}, 10: {}, within alone with 4: {}; {} faults", t.cases, r[1], r[2], r[10], r[4], t.faults);
    std::process::exit((t.faults > 0) as i32);
}

/// Nanoseconds a call, on each of the three in turn.
fn least<X, T>(rounds: usize, xs: &[X; 3], mut call: impl FnMut(&X) -> T) -> f64 {
    const CALLS: usize = 1024;
    let round = |_| {
        let t = Instant::now();
        for i in 0..CALLS {
            black_box(call(black_box(&xs[i % 3])));
        }
        t.elapsed().as_nanos() as f64 / CALLS as f64
    };
    (0..rounds).map(round).fold(f64::MAX, f64::min)
}

/// The numbers are below, in the middle of and above the set; the distance covers half of the set from its middle, and one number of it from outside.
pub fn times(rounds: usize) {
    let intersect = OPS.iter().find(|o| o.name == "intersect").unwrap();
    println!("\nns; least of {rounds} rounds\n\n| apart | 1 | 4 | 16 |\n|---|---|---|---|");
    let columns = [1, 4, 16].map(|n| {
        let set = comb(n, SHAPES[0].1);
        let (first, last) = (set[0], set[set.len() - 1]);
        let (middle, reach) = ((first + last) / 2, (last - first) / 4 + 1);
        let xs = [first - reach, middle, last + reach];
        let windows = xs.map(|x| [x - reach, x + reach]);
        let mut out = vec![0i64; 64];
        [
            least(rounds, &xs, |&x| nearest(black_box(&set), x)),
            least(rounds, &xs, |&x| within(black_box(&set), x, reach as u64, &mut out)),
            least(rounds, &windows, |w| intersect.run(black_box(&set), false, w, &mut [], &mut out)),
        ]
    });
    for (i, name) in ["nearest", "within", "intersect with the same interval"].iter().enumerate() {
        println!("| {name} | {:.0} | {:.0} | {:.0} |", columns[0][i], columns[1][i], columns[2][i]);
    }
}
