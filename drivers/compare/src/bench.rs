//! Times of every set operation, the archive's and the original's in turns: the least of many short rounds.
//! The original's operators take their left set by value: the copies are made before the clock runs. Its figure holds the freeing of the answer,
//! the archive's the test of its arguments and the zeroing of its work.
use crate::calls::Op;
use std::hint::black_box;
use std::time::Instant;
use yogi_oracle::arith::interval::{from_ends, NumberIntervals};

/// n intervals: start, step from one to the next, width.
pub fn comb(n: i64, (base, step, width): (i64, i64, i64)) -> Vec<i64> {
    (0..n).flat_map(|i| [base + i * step, base + i * step + width]).collect()
}

type Shape = (&'static str, (i64, i64, i64), (i64, i64, i64));

/// Results that stay apart, results that join, and results that wrap.
pub const SHAPES: [Shape; 3] = [
    ("apart", (-7_000_000_000, 900_000_007, 5_000), (-3_000_000_000, 410_000_003, 7_000)),
    ("joining", (-40, 5, 2), (-30, 4, 1)),
    ("wrapping", (-9_000_000_000_000_000_000, 1_100_000_000_000_000_007, 1_000_000_000_000), (-8_000_000_000_000_000_000, 1_000_000_000_000_000_003, 1_000_000_000)),
];

fn original(name: &str) -> fn(NumberIntervals, &NumberIntervals) -> NumberIntervals {
    match name {
        "neg" => |l, _| -l,
        "abs" => |mut l, _| {
            l.abs();
            l
        },
        "add" => |l, r| l + r,
        "sub" => |l, r| l - r,
        "mul" => |l, r| l * r,
        "div" => |l, r| l / r,
        "rem" => |l, r| l % r,
        "not" => |l, _| !l,
        "and" => |l, r| l & r,
        "or" => |l, r| l | r,
        "le" => |l, r| l.int_le(r),
        "lt" => |l, r| l.int_lt(r),
        "ne" => |l, r| l.int_ne(r),
        "union" => |l, r| l.union(r),
        _ => |l, r| l.intersect(r),
    }
}

/// The comparisons, union and intersect read their left set: a copy that they drop would be charged to them.
fn original_ref(name: &str) -> Option<fn(&NumberIntervals, &NumberIntervals) -> NumberIntervals> {
    Some(match name {
        "le" => |l, r| l.int_le(r),
        "lt" => |l, r| l.int_lt(r),
        "ne" => |l, r| l.int_ne(r),
        "union" => |l, r| l.union(r),
        "intersect" => |l, r| l.intersect(r),
        _ => return None,
    })
}

/// Nanoseconds a call, the archive's and the original's.
fn pair(op: &Op, left: &[i64], right: &[i64], rounds: usize) -> (f64, f64) {
    let (l, r) = (from_ends(left, false), from_ends(right, false));
    let (mut work, mut out) = (vec![0i64; 8192], vec![0i64; 8192]);
    let (by_value, by_ref) = (original(op.name), original_ref(op.name));
    let calls = (65536 / (left.len() * right.len() * (1 + op.factor))).clamp(16, 2048);
    let (mut ours, mut theirs) = (f64::MAX, f64::MAX);
    for _ in 0..rounds {
        let t = Instant::now();
        for _ in 0..calls {
            black_box(op.run(black_box(left), false, black_box(right), &mut work, &mut out));
        }
        ours = ours.min(t.elapsed().as_nanos() as f64 / calls as f64);
        let ns = match by_ref {
            Some(f) => {
                let t = Instant::now();
                for _ in 0..calls {
                    black_box(f(black_box(&l), black_box(&r)));
                }
                t.elapsed().as_nanos()
            }
            None => {
                let copies: Vec<NumberIntervals> = (0..calls).map(|_| l.clone()).collect();
                let t = Instant::now();
                for copy in copies {
                    black_box(by_value(black_box(copy), black_box(&r)));
                }
                t.elapsed().as_nanos()
            }
        };
        theirs = theirs.min(ns as f64 / calls as f64);
    }
    (ours, theirs)
}

pub fn all(rounds: usize, ops: &[Op]) {
    let (mut product, mut cells, mut missed) = (0.0f64, 0u32, vec![]);
    println!("ours / original in ns, and the ratio; least of {rounds} rounds");
    for (shape, ls, rs) in SHAPES {
        println!("\n| {shape} | 1x1 | | 4x4 | | 16x16 | |\n|---|---|---|---|---|---|---|");
        for op in ops {
            print!("| {} |", op.name);
            for n in [1, 4, 16] {
                let (ours, theirs) = pair(op, &comb(n, ls), &comb(n, rs), rounds);
                let ratio = ours / theirs;
                print!(" {ours:.0} / {theirs:.0} | {ratio:.2} |");
                product += ratio.ln();
                cells += 1;
                if ratio > 1.0 {
                    missed.push(format!("{} {n}x{n} {shape} {ratio:.2}", op.name));
                }
            }
            println!();
        }
    }
    println!("\ngeometric mean of the {cells} ratios: {:.3}; above 1: {}", (product / cells as f64).exp(), if missed.is_empty() { "none".into() } else { missed.join(", ") });
}
