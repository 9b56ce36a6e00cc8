//! The archive and the original in one process.
//!
//!   compare random CASES SEED [OP,OP]     random set calls: answers, refusals, lent lengths, the untouched rest of every slice
//!   compare edges [OP,OP]                 every pair of intervals with their ends at the edges
//!   compare points CASES SEED             the point operations
//!   compare setpoints CASES SEED          nearest and within, which the original has not, against plain arithmetic (where the archive has them)
//!   compare bench [ROUNDS [OP,OP]]        times of both in turns, and the ratios; then those of nearest and within
//!   compare sheets FILE..                 times of the check and the page of these sheets and of the heaviest ones (where the archive has them)
//!
//! Outside the differences that document 01 names, its rules (reading.rs) and the original must agree; inside them the archive is held to 01's rules.
//! The original's product is intersected with the range of products before it is compared (document 02, (vii)).
mod bench;
mod calls;
mod cases;
mod compare;
mod reading;
#[cfg(setpoints)]
mod setpoints;
#[cfg(sheets)]
mod sheets;

use compare::{Lent, Tally};

fn ops(names: Option<&String>) -> Vec<calls::Op> {
    calls::OPS.iter().filter(|o| names.map_or(true, |n| n.split(',').any(|x| x == o.name))).copied().collect()
}

fn report(t: Tally, what: &str) {
    let r = t.refused;
    println!("{what}: {} cases, refused with 1: {}, 2: {}, 3: {}, 4: {}; original agrees in {}, differences named by 01: {}; {} faults",
        t.cases, r[1], r[2], r[3], r[4], t.original, t.named, t.faults);
    std::process::exit((t.faults > 0) as i32);
}

fn main() {
    let a: Vec<String> = std::env::args().skip(1).collect();
    let number = |i: usize| a.get(i).and_then(|w| w.parse::<u64>().ok()).unwrap_or_else(|| panic!("a number is missing; see the top of main.rs"));
    let mut t = Tally { cases: 0, refused: [0; 11], named: 0, original: 0, faults: 0 };
    let mut lent = Lent::new();
    match a.first().map(|w| w.as_str()) {
        Some("random") => {
            let (some, mut g) = (ops(a.get(3)), cases::Rng::new(number(2)));
            for _ in 0..number(1) {
                let op = &some[g.below(some.len())];
                compare::random(&mut t, &mut lent, &mut g, op);
            }
            report(t, "random");
        }
        Some("edges") => {
            for op in ops(a.get(1)) {
                compare::edges(&mut t, &mut lent, &op);
            }
            report(t, "edges");
        }
        Some("points") => {
            let mut g = cases::Rng::new(number(2));
            while t.cases < number(1) {
                let (x, y) = (g.number(), g.number());
                compare::points(&mut t, x, y);
            }
            report(t, "points");
        }
        #[cfg(setpoints)]
        Some("setpoints") => setpoints::random(t, number(1), number(2)),
        Some("bench") => {
            let rounds = a.get(1).map_or(60, |w| w.parse().expect("ROUNDS"));
            bench::all(rounds, &ops(a.get(2)));
            #[cfg(setpoints)]
            setpoints::times(rounds);
        }
        #[cfg(sheets)]
        Some("sheets") => sheets::all(&a[1..]),
        _ => println!("compare random CASES SEED [OP,OP] | edges [OP,OP] | points CASES SEED | setpoints CASES SEED | bench [ROUNDS [OP,OP]] | sheets FILE.."),
    }
}
