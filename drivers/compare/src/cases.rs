//! Numbers, sets and lent slices to try: at the edges, near them, and anywhere.
use crate::reading::{join, Span};

pub struct Rng(u64);

const EDGES: [i64; 14] = [
    i64::MIN,
    i64::MAX,
    0,
    1,
    -1,
    1000,
    -1000,
    4,
    9223372036854775,
    -9223372036854775,
    18446744073709551,
    -18446744073709551,
    1 << 32,
    27670116110564327,
];

impl Rng {
    pub fn new(seed: u64) -> Rng {
        Rng(seed.wrapping_mul(0x9E3779B97F4A7C15) | 1)
    }

    pub fn next(&mut self) -> u64 {
        self.0 ^= self.0 << 13;
        self.0 ^= self.0 >> 7;
        self.0 ^= self.0 << 17;
        self.0
    }

    pub fn below(&mut self, n: usize) -> usize {
        ((self.next() >> 16) % n as u64) as usize
    }

    pub fn one_in(&mut self, n: usize) -> bool {
        self.below(n) == 0
    }

    pub fn number(&mut self) -> i64 {
        let near = self.below(7) as i64 - 3;
        match self.below(8) {
            0..=3 => EDGES[self.below(EDGES.len())].saturating_add(near),
            4 => (1i64 << self.below(63)).saturating_add(near),
            5 => (-1i64 << self.below(63)).saturating_add(near),
            6 => (self.next() as i64) >> self.below(63),
            _ => self.next() as i64,
        }
    }

    fn span(&mut self) -> Span {
        let x = self.number();
        let y = match self.below(3) {
            0 => x,
            1 => self.number(),
            _ => {
                let bits = self.below(50);
                x.saturating_add(self.below(1 << bits) as i64)
            }
        };
        (x.min(y) as i128, x.max(y) as i128)
    }

    /// A normal set with up to 16 intervals anywhere.
    fn scattered(&mut self) -> Vec<i64> {
        let n = match self.below(16) {
            0 => 0,
            1..=9 => 1,
            10..=12 => 2,
            13 => 4,
            14 => 7,
            _ => 16,
        };
        let mut v: Vec<Span> = (0..n).map(|_| self.span()).collect();
        join(&mut v);
        ends(&v)
    }

    /// A normal set with 8 or 16 intervals side by side, with gaps of one number and more.
    fn comb(&mut self) -> Vec<i64> {
        let (wide, gap) = (self.below(58), self.below(58));
        let shift = self.below(4);
        let mut x = self.number() >> shift;
        let mut v = vec![];
        for _ in 0..8 << self.below(2) {
            let e = x.saturating_add(self.below(1 << wide) as i64);
            if e > i64::MAX - (1 << 59) {
                break;
            }
            v.extend([x, e]);
            x = e + 2 + self.below(1 << gap) as i64;
        }
        v
    }

    pub fn set(&mut self) -> Vec<i64> {
        if self.one_in(14) {
            self.comb()
        } else {
            self.scattered()
        }
    }

    /// A slice that is no argument: too long, odd, or not normal. Sometimes it is one after all.
    pub fn spoilt(&mut self) -> Vec<i64> {
        let mut s = self.set();
        match self.below(7) {
            0 => {
                let n = 33 + self.below(8);
                s = (0..n as i64).map(|i| 3 * i).collect();
            }
            1 => {
                s.push(self.number());
            }
            2 if s.len() > 1 => s.swap(0, 1),
            3 if s.len() > 3 => {
                let i = 2 * (1 + self.below(s.len() / 2 - 1));
                s[i] = s[i - 1].saturating_add(self.below(3) as i64 - 1);
            }
            4 if s.len() > 3 => {
                let n = s.len();
                s.swap(0, n - 2);
                s.swap(1, n - 1);
            }
            5 => {
                let n = self.below(34);
                s = (0..n).map(|_| self.number()).collect();
            }
            _ => {
                s.pop();
            }
        }
        s
    }

    /// A length for a lent slice: what is needed, less, or more.
    pub fn length(&mut self, need: usize) -> usize {
        match self.below(16) {
            0 => need.saturating_sub(1),
            1 => self.below(need + 1),
            2 => 0,
            3..=5 => need + self.below(4),
            _ => need,
        }
    }
}

pub fn ends(v: &[Span]) -> Vec<i64> {
    v.iter().flat_map(|i| [i.0 as i64, i.1 as i64]).collect()
}

/// Every interval whose ends are an edge or beside one.
pub fn edge_spans() -> Vec<[i64; 2]> {
    let mut at: Vec<i64> = vec![];
    for e in [i64::MIN, -9223372036854775, -1000, 0, 1000, 18446744073709551, i64::MAX] {
        at.extend([e.saturating_sub(1), e, e.saturating_add(1)]);
    }
    at.extend([-7, 7, 4, 1 << 62, -(1 << 61), i64::MIN + 2]);
    at.sort_unstable();
    at.dedup();
    let mut v = vec![];
    for (i, &s) in at.iter().enumerate() {
        v.extend(at[i..].iter().map(|&e| [s, e]));
    }
    v
}
