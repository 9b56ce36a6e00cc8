//! Document 01's set rules on exact integers, as document 02 amends them, read anew: the answer of every set call, and which pairs of intervals 01 names as
//! differences to the original.
pub type Span = (i128, i128);

pub const MIN: i128 = i64::MIN as i128;
pub const MAX: i128 = i64::MAX as i128;
const WINDOW: i128 = 1 << 64;
const FULL: Span = (MIN, MAX);
/// No product of two numbers, divided by 1000, is past it or below its negative.
const GREATEST: i128 = 9223372036854775;

fn window(z: i128) -> i128 {
    (z - MIN).div_euclid(WINDOW)
}

fn wrap(z: i128) -> i128 {
    z - WINDOW * window(z)
}

fn holds(s: Span, z: i128) -> bool {
    s.0 <= z && z <= s.1
}

/// What is left of a set of consecutive numbers without z.
fn without(s: Span, z: i128) -> Vec<Span> {
    if !holds(s, z) {
        return vec![s];
    }
    [(s.0, z - 1), (z + 1, s.1)].into_iter().filter(|p| p.0 <= p.1).collect()
}

fn neg(l: Span, to: &mut Vec<Span>) {
    match l {
        (MIN, MIN) => to.push(l),
        (MIN, e) => to.extend([(-e, MAX), (MIN, MIN)]),
        (s, e) => to.push((-e, -s)),
    }
}

fn abs(l: Span, to: &mut Vec<Span>) {
    let (mut s, e) = l;
    if s == MIN {
        to.push((MIN, MIN));
        if e == MIN {
            return;
        }
        s = -MAX;
    }
    to.push(if s >= 0 {
        (s, e)
    } else if e <= 0 {
        (-e, -s)
    } else {
        (0, e.max(-s))
    });
}

/// add and sub: exact ends, wrapped and split at the end of the range.
fn split(p: i128, q: i128, to: &mut Vec<Span>) {
    if q - p >= WINDOW - 1 {
        to.push(FULL);
    } else if window(p) == window(q) {
        to.push((wrap(p), wrap(q)));
    } else {
        to.extend([(wrap(p), MAX), (MIN, wrap(q))]);
    }
}

/// The pieces of the spread; `scale` is applied to the wrapped ends, not to the ends that the spread writes itself.
fn spread(p: i128, q: i128, scale: impl Fn(i128) -> i128) -> Vec<Span> {
    let (u, v) = (scale(wrap(p)), scale(wrap(q)));
    match (window(p), window(q)) {
        (i, j) if i == j => vec![(u, v)],
        (0, 1) => vec![(v, MAX), (MIN, u)],
        _ => vec![(u, MAX), (MIN, v)],
    }
}

fn corners(l: Span, r: Span, f: impl Fn(i128, i128) -> i128) -> Span {
    let c = [f(l.0, r.0), f(l.0, r.1), f(l.1, r.0), f(l.1, r.1)];
    (*c.iter().min().unwrap(), *c.iter().max().unwrap())
}

/// What an interval has in common with the range of products, if anything.
pub fn among_products((s, e): Span) -> Option<Span> {
    let (s, e) = (s.max(-GREATEST), e.min(GREATEST));
    (s <= e).then_some((s, e))
}

/// 01's rule, each of its intervals cut to the range of products: 02 (vii).
fn mul(l: Span, r: Span, to: &mut Vec<Span>) {
    let (p, q) = corners(l, r, |x, y| x * y);
    let uncut = if q - p >= WINDOW - 1 { vec![FULL] } else { spread(p, q, |z| z / 1000) };
    to.extend(uncut.into_iter().filter_map(among_products));
}

fn div_plain(d: Span, r: Span, to: &mut Vec<Span>) {
    if holds(d, MIN) && holds(r, -1) {
        to.push((MIN, MIN));
        for part in without(d, MIN) {
            to.push(corners(part, r, |x, y| x / y));
        }
        for part in without(r, -1) {
            to.push(corners(d, part, |x, y| x / y));
        }
    } else {
        to.push(corners(d, r, |x, y| x / y));
    }
}

fn div(l: Span, r: Span, to: &mut Vec<Span>) {
    let (p, q) = (1000 * l.0, 1000 * l.1);
    for part in without(r, 0) {
        if q - p >= WINDOW - 1 {
            to.push(FULL);
        } else {
            for d in spread(p, q, |z| z) {
                div_plain(d, part, to);
            }
        }
    }
}

fn rem(l: Span, r: Span, to: &mut Vec<Span>) {
    if holds(r, 0) {
        for part in without(r, 0) {
            rem(l, part, to);
        }
    } else if holds(l, MIN) && holds(r, -1) {
        for part in without(l, MIN) {
            rem(part, r, to);
        }
        for part in without(r, -1) {
            rem(l, part, to);
        }
        to.push((0, 0));
    } else if holds(l, 0) {
        for part in without(l, 0) {
            rem(part, r, to);
        }
        to.push((0, 0));
    } else if holds(r, MIN) {
        for part in without(r, MIN) {
            rem(l, part, to);
        }
        to.push(match l {
            (MIN, MIN) => (0, 0),
            (MIN, _) => (MIN, 0),
            _ => l,
        });
    } else if holds(l, MIN) {
        for part in without(l, MIN) {
            rem(part, r, to);
        }
        to.push((1 - r.0.abs().max(r.1.abs()), 0));
    } else {
        let mut made = vec![];
        rem_magnitudes(magnitudes(l), magnitudes(r), &mut made);
        to.extend(made.into_iter().map(|(s, e)| if l.0 < 0 { (-e, -s) } else { (s, e) }));
    }
}

fn magnitudes(s: Span) -> Span {
    if s.0 < 0 {
        (-s.1, -s.0)
    } else {
        s
    }
}

fn rem_magnitudes((a, b): Span, (c, d): Span, to: &mut Vec<Span>) {
    let multiple = b / c * c;
    if d <= b - a || c != d {
        to.push((0, d - 1));
    } else if multiple >= a {
        to.push((0, b % c));
        if a != multiple {
            to.push((a % c, c - 1));
        }
    } else {
        to.push((a % c, b % c));
    }
}

/// Sorts, and joins what overlaps or touches.
pub fn join(v: &mut Vec<Span>) {
    v.sort_unstable();
    let mut n = 0;
    for i in 0..v.len() {
        if n > 0 && v[i].0 <= v[n - 1].1 + 1 {
            v[n - 1].1 = v[n - 1].1.max(v[i].1);
        } else {
            v[n] = v[i];
            n += 1;
        }
    }
    v.truncate(n);
}

pub fn spans(ends: &[i64]) -> impl Iterator<Item = Span> + '_ {
    ends.chunks_exact(2).map(|c| (c[0] as i128, c[1] as i128))
}

fn bools(s: &[i64]) -> (bool, bool) {
    (spans(s).any(|i| holds(i, 0)), !s.is_empty() && s != [0, 0])
}

fn of_bools(f: bool, t: bool) -> Vec<Span> {
    [(f, (0, 0)), (t, (1000, 1000))].into_iter().filter(|p| p.0).map(|p| p.1).collect()
}

fn pairs(op: &str, left: &[i64], right: &[i64], to: &mut Vec<Span>) {
    for l in spans(left) {
        match op {
            "neg" => neg(l, to),
            "abs" => abs(l, to),
            _ => {
                for r in spans(right) {
                    match op {
                        "add" => split(l.0 + r.0, l.1 + r.1, to),
                        "sub" => split(l.0 - r.1, l.1 - r.0, to),
                        "mul" => mul(l, r, to),
                        "div" => div(l, r, to),
                        "rem" => rem(l, r, to),
                        _ => unreachable!(),
                    }
                }
            }
        }
    }
}

/// The answer of a set call on normal sets: the joined set, and its flag.
pub fn answer(op: &str, left: &[i64], flag: bool, right: &[i64]) -> (Vec<Span>, bool) {
    let any = |t: fn(Span, Span) -> bool| spans(left).any(|l| spans(right).any(|r| t(l, r)));
    let mut v = vec![];
    let (l, r) = (bools(left), bools(right));
    match op {
        "not" => v = of_bools(l.1, l.0),
        "and" => v = of_bools(l.0 || r.0, l.1 && r.1),
        "or" => v = of_bools(l.0 && r.0, l.1 || r.1),
        "le" => v = of_bools(any(|l, r| l.1 > r.0), any(|l, r| l.0 <= r.1)),
        "lt" => v = of_bools(any(|l, r| l.1 >= r.0), any(|l, r| l.0 < r.1)),
        "ne" => {
            let same = left.len() == 2 && left == right && left[0] == left[1];
            v = of_bools(any(|l, r| l.0.max(r.0) <= l.1.min(r.1)), !same);
        }
        "union" => {
            v = spans(left).chain(spans(right)).collect();
            join(&mut v);
        }
        "intersect" => {
            for l in spans(left) {
                v.extend(spans(right).map(|r| (l.0.max(r.0), l.1.min(r.1))).filter(|i| i.0 <= i.1));
            }
            join(&mut v);
        }
        _ => {
            pairs(op, left, right, &mut v);
            join(&mut v);
            let zero = matches!(op, "div" | "rem") && !left.is_empty() && spans(right).any(|r| holds(r, 0));
            return (v, flag || zero);
        }
    }
    (v, false)
}

fn named_windows(p: i128, q: i128) -> bool {
    let (i, j) = (window(p), window(q));
    q - p < WINDOW - 1 && i != j && i != 0 && j != 0
}

/// 01 names the pair as one where the original may answer otherwise.
pub fn named(op: &str, left: &[i64], right: &[i64]) -> bool {
    match op {
        "abs" => spans(left).any(|l| l == (MIN, MIN) || l.0 < 0 && 0 < l.1),
        "lt" => true,
        "mul" => spans(left).any(|l| {
            spans(right).any(|r| {
                let (p, q) = corners(l, r, |x, y| x * y);
                named_windows(p, q)
            })
        }),
        "div" => spans(left).any(|l| {
            let (p, q) = (1000 * l.0, 1000 * l.1);
            let far = WINDOW - 1 <= q - p && q - p < 1000 * (WINDOW - 1);
            !right.is_empty() && (far || named_windows(p, q))
        }),
        _ => false,
    }
}

/// The refusal of one argument: 2 before 1; 0 is none.
pub fn refusal(s: &[i64]) -> u8 {
    if s.len() > 32 {
        return 2;
    }
    let ordered = s.chunks(2).all(|c| c.len() == 2 && c[0] <= c[1]);
    let apart = s.len() < 4 || (2..s.len()).step_by(2).all(|i| s[i] as i128 > s[i - 1] as i128 + 1);
    if ordered && apart {
        0
    } else {
        1
    }
}
