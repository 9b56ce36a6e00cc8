//! Every call once with an answer that document 01 marks or that is plain to see, and every refusal.
use juwenfo::set::{self, Refused, Written};
use juwenfo::{check, ends, judge, line, listing, number, page, run, Trouble, LISTING, PAGE, SETS, VERSION, WORDS, WORK};

const MIN: i64 = i64::MIN;
const MAX: i64 = i64::MAX;
const OLD: i64 = -77;

type Call1 = fn(&[i64], bool, &mut [i64], &mut [i64]) -> set::Reply;
type Call2 = fn(&[i64], bool, &[i64], &mut [i64], &mut [i64]) -> set::Reply;
type Plain = fn(&[i64], &[i64], &mut [i64]) -> set::Reply;

fn one(f: Call1, left: &[i64]) -> (Vec<i64>, bool) {
    let (mut work, mut out) = (vec![OLD; 64], vec![OLD; 64]);
    let w = f(left, false, &mut work, &mut out).unwrap();
    assert!(out[w.count..].iter().all(|&x| x == OLD));
    (out[..w.count].to_vec(), w.flag)
}

fn two(f: Call2, left: &[i64], right: &[i64]) -> (Vec<i64>, bool) {
    let (mut work, mut out) = (vec![OLD; 8192], vec![OLD; 64]);
    let w = f(left, false, right, &mut work, &mut out).unwrap();
    assert!(out[w.count..].iter().all(|&x| x == OLD));
    (out[..w.count].to_vec(), w.flag)
}

fn plain(f: Plain, left: &[i64], right: &[i64]) -> Vec<i64> {
    let mut out = vec![OLD; 64];
    let w = f(left, right, &mut out).unwrap();
    assert!(!w.flag && out[w.count..].iter().all(|&x| x == OLD));
    out[..w.count].to_vec()
}

#[test]
fn numbers() {
    assert_eq!((number::neg(MIN), number::neg(5), number::abs(MIN), number::abs(-5)), (MIN, -5, MIN, 5));
    assert_eq!((number::add(MAX, 1), number::sub(MIN, 1), number::mul(2500, -2000)), (MIN, MAX, -5000));
    assert_eq!((number::div(7, -2), number::div(1, 0), number::rem(-7, 4), number::rem(1, 0)), (Some(-3500), None, Some(-3), None));
    assert_eq!((number::next(0), number::next(MAX), number::prev(0), number::prev(MIN)), (Some(1), None, Some(-1), None));
    assert_eq!((number::as_bool(0), number::as_bool(-3), number::not(0), number::not(7)), (false, true, 1000, 0));
    assert_eq!((number::and(1, 0), number::and(1, 2), number::or(0, 0), number::or(0, 2)), (0, 1000, 0, 1000));
    assert_eq!((number::le(3, 3), number::lt(3, 3), number::ne(3, 3)), (1000, 0, 0));
    assert_eq!((number::le(4, 3), number::lt(2, 3), number::ne(2, 3)), (0, 1000, 1000));
}

#[test]
fn sets() {
    assert_eq!(one(set::neg, &[MIN, -1]), (vec![MIN, MIN, 1, MAX], false));
    assert_eq!(one(set::abs, &[-5, 3]), (vec![0, 5], false));
    assert_eq!(two(set::add, &[MAX - 2, MAX], &[1, 1]), (vec![MIN, MIN, MAX - 1, MAX], false));
    assert_eq!(two(set::sub, &[5, 7], &[1, 2]), (vec![3, 6], false));
    assert_eq!(two(set::div, &[0, 0], &[-1, 1]), (vec![0, 0], true));
    assert_eq!(two(set::rem, &[7, 7], &[0, 0]), (vec![], true));
    assert_eq!(two(set::rem, &[7, 9], &[4, 4]), (vec![0, 1, 3, 3], false));
    let mut out = [OLD; 5];
    assert_eq!(set::not(&[0, 1], &mut out), Ok(Written { count: 4, flag: false }));
    assert_eq!(out, [0, 0, 1000, 1000, OLD]);
    assert_eq!(plain(set::and, &[1, 1], &[0, 0]), [0, 0]);
    assert_eq!(plain(set::or, &[1, 1], &[0, 0]), [1000, 1000]);
    assert_eq!(plain(set::le, &[0, 1], &[0, 0]), [0, 0, 1000, 1000]);
    assert_eq!(plain(set::lt, &[3, 3], &[3, 3]), [0, 0]);
    assert_eq!(plain(set::ne, &[3, 3], &[3, 4]), [0, 0, 1000, 1000]);
    assert_eq!(plain(set::union, &[1, 2], &[3, 4]), [1, 4]);
    assert_eq!(plain(set::intersect, &[1, 5, 9, 9], &[4, 10]), [4, 5, 9, 9]);
}

#[test]
fn products() {
    const GREATEST: i64 = 9223372036854775; // in thousandths: no product is past it, nor below its negative
    assert_eq!((number::mul(MIN, 1), number::mul(MAX, 1), number::mul(MIN, -1), number::mul(MIN, MIN)), (-GREATEST, GREATEST, -GREATEST, 0));
    assert_eq!(two(set::mul, &[6917529027641081855, 6917529027641082856], &[4, 4]), (vec![-GREATEST, -9223372036854771, GREATEST, GREATEST], false));
    assert_eq!(two(set::mul, &[MAX, MAX], &[3, 4]), (vec![-GREATEST, 0, GREATEST, GREATEST], false));
    assert_eq!(two(set::mul, &[MIN, MAX], &[MIN, MAX]), (vec![-GREATEST, GREATEST], false));
    assert_eq!(two(set::div, &[-10_000_000_000_000_000, 10_000_000_000_000_000], &[1000, 1000]), (vec![MIN, MAX], false)); // a quotient may be any number
    let (mut sets, mut work) = (vec![OLD; SETS], vec![OLD; WORK]);
    let held = |ends: &str| format!("(put 2 (mul (reg 0) (reg 1)))\n(hold 2 {ends})\n");
    assert_eq!(check(held("-9223372036854.775 9223372036854.775").as_bytes(), &mut sets, &mut work), Ok(2));
    assert_eq!(ends(&sets, 2), [-GREATEST, GREATEST]);
    for short in ["-9223372036854.774 9223372036854.775", "-9223372036854.775 9223372036854.774"] {
        assert_eq!(check(held(short).as_bytes(), &mut sets, &mut work), Err(Trouble { number: 21, line: 2 }));
    }
}

#[test]
fn refusals_of_sets() {
    let (mut work, mut out) = ([OLD; 8], [OLD; 2]);
    let long: Vec<i64> = (0..34).map(|i| 3 * i).collect();
    assert_eq!(set::add(&[1, 2, 3, 4], false, &long, &mut work, &mut out), Err(Refused(1)));
    assert_eq!(set::add(&[5, 5], false, &long, &mut work, &mut out), Err(Refused(2)));
    assert_eq!(set::add(&[1, 1], false, &[2], &mut work, &mut out), Err(Refused(1)));
    assert_eq!(set::add(&[1, 1], false, &[2, 2], &mut work[..3], &mut out), Err(Refused(3)));
    assert_eq!((work, out), ([OLD; 8], [OLD; 2]));
    assert_eq!(set::add(&[1, 1], true, &[2, 2], &mut work, &mut out[..1]), Err(Refused(4)));
    assert_eq!((work, out), ([0, 0, 0, 0, OLD, OLD, OLD, OLD], [OLD; 2]));
    assert_eq!(set::add(&[1, 1], true, &[2, 2], &mut work, &mut out), Ok(Written { count: 2, flag: true }));
    assert_eq!(out, [3, 3]);
    assert_eq!(set::need(set::DIV, &[1, 2, 4, 5], &[1, 2]), 48);
}

#[test]
fn nearest() {
    let far = [MIN, MIN, MAX, MAX];
    assert_eq!([3, 4, 5, MIN, MAX].map(|x| set::nearest(&[1, 1, 5, 5], x)), [1, 5, 5, 1, 5].map(Ok)); // 3 is a tie
    assert_eq!(set::nearest(&[-9, -2, 4, 8], -5), Ok(-5));
    assert_eq!((set::nearest(&far, 0), set::nearest(&far, -1), set::nearest(&[-MAX, -MAX, MAX, MAX], 0)), (Ok(MAX), Ok(MIN), Ok(-MAX)));
    assert_eq!((set::nearest(&far[..2], MAX), set::nearest(&far[2..], MIN)), (Ok(MIN), Ok(MAX)));
}

/// The answer in an out of `room` numbers: no number behind it is written, and none at all after a refusal.
fn within(set: &[i64], x: i64, distance: u64, room: usize) -> Result<Vec<i64>, Refused> {
    let mut out = [OLD; 64];
    let written = set::within(set, x, distance, &mut out[..room]);
    let count = written.map_or(0, |w| w.count);
    assert!(written.map_or(true, |w| !w.flag) && out[count..].iter().all(|&x| x == OLD));
    written.map(|_| out[..count].to_vec())
}

#[test]
fn withins() {
    let (two, far, all) = ([1, 1, 5, 5], [MIN, MIN, MAX, MAX], [MIN, MAX]);
    assert_eq!((within(&two, 3, 2, 64), within(&two, 3, 1, 0), within(&two, 5, 0, 2)), (Ok(two.to_vec()), Ok(vec![]), Ok(vec![5, 5])));
    assert_eq!(within(&[-9, -2, 4, 8], 0, 6, 4), Ok(vec![-6, -2, 4, 6]));
    assert_eq!((within(&all, 0, MAX as u64, 2), within(&all, MIN, u64::MAX - 1, 2)), (Ok(vec![-MAX, MAX]), Ok(vec![MIN, MAX - 1])));
    assert_eq!((within(&all, MAX, u64::MAX, 2), within(&far, MAX, u64::MAX, 4)), (Ok(all.to_vec()), Ok(far.to_vec())));
    assert_eq!(within(&far, MAX, u64::MAX - 1, 4), Ok(vec![MAX, MAX]));
    assert_eq!((within(&two, 3, 2, 3), within(&two, 3, 2, 0)), (Err(Refused(4)), Err(Refused(4))));
}

#[test]
fn refusals_around_a_number() {
    let long: Vec<i64> = (0..34).map(|i| 3 * i).collect();
    for (set, number) in [(&long[..], 2), (&long[1..], 2), (&[1, 2, 3, 4], 1), (&[1, 1, 5], 1), (&[], 10)] {
        assert_eq!(set::nearest(set, 3), Err(Refused(number)));
        assert_eq!((within(set, 3, 2, 64), within(set, 3, 2, 0)), (Err(Refused(number)), Err(Refused(number))));
    }
}

const SHEET: &[u8] = b"(in 0 -1 2)\n(put 1 (mul (reg 0) 2.5))\n(hold 1 -3 5)\n";

#[test]
fn lines() {
    assert_eq!(line(SHEET, 2), b"(put 1 (mul (reg 0) 2.5))");
    assert_eq!((line(SHEET, 0), line(SHEET, 4), line(b"a\nb", 2), line(b"a\nb", 1), line(b"", 1)), (&b""[..], &b""[..], &b""[..], &b"a"[..], &b""[..]));
    assert_eq!(judge(SHEET), Ok(3));
    assert_eq!((judge(b""), judge(b"x"), judge(b"\n")), (Ok(0), Err(Trouble { number: 5, line: 0 }), Err(Trouble { number: 6, line: 1 })));
}

#[test]
fn sheets() {
    let (mut sets, mut work) = (vec![OLD; SETS + 1], vec![OLD; WORK + 1]);
    assert_eq!(check(SHEET, &mut sets, &mut work), Ok(3));
    assert_eq!((ends(&sets, 0), ends(&sets, 1), ends(&sets, 2)), (&[-1000, 2000][..], &[-2500, 5000][..], &[MIN, MAX][..]));
    assert!(work[..WORK].iter().all(|&x| x == 0) && work[WORK] == OLD && sets[SETS] == OLD);
    assert_eq!(check(b"(hold 0 1 2)\n", &mut sets, &mut work), Err(Trouble { number: 21, line: 1 }));
    assert_eq!(check(b"(put 0 (div 1 (reg 0)))\n", &mut sets, &mut work), Err(Trouble { number: 20, line: 1 }));
    assert_eq!(ends(&sets, 1), [-2500, 5000]);
    assert_eq!(check(SHEET, &mut sets[..SETS - 1], &mut work), Err(Trouble { number: 3, line: 0 }));
    let mut lent = [OLD; 17];
    lent[0] = 1500;
    assert_eq!(run(SHEET, &mut lent), Ok(3));
    assert_eq!((lent[0], lent[1], &lent[2..]), (1500, 3750, &[OLD; 15][..]));
    lent[0] = 2001;
    assert_eq!(run(SHEET, &mut lent), Err(Trouble { number: 22, line: 1 }));
    assert_eq!((lent[0], lent[1], &lent[2..]), (2001, 3750, &[OLD; 15][..]));
    assert_eq!(run(SHEET, &mut lent[..15]), Err(Trouble { number: 3, line: 0 }));
}

#[test]
fn dirty_start() {
    let (mut sets, mut work) = (vec![OLD; SETS], vec![OLD; WORK]);
    assert_eq!(check(b"(hold 0 0 0)\n", &mut sets, &mut work), Err(Trouble { number: 21, line: 1 }));
    assert_eq!(check(b"(hold 0 -9223372036854775.808 9223372036854775.807)\n", &mut sets, &mut work), Ok(1));
    assert!((0..16).all(|r| ends(&sets, r) == [MIN, MAX]));
    let text = b"(in 0 0 9)\n(in 1 0 1)\n(put 2 (add (reg 0) (reg 3)))\n(hold 4 0 0)\n";
    let left: [i64; 17] = core::array::from_fn(|i| 100 * i as i64);
    let mut lent = left;
    lent[4] = 0;
    assert_eq!(run(text, &mut lent), Ok(4));
    assert_eq!((&lent[..5], &lent[5..]), (&[0, 100, 300, 300, 0][..], &left[5..]));
    (lent[3], lent[4]) = (MAX, MIN);
    assert_eq!(run(text, &mut lent), Err(Trouble { number: 21, line: 4 }));
    assert_eq!((&lent[..5], &lent[5..]), (&[0, 100, MAX, MAX, MIN][..], &left[5..]));
    for (r, z, line) in [(1, 1001, 2), (0, -1, 1)] {
        lent[r] = z;
        let before = lent;
        assert_eq!(run(text, &mut lent), Err(Trouble { number: 22, line }));
        assert_eq!(lent, before);
    }
    assert_eq!((run(b"", &mut lent), lent[0], lent[2]), (Ok(0), -1, MAX));
}

#[test]
fn closed_gaps() {
    let sheet = b"(in 0 0 9)\n(put 1 (lt (reg 0) 5))\n(put 2 (add (reg 1) (mul 2 (reg 1))))\n(put 3 (add (reg 2) (mul 4 (reg 2))))\n(put 4 (add (reg 3) (reg 1)))\n";
    let (mut sets, mut work) = (vec![OLD; SETS], vec![OLD; WORK]);
    assert_eq!(check(sheet, &mut sets, &mut work), Ok(5));
    assert_eq!((ends(&sets, 3).len(), ends(&sets, 4).len(), &ends(&sets, 4)[..4]), (32, 32, &[0, 1000, 2000, 2000][..]));
}

const SHORT: Trouble = Trouble { number: 4, line: 0 };

#[test]
fn listings() {
    let answer = b"pass 3\nr0 -1000..2000\nr1 -2500..5000\n";
    let mut out = [7; LISTING];
    assert_eq!(listing(SHEET, &mut out), Ok(answer.len()));
    assert_eq!(out[..answer.len()], answer[..]);
    assert!(out[answer.len()..].iter().all(|&b| b == 7));
    out.fill(7);
    assert_eq!(listing(SHEET, &mut out[..answer.len() - 1]), Err(SHORT));
    assert!(out.iter().all(|&b| b == 7));
    assert_eq!(listing(SHEET, &mut out[..answer.len()]), Ok(answer.len()));
    assert_eq!((listing(b"x", &mut out), &out[..12]), (Ok(12), &b"refused 5 0\n"[..]));
    assert_eq!((listing(b"(hold 0 1 2)\n", &mut out), &out[..10]), (Ok(10), &b"stop 21 1\n"[..]));
    assert_eq!((listing(b"", &mut out), &out[..7]), (Ok(7), &b"pass 0\n"[..]));
    assert_eq!(listing(b"", &mut []), Err(SHORT));
}

/// The page in an out of `room` bytes: no byte behind it is written, and none at all on trouble.
fn paged(text: &[u8], room: usize) -> Result<String, Trouble> {
    let mut out = [7; PAGE + 1];
    let written = page(text, &mut out[..room]);
    assert!(out[written.unwrap_or(0)..].iter().all(|&b| b == 7));
    written.map(|n| String::from_utf8(out[..n].to_vec()).unwrap())
}

#[test]
fn pages() {
    let answer = "r0                 -1000..                2000                 3001     \n\
                  r1                 -2500..                5000                 7501     \n";
    assert_eq!((paged(SHEET, PAGE), paged(SHEET, 146)), (Ok(answer.to_string()), Ok(answer.to_string())));
    assert_eq!((paged(SHEET, 145), paged(SHEET, 0)), (Err(SHORT), Err(SHORT)));
    let whole = "r15 -9223372036854775808.. 9223372036854775807 18446744073709551616     \n";
    assert_eq!(paged(b"(in 15 -9223372036854775.808 9223372036854775.807)\n", PAGE), Ok(whole.to_string()));
    assert_eq!((paged(b"", PAGE), paged(b"", 0), paged(b"(hold 0 -9223372036854775.808 9223372036854775.807)\n", 0)), (Ok(String::new()), Ok(String::new()), Ok(String::new())));
    for room in [0, PAGE] {
        assert_eq!(paged(b"(put 0 1)\n(hold 0 2 3)\n", room), Err(Trouble { number: 21, line: 2 }));
        assert_eq!(paged(b"(put 0 (div 1 0))\n", room), Err(Trouble { number: 20, line: 1 }));
        assert_eq!(paged(b"(put 0 1)\nx\n", room), Err(Trouble { number: 6, line: 2 }));
        assert_eq!(paged(b"x", room), Err(Trouble { number: 5, line: 0 }));
    }
}

#[test]
fn longest_page() {
    let mut text = "(in 0 -1 1)\n(put 1 (mul 2 (le (reg 0) 0)))\n".to_string(); // then 16 registers with 16 intervals each
    text.extend([4, 8, 16].map(|step| format!("(put 1 (add (reg 1) (mul {step} (le (reg 0) 0))))\n")));
    text.extend((0..16).map(|r| format!("(put {r} (reg 1))\n")));
    assert_eq!(paged(text.as_bytes(), PAGE).unwrap().lines().filter(|l| l.len() == 72).count(), 256);
    assert_eq!(paged(text.as_bytes(), PAGE - 1), Err(SHORT));
}

#[test]
fn words_and_version() {
    let numbers: Vec<u8> = (1..=8).chain([10]).chain(20..=22).collect();
    assert_eq!(WORDS.map(|w| w.0), numbers[..]);
    for (number, words) in WORDS {
        assert_eq!(Trouble { number, line: 3 }.to_string(), format!("number {number} at line 3: {words}"));
        assert_eq!(Refused(number).to_string(), format!("refused with {number}: {words}"));
        assert!(include_str!("../../python/juwenfo.py").contains(&format!("    {number}: \"{words}\",\n")), "the words of {number} in Python");
    }
    let errors: [Box<dyn std::error::Error>; 2] = [Box::new(Trouble { number: 5, line: 0 }), Box::new(Refused(1))];
    assert!(errors.iter().all(|e| e.source().is_none()));
    assert!(include_str!("../../../include/juwenfo.h").contains(&format!("#define JUWENFO_VERSION \"{VERSION}\"")));
}
