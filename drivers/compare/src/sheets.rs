//! Times of the check and of the page of whole sheets: the files that are named, and the heaviest ones.
use crate::calls::{juwenfo_check, Verdict};
use std::time::Instant;

const SETS: usize = 528;
const WORK: usize = 8192;

fn check(text: &[u8], sets: &mut [i64], work: &mut [i64]) -> Verdict {
    // Each pointer is good for the length beside it, and no two slices overlap.
    unsafe { juwenfo_check(text.as_ptr(), text.len(), sets.as_mut_ptr(), sets.len(), work.as_mut_ptr(), work.len()) }
}

#[cfg(pages)]
fn page(text: &[u8], out: &mut [u8]) -> usize {
    // Each pointer is good for the length beside it, and the slices do not overlap.
    unsafe { crate::calls::juwenfo_page(text.as_ptr(), text.len(), out.as_mut_ptr(), out.len()).count }
}

/// Registers 2 and 3 with 16 intervals each, neither with 0.
fn two_crowded(width: &str) -> String {
    let mut s = String::from("(in 0 0 1)\n");
    s += &format!("(in 1 0 {width})\n");
    s += "(put 2 (ne (reg 0) 0))\n(put 2 (add (reg 2) (mul (reg 2) 2)))\n(put 2 (add (reg 2) (mul (reg 2) 4)))\n";
    s += "(put 3 (add (mul (reg 2) 2) (add (reg 1) 2)))\n(put 2 (add (mul (reg 2) 2) (add (reg 1) 33)))\n";
    s
}

/// The same, and then `line` until there are 256 lines.
fn filled(line: &str, width: &str) -> String {
    let mut s = two_crowded(width);
    while s.lines().count() < 256 {
        s += line;
        s.push('\n');
    }
    s
}

fn nested(op: &str, depth: usize) -> String {
    format!("(put 4 {}(reg 2){})", format!("({op} ").repeat(depth), " (reg 3))".repeat(depth))
}

/// Registers 1 to 8 with 16 single numbers each, base and step by register, and then `line`, whose every form has 256 intervals before its gaps are closed, until there are 256 lines.
fn closing(terms: [&str; 8], line: &str) -> String {
    let mut s = String::from("(in 0 -1 1)\n(put 9 (le (reg 0) 0))\n(put 9 (add (reg 9) (mul 2 (reg 9))))\n(put 9 (add (reg 9) (mul 4 (reg 9))))\n");
    for (r, term) in terms.iter().enumerate() {
        let (base, step) = term.split_once(' ').unwrap();
        s += &format!("(put {} (add {base} (mul {step} (reg 9))))\n", r + 1);
    }
    while s.lines().count() < 256 {
        s += line;
        s.push('\n');
    }
    s
}

/// Seven such forms a line: remainders in rows that are not sorted, nested remainders, nested products and quotients.
fn closed_everywhere() -> Vec<(String, String)> {
    let name = |what: &str| format!("256 lines, gaps closed at 7 forms a line: {what}");
    vec![
        (
            name("rem in rows out of order, and add"),
            closing(
                ["13983477.513 0.002", "10000 46.99", "9756588244.907 0.002", "100000000 482035.959", "2255879.166 0.002", "1000 1.593", "99428763910525.388 0.002", "1000000000000 4621404521.805"],
                "(put 10 (add (add (rem (reg 1) (reg 2)) (rem (reg 3) (reg 4))) (add (rem (reg 5) (reg 6)) (rem (reg 7) (reg 8)))))",
            ),
        ),
        (
            name("rem, nested"),
            closing(
                ["6467998.26 0.004", "3234004.16 0.08", "1617002.08 1.6", "808501.04 32", "404250.52 640", "202125.26 12800", "7680030.06 0.004", "3840020.06 256000"],
                "(put 10 (add (rem (rem (rem (rem (rem (reg 1) (reg 2)) (reg 3)) (reg 4)) (reg 5)) (reg 6)) (rem (reg 7) (reg 8))))",
            ),
        ),
        (
            name("mul and div, nested"),
            closing(
                ["1000000 0.005", "1000000 0.098", "1000000 2.009", "1000000 41.185", "1000000 844.292", "1000000 19970.753", "1000000 0.005", "400000 400000"],
                "(put 10 (add (mul (div (mul (div (mul (reg 1) (reg 2)) (reg 3)) (reg 4)) (reg 5)) (reg 6)) (mul (reg 7) (reg 8))))",
            ),
        ),
    ]
}

/// 256 lines of nested operations on 16 by 16 intervals, and 256 lines that are only read.
fn heaviest() -> Vec<(String, String)> {
    let mut v = vec![];
    for op in ["rem", "div", "mul", "add"] {
        for width in ["0", "0.3"] {
            let depth = if op == "rem" { 6 } else { 1 };
            v.push((format!("256 lines, {depth} {op} a line, 16 intervals of width {width}"), filled(&nested(op, depth), width)));
        }
    }
    v.extend(closed_everywhere());
    let pair = "(rem (reg 2) (reg 3))";
    v.push(("256 lines, four rem side by side, width 0.3".into(), filled(&format!("(put 4 (and (and {pair} {pair}) (and {pair} {pair})))"), "0.3")));
    v.push(("256 lines, rem and div of both signs".into(), filled("(put 4 (and (rem (sub (reg 3) 17) (reg 3)) (div (sub (reg 3) 17) (neg (reg 3)))))", "0.3")));
    v.push(("256 lines of literals".into(), "(put 15 (add 9223372036854775.807 (mul -9223372036854775.808 (sub 9223372036854775.807 -9223372036854775.80))))\n".repeat(256)));
    v.push(("16 intervals in each of 14 registers".into(), two_crowded("0.3") + &(4..16).map(|r| format!("(put {r} (reg 2))\n")).collect::<String>()));
    v
}

/// The least of 15 rounds, in microseconds.
fn least(mut call: impl FnMut()) -> f64 {
    call();
    let rounds = (0..15).map(|_| {
        let t = Instant::now();
        call();
        t.elapsed().as_nanos() as f64 / 1000.0
    });
    rounds.fold(f64::MAX, f64::min)
}

#[cfg(pages)]
fn page_columns(text: &str) -> String {
    let mut out = vec![0u8; 73 * 16 * 16];
    let took = least(|| {
        page(text.as_bytes(), &mut out);
    });
    format!(" {took:.0} | {} |", page(text.as_bytes(), &mut out))
}

#[cfg(not(pages))]
fn page_columns(_: &str) -> String {
    String::new()
}

fn time(name: &str, text: &str) {
    let (mut sets, mut work) = (vec![0i64; SETS], vec![0i64; WORK]);
    let took = least(|| {
        check(text.as_bytes(), &mut sets, &mut work);
    });
    let v = check(text.as_bytes(), &mut sets, &mut work);
    println!("| {name} | {} | {} | {} | {took:.0} |{}", text.lines().count(), v.number, v.line, page_columns(text));
}

pub fn all(files: &[String]) {
    let (head, rule) = if cfg!(pages) { (" page, µs | bytes |", "---|---|") } else { ("", "") };
    println!("| Sheet | lines | number | line | check, µs |{head}\n|---|---|---|---|---|{rule}");
    for f in files {
        let text = std::fs::read_to_string(f).unwrap_or_else(|e| panic!("{f}: {e}"));
        let name = f.rsplit('/').next().unwrap();
        time(name, &text);
    }
    for (name, text) in heaviest() {
        time(&name, &text);
    }
}
