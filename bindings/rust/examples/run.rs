//! Runs a sheet on the numbers lent to registers 0, 1 .. (0 where none is), and prints the registers in thousandths: those after
//! the last line, or those before the line at which the run stops: cargo run --example run ../../samples/scope.sheet 1.5
//! A number is written as in a sheet. The status is 0 after the last line, 1 after a refusal or a finding, and 2 where there is no answer.
use juwenfo::{check, line, run, Trouble, LENT, SETS, WORK};
use std::io::{self, Write};
use std::os::unix::ffi::OsStrExt;
use std::process::ExitCode;

fn fail(why: &[u8]) -> ExitCode {
    let _ = io::stderr().write_all(&[why, b"\n"].concat());
    ExitCode::from(2)
}

/// The number of a word, or why it is none: the check of the line `(in 0 WORD WORD)` gives register 0 the set of WORD alone just where WORD is a literal.
fn thousandths(word: &[u8]) -> Result<i64, &'static str> {
    let (mut sets, mut work) = (vec![0; SETS], vec![0; WORK]);
    let line = [b"(in 0 ", word, b" ", word, b")\n"].concat();
    match check(&line, &mut sets, &mut work) {
        Ok(1) => Ok(sets[1]),
        Err(Trouble { number: 7, .. }) => Err("is beyond the range"),
        _ => Err("is not a number as in sheets"),
    }
}

fn show(text: &[u8], lent: &mut [i64], out: &mut impl Write) -> io::Result<ExitCode> {
    let trouble = run(text, lent).err();
    if let Some(t) = trouble {
        write!(out, "number {} at line {}: ", t.number, t.line)?;
        out.write_all(line(text, t.line))?;
        writeln!(out)?;
    }
    if trouble.map_or(true, |t| t.number >= 20) {
        for (r, x) in lent.iter().enumerate() {
            writeln!(out, "r{r} {x}")?;
        }
    }
    out.flush()?;
    Ok(ExitCode::from(trouble.is_some() as u8))
}

fn main() -> ExitCode {
    let words: Vec<_> = std::env::args_os().skip(1).collect();
    let [file, numbers @ ..] = &words[..] else { return fail(b"usage: run SHEET NUMBER..") };
    let mut lent = [0; LENT];
    for (i, word) in numbers.iter().map(|w| w.as_bytes()).enumerate() {
        match if i < LENT { thousandths(word) } else { Err("is one number too many") } {
            Ok(number) => lent[i] = number,
            Err(why) => return fail(&[b"'", word, b"' ", why.as_bytes()].concat()),
        }
    }
    let Ok(text) = std::fs::read(file) else { return fail(b"the sheet cannot be read") };
    show(&text, &mut lent, &mut io::BufWriter::new(io::stdout())).unwrap_or_else(|_| fail(b"the answer cannot be written"))
}
