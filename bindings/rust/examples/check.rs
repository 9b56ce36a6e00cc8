//! Checks a sheet and prints the set of each register: cargo run --example check ../../samples/production.sheet
//! The status is 0 after a pass, 1 after a refusal or a finding, and 2 where there is no answer.
use juwenfo::{check, ends, line, LENT, SETS, WORK};
use std::io::{self, Write};
use std::process::ExitCode;

fn fail(why: &str) -> ExitCode {
    let _ = writeln!(io::stderr(), "{why}");
    ExitCode::from(2)
}

fn show(text: &[u8], out: &mut impl Write) -> io::Result<ExitCode> {
    let (mut sets, mut work) = (vec![0; SETS], vec![0; WORK]);
    let verdict = check(text, &mut sets, &mut work);
    if let Err(t) = verdict {
        write!(out, "number {} at line {}: ", t.number, t.line)?;
        out.write_all(line(text, t.line))?;
        writeln!(out)?;
    } else {
        for r in 0..LENT {
            write!(out, "r{r}")?;
            for interval in ends(&sets, r).chunks(2) {
                write!(out, " {}..{}", interval[0], interval[1])?;
            }
            writeln!(out)?;
        }
    }
    out.flush()?;
    Ok(ExitCode::from(verdict.is_err() as u8))
}

fn main() -> ExitCode {
    let words: Vec<_> = std::env::args_os().skip(1).collect();
    let [file] = &words[..] else { return fail("usage: check SHEET") };
    let Ok(text) = std::fs::read(file) else { return fail("the sheet cannot be read") };
    show(&text, &mut io::BufWriter::new(io::stdout())).unwrap_or_else(|_| fail("the answer cannot be written"))
}
