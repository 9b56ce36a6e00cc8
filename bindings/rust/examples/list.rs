//! Prints the listing of a sheet: cargo run --example list ../../samples/production.sheet
//! The status is 0, and 2 where there is no listing.
use juwenfo::{listing, LISTING};
use std::io::{self, Write};
use std::process::ExitCode;

fn fail(why: &str) -> ExitCode {
    let _ = writeln!(io::stderr(), "{why}");
    ExitCode::from(2)
}

fn show(text: &[u8], out: &mut impl Write) -> io::Result<ExitCode> {
    let mut answer = [0; LISTING];
    let n = listing(text, &mut answer).expect("every listing fits in LISTING bytes");
    out.write_all(&answer[..n])?;
    out.flush()?;
    Ok(ExitCode::SUCCESS)
}

fn main() -> ExitCode {
    let words: Vec<_> = std::env::args_os().skip(1).collect();
    let [file] = &words[..] else { return fail("usage: list SHEET") };
    let Ok(text) = std::fs::read(file) else { return fail("the sheet cannot be read") };
    show(&text, &mut io::BufWriter::new(io::stdout())).unwrap_or_else(|_| fail("the answer cannot be written"))
}
