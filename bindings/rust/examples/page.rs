//! Prints the page of a sheet: cargo run --example page ../../samples/production.sheet
//! A sheet that does not pass gets the line of its listing. The status is 0 after a page, 1 after a refusal or a finding, and 2 where there is no answer.
use juwenfo::{page, PAGE};
use std::io::{self, Write};
use std::process::ExitCode;

fn fail(why: &str) -> ExitCode {
    let _ = writeln!(io::stderr(), "{why}");
    ExitCode::from(2)
}

fn show(text: &[u8], out: &mut impl Write) -> io::Result<ExitCode> {
    let mut answer = [0; PAGE];
    let written = page(text, &mut answer);
    match written {
        Ok(n) => out.write_all(&answer[..n])?,
        Err(t) => writeln!(out, "{} {} {}", if t.number < 20 { "refused" } else { "stop" }, t.number, t.line)?,
    }
    out.flush()?;
    Ok(ExitCode::from(written.is_err() as u8))
}

fn main() -> ExitCode {
    let words: Vec<_> = std::env::args_os().skip(1).collect();
    let [file] = &words[..] else { return fail("usage: page SHEET") };
    let Ok(text) = std::fs::read(file) else { return fail("the sheet cannot be read") };
    show(&text, &mut io::BufWriter::new(io::stdout())).unwrap_or_else(|_| fail("the answer cannot be written"))
}
