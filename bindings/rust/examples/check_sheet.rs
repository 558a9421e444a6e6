//! check_sheet [FILE]: the command of bindings/c/check_sheet.c, in Rust. Checks the sheet in a file, or on standard input, and prints what
//! the program check_schedule prints. Exit status: 0 no finding, 1 findings, 2 refused, 3 no answer.
use std::fs::File;
use std::io::{self, Read, Write};
use std::process::ExitCode;

use hutchdecade::{check_schedule, read_text, Refusal, FINDING, MAX_NUMBERS, MAX_TEXT};

const ROOM: usize = 2000 * FINDING;

/// The sheet, and a byte of what follows where it is longer than a sheet may be.
fn sheet(name: Option<&String>) -> io::Result<Vec<u8>> {
    let from: Box<dyn Read> = match name {
        Some(name) => Box::new(File::open(name)?),
        None => Box::new(io::stdin()),
    };
    let mut text = Vec::new();
    from.take(MAX_TEXT as u64 + 1).read_to_end(&mut text)?;
    Ok(text)
}

/// What is printed of a sheet, and whether there are findings.
fn answer(text: &[u8]) -> Result<(String, bool), Refusal> {
    let (mut rows, mut lent) = ([0; MAX_NUMBERS], [0; ROOM]);
    let findings = check_schedule(read_text(text, &mut rows)?, &mut lent)?;
    let any = !findings.is_empty();
    let mut lines = format!("accepted,{}\n", findings.len());
    for f in findings {
        lines += &format!("{},{},{},{}\n", f.check, f.violation, f.entity, f.severity);
    }
    Ok((lines, any))
}

fn run(name: Option<&String>) -> io::Result<u8> {
    let (lines, status) = match answer(&sheet(name)?) {
        Ok((lines, any)) => (lines, any.into()),
        Err(r) => (format!("refused,{},{}\n", r.number, r.place), 2),
    };
    let mut out = io::stdout().lock();
    out.write_all(lines.as_bytes())?;
    out.flush()?;
    Ok(status)
}

fn main() -> ExitCode {
    let words: Vec<String> = std::env::args().skip(1).collect();
    if words.len() > 1 || words.first().is_some_and(|word| word.starts_with('-')) {
        eprintln!("usage: check_sheet [FILE]   (no FILE: standard input)");
        return ExitCode::from(3);
    }
    run(words.first()).map_or_else(
        |why| {
            eprintln!("check_sheet: {why}");
            ExitCode::from(3)
        },
        ExitCode::from,
    )
}
