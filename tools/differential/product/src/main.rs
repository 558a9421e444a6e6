//! Answers cases by the product's static library: reads cases, one to a line, and writes one line of answer each, in the
//! forms of README.md beside this folder. A case whose function the library does not have is answered "absent".

use product::{Answer, WorkEnd};
use std::io::{BufRead, BufWriter, Write};

/// The answer and the numbers written, or what was wrong with the buffer.
type Lines = Result<(Answer, Vec<i64>), String>;

/// Room for all findings, where a case names more than the product is ever lent.
const MOST_ROOM: usize = 200_000;

fn numbers(words: &[&str]) -> Vec<i64> {
    words.iter().map(|w| w.parse().expect("a number")).collect()
}

fn bytes(hex: &str) -> Vec<u8> {
    let digit = |at: usize| u8::from_str_radix(&hex[at..at + 2], 16).expect("a byte");
    (0..hex.len()).step_by(2).map(digit).collect()
}

fn refused(answer: Answer) -> String {
    format!("refused {} {}", answer.number, answer.place)
}

/// What a call said of rows, its lines of so many numbers each.
fn lines(found: Result<Option<Lines>, String>, length: usize) -> String {
    match found {
        Ok(None) => "absent".to_string(),
        Ok(Some(Ok((answer, _)))) if answer.number != 0 => refused(answer),
        Ok(Some(Ok((answer, numbers)))) => {
            numbers
                .chunks(length)
                .fold(format!("accepted {}", answer.place), |text, line| {
                    let words: Vec<String> = line.iter().map(i64::to_string).collect();
                    format!("{text} {}", words.join(","))
                })
        }
        Ok(Some(Err(fault))) | Err(fault) => format!("fault {fault}"),
    }
}

fn check(rows: &[i64], room: usize) -> String {
    let call = |rows: &[i64]| product::check_schedule(rows, room.min(MOST_ROOM));
    lines(product::unchanged(rows, call), 4)
}

fn margins(rows: &[i64], room: usize) -> String {
    let call = |rows: &[i64]| product::margins(rows, room.min(MOST_ROOM));
    lines(product::unchanged(rows, call), 3)
}

fn text(lent: usize, text: &[u8]) -> String {
    match product::read_text(text, lent * 10) {
        None => "absent".to_string(),
        Some(Ok((answer, _))) if answer.number != 0 => refused(answer),
        Some(Ok((answer, rows))) => rows
            .iter()
            .fold(format!("accepted {}", answer.place), |text, n| {
                format!("{text} {n}")
            }),
        Some(Err(fault)) => format!("fault {fault}"),
    }
}

/// A program's work by the library: 800 rows lent, then the call.
fn program(text: &[u8], call: impl FnOnce(&[i64]) -> String) -> String {
    match product::read_text(text, 8000) {
        None => "absent".to_string(),
        Some(Ok((answer, _))) if answer.number != 0 => refused(answer),
        Some(Ok((_, rows))) => call(&rows),
        Some(Err(fault)) => format!("fault {fault}"),
    }
}

fn work(end: Option<WorkEnd>) -> String {
    match end {
        None => "absent".to_string(),
        Some(WorkEnd {
            number: 0,
            outcome: 0,
            instant,
            ..
        }) => format!("end {instant}"),
        Some(WorkEnd {
            number: 0,
            outcome: 1,
            ..
        }) => "pause".to_string(),
        Some(WorkEnd {
            number: 0,
            outcome: 2,
            ..
        }) => "never".to_string(),
        Some(end) => format!("refused {} {}", end.number, end.place),
    }
}

fn answer(line: &str) -> String {
    let words: Vec<&str> = line.split([' ', ',']).filter(|w| !w.is_empty()).collect();
    match words.first().copied() {
        Some("check") => check(&numbers(&words[2..]), words[1].parse().expect("a room")),
        Some("rows") => match product::unchanged(&numbers(&words[1..]), product::validate) {
            Ok(None) => "absent".to_string(),
            Ok(Some(Answer { number: 0, .. })) => "accepted".to_string(),
            Ok(Some(refusal)) => refused(refusal),
            Err(fault) => format!("fault {fault}"),
        },
        Some("text") => text(
            words[1].parse().expect("lent rows"),
            &bytes(words.get(2).copied().unwrap_or("")),
        ),
        Some("program") => {
            // 2,000 findings lent
            let text = bytes(words.get(1).copied().unwrap_or(""));
            program(&text, |rows| check(rows, 8000))
        }
        Some("margins") => margins(&numbers(&words[2..]), words[1].parse().expect("a room")),
        Some("margintext") => {
            // 800 lines lent
            let text = bytes(words.get(1).copied().unwrap_or(""));
            program(&text, |rows| margins(rows, 2400))
        }
        Some("work") => {
            let n = numbers(&words[1..]);
            work(product::work_end(&n[3..], n[0], n[1], n[2]))
        }
        Some("derived") => "absent".to_string(),
        _ => check(&numbers(&words), MOST_ROOM),
    }
}

fn main() {
    let mut out = BufWriter::new(std::io::stdout().lock());
    for line in std::io::stdin().lock().lines() {
        writeln!(out, "{}", answer(&line.expect("readable input"))).expect("writable output");
    }
}
