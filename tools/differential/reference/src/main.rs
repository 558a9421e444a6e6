//! Reads accepted sheets, one to a line, the numbers parted by spaces or commas; writes for each
//! one line: "accepted COUNT" and the findings as "check,type,entity,severity". With the argument
//! `figures`: "figures" and, for each task with a completion, "1,ID,COMPLETION", for each booked resource
//! "2,ID,LIMIT,PEAK".

use std::io::{BufRead, BufWriter, Write};
use std::panic;

fn findings(rows: &[i64]) -> String {
    let findings = reference::findings(rows);
    findings
        .iter()
        .fold(format!("accepted {}", findings.len()), |text, f| {
            format!("{text} {},{},{},{}", f[0], f[1], f[2], f[3])
        })
}

fn figures(rows: &[i64]) -> String {
    let figures = reference::figures::figures(rows);
    let tasks = figures.tasks.iter().map(|(id, x)| format!(" 1,{id},{x}"));
    let resources = figures.resources.iter();
    let resources = resources.map(|(id, x, y)| format!(" 2,{id},{x},{y}"));
    "figures".to_string() + &tasks.chain(resources).collect::<String>()
}

fn main() {
    let asked = match std::env::args().nth(1).as_deref() {
        None => findings,
        Some("figures") => figures,
        Some(other) => panic!("no such question: {other}"),
    };
    panic::set_hook(Box::new(|_| {}));
    let mut out = BufWriter::new(std::io::stdout().lock());
    for line in std::io::stdin().lock().lines() {
        let line = line.expect("readable input");
        let rows: Result<Vec<i64>, _> = line
            .split([' ', ','])
            .filter(|word| !word.is_empty())
            .map(str::parse)
            .collect();
        let answer = match rows {
            Err(error) => format!("unreadable {error}"),
            Ok(rows) => match panic::catch_unwind(|| asked(&rows)) {
                Ok(said) => said,
                Err(cause) => {
                    let said = cause.downcast_ref::<String>().map(String::as_str);
                    format!(
                        "panic {}",
                        said.or(cause.downcast_ref::<&str>().copied())
                            .unwrap_or("")
                            .replace('\n', " ")
                    )
                }
            },
        };
        writeln!(out, "{answer}").expect("writable output");
    }
}
