//! The constants here are those of the C header, all of them.
use hutchdecade::*;

const HEADER: &str = include_str!("../../../include/hutchdecade.h");

/// Each constant that the header gives a number or a text: name without HUTCH_, and value.
fn of_header() -> Vec<(String, String)> {
    let mut found = Vec::new();
    for line in HEADER.lines() {
        let line = line.split("/*").next().unwrap().trim().trim_end_matches(',');
        let pair = match line.strip_prefix("#define HUTCH_") {
            Some(rest) => rest.split_once(' '),
            None => line.strip_prefix("HUTCH_").and_then(|rest| rest.split_once(" = ")),
        };
        if let Some((name, value)) = pair {
            let value = value.trim().trim_start_matches("INT64_C(").trim_end_matches(')').trim_matches('"');
            found.push((name.to_string(), value.replace("INT64_MIN", &i64::MIN.to_string())));
        }
    }
    found.sort();
    found
}

/// DeadlineMiss as DEADLINE_MISS, unknown kind as UNKNOWN_KIND.
fn in_capitals(name: &str) -> String {
    let mut capitals = String::new();
    for c in name.chars() {
        if c.is_uppercase() && !capitals.is_empty() {
            capitals.push('_');
        }
        capitals.push(if c == ' ' { '_' } else { c.to_ascii_uppercase() });
    }
    capitals
}

macro_rules! named {
    ($prefix:literal, $module:ident::{ $($name:ident),* $(,)? }) => {
        vec![$((concat!($prefix, stringify!($name)).to_string(), $module::$name.to_string())),*]
    };
}

fn of_crate() -> Vec<(String, String)> {
    let mut found = named!("", hutchdecade::{
        VERSION, RULES, NONE, COLUMNS, MAX_ROWS, MAX_NUMBERS, MAX_TEXT, FINDING, MARGIN, MAX_MARGINS, MAX_ID, MAX_COUNT, MAX_TIME,
    });
    found.extend(named!("STACK_", stack::{ READ_TEXT, READ_FREEBUSY, VALIDATE, CHECK_SCHEDULE, MARGINS, WORK_END }));
    found.extend(named!("KIND_", kind::{
        TASK, ACTIVITY, OVERLAP, SPLIT, REQUIREMENT, CANDIDATE, WANTED_SKILL, PREDECESSOR, SPEED, FIXED_TIMING, RESOURCE, SKILL, COMPANION,
        TRANSPORT, RESOURCE_WINDOW, ACTIVITY_WINDOW, PRECEDENCE, CAPACITY, TIME_WINDOW, NO_OVERLAP, SYNCHRONIZE, MEMBER, BOOKING, TIME_ONLY,
    }));
    found.extend(Reason::ALL.iter().map(|x| (format!("REFUSED_{}", in_capitals(x.name())), x.number().to_string())));
    found.extend(Check::ALL.iter().map(|x| (x.name().to_uppercase(), x.number().to_string())));
    found.extend(ViolationType::ALL.iter().map(|x| (format!("TYPE_{}", in_capitals(x.name())), x.number().to_string())));
    found.extend(MarginOf::ALL.iter().map(|x| (format!("MARGIN_OF_{}", in_capitals(x.name())), x.number().to_string())));
    // what an answer of the wrapper shows by its form
    found.extend(
        [("ACCEPTED", "0"), ("WORK_END", "0"), ("WORK_PAUSE", "1"), ("WORK_NEVER", "2")].map(|(n, v)| (n.to_string(), v.to_string())),
    );
    found.sort();
    found
}

#[test]
fn constants() {
    assert_eq!(of_crate(), of_header());
    assert_eq!(VERSION, env!("CARGO_PKG_VERSION"));
}

#[test]
fn numbers_and_back() {
    assert!(Reason::ALL.iter().all(|&x| Reason::of(x.number()) == Some(x)));
    assert!(Check::ALL.iter().all(|&x| Check::of(x.number()) == Some(x)));
    assert!(ViolationType::ALL.iter().all(|&x| ViolationType::of(x.number()) == Some(x)));
    assert!(MarginOf::ALL.iter().all(|&x| MarginOf::of(x.number()) == Some(x)));
}
