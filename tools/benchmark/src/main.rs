//! Times the product's call and the reference on the same sheets, in turns, in one run.
//!
//! Reads lines "WAY|GROUP|NAME|N N ..", writes for each a line "WAY|GROUP|NAME|ROWS|FINDINGS|CHECK|MODEL AND CHECK|CALL|VALIDATION",
//! times in nanoseconds: the reference's `check_schedule` on a model that was built before, the same with the model built from the rows, the
//! product's call, and its refusals 1 to 5 with the index, which the call begins with. The WAY is `once` (sheets of a group, one after the
//! other, each met once) or `again` (a sheet alone, round after round: medians). The run ends where a sheet is refused or where the two do
//! not count the same findings.

use product::Answer;
use reference::model::{model, Model};
use std::hint::black_box;

/// How long the rounds of one sheet may take together, and how many there are at most.
const BUDGET_NS: u64 = 1_500_000_000;
const MOST: usize = 101;

/// The numbers lent for findings: enough for every sheet.
const ROOM: usize = 800_000;

/// Sheets of so many numbers are timed by the processor's time.
const LONG: usize = 4_000;

const TIMES: usize = 4;
const CHECK: usize = 0;
const WHOLE: usize = 1;
const CALL: usize = 2;
const VALIDATION: usize = 3;

#[repr(C)]
struct Instant {
    seconds: i64,
    nanoseconds: i64,
}

extern "C" {
    fn clock_gettime(clock: i32, at: *mut Instant) -> i32;
}

#[derive(Clone, Copy)]
enum Clock {
    Wall = 1,
    /// Of this thread: for what takes long enough to be interrupted. Asking for it takes a call of the system.
    Processor = 3,
}

fn now(clock: Clock) -> u64 {
    let mut at = Instant {
        seconds: 0,
        nanoseconds: 0,
    };
    assert_eq!(unsafe { clock_gettime(clock as i32, &mut at) }, 0);
    at.seconds as u64 * 1_000_000_000 + at.nanoseconds as u64
}

/// What the work gives is handed out, so that the time to drop it is not counted.
fn timed<T>(clock: Clock, work: impl FnOnce() -> T) -> (u64, T) {
    let start = now(clock);
    let given = black_box(work());
    (now(clock) - start, given)
}

struct Sheet<'a> {
    way: &'a str,
    group: &'a str,
    name: &'a str,
    rows: Vec<i64>,
    clock: Clock,
}

fn sheet_of(line: &str) -> Sheet<'_> {
    let parts: Vec<&str> = line.splitn(4, '|').collect();
    let numbers = parts[3].split(' ').map(|w| w.parse().expect("a number"));
    let rows: Vec<i64> = numbers.collect();
    Sheet {
        way: parts[0],
        group: parts[1],
        name: parts[2],
        clock: if rows.len() < LONG {
            Clock::Wall
        } else {
            Clock::Processor
        },
        rows,
    }
}

impl Sheet<'_> {
    /// The reference's time, and how many findings it has.
    fn check(&self, model: &Model) -> (u64, usize) {
        let (time, found) = timed(self.clock, || reference::violations(black_box(model)));
        (time, found.len())
    }

    /// The product's time, and its answer.
    fn call(&self, findings: &mut [i64]) -> (u64, Answer) {
        let (time, answer) = timed(self.clock, || {
            product::check_schedule_into(black_box(&self.rows), findings)
        });
        (time, answer.expect("the library has the call"))
    }

    /// Of the reference and the product on a model that is there; which of them comes first is asked for.
    fn both(
        &self,
        model: &Model,
        findings: &mut [i64],
        reference_first: bool,
    ) -> (u64, u64, usize) {
        let (check, call);
        if reference_first {
            check = self.check(model);
            call = self.call(findings);
        } else {
            call = self.call(findings);
            check = self.check(model);
        }
        let (answer, count) = (call.1, check.1);
        assert_eq!(
            (answer.number, answer.place),
            (0, count as u64),
            "{}: the answer's number and place, and what they must be",
            self.name
        );
        (check.0, call.0, count)
    }

    fn whole(&self) -> u64 {
        let work = || {
            let model = model(black_box(&self.rows));
            (reference::violations(&model), model)
        };
        timed(self.clock, work).0
    }

    fn validation(&self) -> u64 {
        timed(self.clock, || product::validate(black_box(&self.rows))).0
    }

    fn print(&self, count: usize, times: [u64; TIMES]) {
        let [check, whole, call, validation] = times;
        println!(
            "{}|{}|{}|{}|{count}|{check}|{whole}|{call}|{validation}",
            self.way,
            self.group,
            self.name,
            self.rows.len() / 10
        );
    }
}

/// Sheet after sheet, each met once; then all of them again with the model's time, and by the validation alone.
fn once(sheets: &[Sheet], findings: &mut [i64]) {
    let mut found = Vec::new();
    for (at, sheet) in sheets.iter().enumerate() {
        found.push(sheet.both(&model(&sheet.rows), findings, at % 2 == 0));
    }
    let whole: Vec<u64> = sheets.iter().map(Sheet::whole).collect();
    let validation: Vec<u64> = sheets.iter().map(Sheet::validation).collect();
    for (at, (check, call, count)) in found.into_iter().enumerate() {
        sheets[at].print(count, [check, whole[at], call, validation[at]]);
    }
}

fn median(mut times: Vec<u64>) -> u64 {
    times.sort_unstable();
    times[times.len() / 2]
}

/// One sheet, round after round.
fn again(sheet: &Sheet, findings: &mut [i64]) {
    let model = model(&sheet.rows);
    let mut times: [Vec<u64>; TIMES] = Default::default();
    let mut count = 0;
    let start = now(Clock::Wall);
    while times[CHECK].is_empty()
        || times[CHECK].len() < MOST && now(Clock::Wall) - start < BUDGET_NS
    {
        let (check, call, found) = sheet.both(&model, findings, times[CHECK].len() % 2 == 0);
        times[CHECK].push(check);
        times[CALL].push(call);
        times[WHOLE].push(sheet.whole());
        times[VALIDATION].push(sheet.validation());
        count = found;
    }
    sheet.print(count, times.map(median));
}

fn main() {
    let input = std::io::read_to_string(std::io::stdin()).expect("readable input");
    let sheets: Vec<Sheet> = input.lines().map(sheet_of).collect();
    let mut findings = vec![-1i64; ROOM]; // not 0, so that all of it is in memory
    for group in sheets.chunk_by(|a, b| (a.way, a.group) == (b.way, b.group)) {
        if group[0].way == "once" {
            once(group, &mut findings);
        } else {
            group.iter().for_each(|sheet| again(sheet, &mut findings));
        }
    }
}
