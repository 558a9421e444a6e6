//! Every refusal of every call, empty slices, what a call leaves alone, calls from threads at once.
use hutchdecade::Reason::*;
use hutchdecade::*;

/// What a lent number holds before a call: no answer has it.
const MARK: i64 = -7_777_777_777_777_777_777;
const SLOWEST: i64 = 0x3f50_0000_0000_0000; // the speed 2^-10

const TEXT: &[u8] = b"1,1,100,\n2,10,1,0,0,60,0,0,\n5,10,7,1,1\n11,5,7,1\n23,10,1,5,50,110,0,,\n";

fn row(columns: &[i64]) -> Vec<i64> {
    let mut row = columns.to_vec();
    row.resize(COLUMNS, 0);
    row
}

fn rows(rows: &[&[i64]]) -> Vec<i64> {
    rows.iter().flat_map(|columns| row(columns)).collect()
}

fn task() -> &'static [i64] {
    &[kind::TASK, 1, NONE, NONE]
}

fn activity() -> &'static [i64] {
    &[kind::ACTIVITY, 10, 1, 0, 0, 60, 0, 0, NONE]
}

/// The sheet of TEXT: the task is due at 100 and ends at 110.
fn example() -> Vec<i64> {
    rows(&[
        &[kind::TASK, 1, 100, NONE],
        activity(),
        &[kind::REQUIREMENT, 10, 7, 1, 1],
        &[kind::RESOURCE, 5, 7, 1],
        &[kind::BOOKING, 10, 1, 5, 50, 110, 0, NONE, NONE],
    ])
}

fn refusal(reason: Reason, place: usize) -> Refusal {
    Refusal { number: reason.number(), place }
}

/// The call in so much room: the findings, or the refusal; and what lies beside them is seen to be as it was.
fn checked(rows: &[i64], room: usize) -> Result<Vec<Finding>, Refusal> {
    let mut lent = vec![MARK; room];
    let answer = check_schedule(rows, &mut lent).map(|findings| findings.collect::<Vec<_>>());
    let written = answer.as_ref().map_or(0, |findings| findings.len() * FINDING);
    assert!(lent[written..].iter().all(|&x| x == MARK), "a number was changed that must not be");
    answer
}

/// The same of the margins.
fn slack(rows: &[i64], room: usize) -> Result<Vec<Margin>, Refusal> {
    let mut lent = vec![MARK; room];
    let answer = margins(rows, &mut lent).map(|lines| lines.collect::<Vec<_>>());
    let written = answer.as_ref().map_or(0, |lines| lines.len() * MARGIN);
    assert!(lent[written..].iter().all(|&x| x == MARK), "a number was changed that must not be");
    answer
}

/// The same of the text reader.
fn read(text: &[u8], room: usize) -> Result<Vec<i64>, Refusal> {
    let mut lent = vec![MARK; room];
    let answer = read_text(text, &mut lent).map(<[i64]>::to_vec);
    let written = answer.as_ref().map_or(0, Vec::len);
    assert!(lent[written..].iter().all(|&x| x == MARK), "a number was changed that must not be");
    answer
}

/// The same of the reader of office calendars.
fn closures(text: &[u8], resource: i64, room: usize) -> Result<Vec<i64>, Refusal> {
    let mut lent = vec![MARK; room];
    let answer = read_freebusy(text, resource, &mut lent).map(<[i64]>::to_vec);
    let written = answer.as_ref().map_or(0, Vec::len);
    assert!(lent[written..].iter().all(|&x| x == MARK), "a number was changed that must not be");
    answer
}

/// A calendar with one component and this line in it.
fn calendar(line: &str) -> Vec<u8> {
    format!("BEGIN:VFREEBUSY\r\n{line}\r\nEND:VFREEBUSY\r\n").into_bytes()
}

#[test]
fn office_calendars() {
    let hour = calendar("FREEBUSY:19700101T000000Z/19700\r\n 101T000001Z,19700101T000001Z/PT1S");
    let two = rows(&[&[kind::RESOURCE_WINDOW, 5, 1, 0, 1000], &[kind::RESOURCE_WINDOW, 5, 1, 1000, 2000]]);
    assert_eq!(closures(&hour, 5, 20), Ok(two.clone()));
    assert_eq!(closures(&hour, 5, 29), Ok(two));
    assert_eq!(closures(&hour, 5, 19), Err(refusal(Overfull, 1)));
    assert_eq!(closures(&hour, 5, 0), Err(refusal(Overfull, 1)));
    assert_eq!(closures(&calendar("FREEBUSY;FBTYPE=FREE:19700101T000000Z/PT1S"), 5, 0), Ok(vec![]));
    assert_eq!(closures(b"", 0, 0), Ok(vec![]));
    assert_eq!(closures(&hour, -1, 20), Err(refusal(OutOfRange, 0)));
    assert_eq!(closures(&hour, MAX_ID + 1, 20), Err(refusal(OutOfRange, 0)));
    assert_eq!(closures(&vec![b'x'; MAX_TEXT + 1], -1, 0), Err(refusal(Overlong, 0)));
    assert_eq!(closures(&vec![b'x'; MAX_TEXT], 5, 0), Err(refusal(Malformed, 0)));
    assert_eq!(closures(&calendar("FREEBUSY:19700101T000000Z"), 5, 20), Err(refusal(Malformed, 1)));
    assert_eq!(closures(&calendar("FREEBUSY:19700101T000001Z/PT0S"), 5, 20), Err(refusal(Malformed, 1)));
    assert_eq!(closures(&calendar("FREEBUSY:19700229T000000Z/PT1S"), 5, 20), Err(refusal(Undated, 1)));
}

#[test]
fn the_example() {
    let found = Finding { check: 8, violation: 1, entity: 1, severity: 80 };
    assert_eq!(read(TEXT, 50), Ok(example()));
    assert_eq!(read(TEXT, 59), Ok(example()));
    assert_eq!(validate(&example()), Ok(()));
    for room in FINDING..10 {
        assert_eq!(checked(&example(), room), Ok(vec![found]));
    }
    assert_eq!(found.of_check(), Some(Check::Deadlines));
    assert_eq!(found.violation_type(), Some(ViolationType::DeadlineMiss));
    let mut later = example();
    later[2] = 110;
    assert_eq!(checked(&later, 0), Ok(vec![]));
}

#[test]
fn the_example_by_margins() {
    let late = Margin { of: 1, id: 1, margin: -10 };
    let full = Margin { of: 2, id: 5, margin: 0 };
    for room in 2 * MARGIN..10 {
        assert_eq!(slack(&example(), room), Ok(vec![late, full]));
    }
    for room in 0..2 * MARGIN {
        assert_eq!(slack(&example(), room), Err(refusal(Full, 0)));
    }
    assert_eq!((late.margin_of(), full.margin_of()), (Some(MarginOf::Task), Some(MarginOf::Resource)));
    let ends = |deadline, completion| rows(&[&[kind::TASK, 1, deadline, NONE], &[kind::TIME_ONLY, 10, 1, 0, completion]]);
    for (deadline, completion) in [(0, MAX_TIME), (MAX_TIME, 0), (MAX_TIME, MAX_TIME), (0, 0)] {
        let margin = Margin { of: 1, id: 1, margin: deadline - completion };
        assert_eq!(slack(&ends(deadline, completion), 3), Ok(vec![margin]));
    }
}

#[test]
fn findings_are_counted_before_they_are_taken() {
    let mut lent = [MARK; 8];
    let mut findings = check_schedule(&example(), &mut lent).unwrap();
    assert_eq!((findings.len(), findings.is_empty()), (1, false));
    assert!(findings.next().is_some());
    assert_eq!((findings.len(), findings.is_empty(), findings.next()), (0, true, None));
}

#[test]
fn empty_slices() {
    assert_eq!(read(b"", 0), Ok(vec![]));
    assert_eq!(read(b"", 20), Ok(vec![]));
    assert_eq!(read(TEXT, 0), Err(refusal(Crowded, 0)));
    assert_eq!(validate(&[]), Ok(()));
    assert_eq!(checked(&[], 0), Ok(vec![]));
    assert_eq!(checked(&[], 8), Ok(vec![]));
    assert_eq!(checked(&example(), 0), Err(refusal(Full, 0)));
    assert_eq!(slack(&[], 0), Ok(vec![]));
    assert_eq!(slack(&[], 8), Ok(vec![]));
    assert_eq!(work_end(&[], 5, 7, 8), Ok(WorkEnd::End(15)));
}

#[test]
fn texts_that_are_refused() {
    let long = b"20,1\n".repeat(MAX_TEXT / 5 + 1);
    assert_eq!(read(&long[..MAX_TEXT + 1], MAX_NUMBERS), Err(refusal(Overlong, 0)));
    assert_eq!(read(&long[..5 * 801], MAX_NUMBERS), Err(refusal(Crowded, 800)));
    assert_eq!(read(&long[..5 * 800], MAX_NUMBERS).map(|rows| rows.len()), Ok(MAX_NUMBERS));
    assert_eq!(read(TEXT, 49), Err(refusal(Crowded, 4)));
    assert_eq!(read(b"20,1\n25,1\n", 50), Err(refusal(UnknownKind, 1)));
    for text in [
        &b"20,1"[..],
        b"20,1\r\n",
        b"20, 1\n",
        b"20,01\n",
        b"20,-0\n",
        b"20,9223372036854775808\n",
        b"\n",
        b",1\n",
        b"1,1,100\n",
        b"20,\xff\n",
    ] {
        assert_eq!(read(text, 50), Err(refusal(Misspelt, 0)), "{text:?}");
    }
}

/// Rows that all four calls refuse alike.
#[test]
fn rows_that_are_refused() {
    let cases = [
        (Misshapen, 0, example()[..49].to_vec()),
        (Misshapen, 0, row(&[kind::SYNCHRONIZE]).repeat(MAX_ROWS + 1)),
        (UnknownKind, 1, rows(&[task(), &[25]])),
        (OutOfRange, 0, rows(&[&[kind::TASK, MAX_ID + 1, NONE, NONE]])),
        (OutOfRange, 0, rows(&[&[kind::TASK, 1, MAX_TIME + 1, NONE]])),
        (OutOfRange, 0, rows(&[&[kind::CAPACITY, 1, -MAX_COUNT - 1]])),
        (OutOfRange, 0, rows(&[&[kind::NO_OVERLAP, 1, 0, 0, 0, 0, 0, 0, 0, 1]])),
        (OutOfRange, 0, rows(&[&[kind::BOOKING, 1, 1, 1, 0, 1, 0, 0, NONE]])),
        (Stray, 0, rows(&[activity()])),
        (Stray, 2, rows(&[task(), activity(), &[kind::CANDIDATE, 10, 0, 5]])),
        (Twice, 1, rows(&[task(), task()])),
        (Twice, 3, rows(&[task(), activity(), &[kind::SPLIT, 10, 1, 0, 0], &[kind::SPLIT, 10, 2, 0, 0]])),
    ];
    for (reason, place, sheet) in cases {
        let refused = refusal(reason, place);
        assert_eq!(validate(&sheet), Err(refused));
        assert_eq!(checked(&sheet, 0), Err(refused));
        assert_eq!(checked(&sheet, 40), Err(refused));
        assert_eq!(slack(&sheet, 0), Err(refused));
        assert_eq!(slack(&sheet, 40), Err(refused));
        assert_eq!(work_end(&sheet, 5, 0, 0), Err(refused));
        assert_eq!(refused.reason(), Some(reason));
    }
}

#[test]
fn a_booking_that_is_stretched() {
    let booked = |resource| vec![kind::BOOKING, 10, 1, resource, 0, 1, 0, NONE, NONE];
    let slow = |resource| vec![kind::SPEED, 10, resource, SLOWEST];
    let long = [kind::ACTIVITY, 10, 1, 0, 0, MAX_TIME, 0, 0, NONE];
    let sheet = rows(&[task(), &long, &slow(5), &slow(6), &booked(5), &booked(6)]);
    assert_eq!(checked(&sheet, 100), Err(refusal(Stretched, 4)));
    assert_eq!(slack(&sheet, 100), Err(refusal(Stretched, 4)));
    assert_eq!(slack(&sheet, 0), Err(refusal(Stretched, 4)));
    assert_eq!(validate(&sheet), Ok(()));
    assert!(checked(&sheet[..5 * COLUMNS], 100).is_ok());
}

#[test]
fn too_little_room() {
    for room in 0..FINDING {
        assert_eq!(checked(&example(), room), Err(refusal(Full, 0)));
    }
}

#[test]
fn inquiries() {
    let sheet = rows(&[&[kind::RESOURCE, 5, 7, 1], &[kind::RESOURCE_WINDOW, 5, 0, 0, 10], &[kind::RESOURCE_WINDOW, 5, 0, 20, 30]]);
    assert_eq!(work_end(&sheet, 5, 5, 5), Ok(WorkEnd::End(10)));
    assert_eq!(work_end(&sheet, 5, 5, 15), Ok(WorkEnd::End(30)));
    assert_eq!(work_end(&sheet, 5, 5, 16), Ok(WorkEnd::Never));
    assert_eq!(work_end(&sheet, 5, 10, 0), Ok(WorkEnd::Pause));
    assert_eq!(work_end(&sheet, 6, MAX_TIME, MAX_TIME), Ok(WorkEnd::End(2 * MAX_TIME as u64)));
    for (start, work) in [(-1, 0), (MAX_TIME + 1, 0), (NONE, 0), (0, MAX_TIME + 1), (0, -MAX_TIME - 1)] {
        assert_eq!(work_end(&sheet, 5, start, work), Err(refusal(OutOfRange, 0)));
    }
}

#[test]
fn threads() {
    let sheet = example();
    std::thread::scope(|scope| {
        for _ in 0..4 {
            scope.spawn(|| {
                for _ in 0..200 {
                    assert_eq!(read(TEXT, 50).as_ref(), Ok(&sheet));
                    assert_eq!(checked(&sheet, 4).map(|found| found.len()), Ok(1));
                    assert_eq!(slack(&sheet, 6).map(|found| found.len()), Ok(2));
                    assert_eq!(work_end(&sheet, 5, 1, 2), Ok(WorkEnd::End(3)));
                }
            });
        }
    });
}

#[test]
fn words() {
    assert_eq!(refusal(Misspelt, 3).to_string(), "refused by 9 (misspelt) at place 3");
    assert_eq!(Refusal { number: 99, place: 0 }.reason(), None);
    assert_eq!(ViolationType::EarlyStart.to_string(), "EarlyStart");
    assert_eq!((MarginOf::Resource.to_string().as_str(), MarginOf::of(3)), ("resource", None));
    assert_eq!((Check::of(0), Check::of(10), Reason::of(0), ViolationType::of(12)), (None, None, None, None));
}
