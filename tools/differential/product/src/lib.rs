//! The product's exported functions (README.md beside this folder has them), each wrapped so that every promise about
//! a lent buffer is looked at. A function that the static library does not have answers None.

/// A refusal by number and place, or, with number 0, acceptance and a count in the place.
#[repr(C)]
#[derive(Debug, Clone, Copy, PartialEq, Eq)]
pub struct Answer {
    pub number: u64,
    pub place: u64,
}

/// A refusal by number and place, or, with number 0, an outcome: 0 an end at the instant, 1 pause, 2 never.
#[repr(C)]
#[derive(Debug, Clone, Copy, PartialEq, Eq)]
pub struct WorkEnd {
    pub number: u64,
    pub place: u64,
    pub outcome: u64,
    pub instant: u64,
}

#[allow(dead_code)]
mod exported {
    use super::{Answer, WorkEnd};

    extern "C" {
        pub fn sheet_validate(rows: *const i64, length: usize) -> Answer;
        pub fn sheet_read_text(
            text: *const u8,
            length: usize,
            rows: *mut i64,
            lent: usize,
        ) -> Answer;
        pub fn sheet_work_end(
            rows: *const i64,
            length: usize,
            resource: i64,
            start: i64,
            work: i64,
        ) -> WorkEnd;
        pub fn sheet_check_schedule(
            rows: *const i64,
            length: usize,
            findings: *mut i64,
            room: usize,
        ) -> Answer;
        pub fn sheet_margins(
            rows: *const i64,
            length: usize,
            lines: *mut i64,
            room: usize,
        ) -> Answer;
    }
}

/// What a lent number holds before the call, and what stands on both sides of a lent buffer: one that no answer has.
const MARK: i64 = -7_777_777_777_777_777_777;
const GUARD: usize = 64;

/// A buffer of marks with guards about it.
pub struct Lent {
    numbers: Vec<i64>,
    length: usize,
}

impl Lent {
    pub fn new(length: usize) -> Lent {
        Lent {
            numbers: vec![MARK; length + 2 * GUARD],
            length,
        }
    }

    #[allow(dead_code)]
    fn pointer(&mut self) -> *mut i64 {
        self.numbers[GUARD..].as_mut_ptr()
    }

    /// The first numbers, if everything else is as it was.
    fn first(&self, count: usize) -> Result<&[i64], String> {
        if count > self.length {
            return Err(format!("{count} numbers in a buffer of {}", self.length));
        }
        let (before, rest) = self.numbers.split_at(GUARD);
        let (first, after) = rest.split_at(count);
        if before.iter().chain(after).any(|&x| x != MARK) {
            return Err("a number was changed that must not be".to_string());
        }
        Ok(first)
    }
}

/// The rows in a buffer of their own, so that a change of them is seen.
pub fn unchanged<T>(rows: &[i64], call: impl FnOnce(&[i64]) -> T) -> Result<T, String> {
    let copy = rows.to_vec();
    let answer = call(&copy);
    if copy == rows {
        Ok(answer)
    } else {
        Err("the rows were changed".to_string())
    }
}

pub fn validate(rows: &[i64]) -> Option<Answer> {
    #[cfg(has_sheet_validate)]
    return Some(unsafe { exported::sheet_validate(rows.as_ptr(), rows.len()) });
    #[cfg(not(has_sheet_validate))]
    {
        let _ = rows;
        None
    }
}

pub fn work_end(rows: &[i64], resource: i64, start: i64, work: i64) -> Option<WorkEnd> {
    #[cfg(has_sheet_work_end)]
    return Some(unsafe {
        exported::sheet_work_end(rows.as_ptr(), rows.len(), resource, start, work)
    });
    #[cfg(not(has_sheet_work_end))]
    {
        let _ = (rows, resource, start, work);
        None
    }
}

/// The answer and, accepted, the numbers of the rows; or what was wrong with the buffer.
pub fn read_text(text: &[u8], lent: usize) -> Option<Result<(Answer, Vec<i64>), String>> {
    #[cfg(has_sheet_read_text)]
    {
        let mut rows = Lent::new(lent);
        let answer =
            unsafe { exported::sheet_read_text(text.as_ptr(), text.len(), rows.pointer(), lent) };
        let count = if answer.number == 0 {
            answer.place as usize * 10
        } else {
            0
        };
        return Some(rows.first(count).map(|numbers| (answer, numbers.to_vec())));
    }
    #[cfg(not(has_sheet_read_text))]
    {
        let _ = (text, lent);
        None
    }
}

/// The answer and, accepted, the findings; or what was wrong with the buffer.
pub fn check_schedule(rows: &[i64], room: usize) -> Option<Result<(Answer, Vec<i64>), String>> {
    #[cfg(has_sheet_check_schedule)]
    {
        let mut findings = Lent::new(room);
        let answer = unsafe {
            exported::sheet_check_schedule(rows.as_ptr(), rows.len(), findings.pointer(), room)
        };
        let count = if answer.number == 0 {
            answer.place as usize * 4
        } else {
            0
        };
        return Some(
            findings
                .first(count)
                .map(|numbers| (answer, numbers.to_vec())),
        );
    }
    #[cfg(not(has_sheet_check_schedule))]
    {
        let _ = (rows, room);
        None
    }
}

/// The answer and, accepted, the margin lines; or what was wrong with the buffer.
pub fn margins(rows: &[i64], room: usize) -> Option<Result<(Answer, Vec<i64>), String>> {
    #[cfg(has_sheet_margins)]
    {
        let mut lines = Lent::new(room);
        let answer =
            unsafe { exported::sheet_margins(rows.as_ptr(), rows.len(), lines.pointer(), room) };
        let count = if answer.number == 0 {
            answer.place as usize * 3
        } else {
            0
        };
        return Some(lines.first(count).map(|numbers| (answer, numbers.to_vec())));
    }
    #[cfg(not(has_sheet_margins))]
    {
        let _ = (rows, room);
        None
    }
}

/// The call as the benchmark times it: a buffer that is lent again and again.
pub fn check_schedule_into(rows: &[i64], findings: &mut [i64]) -> Option<Answer> {
    #[cfg(has_sheet_check_schedule)]
    return Some(unsafe {
        exported::sheet_check_schedule(
            rows.as_ptr(),
            rows.len(),
            findings.as_mut_ptr(),
            findings.len(),
        )
    });
    #[cfg(not(has_sheet_check_schedule))]
    {
        let _ = (rows, findings);
        None
    }
}
