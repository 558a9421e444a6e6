//! Safe calls of `libhutchdecade.a`, which say what is wrong with a machine shop's week. Without `std`, without a heap, without dependencies.
//!
//! A sheet is lent as rows of ten numbers: the row's [`kind`], its columns in order, then zeros; a column that may be empty holds
//! [`NONE`]. A [`Finding`] is four numbers, a [`Margin`] three. `include/hutchdecade.h` has what a call is lent, what it answers and how much stack it takes;
//! `docs/RULES.md` has the rules. What the header asks of the memory that is lent, the types here see to: slices are aligned,
//! and one that is written to overlaps no other. What remains for the caller is the stack ([`stack`]) and the floating-point
//! mode, which must be the one that a process starts in.
//!
//! ```
//! let mut rows = [0; hutchdecade::MAX_NUMBERS];
//! let mut lent = [0; 100 * hutchdecade::FINDING];
//! let text = b"1,1,100,\n2,10,1,0,0,60,0,0,\n5,10,7,1,1\n11,5,7,1\n23,10,1,5,50,110,0,,\n";
//! let sheet = hutchdecade::read_text(text, &mut rows)?;
//! for finding in hutchdecade::check_schedule(sheet, &mut lent)? {
//!     assert_eq!(finding.violation_type(), Some(hutchdecade::ViolationType::DeadlineMiss));
//!     assert_eq!(finding.entity, 1); // the task
//! }
//! # Ok::<(), hutchdecade::Refusal>(())
//! ```
#![no_std]
#![deny(missing_docs, unsafe_op_in_unsafe_fn)]

use core::fmt;
use core::iter::FusedIterator;
use core::slice::ChunksExact;

#[cfg(not(all(target_arch = "x86_64", target_pointer_width = "64", not(windows))))]
compile_error!("libhutchdecade.a is for x86-64 with the System V calling convention");

/// The version of the product.
pub const VERSION: &str = "1.3.0";
/// The revision of the rules: raised with every change after which some input is answered otherwise.
pub const RULES: u32 = 1;
/// An empty column.
pub const NONE: i64 = i64::MIN;
/// Numbers of a row.
pub const COLUMNS: usize = 10;
/// Rows of a sheet, at most.
pub const MAX_ROWS: usize = 800;
/// Numbers of a sheet, at most.
pub const MAX_NUMBERS: usize = 8000;
/// Bytes of a text, at most.
pub const MAX_TEXT: usize = 65536;
/// Numbers of a finding.
pub const FINDING: usize = 4;
/// Numbers of a margin.
pub const MARGIN: usize = 3;
/// Margins of a sheet, at most.
pub const MAX_MARGINS: usize = 800;
/// Ids are 0 to this.
pub const MAX_ID: i64 = 999_999_999;
/// Numbers of class u are 0 to this; those of class n lie within this on both sides of 0.
pub const MAX_COUNT: i64 = 1_000_000;
/// Instants and amounts, in ms, are 0 to this; signed times lie within this on both sides of 0.
pub const MAX_TIME: i64 = 4_000_000_000_000;

/// The stack of each call, in bytes, for any input; `memcpy` and `memset` come on top.
pub mod stack {
    /// Of [`crate::read_text`].
    pub const READ_TEXT: usize = 1024;
    /// Of [`crate::read_freebusy`].
    pub const READ_FREEBUSY: usize = 66560;
    /// Of [`crate::validate`].
    pub const VALIDATE: usize = 31744;
    /// Of [`crate::check_schedule`].
    pub const CHECK_SCHEDULE: usize = 124928;
    /// Of [`crate::margins`].
    pub const MARGINS: usize = 78848;
    /// Of [`crate::work_end`].
    pub const WORK_END: usize = 51200;
}

/// The kinds of rows: the first number of each. The header has their columns.
#[allow(missing_docs)]
pub mod kind {
    pub const TASK: i64 = 1;
    pub const ACTIVITY: i64 = 2;
    pub const OVERLAP: i64 = 3;
    pub const SPLIT: i64 = 4;
    pub const REQUIREMENT: i64 = 5;
    pub const CANDIDATE: i64 = 6;
    pub const WANTED_SKILL: i64 = 7;
    pub const PREDECESSOR: i64 = 8;
    pub const SPEED: i64 = 9;
    pub const FIXED_TIMING: i64 = 10;
    pub const RESOURCE: i64 = 11;
    pub const SKILL: i64 = 12;
    pub const COMPANION: i64 = 13;
    pub const TRANSPORT: i64 = 14;
    pub const RESOURCE_WINDOW: i64 = 15;
    pub const ACTIVITY_WINDOW: i64 = 16;
    pub const PRECEDENCE: i64 = 17;
    pub const CAPACITY: i64 = 18;
    pub const TIME_WINDOW: i64 = 19;
    pub const NO_OVERLAP: i64 = 20;
    pub const SYNCHRONIZE: i64 = 21;
    pub const MEMBER: i64 = 22;
    pub const BOOKING: i64 = 23;
    pub const TIME_ONLY: i64 = 24;
}

/// An enum with numbers, and the way back from a number.
macro_rules! numbered {
    ($(#[$about:meta])* $name:ident: $number:ty { $($(#[$case_about:meta])* $case:ident = $value:literal, $word:literal;)* }) => {
        $(#[$about])*
        #[derive(Debug, Clone, Copy, PartialEq, Eq, Hash)]
        pub enum $name {
            $($(#[$case_about])* $case = $value,)*
        }

        impl $name {
            /// All of them, by number.
            pub const ALL: &'static [$name] = &[$($name::$case),*];

            /// The one with this number.
            pub const fn of(number: $number) -> Option<$name> {
                match number {
                    $($value => Some($name::$case),)*
                    _ => None,
                }
            }

            /// Its number.
            pub const fn number(self) -> $number {
                self as $number
            }

            /// Its name in the rules.
            pub const fn name(self) -> &'static str {
                match self {
                    $($name::$case => $word,)*
                }
            }
        }

        impl fmt::Display for $name {
            fn fmt(&self, to: &mut fmt::Formatter<'_>) -> fmt::Result {
                to.write_str(self.name())
            }
        }
    };
}

numbered! {
    /// Why a sheet or a text was refused.
    Reason: u64 {
        /// The numbers are no multiple of ten, or more than [`MAX_NUMBERS`].
        Misshapen = 1, "misshapen";
        /// A kind is not 1 to 24.
        UnknownKind = 2, "unknown kind";
        /// A column is outside its class, a number after the columns is not 0, or half a part is given.
        OutOfRange = 3, "out of range";
        /// A column names what is not in the sheet.
        Stray = 4, "stray";
        /// What may be there once is there again: the later row.
        Twice = 5, "twice";
        /// The derived time of a booking is not finite, or 2^53 ms or more.
        Stretched = 6, "stretched";
        /// There are more findings than the lent numbers have whole fours, or margins than they have whole threes.
        Full = 7, "full";
        /// The text has more than [`MAX_TEXT`] bytes.
        Overlong = 8, "overlong";
        /// A line breaks the spelling.
        Misspelt = 9, "misspelt";
        /// The text has more lines than the lent numbers have whole tens.
        Crowded = 10, "crowded";
        /// A calendar's line breaks the grammar or lacks its CRLF, a component is not begun and ended, or a period ends no later than it starts.
        Malformed = 11, "malformed";
        /// A period's date or time does not exist, or is outside 0 to [`MAX_TIME`].
        Undated = 12, "undated";
        /// There are more closures than the lent numbers have whole tens.
        Overfull = 13, "overfull";
    }
}

numbered! {
    /// The check that a finding is of.
    Check: i64 {
        /// Bookings.
        Assignments = 1, "check_assignments";
        /// Time-only spans.
        TimeOnly = 2, "check_time_only";
        /// Parts.
        Parts = 3, "check_parts";
        /// Requirements.
        Requirements = 4, "check_requirements";
        /// Capacity.
        Capacity = 5, "check_capacity";
        /// Calendars.
        Calendars = 6, "check_calendars";
        /// Precedence.
        Precedence = 7, "check_precedence";
        /// Deadlines.
        Deadlines = 8, "check_deadlines";
        /// Constraints.
        Constraints = 9, "check_constraints";
    }
}

numbered! {
    /// What is wrong, and what the entity of the finding then is.
    ViolationType: i64 {
        /// A task.
        DeadlineMiss = 1, "DeadlineMiss";
        /// A resource.
        CapacityExceeded = 2, "CapacityExceeded";
        /// The later activity.
        PrecedenceViolation = 3, "PrecedenceViolation";
        /// A resource.
        ResourceUnavailable = 4, "ResourceUnavailable";
        /// A resource.
        SkillMismatch = 5, "SkillMismatch";
        /// An activity.
        RequirementUnfilled = 6, "RequirementUnfilled";
        /// An activity.
        TimeWindowViolation = 7, "TimeWindowViolation";
        /// The place of the constraint among kinds 17 to 21.
        SynchronizeViolation = 8, "SynchronizeViolation";
        /// An activity.
        UnknownActivity = 9, "UnknownActivity";
        /// An activity.
        DurationTooShort = 10, "DurationTooShort";
        /// An activity.
        EarlyStart = 11, "EarlyStart";
    }
}

numbered! {
    /// What a margin is of.
    MarginOf: i64 {
        /// A task: its deadline minus its completion, in ms.
        Task = 1, "task";
        /// A resource: its limit minus its peak load, in units.
        Resource = 2, "resource";
    }
}

/// A refusal. Nothing that was lent is changed by a call that gives it.
#[derive(Debug, Clone, Copy, PartialEq, Eq, Hash)]
pub struct Refusal {
    /// Its number.
    pub number: u64,
    /// The row or the line, counted from 0; 0 for [`Reason::Misshapen`], [`Reason::Full`] and [`Reason::Overlong`].
    pub place: usize,
}

impl Refusal {
    /// What the number stands for.
    pub const fn reason(&self) -> Option<Reason> {
        Reason::of(self.number)
    }
}

impl fmt::Display for Refusal {
    fn fmt(&self, to: &mut fmt::Formatter<'_>) -> fmt::Result {
        let word = self.reason().map_or("no known reason", Reason::name);
        write!(to, "refused by {} ({word}) at place {}", self.number, self.place)
    }
}

impl core::error::Error for Refusal {}

/// A finding, as the four numbers that it is written as.
#[derive(Debug, Clone, Copy, PartialEq, Eq, Hash)]
pub struct Finding {
    /// The number of the [`Check`].
    pub check: i64,
    /// The number of the [`ViolationType`].
    pub violation: i64,
    /// The id of a task, an activity or a resource, or the place of a constraint.
    pub entity: i64,
    /// 70 to 95.
    pub severity: i64,
}

impl Finding {
    /// The check that it is of.
    pub const fn of_check(&self) -> Option<Check> {
        Check::of(self.check)
    }

    /// What is wrong.
    pub const fn violation_type(&self) -> Option<ViolationType> {
        ViolationType::of(self.violation)
    }
}

/// The findings of an accepted sheet, in the lent numbers: those of check 1 first, and so on to check 9; those of check 5 stand in the
/// order of the rows in which their resources are booked first. So equal rows give equal findings, one by one.
#[derive(Debug, Clone)]
#[must_use = "a week without findings is released"]
pub struct Findings<'a>(ChunksExact<'a, i64>);

impl Findings<'_> {
    /// Whether there is none (left): the week can be released.
    pub fn is_empty(&self) -> bool {
        self.0.len() == 0
    }
}

impl Iterator for Findings<'_> {
    type Item = Finding;

    fn next(&mut self) -> Option<Finding> {
        self.0.next().map(|f| Finding { check: f[0], violation: f[1], entity: f[2], severity: f[3] })
    }

    fn size_hint(&self) -> (usize, Option<usize>) {
        self.0.size_hint()
    }
}

impl ExactSizeIterator for Findings<'_> {}
impl FusedIterator for Findings<'_> {}

/// A margin, as the three numbers that it is written as. Below zero the task is late, or the resource overloaded: exactly then the check has a finding.
#[derive(Debug, Clone, Copy, PartialEq, Eq, Hash)]
pub struct Margin {
    /// The number of the [`MarginOf`].
    pub of: i64,
    /// The id of the task or of the resource.
    pub id: i64,
    /// In ms of a task, in units of a resource.
    pub margin: i64,
}

impl Margin {
    /// What it is of.
    pub const fn margin_of(&self) -> Option<MarginOf> {
        MarginOf::of(self.of)
    }
}

/// The margins of an accepted sheet, in the lent numbers.
#[derive(Debug, Clone)]
pub struct Margins<'a>(ChunksExact<'a, i64>);

impl Iterator for Margins<'_> {
    type Item = Margin;

    fn next(&mut self) -> Option<Margin> {
        self.0.next().map(|m| Margin { of: m[0], id: m[1], margin: m[2] })
    }

    fn size_hint(&self) -> (usize, Option<usize>) {
        self.0.size_hint()
    }
}

impl ExactSizeIterator for Margins<'_> {}
impl FusedIterator for Margins<'_> {}

/// When work ends.
#[derive(Debug, Clone, Copy, PartialEq, Eq, Hash)]
pub enum WorkEnd {
    /// At this instant.
    End(u64),
    /// The start is no working time.
    Pause,
    /// Started in working time, and too little of it follows.
    Never,
}

mod raw {
    #[repr(C)]
    pub struct Outcome {
        pub number: u64,
        pub place: u64,
    }

    #[repr(C)]
    pub struct WorkEnd {
        pub number: u64,
        pub place: u64,
        pub outcome: u64,
        pub instant: u64,
    }

    pub const ACCEPTED: u64 = 0;
    pub const END: u64 = 0;
    pub const PAUSE: u64 = 1;

    extern "C" {
        pub fn sheet_read_text(text: *const u8, length: usize, rows: *mut i64, room: usize) -> Outcome;
        pub fn sheet_read_freebusy(text: *const u8, length: usize, resource: i64, rows: *mut i64, room: usize) -> Outcome;
        pub fn sheet_validate(rows: *const i64, length: usize) -> Outcome;
        pub fn sheet_check_schedule(rows: *const i64, length: usize, findings: *mut i64, room: usize) -> Outcome;
        pub fn sheet_margins(rows: *const i64, length: usize, lines: *mut i64, room: usize) -> Outcome;
        pub fn sheet_work_end(rows: *const i64, length: usize, resource: i64, start: i64, work: i64) -> WorkEnd;
    }
}

/// The count of an accepted call.
fn count(number: u64, place: u64) -> Result<usize, Refusal> {
    let place = place as usize;
    if number == raw::ACCEPTED {
        Ok(place)
    } else {
        Err(Refusal { number, place })
    }
}

/// Reads a text, writes its rows to the lent numbers, and gives these rows; what lies after them is unchanged.
/// Refused by [`Reason::Overlong`], [`Reason::Misspelt`], [`Reason::UnknownKind`] and [`Reason::Crowded`].
pub fn read_text<'a>(text: &[u8], lent: &'a mut [i64]) -> Result<&'a [i64], Refusal> {
    // SAFETY: both slices are aligned and valid for their lengths, and the one that is written to is borrowed by nobody else.
    let answer = unsafe { raw::sheet_read_text(text.as_ptr(), text.len(), lent.as_mut_ptr(), lent.len()) };
    let rows = count(answer.number, answer.place)?;
    Ok(&lent[..rows * COLUMNS])
}

/// Reads an office calendar (RFC 5545), writes the busy periods of its VFREEBUSY components to the lent numbers, as rows of closed windows of the
/// resource in ms from 1 January 1970 UTC, and gives these rows; what lies after them is unchanged. Refused by [`Reason::Overlong`],
/// [`Reason::OutOfRange`] for the resource, [`Reason::Malformed`], [`Reason::Undated`] and [`Reason::Overfull`]; the place is the line, folds taken out.
pub fn read_freebusy<'a>(text: &[u8], resource: i64, lent: &'a mut [i64]) -> Result<&'a [i64], Refusal> {
    // SAFETY: both slices are aligned and valid for their lengths, and the one that is written to is borrowed by nobody else.
    let answer = unsafe { raw::sheet_read_freebusy(text.as_ptr(), text.len(), resource, lent.as_mut_ptr(), lent.len()) };
    let rows = count(answer.number, answer.place)?;
    Ok(&lent[..rows * COLUMNS])
}

/// Judges the rows alone. Refused by 1 to 5, [`Reason::Misshapen`] to [`Reason::Twice`].
pub fn validate(rows: &[i64]) -> Result<(), Refusal> {
    // SAFETY: the slice is aligned and valid for its length; it is only read.
    let answer = unsafe { raw::sheet_validate(rows.as_ptr(), rows.len()) };
    count(answer.number, answer.place).map(|_| ())
}

/// The call: checks the week that the rows describe, writes what is wrong with it to the lent numbers, and gives these findings; what
/// lies after them is unchanged. Refused by 1 to 7, [`Reason::Misshapen`] to [`Reason::Full`].
pub fn check_schedule<'a>(rows: &[i64], lent: &'a mut [i64]) -> Result<Findings<'a>, Refusal> {
    // SAFETY: both slices are aligned and valid for their lengths, and the one that is written to is borrowed by nobody else.
    let answer = unsafe { raw::sheet_check_schedule(rows.as_ptr(), rows.len(), lent.as_mut_ptr(), lent.len()) };
    let findings = count(answer.number, answer.place)?;
    Ok(Findings(lent[..findings * FINDING].chunks_exact(FINDING)))
}

/// How late, or how much slack: writes the margins of the tasks and then of the booked resources to the lent numbers, and gives them; what lies
/// after them is unchanged. Refused by 1 to 7, [`Reason::Misshapen`] to [`Reason::Full`]; room for [`MAX_MARGINS`] is always enough.
pub fn margins<'a>(rows: &[i64], lent: &'a mut [i64]) -> Result<Margins<'a>, Refusal> {
    // SAFETY: both slices are aligned and valid for their lengths, and the one that is written to is borrowed by nobody else.
    let answer = unsafe { raw::sheet_margins(rows.as_ptr(), rows.len(), lent.as_mut_ptr(), lent.len()) };
    let lines = count(answer.number, answer.place)?;
    Ok(Margins(lent[..lines * MARGIN].chunks_exact(MARGIN)))
}

/// When work of so many ms ends that is started on a resource at an instant, by that resource's windows alone; one that has none, or is not
/// in the sheet, works always. Refused by 1 to 5, then by [`Reason::OutOfRange`] with place 0 for the start or the work.
pub fn work_end(rows: &[i64], resource: i64, start: i64, work: i64) -> Result<WorkEnd, Refusal> {
    // SAFETY: the slice is aligned and valid for its length; it is only read.
    let answer = unsafe { raw::sheet_work_end(rows.as_ptr(), rows.len(), resource, start, work) };
    count(answer.number, answer.place)?;
    Ok(match answer.outcome {
        raw::END => WorkEnd::End(answer.instant),
        raw::PAUSE => WorkEnd::Pause,
        _ => WorkEnd::Never,
    })
}
