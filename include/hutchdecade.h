/* hutchdecade.h: the calls of libhutchdecade.a, which say what is wrong with a machine shop's week.

   A sheet is lent as rows of ten numbers: the row's kind (HUTCH_KIND_..), its columns in order, then zeros. A column that may be
   empty holds HUTCH_NONE. Rows may come in any order. A finding is four numbers: check, type, entity, severity; a margin is three: of what
   (HUTCH_MARGIN_OF_..), id, margin. Places count from 0.
   docs/RULES.md has every rule. That each call answers by these rules, whatever the lent numbers and bytes are, and that it
   touches no memory but what is lent, is proved; what the caller owes is said here, and nothing checks it at run time.

   Lent      `length` and `room` count numbers (of a text: bytes), never rows. A pointer to numbers is aligned as int64_t is, and valid
             for the whole length until the call returns; nothing of it is kept. Where a length is 0 the pointer is not followed
             and may be NULL. What a call writes to (`rows` that are not const, `findings`, `lines`) overlaps nothing else that is lent to it.
   Refused   no lent number is changed. Accepted: what lies after the last row, finding or margin is as it was. What is lent as const is
             never written to.
   Threads   no call has any state: no heap, no variable of its own, no errno, no input or output. Calls may run at the same time,
             as long as no one writes to what is lent to another, or reads what it is writing.
   Stack     HUTCH_STACK_.. bytes for each call, the return address with them: a bound for any input, read off the machine code
             (tools/benchmark/stack, which fails where the library takes more). The memcpy and memset that you supply come on top.
             Frames of over a page are touched page by page from above, so that a guard page below the stack is met.
   Target    x86-64, ELF, the calling convention of Linux (System V): one archive for programs, position-independent ones and
             shared objects. Symbols needed: memcpy, memset. Nothing else is: no libc, no start-up code, no unwinding.
             Registers: SSE2 at most. Code may use the red zone, 128 bytes below the stack pointer: an interrupt handler of a machine
             without an operating system takes a stack of its own. The floating-point mode is the one that a process starts in (to nearest,
             subnormal numbers kept): no fesetround, no -ffast-math in the program that is linked. Rounded down, process 8 at speed 3.2
             is 2 and not 3, and a finding is missing.

   An example, run by bindings/run:

       #include <inttypes.h>
       #include <stdio.h>
       #include "hutchdecade.h"

       static const char week[] = "1,1,100,\n" "2,10,1,0,0,60,0,0,\n" "5,10,7,1,1\n" "11,5,7,1\n" "23,10,1,5,50,110,0,,\n";
       static int64_t rows[HUTCH_MAX_NUMBERS], findings[2000 * HUTCH_FINDING];

       int main(void) {
           struct hutch_outcome read = sheet_read_text((const uint8_t *)week, sizeof week - 1, rows, HUTCH_MAX_NUMBERS);
           if (read.number != HUTCH_ACCEPTED) return 2;
           struct hutch_outcome found = sheet_check_schedule(rows, read.place * HUTCH_COLUMNS, findings, 2000 * HUTCH_FINDING);
           if (found.number != HUTCH_ACCEPTED) return 2;
           for (const int64_t *f = findings; f < findings + found.place * HUTCH_FINDING; f += HUTCH_FINDING)
               printf("check %" PRId64 ", type %" PRId64 ", entity %" PRId64 ", severity %" PRId64 "\n", f[0], f[1], f[2], f[3]);
           return found.place > 0;
       }

       $ tools/build hutchdecade
       $ cc -I include -o example example.c crates/hutchdecade/out/libhutchdecade.a
       $ ./example
       check 8, type 1, entity 1, severity 80

   Task 1 misses its deadline: it ends at 110, and should at 100. */
#ifndef HUTCHDECADE_H
#define HUTCHDECADE_H

#if !defined(__x86_64__) || !defined(__LP64__)
#error "libhutchdecade.a is for x86-64 with the System V calling convention"
#endif

#include <stddef.h>
#include <stdint.h>

#ifdef __cplusplus
extern "C" {
#endif

/* The product, raised with every delivery; and the rules, raised with every change after which some input is answered otherwise. */
#define HUTCH_VERSION "1.3.0"
#define HUTCH_RULES 1

/* An empty column. */
#define HUTCH_NONE INT64_MIN

#define HUTCH_COLUMNS 10                            /* numbers of a row */
#define HUTCH_MAX_ROWS 800                          /* rows of a sheet */
#define HUTCH_MAX_NUMBERS 8000                      /* numbers of a sheet */
#define HUTCH_MAX_TEXT 65536                        /* bytes of a text */
#define HUTCH_FINDING 4                             /* numbers of a finding */
#define HUTCH_MARGIN 3                              /* numbers of a margin */
#define HUTCH_MAX_MARGINS 800                       /* margins of a sheet: each is of one row */
#define HUTCH_MAX_ID INT64_C(999999999)             /* ids are 0 to this */
#define HUTCH_MAX_COUNT INT64_C(1000000)            /* class u: 0 to this; class n: to this on both sides of 0 */
#define HUTCH_MAX_TIME INT64_C(4000000000000)       /* ms: instants and amounts are 0 to this; signed times to this on both sides of 0 */

/* The stack of each call, in bytes. */
#define HUTCH_STACK_READ_TEXT 1024
#define HUTCH_STACK_READ_FREEBUSY 66560
#define HUTCH_STACK_VALIDATE 31744
#define HUTCH_STACK_CHECK_SCHEDULE 124928
#define HUTCH_STACK_MARGINS 78848
#define HUTCH_STACK_WORK_END 51200

/* `number` of an answer: accepted, or why not. `place` of a refusal is the row, counted from 0, or the line of a text; 0 for 1, 7 and 8. */
enum hutch_number {
    HUTCH_ACCEPTED = 0,
    HUTCH_REFUSED_MISSHAPEN = 1,    /* the numbers are no multiple of ten, or more than HUTCH_MAX_NUMBERS */
    HUTCH_REFUSED_UNKNOWN_KIND = 2, /* a kind is not 1 to 24 */
    HUTCH_REFUSED_OUT_OF_RANGE = 3, /* a column is outside its class, a number after the columns is not 0, or half a part is given */
    HUTCH_REFUSED_STRAY = 4,        /* a column names a task, an activity, a resource, a requirement or a constraint that is not there */
    HUTCH_REFUSED_TWICE = 5,        /* what may be there once is there again: the later row */
    HUTCH_REFUSED_STRETCHED = 6,    /* the derived time of a booking is not finite, or 2^53 ms or more */
    HUTCH_REFUSED_FULL = 7,         /* there are more findings than the lent numbers have whole fours, or margins than they have whole threes */
    HUTCH_REFUSED_OVERLONG = 8,     /* the text has more than HUTCH_MAX_TEXT bytes */
    HUTCH_REFUSED_MISSPELT = 9,     /* a line breaks the spelling */
    HUTCH_REFUSED_CROWDED = 10,     /* the text has more lines than the lent numbers have whole tens */
    HUTCH_REFUSED_MALFORMED = 11,   /* a calendar's line breaks the grammar or lacks its CRLF, a component is not begun and ended, or a period ends no later than it starts */
    HUTCH_REFUSED_UNDATED = 12,     /* a period's date or time does not exist, or is outside 0 to HUTCH_MAX_TIME */
    HUTCH_REFUSED_OVERFULL = 13     /* there are more closures than the lent numbers have whole tens */
};

/* Kinds of rows: columns 1, 2, .. of each. "n?" and the like may be HUTCH_NONE; * names what must be in the sheet. */
enum hutch_kind {
    HUTCH_KIND_TASK = 1,             /* id, deadline t?, release t? */
    HUTCH_KIND_ACTIVITY = 2,         /* id, task*, sequence n, setup m, process m, teardown m, resumable f, release t? */
    HUTCH_KIND_OVERLAP = 3,          /* activity*, start_after (bits of a double, 0.0 to 1.0), finish lag g */
    HUTCH_KIND_SPLIT = 4,            /* activity*, max parts n, min part m, overhead m */
    HUTCH_KIND_REQUIREMENT = 5,      /* activity*, type id, quantity n, usage u */
    HUTCH_KIND_CANDIDATE = 6,        /* activity*, place of the requirement*, resource id */
    HUTCH_KIND_WANTED_SKILL = 7,     /* activity*, place of the requirement*, skill id */
    HUTCH_KIND_PREDECESSOR = 8,      /* activity*, activity id */
    HUTCH_KIND_SPEED = 9,            /* activity*, resource id, speed (bits of a double, 2^-10 to 2^10) */
    HUTCH_KIND_FIXED_TIMING = 10,    /* activity*, resource id, setup m, process m, teardown m */
    HUTCH_KIND_RESOURCE = 11,        /* id, type id, capacity n */
    HUTCH_KIND_SKILL = 12,           /* resource*, skill id */
    HUTCH_KIND_COMPANION = 13,       /* resource*, resource id */
    HUTCH_KIND_TRANSPORT = 14,       /* resource*, resource id, time m */
    HUTCH_KIND_RESOURCE_WINDOW = 15, /* resource*, closed f, start t, end t */
    HUTCH_KIND_ACTIVITY_WINDOW = 16, /* activity*, closed f, start t, end t */
    HUTCH_KIND_PRECEDENCE = 17,      /* before id, after id, delay g */
    HUTCH_KIND_CAPACITY = 18,        /* resource id, max n */
    HUTCH_KIND_TIME_WINDOW = 19,     /* activity id, start t, end t */
    HUTCH_KIND_NO_OVERLAP = 20,      /* resource id */
    HUTCH_KIND_SYNCHRONIZE = 21,     /* no column */
    HUTCH_KIND_MEMBER = 22,          /* place of the constraint* among kinds 17 to 21, activity id */
    HUTCH_KIND_BOOKING = 23,         /* activity id, task id, resource id, start t, end t, setup m, part index n?, part work m? */
    HUTCH_KIND_TIME_ONLY = 24        /* activity id, task id, start t, end t */
};

/* The first number of a finding: the check that it is of. */
enum hutch_check {
    HUTCH_CHECK_ASSIGNMENTS = 1,
    HUTCH_CHECK_TIME_ONLY = 2,
    HUTCH_CHECK_PARTS = 3,
    HUTCH_CHECK_REQUIREMENTS = 4,
    HUTCH_CHECK_CAPACITY = 5,
    HUTCH_CHECK_CALENDARS = 6,
    HUTCH_CHECK_PRECEDENCE = 7,
    HUTCH_CHECK_DEADLINES = 8,
    HUTCH_CHECK_CONSTRAINTS = 9
};

/* The second number of a finding; with what the third is, the entity, and the fourth, the severity. */
enum hutch_type {
    HUTCH_TYPE_DEADLINE_MISS = 1,         /* task; 80 */
    HUTCH_TYPE_CAPACITY_EXCEEDED = 2,     /* resource; 90 */
    HUTCH_TYPE_PRECEDENCE_VIOLATION = 3,  /* the later activity; 95 */
    HUTCH_TYPE_RESOURCE_UNAVAILABLE = 4,  /* resource; 85 */
    HUTCH_TYPE_SKILL_MISMATCH = 5,        /* resource; 70 */
    HUTCH_TYPE_REQUIREMENT_UNFILLED = 6,  /* activity; 95 */
    HUTCH_TYPE_TIME_WINDOW_VIOLATION = 7, /* activity; 75 */
    HUTCH_TYPE_SYNCHRONIZE_VIOLATION = 8, /* place of the constraint among kinds 17 to 21; 75 */
    HUTCH_TYPE_UNKNOWN_ACTIVITY = 9,      /* activity; 95 */
    HUTCH_TYPE_DURATION_TOO_SHORT = 10,   /* activity; 90 */
    HUTCH_TYPE_EARLY_START = 11           /* activity; 90 */
};

/* An answer: `number` is an enum hutch_number. Accepted, `place` is a count, as the call says; refused, it is the place. */
struct hutch_outcome {
    uint64_t number;
    uint64_t place;
};

/* Reads a text of `length` bytes, and writes its rows to the lent numbers, ten for each line.
   Accepted: `place` is the count of rows, and the first 10 * place of the lent numbers hold them.
   Refused: 8, 9, 2, 10. */
struct hutch_outcome sheet_read_text(const uint8_t *text, size_t length, int64_t *rows, size_t room);

/* Reads an office calendar (RFC 5545) of `length` bytes, and writes the busy periods of its VFREEBUSY components to the lent numbers, as rows of
   kind 15: closed windows of the resource, ms from 1 January 1970 UTC.
   Accepted: `place` is the count of rows, and the first 10 * place of the lent numbers hold them.
   Refused: 8; 3 with place 0 where the resource is outside 0 to HUTCH_MAX_ID; 11 to 13 with the place of the line, folds taken out. */
struct hutch_outcome sheet_read_freebusy(const uint8_t *text, size_t length, int64_t resource, int64_t *rows, size_t room);

/* Judges the rows alone.
   Accepted: `place` is 0.
   Refused: 1 to 5. */
struct hutch_outcome sheet_validate(const int64_t *rows, size_t length);

/* THE CALL. Checks the week that the rows describe, and writes what is wrong with it to the lent numbers, four for each finding:
   those of check 1 first, and so on to check 9; those of check 5 stand in the order of the rows in which their resources are booked
   first. So equal rows give equal findings, number for number.
   Accepted: `place` is the count of findings, and the first 4 * place of the lent numbers hold them; 0: the week can be released.
   Refused: 1 to 7. Refusal 7 does not say how many there are: lend more. */
struct hutch_outcome sheet_check_schedule(const int64_t *rows, size_t length, int64_t *findings, size_t room);

/* The first number of a margin; with what the second is, the id, and the third, the margin. */
enum hutch_margin_of {
    HUTCH_MARGIN_OF_TASK = 1,    /* task; its deadline minus its completion, in ms */
    HUTCH_MARGIN_OF_RESOURCE = 2 /* resource; its limit minus its peak load, in units */
};

/* How late, or how much slack. Writes to the lent numbers, three for each margin: those of the tasks with a deadline and a completion, in the order
   of their rows; then those of the booked resources, in the order of their first bookings. A margin is below zero exactly where
   sheet_check_schedule has a finding of check 8 (of that task) or 5 (of that resource).
   Accepted: `place` is the count of margins, and the first 3 * place of the lent numbers hold them; 0: nothing has a margin.
   Refused: 1 to 7. Room for HUTCH_MAX_MARGINS is always enough. */
struct hutch_outcome sheet_margins(const int64_t *rows, size_t length, int64_t *lines, size_t room);

/* `outcome` of an accepted inquiry. */
enum hutch_work_outcome {
    HUTCH_WORK_END = 0,   /* the work ends at `instant` */
    HUTCH_WORK_PAUSE = 1, /* the start is no working time */
    HUTCH_WORK_NEVER = 2  /* started in working time, and too little of it follows */
};

/* An inquiry's answer: `number` and `place` as in struct hutch_outcome (accepted, `place` is 0). `outcome` is an
   enum hutch_work_outcome, 0 where refused; `instant` is 0 where no end is answered. */
struct hutch_work_end {
    uint64_t number;
    uint64_t place;
    uint64_t outcome;
    uint64_t instant;
};

/* When does work of `work` ms end that is started on a resource at `start`? By the windows of that resource (kind 15) alone; one
   that has none, or that is not in the sheet, works always.
   Refused: 1 to 5; then 3 with place 0 where the start is outside 0 to HUTCH_MAX_TIME, or the work outside that on both sides of 0. */
struct hutch_work_end sheet_work_end(const int64_t *rows, size_t length, int64_t resource, int64_t start, int64_t work);

#ifdef __cplusplus
}
#endif
#endif
