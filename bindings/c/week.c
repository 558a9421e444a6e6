/* A week that is built from rows, as a planning program would do it: no text is read. Prints what is wrong, in words, how late or how early
   the job is, and when work that is started at 6:00 would end.

       cc -I include -o week bindings/c/week.c crates/hutchdecade/out/libhutchdecade.a && ./week */
#include "hutchdecade.h"

#include <inttypes.h>
#include <stdio.h>

enum { JOB = 1, TURN = 10, MILL = 20, LATHE = 5, MILLING = 6, LATHES = 70, MILLS = 71, ROWS = 11, MOST = 100 };
#define MINUTE INT64_C(60000)
#define HOUR INT64_C(3600000)

/* Two steps of a job: turned on the lathe from 6:00 to 10:00, milled from 9:00 to 12:00, due at 11:00. The lathe rests from 8:00 to 9:00.
   Numbers that are not written are 0, as they must be. */
static const int64_t week[ROWS][HUTCH_COLUMNS] = {
    {HUTCH_KIND_TASK, JOB, 11 * HOUR, HUTCH_NONE},
    {HUTCH_KIND_ACTIVITY, TURN, JOB, 1, 0, 4 * HOUR, 0, 0, HUTCH_NONE},
    {HUTCH_KIND_ACTIVITY, MILL, JOB, 2, 0, 3 * HOUR, 0, 0, HUTCH_NONE},
    {HUTCH_KIND_REQUIREMENT, TURN, LATHES, 1, 1},
    {HUTCH_KIND_REQUIREMENT, MILL, MILLS, 1, 1},
    {HUTCH_KIND_RESOURCE, LATHE, LATHES, 1},
    {HUTCH_KIND_RESOURCE, MILLING, MILLS, 1},
    {HUTCH_KIND_RESOURCE_WINDOW, LATHE, 0, 6 * HOUR, 18 * HOUR},
    {HUTCH_KIND_RESOURCE_WINDOW, LATHE, 1, 8 * HOUR, 9 * HOUR},
    {HUTCH_KIND_BOOKING, TURN, JOB, LATHE, 6 * HOUR, 10 * HOUR, 0, HUTCH_NONE, HUTCH_NONE},
    {HUTCH_KIND_BOOKING, MILL, JOB, MILLING, 9 * HOUR, 12 * HOUR, 0, HUTCH_NONE, HUTCH_NONE},
};

static const char *const types[] = {
    [HUTCH_TYPE_DEADLINE_MISS] = "misses its deadline: task",
    [HUTCH_TYPE_CAPACITY_EXCEEDED] = "has more booked than it can take: resource",
    [HUTCH_TYPE_PRECEDENCE_VIOLATION] = "starts before what it follows has ended: activity",
    [HUTCH_TYPE_RESOURCE_UNAVAILABLE] = "is booked outside its working time: resource",
    [HUTCH_TYPE_SKILL_MISMATCH] = "lacks a skill: resource",
    [HUTCH_TYPE_REQUIREMENT_UNFILLED] = "lacks a resource that it needs: activity",
    [HUTCH_TYPE_TIME_WINDOW_VIOLATION] = "lies outside its window: activity",
    [HUTCH_TYPE_SYNCHRONIZE_VIOLATION] = "does not start at one time: constraint",
    [HUTCH_TYPE_UNKNOWN_ACTIVITY] = "is booked as it may not be: activity",
    [HUTCH_TYPE_DURATION_TOO_SHORT] = "is given too little time: activity",
    [HUTCH_TYPE_EARLY_START] = "starts before it is released: activity",
};

int main(void) {
    static int64_t findings[MOST * HUTCH_FINDING], margins[HUTCH_MAX_MARGINS * HUTCH_MARGIN];
    struct hutch_outcome found = sheet_check_schedule(week[0], ROWS * HUTCH_COLUMNS, findings, MOST * HUTCH_FINDING);
    if (found.number != HUTCH_ACCEPTED) {
        printf("refused: number %" PRIu64 " at row %" PRIu64 "\n", found.number, found.place);
        return 2;
    }
    for (const int64_t *f = findings; f < findings + found.place * HUTCH_FINDING; f += HUTCH_FINDING)
        printf("%s %" PRId64 "\n", types[f[1]], f[2]);
    struct hutch_outcome left = sheet_margins(week[0], ROWS * HUTCH_COLUMNS, margins, HUTCH_MAX_MARGINS * HUTCH_MARGIN);
    for (const int64_t *m = margins; left.number == HUTCH_ACCEPTED && m < margins + left.place * HUTCH_MARGIN; m += HUTCH_MARGIN)
        if (m[0] == HUTCH_MARGIN_OF_TASK) printf("task %" PRId64 " has %" PRId64 " minutes left\n", m[1], m[2] / MINUTE);
    struct hutch_work_end end = sheet_work_end(week[0], ROWS * HUTCH_COLUMNS, LATHE, 6 * HOUR, 4 * HOUR);
    if (end.number == HUTCH_ACCEPTED && end.outcome == HUTCH_WORK_END)
        printf("four hours of work on the lathe from 6:00 end at %" PRIu64 ":00\n", end.instant / (uint64_t)HOUR);
    return found.place > 0;
}
