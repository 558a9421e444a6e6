/* Every refusal of every call, lengths of 0, rooms that are no whole rows or findings, what a call leaves alone, calls from threads at once.
   Each call is made on memory with forbidden pages about it (lent.h), once at either end. Prints what is wrong; then how much was tried. */
#include "hutchdecade.h"
#include "lent.h"

#include <inttypes.h>
#include <pthread.h>

#define EMPTY HUTCH_NONE
#define HALF INT64_C(0x3fe0000000000000)       /* 0.5 */
#define SLOWEST INT64_C(0x3f50000000000000)    /* 2^-10 */
#define COUNT(rows) (sizeof(rows) / sizeof *(rows) * HUTCH_COLUMNS)
#define LENGTH(text) (sizeof(text) - 1)

typedef int64_t row[HUTCH_COLUMNS];

static int tried, wrong;

static void expect(const char *what, int good) {
    tried++;
    if (good) return;
    wrong++;
    printf("wrong: %s\n", what);
}

static int is(struct hutch_outcome o, uint64_t number, uint64_t place) { return o.number == number && o.place == place; }

/* The task is due at 100 and ends at 110: one finding, 8,1,1,80. */
static const char example_text[] = "1,1,100,\n2,10,1,0,0,60,0,0,\n5,10,7,1,1\n11,5,7,1\n23,10,1,5,50,110,0,,\n";
static const row example[] = {
    {HUTCH_KIND_TASK, 1, 100, EMPTY},
    {HUTCH_KIND_ACTIVITY, 10, 1, 0, 0, 60, 0, 0, EMPTY},
    {HUTCH_KIND_REQUIREMENT, 10, 7, 1, 1},
    {HUTCH_KIND_RESOURCE, 5, 7, 1},
    {HUTCH_KIND_BOOKING, 10, 1, 5, 50, 110, 0, EMPTY, EMPTY},
};
static const int64_t finding[HUTCH_FINDING] = {HUTCH_CHECK_DEADLINES, HUTCH_TYPE_DEADLINE_MISS, 1, 80};

/* ---- the calls, on memory that was lent with care */

static void read_text(const char *what, const void *bytes, size_t length, size_t room, uint64_t number, uint64_t place, const row *rows) {
    for (int side = AT_END; side <= AT_START; side++) {
        struct lent text = lend_copy(bytes, length, (enum side)side), out = lend_marks(room, (enum side)side);
        struct hutch_outcome o = sheet_read_text(text.at, length, out.at, room);
        size_t written = number == HUTCH_ACCEPTED ? (size_t)place * HUTCH_COLUMNS : 0;
        expect(what, is(o, number, place) && untouched(&out, written, room));
        if (rows && written) expect(what, memcmp(out.at, rows, written * sizeof(int64_t)) == 0);
        give_back(&text), give_back(&out);
    }
}

static void read_freebusy(const char *what, const char *calendar, int64_t resource, size_t room, uint64_t number, uint64_t place, const row *rows) {
    size_t length = strlen(calendar);
    for (int side = AT_END; side <= AT_START; side++) {
        struct lent text = lend_copy(calendar, length, (enum side)side), out = lend_marks(room, (enum side)side);
        struct hutch_outcome o = sheet_read_freebusy(text.at, length, resource, out.at, room);
        size_t written = number == HUTCH_ACCEPTED ? (size_t)place * HUTCH_COLUMNS : 0;
        expect(what, is(o, number, place) && untouched(&out, written, room));
        if (rows && written) expect(what, memcmp(out.at, rows, written * sizeof(int64_t)) == 0);
        give_back(&text), give_back(&out);
    }
}

static void check(const char *what, const void *rows, size_t length, size_t room, uint64_t number, uint64_t place) {
    for (int side = AT_END; side <= AT_START; side++) {
        struct lent in = lend_copy(rows, length * sizeof(int64_t), (enum side)side), out = lend_marks(room, (enum side)side);
        struct hutch_outcome o = sheet_check_schedule(in.at, length, out.at, room);
        size_t written = number == HUTCH_ACCEPTED ? (size_t)place * HUTCH_FINDING : 0;
        expect(what, is(o, number, place) && untouched(&out, written, room));
        if (written == HUTCH_FINDING) expect(what, memcmp(out.at, finding, sizeof finding) == 0);
        give_back(&in), give_back(&out);
    }
}

/* The example's: the task is late by 10, the resource has nothing left. */
static const int64_t two_margins[2 * HUTCH_MARGIN] = {HUTCH_MARGIN_OF_TASK, 1, -10, HUTCH_MARGIN_OF_RESOURCE, 5, 0};

static void margins(const char *what, const void *rows, size_t length, size_t room, uint64_t number, uint64_t place, const int64_t *lines) {
    for (int side = AT_END; side <= AT_START; side++) {
        struct lent in = lend_copy(rows, length * sizeof(int64_t), (enum side)side), out = lend_marks(room, (enum side)side);
        struct hutch_outcome o = sheet_margins(in.at, length, out.at, room);
        size_t written = number == HUTCH_ACCEPTED ? (size_t)place * HUTCH_MARGIN : 0;
        expect(what, is(o, number, place) && untouched(&out, written, room));
        if (lines && written) expect(what, memcmp(out.at, lines, written * sizeof(int64_t)) == 0);
        give_back(&in), give_back(&out);
    }
}

static void validate(const char *what, const void *rows, size_t length, uint64_t number, uint64_t place) {
    for (int side = AT_END; side <= AT_START; side++) {
        struct lent in = lend_copy(rows, length * sizeof(int64_t), (enum side)side);
        expect(what, is(sheet_validate(in.at, length), number, place));
        give_back(&in);
    }
}

static void work_end(const char *what, const void *rows, size_t length, const int64_t *inquiry, struct hutch_work_end answer) {
    for (int side = AT_END; side <= AT_START; side++) {
        struct lent in = lend_copy(rows, length * sizeof(int64_t), (enum side)side);
        struct hutch_work_end w = sheet_work_end(in.at, length, inquiry[0], inquiry[1], inquiry[2]);
        expect(what, w.number == answer.number && w.place == answer.place && w.outcome == answer.outcome && w.instant == answer.instant);
        give_back(&in);
    }
}

/* ---- office calendars */

#define IN_COMPONENT(line) "BEGIN:VFREEBUSY\r\n" line "\r\nEND:VFREEBUSY\r\n"

static void calendars(void) {
    static const char two[] = IN_COMPONENT("FREEBUSY:19700101T000000Z/19700\r\n 101T000001Z,19700101T000001Z/PT1S");
    static const row closures[] = {{HUTCH_KIND_RESOURCE_WINDOW, 5, 1, 0, 1000}, {HUTCH_KIND_RESOURCE_WINDOW, 5, 1, 1000, 2000}};
    static char longest[HUTCH_MAX_TEXT + 2];
    read_freebusy("calendar: two rows", two, 5, 20, HUTCH_ACCEPTED, 2, closures);
    read_freebusy("calendar: room to spare", two, 5, 29, HUTCH_ACCEPTED, 2, closures);
    read_freebusy("calendar: empty", "", 0, 0, HUTCH_ACCEPTED, 0, NULL);
    read_freebusy("calendar: FREE", IN_COMPONENT("FREEBUSY;FBTYPE=FREE:19700101T000000Z/PT1S"), 5, 0, HUTCH_ACCEPTED, 0, NULL);
    read_freebusy("13: one row and nine numbers", two, 5, 19, HUTCH_REFUSED_OVERFULL, 1, NULL);
    read_freebusy("13: no room", two, 5, 0, HUTCH_REFUSED_OVERFULL, 1, NULL);
    read_freebusy("3: a resource below 0", two, -1, 20, HUTCH_REFUSED_OUT_OF_RANGE, 0, NULL);
    read_freebusy("3: a resource above", two, HUTCH_MAX_ID + 1, 20, HUTCH_REFUSED_OUT_OF_RANGE, 0, NULL);
    read_freebusy("11: no end of a period", IN_COMPONENT("FREEBUSY:19700101T000000Z"), 5, 20, HUTCH_REFUSED_MALFORMED, 1, NULL);
    read_freebusy("11: an end at its start", IN_COMPONENT("FREEBUSY:19700101T000001Z/PT0S"), 5, 20, HUTCH_REFUSED_MALFORMED, 1, NULL);
    read_freebusy("12: no such day", IN_COMPONENT("FREEBUSY:19700229T000000Z/PT1S"), 5, 20, HUTCH_REFUSED_UNDATED, 1, NULL);
    memset(longest, 'x', HUTCH_MAX_TEXT + 1);
    read_freebusy("8 before 3", longest, -1, 0, HUTCH_REFUSED_OVERLONG, 0, NULL);
    longest[HUTCH_MAX_TEXT] = 0;
    read_freebusy("11: the longest text, one line", longest, 5, 0, HUTCH_REFUSED_MALFORMED, 0, NULL);
    expect("null: calendar and rows", is(sheet_read_freebusy(NULL, 0, 5, NULL, 0), HUTCH_ACCEPTED, 0));
}

/* ---- texts */

static void misspelt(const char *what, const char *text, uint64_t place) {
    read_text(what, text, strlen(text), 50, HUTCH_REFUSED_MISSPELT, place, NULL);
}

static void texts(void) {
    static char longest[HUTCH_MAX_TEXT + 1];
    read_text("text: the example", example_text, LENGTH(example_text), 50, HUTCH_ACCEPTED, 5, example);
    read_text("text: room to spare", example_text, LENGTH(example_text), 59, HUTCH_ACCEPTED, 5, example);
    read_text("text: empty, room", "", 0, 50, HUTCH_ACCEPTED, 0, NULL);
    read_text("text: empty, no room", "", 0, 0, HUTCH_ACCEPTED, 0, NULL);
    read_text("10: four rows and nine numbers", example_text, LENGTH(example_text), 49, HUTCH_REFUSED_CROWDED, 4, NULL);
    read_text("10: no room", example_text, LENGTH(example_text), 0, HUTCH_REFUSED_CROWDED, 0, NULL);
    for (size_t i = 0; i < sizeof longest; i++) longest[i] = "20,1\n"[i % 5];
    longest[HUTCH_MAX_TEXT - 1] = '\n';
    read_text("8: one byte too long", longest, HUTCH_MAX_TEXT + 1, HUTCH_MAX_NUMBERS, HUTCH_REFUSED_OVERLONG, 0, NULL);
    read_text("10 in the longest text", longest, HUTCH_MAX_TEXT, HUTCH_MAX_NUMBERS, HUTCH_REFUSED_CROWDED, 800, NULL);
    read_text("text: 800 rows", longest, 5 * 800, HUTCH_MAX_NUMBERS, HUTCH_ACCEPTED, 800, NULL);
    read_text("2: kind 25", "20,1\n25,1\n", 10, 50, HUTCH_REFUSED_UNKNOWN_KIND, 1, NULL);
    read_text("2: kind 0", "0\n", 2, 50, HUTCH_REFUSED_UNKNOWN_KIND, 0, NULL);
    read_text("9: a zero byte", "20,1\0\n", 6, 50, HUTCH_REFUSED_MISSPELT, 0, NULL);
    read_text("9: byte 255", "20,\xff\n", 5, 50, HUTCH_REFUSED_MISSPELT, 0, NULL);
    misspelt("9: no line feed at the end", "20,1\n20,1", 1);
    misspelt("9: carriage return", "20,1\r\n", 0);
    misspelt("9: blank", "20, 1\n", 0);
    misspelt("9: leading zero", "20,01\n", 0);
    misspelt("9: minus zero", "20,-0\n", 0);
    misspelt("9: plus", "20,+1\n", 0);
    misspelt("9: 2^63", "20,9223372036854775808\n", 0);
    misspelt("9: -2^63", "20,-9223372036854775808\n", 0);
    misspelt("9: an empty line", "20,1\n\n", 1);
    misspelt("9: an empty kind", ",1\n", 0);
    misspelt("9: a column too few", "1,1,100\n", 0);
    misspelt("9: a column too many", "20,1,\n", 0);
    misspelt("9: a header", "kind,id\n", 0);
}

/* ---- rows: what all four calls that are lent rows refuse in the same way */

static void refused(const char *what, const void *rows, size_t length, uint64_t number, uint64_t place) {
    struct hutch_work_end answer = {number, place, 0, 0};
    validate(what, rows, length, number, place);
    check(what, rows, length, 8, number, place);
    check(what, rows, length, 0, number, place);
    margins(what, rows, length, 8, number, place, NULL);
    margins(what, rows, length, 0, number, place, NULL);
    work_end(what, rows, length, (const int64_t[]){5, 0, 0}, answer);
}

static void refusals_1_to_3(void) {
    static int64_t many[HUTCH_MAX_NUMBERS + HUTCH_COLUMNS];
    for (size_t i = 0; i < sizeof many / sizeof *many; i += HUTCH_COLUMNS) many[i] = HUTCH_KIND_SYNCHRONIZE;
    refused("1: a number too few", example, COUNT(example) - 1, HUTCH_REFUSED_MISSHAPEN, 0);
    refused("1: a count of rows for a length", example, 5, HUTCH_REFUSED_MISSHAPEN, 0);
    refused("1: 801 rows", many, HUTCH_MAX_NUMBERS + HUTCH_COLUMNS, HUTCH_REFUSED_MISSHAPEN, 0);
    validate("800 rows", many, HUTCH_MAX_NUMBERS, HUTCH_ACCEPTED, 0);
    check("800 rows", many, HUTCH_MAX_NUMBERS, 0, HUTCH_ACCEPTED, 0);
    margins("800 rows", many, HUTCH_MAX_NUMBERS, 0, HUTCH_ACCEPTED, 0, NULL);
    refused("2: kind 25", (const row[]){{HUTCH_KIND_TASK, 1, EMPTY, EMPTY}, {25}}, 20, HUTCH_REFUSED_UNKNOWN_KIND, 1);
    refused("2: kind -1", (const row[]){{-1}}, 10, HUTCH_REFUSED_UNKNOWN_KIND, 0);
    refused("2: kind none", (const row[]){{EMPTY}}, 10, HUTCH_REFUSED_UNKNOWN_KIND, 0);
    refused("3: an id below 0", (const row[]){{HUTCH_KIND_TASK, -1, EMPTY, EMPTY}}, 10, HUTCH_REFUSED_OUT_OF_RANGE, 0);
    refused("3: an id too large", (const row[]){{HUTCH_KIND_TASK, HUTCH_MAX_ID + 1, EMPTY, EMPTY}}, 10, HUTCH_REFUSED_OUT_OF_RANGE, 0);
    refused("3: a time too late", (const row[]){{HUTCH_KIND_TASK, 1, HUTCH_MAX_TIME + 1, EMPTY}}, 10, HUTCH_REFUSED_OUT_OF_RANGE, 0);
    refused("3: a count too large", (const row[]){{HUTCH_KIND_CAPACITY, 1, HUTCH_MAX_COUNT + 1}}, 10, HUTCH_REFUSED_OUT_OF_RANGE, 0);
    refused("3: a number after the columns", (const row[]){{HUTCH_KIND_NO_OVERLAP, 1, 0, 0, 0, 0, 0, 0, 0, 1}}, 10, HUTCH_REFUSED_OUT_OF_RANGE, 0);
    refused("3: half a part", (const row[]){{HUTCH_KIND_BOOKING, 1, 1, 1, 0, 1, 0, 0, EMPTY}}, 10, HUTCH_REFUSED_OUT_OF_RANGE, 0);
    refused("3: an empty column that may not be", (const row[]){{HUTCH_KIND_NO_OVERLAP, EMPTY}}, 10, HUTCH_REFUSED_OUT_OF_RANGE, 0);
    validate("the ends of the ranges", (const row[]){{HUTCH_KIND_TASK, HUTCH_MAX_ID, HUTCH_MAX_TIME, 0}}, 10, HUTCH_ACCEPTED, 0);
}

#define TASK_1 {HUTCH_KIND_TASK, 1, EMPTY, EMPTY}
#define ACTIVITY_10(process) {HUTCH_KIND_ACTIVITY, 10, 1, 0, 0, process, 0, 0, EMPTY}

static void refusals_4_and_5(void) {
    static const row no_task[] = {ACTIVITY_10(60)};
    static const row no_requirement[] = {TASK_1, ACTIVITY_10(60), {HUTCH_KIND_CANDIDATE, 10, 0, 5}};
    static const row of_window[] = {{HUTCH_KIND_TIME_WINDOW, 10, 0, 1}, {HUTCH_KIND_MEMBER, 0, 10}};
    static const row task_twice[] = {TASK_1, {HUTCH_KIND_RESOURCE, 1, 1, 1}, TASK_1};
    static const row overlap_twice[] = {TASK_1, {HUTCH_KIND_OVERLAP, 10, HALF, 0}, ACTIVITY_10(60), {HUTCH_KIND_OVERLAP, 10, HALF, 1}};
    static const row timing_twice[] = {TASK_1, ACTIVITY_10(60), {HUTCH_KIND_SPEED, 10, 5, SLOWEST}, {HUTCH_KIND_FIXED_TIMING, 10, 5, 0, 1, 0}};
    static const row transport_twice[] = {{HUTCH_KIND_RESOURCE, 5, 7, 1}, {HUTCH_KIND_TRANSPORT, 5, 6, 1}, {HUTCH_KIND_TRANSPORT, 5, 6, 2}};
    refused("4: a task that is not there", no_task, COUNT(no_task), HUTCH_REFUSED_STRAY, 0);
    refused("4: a requirement that is not there", no_requirement, COUNT(no_requirement), HUTCH_REFUSED_STRAY, 2);
    refused("4: a member of a time window", of_window, COUNT(of_window), HUTCH_REFUSED_STRAY, 1);
    refused("5: a task twice", task_twice, COUNT(task_twice), HUTCH_REFUSED_TWICE, 2);
    refused("5: an overlap twice", overlap_twice, COUNT(overlap_twice), HUTCH_REFUSED_TWICE, 3);
    refused("5: two timings", timing_twice, COUNT(timing_twice), HUTCH_REFUSED_TWICE, 3);
    refused("5: a transport twice", transport_twice, COUNT(transport_twice), HUTCH_REFUSED_TWICE, 2);
}

/* ---- the check and the margins alone */

/* The longest process at 2^-10 is 4,096,000,000,000,000 ms, below 2^53; on two such resources it is above. */
static void refusal_6(void) {
    row rows[] = {
        TASK_1, ACTIVITY_10(HUTCH_MAX_TIME), {HUTCH_KIND_SPEED, 10, 5, SLOWEST}, {HUTCH_KIND_SPEED, 10, 6, SLOWEST},
        {HUTCH_KIND_BOOKING, 10, 1, 5, 0, 1, 0, EMPTY, EMPTY}, {HUTCH_KIND_BOOKING, 10, 1, 6, 0, 1, 0, EMPTY, EMPTY},
    };
    check("6: two slow resources", rows, COUNT(rows), 100, HUTCH_REFUSED_STRETCHED, 4);
    check("6 before 7", rows, COUNT(rows), 0, HUTCH_REFUSED_STRETCHED, 4);
    margins("6 of the margins", rows, COUNT(rows), 100, HUTCH_REFUSED_STRETCHED, 4, NULL);
    margins("6 before 7 of the margins", rows, COUNT(rows), 0, HUTCH_REFUSED_STRETCHED, 4, NULL);
    validate("6 is not the validation's", rows, COUNT(rows), HUTCH_ACCEPTED, 0);
    expect("one slow resource", sheet_check_schedule(rows[0], COUNT(rows) - HUTCH_COLUMNS, (int64_t[100]){0}, 100).number == HUTCH_ACCEPTED);
}

static void refusal_7(void) {
    for (size_t room = 0; room < HUTCH_FINDING; room++) check("7: room for part of a finding", example, COUNT(example), room, HUTCH_REFUSED_FULL, 0);
    for (size_t room = HUTCH_FINDING; room < 10; room++) check("the example", example, COUNT(example), room, HUTCH_ACCEPTED, 1);
    for (size_t room = 0; room < 2 * HUTCH_MARGIN; room++) margins("7: room for part of the margins", example, COUNT(example), room, HUTCH_REFUSED_FULL, 0, NULL);
    for (size_t room = 2 * HUTCH_MARGIN; room < 10; room++) margins("the example's margins", example, COUNT(example), room, HUTCH_ACCEPTED, 2, two_margins);
}

/* As late as can be, as early as can be, in time exactly. */
static void margins_at_their_ends(void) {
    static const int64_t ends[][2] = {{0, HUTCH_MAX_TIME}, {HUTCH_MAX_TIME, 0}, {HUTCH_MAX_TIME, HUTCH_MAX_TIME}, {0, 0}};
    for (size_t i = 0; i < sizeof ends / sizeof *ends; i++) {
        const row rows[] = {{HUTCH_KIND_TASK, 1, ends[i][0], EMPTY}, {HUTCH_KIND_TIME_ONLY, 10, 1, 0, ends[i][1]}};
        const int64_t line[HUTCH_MARGIN] = {HUTCH_MARGIN_OF_TASK, 1, ends[i][0] - ends[i][1]};
        margins("a margin at its end", rows, COUNT(rows), HUTCH_MARGIN, HUTCH_ACCEPTED, 1, line);
    }
}

/* ---- lengths of 0 */

static void nothing_lent(void) {
    int64_t numbers[HUTCH_COLUMNS] = {MARK, MARK};
    const uint8_t byte = 'x';
    struct hutch_work_end w = sheet_work_end(NULL, 0, 5, 7, 8);
    validate("no rows", NULL, 0, HUTCH_ACCEPTED, 0);
    check("no rows, no room", NULL, 0, 0, HUTCH_ACCEPTED, 0);
    check("no rows, room", NULL, 0, 8, HUTCH_ACCEPTED, 0);
    margins("no rows, no room", NULL, 0, 0, HUTCH_ACCEPTED, 0, NULL);
    margins("no rows, room", NULL, 0, 8, HUTCH_ACCEPTED, 0, NULL);
    expect("null: validate", is(sheet_validate(NULL, 0), HUTCH_ACCEPTED, 0));
    expect("null: check", is(sheet_check_schedule(NULL, 0, NULL, 0), HUTCH_ACCEPTED, 0));
    expect("null: rows alone", is(sheet_check_schedule(NULL, 0, numbers, 8), HUTCH_ACCEPTED, 0));
    expect("null: findings alone", is(sheet_check_schedule(example[0], COUNT(example), NULL, 0), HUTCH_REFUSED_FULL, 0));
    expect("null: margins", is(sheet_margins(NULL, 0, NULL, 0), HUTCH_ACCEPTED, 0));
    expect("null: lines alone", is(sheet_margins(example[0], COUNT(example), NULL, 0), HUTCH_REFUSED_FULL, 0));
    expect("null: text and rows", is(sheet_read_text(NULL, 0, NULL, 0), HUTCH_ACCEPTED, 0));
    expect("null: text alone", is(sheet_read_text(NULL, 0, numbers, HUTCH_COLUMNS), HUTCH_ACCEPTED, 0));
    expect("null: rows of a text", is(sheet_read_text((const uint8_t *)"20,1\n", 5, NULL, 0), HUTCH_REFUSED_CROWDED, 0));
    expect("length 0, something there", is(sheet_read_text(&byte, 0, numbers, 0), HUTCH_ACCEPTED, 0));
    expect("nothing was written", numbers[0] == MARK && numbers[1] == MARK);
    expect("null: work end", w.number == HUTCH_ACCEPTED && w.place == 0 && w.outcome == HUTCH_WORK_END && w.instant == 15);
}

/* ---- the inquiry alone */

static void asked(const char *what, int64_t resource, int64_t start, int64_t work, uint64_t number, uint64_t outcome, uint64_t instant) {
    static const row rows[] = {{HUTCH_KIND_RESOURCE, 5, 7, 1}, {HUTCH_KIND_RESOURCE_WINDOW, 5, 0, 0, 10}, {HUTCH_KIND_RESOURCE_WINDOW, 5, 0, 20, 30}};
    struct hutch_work_end answer = {number, 0, outcome, instant};
    work_end(what, rows, COUNT(rows), (const int64_t[]){resource, start, work}, answer);
}

static void inquiries(void) {
    asked("5 from 5", 5, 5, 5, HUTCH_ACCEPTED, HUTCH_WORK_END, 10);
    asked("15 from 5", 5, 5, 15, HUTCH_ACCEPTED, HUTCH_WORK_END, 30);
    asked("16 from 5", 5, 5, 16, HUTCH_ACCEPTED, HUTCH_WORK_NEVER, 0);
    asked("0 from 10", 5, 10, 0, HUTCH_ACCEPTED, HUTCH_WORK_PAUSE, 0);
    asked("a resource that is not there", 6, 10, 5, HUTCH_ACCEPTED, HUTCH_WORK_END, 15);
    asked("the latest end", 6, HUTCH_MAX_TIME, HUTCH_MAX_TIME, HUTCH_ACCEPTED, HUTCH_WORK_END, 2 * (uint64_t)HUTCH_MAX_TIME);
    asked("3: a start below 0", 5, -1, 0, HUTCH_REFUSED_OUT_OF_RANGE, 0, 0);
    asked("3: a start too late", 5, HUTCH_MAX_TIME + 1, 0, HUTCH_REFUSED_OUT_OF_RANGE, 0, 0);
    asked("3: too much work", 5, 0, HUTCH_MAX_TIME + 1, HUTCH_REFUSED_OUT_OF_RANGE, 0, 0);
    asked("3: too little work", 5, 0, -HUTCH_MAX_TIME - 1, HUTCH_REFUSED_OUT_OF_RANGE, 0, 0);
    asked("3: no start", 5, EMPTY, 0, HUTCH_REFUSED_OUT_OF_RANGE, 0, 0);
}

/* ---- threads: all read the same rows and text */

enum { THREADS = 4, ROUNDS = 200 };

static void *often(void *good) {
    for (int i = 0; i < ROUNDS && *(int *)good; i++) {
        int64_t rows[COUNT(example)], found[HUTCH_FINDING], lines[2 * HUTCH_MARGIN];
        struct hutch_work_end w = sheet_work_end(example[0], COUNT(example), 5, 1, 2);
        *(int *)good = is(sheet_read_text((const uint8_t *)example_text, LENGTH(example_text), rows, COUNT(example)), HUTCH_ACCEPTED, 5)
            && memcmp(rows, example, sizeof rows) == 0 && is(sheet_validate(example[0], COUNT(example)), HUTCH_ACCEPTED, 0)
            && is(sheet_check_schedule(example[0], COUNT(example), found, HUTCH_FINDING), HUTCH_ACCEPTED, 1)
            && memcmp(found, finding, sizeof found) == 0
            && is(sheet_margins(example[0], COUNT(example), lines, 2 * HUTCH_MARGIN), HUTCH_ACCEPTED, 2)
            && memcmp(lines, two_margins, sizeof lines) == 0 && w.number == HUTCH_ACCEPTED && w.instant == 3;
    }
    return good;
}

static void threads(void) {
    pthread_t thread[THREADS];
    int good[THREADS];
    for (int i = 0; i < THREADS; i++) {
        good[i] = 1;
        if (pthread_create(&thread[i], NULL, often, &good[i])) abort();
    }
    for (int i = 0; i < THREADS; i++) expect("a call in a thread", pthread_join(thread[i], NULL) == 0 && good[i]);
}

int main(void) {
    calendars();
    texts();
    refusals_1_to_3();
    refusals_4_and_5();
    refusal_6();
    refusal_7();
    margins_at_their_ends();
    nothing_lent();
    inquiries();
    threads();
    printf("%d tried, %d wrong\n", tried, wrong);
    return wrong ? 1 : 0;
}
