/* Many sheets in one process. Reads texts, each after a line with its length; for each prints what the program check_schedule prints; with
   the argument `margins` what the program margins prints, and an empty line. Beside that, on blocks of the heap that have exactly the lent
   length, so that sanitizers and valgrind see what is touched beside them: the same answers in exactly the room that is needed, refusal 10
   or 7 with one number less, nothing written by a refusal or after the last row, finding or margin, the same refusal by all calls that are
   lent rows, and the margins below zero are, line by line, what checks 8 and 5 find. Ends with status 1 where one of these fails. */
#include "hutchdecade.h"

#include <inttypes.h>
#include <stdio.h>
#include <stdlib.h>
#include <string.h>

enum { ROOM = 2000 * HUTCH_FINDING, LINES = HUTCH_MAX_MARGINS * HUTCH_MARGIN };
#define MARK INT64_C(-7777777777777777777)

static unsigned long sheet;

static void expect(const char *what, int good) {
    if (good) return;
    fprintf(stderr, "sheet %lu: %s\n", sheet, what);
    exit(1);
}

static int same(struct hutch_outcome a, struct hutch_outcome b) { return a.number == b.number && a.place == b.place; }

static int is(struct hutch_outcome o, uint64_t number, uint64_t place) { return o.number == number && o.place == place; }

static int64_t *marks(size_t numbers) {
    int64_t *new = malloc(numbers * sizeof *new);
    if (!new && numbers) abort();
    for (size_t i = 0; i < numbers; i++) new[i] = MARK;
    return new;
}

static int untouched(const int64_t *lent, size_t first, size_t numbers) {
    for (size_t i = first; i < numbers; i++)
        if (lent[i] != MARK) return 0;
    return 1;
}

static size_t written(struct hutch_outcome o, size_t each) { return o.number == HUTCH_ACCEPTED ? (size_t)o.place * each : 0; }

/* The text in less room than the program lends. */
static void read_exactly(const uint8_t *text, size_t length, const int64_t *rows, size_t count) {
    int64_t *lent = marks(count);
    expect("read in exact room", is(sheet_read_text(text, length, lent, count), HUTCH_ACCEPTED, count / HUTCH_COLUMNS));
    expect("the same rows", count == 0 || memcmp(lent, rows, count * sizeof *rows) == 0);
    free(lent);
    if (count == 0) return;
    lent = marks(count - 1);
    expect("one number less is 10", is(sheet_read_text(text, length, lent, count - 1), HUTCH_REFUSED_CROWDED, count / HUTCH_COLUMNS - 1));
    expect("10 writes nothing", untouched(lent, 0, count - 1));
    free(lent);
}

/* A call that writes lines of so many numbers, lent exactly the room that they take, and one number less. */
typedef struct hutch_outcome line_call(const int64_t *rows, size_t length, int64_t *lines, size_t room);

static void lines_exactly(line_call *call, size_t width, const int64_t *rows, size_t length, const int64_t *lines, size_t count) {
    int64_t *lent = marks(count);
    expect("lines in exact room", is(call(rows, length, lent, count), HUTCH_ACCEPTED, count / width));
    expect("the same lines", count == 0 || memcmp(lent, lines, count * sizeof *lines) == 0);
    free(lent);
    if (count == 0) return;
    lent = marks(count - 1);
    expect("one number less is 7", is(call(rows, length, lent, count - 1), HUTCH_REFUSED_FULL, 0));
    expect("7 writes nothing", untouched(lent, 0, count - 1));
    free(lent);
}

/* The margins of the rows, to the lent numbers. */
static struct hutch_outcome margins(const int64_t *rows, size_t length, int64_t *lines) {
    struct hutch_outcome answer = sheet_margins(rows, length, lines, LINES);
    expect("nothing after the margins", untouched(lines, written(answer, HUTCH_MARGIN), LINES));
    expect("there is room for all margins", answer.number != HUTCH_REFUSED_FULL);
    if (answer.number == HUTCH_ACCEPTED) lines_exactly(sheet_margins, HUTCH_MARGIN, rows, length, lines, written(answer, HUTCH_MARGIN));
    return answer;
}

/* Whether the margins of that sort that are below zero are, line by line, what the check finds. */
static int below_zero_found(int64_t of, const int64_t *lines, const int64_t *last, int64_t check, const int64_t *f, const int64_t *end) {
    for (const int64_t *m = lines; m < last; m += HUTCH_MARGIN) {
        if (m[0] != of || m[2] >= 0) continue;
        while (f < end && f[0] != check) f += HUTCH_FINDING;
        if (f == end || f[2] != m[1]) return 0;
        f += HUTCH_FINDING;
    }
    while (f < end && f[0] != check) f += HUTCH_FINDING;
    return f == end;
}

/* The margins beside the findings: 1 to 6 refuse alike, and below zero stands what checks 8 and 5 find. */
static void margins_beside(struct hutch_outcome answer, const int64_t *lines, struct hutch_outcome checked, const int64_t *findings) {
    const int64_t *last = lines + written(answer, HUTCH_MARGIN), *end = findings + written(checked, HUTCH_FINDING);
    if (checked.number == HUTCH_REFUSED_FULL) return;
    expect("the refusal of the margins", answer.number == checked.number && (answer.number == HUTCH_ACCEPTED || answer.place == checked.place));
    expect("check 8 finds the tasks below zero", below_zero_found(HUTCH_MARGIN_OF_TASK, lines, last, HUTCH_CHECK_DEADLINES, findings, end));
    expect("check 5 finds the resources below zero", below_zero_found(HUTCH_MARGIN_OF_RESOURCE, lines, last, HUTCH_CHECK_CAPACITY, findings, end));
}

/* The calls that are lent rows refuse by 1 to 5 alike; 6 and 7 are the check's and the margins' alone. */
static void alike(const int64_t *rows, size_t length, struct hutch_outcome checked) {
    struct hutch_outcome valid = sheet_validate(rows, length), none = {HUTCH_ACCEPTED, 0};
    struct hutch_work_end end = sheet_work_end(rows, length, 1, 0, 0);
    struct hutch_outcome asked = {end.number, end.place};
    int own = checked.number >= HUTCH_REFUSED_MISSHAPEN && checked.number <= HUTCH_REFUSED_TWICE;
    expect("the validation's answer", same(valid, own ? checked : none));
    expect("the inquiry's answer", same(asked, own ? checked : none));
}

/* The answers to a text: the check's, and the margins' in `of_margins`. */
static struct hutch_outcome check(const uint8_t *text, size_t length, int64_t *findings, struct hutch_outcome *of_margins, int64_t *lines) {
    int64_t *lent = marks(HUTCH_MAX_NUMBERS);
    struct hutch_outcome answer = sheet_read_text(text, length, lent, HUTCH_MAX_NUMBERS);
    size_t count = written(answer, HUTCH_COLUMNS);
    *of_margins = answer;
    expect("nothing after the rows", untouched(lent, count, HUTCH_MAX_NUMBERS));
    if (answer.number == HUTCH_ACCEPTED) {
        int64_t *rows = marks(count);
        if (count) memcpy(rows, lent, count * sizeof *rows);
        read_exactly(text, length, rows, count);
        answer = sheet_check_schedule(rows, count, findings, ROOM);
        expect("nothing after the findings", untouched(findings, written(answer, HUTCH_FINDING), ROOM));
        alike(rows, count, answer);
        *of_margins = margins(rows, count, lines);
        margins_beside(*of_margins, lines, answer, findings);
        if (answer.number == HUTCH_ACCEPTED) lines_exactly(sheet_check_schedule, HUTCH_FINDING, rows, count, findings, written(answer, HUTCH_FINDING));
        expect("the rows are as they were", count == 0 || memcmp(rows, lent, count * sizeof *rows) == 0);
        free(rows);
    }
    free(lent);
    return answer;
}

static int refused(struct hutch_outcome answer) {
    if (answer.number != HUTCH_ACCEPTED) printf("refused,%" PRIu64 ",%" PRIu64 "\n", answer.number, answer.place);
    return answer.number != HUTCH_ACCEPTED;
}

static void print(struct hutch_outcome answer, const int64_t *findings) {
    if (refused(answer)) return;
    printf("accepted,%" PRIu64 "\n", answer.place);
    for (const int64_t *f = findings; f < findings + written(answer, HUTCH_FINDING); f += HUTCH_FINDING)
        printf("%" PRId64 ",%" PRId64 ",%" PRId64 ",%" PRId64 "\n", f[0], f[1], f[2], f[3]);
}

static void print_margins(struct hutch_outcome answer, const int64_t *lines) {
    if (!refused(answer))
        for (const int64_t *m = lines; m < lines + written(answer, HUTCH_MARGIN); m += HUTCH_MARGIN)
            printf("%s,%" PRId64 ",%" PRId64 "\n", m[0] == HUTCH_MARGIN_OF_TASK ? "task" : "resource", m[1], m[2]);
    printf("\n");
}

int main(int count, char **words) {
    int of_margins = count == 2 && strcmp(words[1], "margins") == 0;
    size_t length;
    if (count > 1 && !of_margins) return 3;
    for (; scanf("%zu%*1[\n]", &length) == 1; sheet++) {
        uint8_t *text = malloc(length);
        int64_t *findings = marks(ROOM), *lines = marks(LINES);
        struct hutch_outcome answer, margined;
        if ((!text && length) || fread(text, 1, length, stdin) != length) return 3;
        answer = check(text, length, findings, &margined, lines);
        if (of_margins) print_margins(margined, lines);
        else print(answer, findings);
        free(text);
        free(findings);
        free(lines);
    }
    return 0;
}
