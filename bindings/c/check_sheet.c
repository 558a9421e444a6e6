/* check_sheet [FILE]: checks the sheet in a file, or on standard input, and prints what the program check_schedule prints:
   accepted,COUNT and a line check,type,entity,severity for each finding; or refused,NUMBER,PLACE.

   Exit status: 0 no finding, 1 findings, 2 refused, 3 no answer (the sheet could not be read, the answer could not be written,
   or the command is misspelt; standard error says which).

       cc -I include -o check_sheet bindings/c/check_sheet.c crates/hutchdecade/out/libhutchdecade.a */
#include "hutchdecade.h"

#include <errno.h>
#include <inttypes.h>
#include <stdio.h>
#include <string.h>

enum { NO_FINDING, FINDINGS, REFUSED, NO_ANSWER };
enum { ROOM = 2000 * HUTCH_FINDING };

/* One byte more than a sheet may have, so that a longer one is seen to be longer. */
static uint8_t text[HUTCH_MAX_TEXT + 1];
static int64_t rows[HUTCH_MAX_NUMBERS], findings[ROOM];

static const char usage[] = "usage: check_sheet [FILE]   (no FILE: standard input)\n"
                            "       check_sheet --help | --version\n"
                            "exit status: 0 no finding, 1 findings, 2 refused, 3 no answer\n";

static int no_answer(const char *what) {
    fprintf(stderr, "check_sheet: %s: %s\n", what, strerror(errno));
    return NO_ANSWER;
}

static int refused(struct hutch_outcome answer) {
    printf("refused,%" PRIu64 ",%" PRIu64 "\n", answer.number, answer.place);
    return REFUSED;
}

static int check(size_t length) {
    struct hutch_outcome answer = sheet_read_text(text, length, rows, HUTCH_MAX_NUMBERS);
    if (answer.number != HUTCH_ACCEPTED) return refused(answer);
    answer = sheet_check_schedule(rows, (size_t)answer.place * HUTCH_COLUMNS, findings, ROOM);
    if (answer.number != HUTCH_ACCEPTED) return refused(answer);
    printf("accepted,%" PRIu64 "\n", answer.place);
    for (uint64_t i = 0; i < answer.place; i++) {
        const int64_t *f = findings + i * HUTCH_FINDING;
        printf("%" PRId64 ",%" PRId64 ",%" PRId64 ",%" PRId64 "\n", f[0], f[1], f[2], f[3]);
    }
    return answer.place == 0 ? NO_FINDING : FINDINGS;
}

/* The answer counts only once all of it is written; a file on another machine may say only when it is closed that it was not. */
static int written(int status) {
    int failed = ferror(stdout);
    errno = 0;
    if (fclose(stdout) == 0 && !failed) return status;
    return no_answer("the answer could not be written");
}

int main(int count, char **words) {
    const char *name = count == 2 ? words[1] : NULL;
    if (name && strcmp(name, "--help") == 0) return fputs(usage, stdout), written(NO_FINDING);
    if (name && strcmp(name, "--version") == 0) return printf("check_sheet " HUTCH_VERSION ", rules %d\n", HUTCH_RULES), written(NO_FINDING);
    if (count > 2 || (name && name[0] == '-')) return fputs(usage, stderr), NO_ANSWER;
    FILE *from = name ? fopen(name, "rb") : stdin;
    if (!from) return no_answer(name);
    size_t length = fread(text, 1, sizeof text, from);
    if (ferror(from)) return no_answer(name ? name : "standard input");
    return written(check(length));
}
