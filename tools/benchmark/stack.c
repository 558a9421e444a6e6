/* The stack that calls of the static library take: each runs on a stack that was filled with a mark before, and the deepest byte
   that is no mark any more is looked for, from where the stack pointer stood at the call. Reads sheets and calendars as texts, each after
   a line with its length; prints the greatest for each call. tools/benchmark/stack builds and runs it. */
#include "hutchdecade.h"

#include <pthread.h>
#include <stdio.h>
#include <stdlib.h>
#include <string.h>

enum { SIZE = 4 << 20, MARK = 0xA5, ROOM = 800000, CALLS = 6 };

static int64_t rows[HUTCH_MAX_NUMBERS], findings[ROOM];
static uint8_t text[HUTCH_MAX_TEXT];
static size_t length, text_length;
static _Alignas(4096) unsigned char stack[SIZE];
static size_t most[CALLS];

static inline const unsigned char *stack_pointer(void) {
    const unsigned char *at;
    __asm__ volatile("mov %%rsp, %0" : "=r"(at));
    return at;
}

/* The first call gives the rows that the others are lent. */
static void *run(void *which) {
    int call = *(int *)which;
    const unsigned char *from = stack_pointer();
    size_t at = 0;
    if (call == 0) {
        struct hutch_outcome read = sheet_read_text(text, text_length, rows, HUTCH_MAX_NUMBERS);
        length = read.number == HUTCH_ACCEPTED ? HUTCH_COLUMNS * (size_t)read.place : 0; /* a calendar is no sheet */
    }
    if (call == 1) sheet_read_freebusy(text, text_length, 1, findings, ROOM);
    if (call == 2) sheet_validate(rows, length);
    if (call == 3) sheet_check_schedule(rows, length, findings, ROOM);
    if (call == 4) sheet_margins(rows, length, findings, ROOM);
    if (call == 5) sheet_work_end(rows, length, 1, 0, HUTCH_MAX_TIME);
    while (stack[at] == MARK) at++;
    if ((size_t)(from - stack) - at > most[call]) most[call] = (size_t)(from - stack) - at;
    return which;
}

static void on_marks(int call) {
    pthread_attr_t attributes;
    pthread_t thread;
    memset(stack, MARK, SIZE);
    pthread_attr_init(&attributes);
    pthread_attr_setstack(&attributes, stack, SIZE);
    if (pthread_create(&thread, &attributes, run, &call) || pthread_join(thread, NULL)) abort();
}

int main(void) {
    static const char *names[CALLS] = {"sheet_read_text", "sheet_read_freebusy", "sheet_validate", "sheet_check_schedule", "sheet_margins", "sheet_work_end"};
    while (scanf("%zu%*1[\n]", &text_length) == 1) {
        if (text_length > sizeof text || fread(text, 1, text_length, stdin) != text_length) return 3;
        for (int call = 0; call < CALLS; call++) on_marks(call);
    }
    for (int call = 0; call < CALLS; call++) printf("%s %zu\n", names[call], most[call]);
    return 0;
}
