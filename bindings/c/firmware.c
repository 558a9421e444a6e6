/* A checking unit without an operating system's library: no libc, no start-up code, a stack of its own. The system calls of x86-64
   Linux stand in for the unit's port and lamp: a sheet is read from standard input, and the exit status is 0 for no finding, 1 for
   findings, 2 for a refusal, 3 where nothing was read, 4 where the stack was too small.

       cc -O2 -ffreestanding -fno-stack-protector -nostdlib -static -I include -o firmware \
           bindings/c/firmware.c bindings/c/memory.c crates/hutchdecade/out/libhutchdecade.a
       ./firmware < SHEET; echo $? */
#include "hutchdecade.h"

enum { NO_FINDING, FINDINGS, REFUSED, UNREAD, OVERRUN };
enum { READ = 0, EXIT = 60, STANDARD_INPUT = 0, ROOM = 2000 * HUTCH_FINDING };
#define OWN 512 /* bytes of stack for the functions of this file, and for memcpy and memset */
#define MARKS 64
#define MARK UINT64_C(0x5a5a5a5a5a5a5a5a)
#define SPELT(x) #x
#define NUMBER(x) SPELT(x)

static uint8_t text[HUTCH_MAX_TEXT + 1];
static int64_t rows[HUTCH_MAX_NUMBERS], findings[ROOM];

/* The stack grows down towards the marks. */
struct {
    _Alignas(16) uint64_t marks[MARKS];
    uint8_t bytes[HUTCH_STACK_CHECK_SCHEDULE + OWN];
} unit_stack;

static long system_call(long number, long a, long b, long c) {
    long result;
    __asm__ volatile("syscall" : "=a"(result) : "a"(number), "D"(a), "S"(b), "d"(c) : "rcx", "r11", "memory");
    return result;
}

static int checked(void) {
    size_t length = 0;
    long got = 1;
    while (length < sizeof text && got > 0) {
        got = system_call(READ, STANDARD_INPUT, (long)(text + length), (long)(sizeof text - length));
        if (got < 0) return UNREAD;
        length += (size_t)got;
    }
    struct hutch_outcome answer = sheet_read_text(text, length, rows, HUTCH_MAX_NUMBERS);
    if (answer.number != HUTCH_ACCEPTED) return REFUSED;
    answer = sheet_check_schedule(rows, (size_t)answer.place * HUTCH_COLUMNS, findings, ROOM);
    if (answer.number != HUTCH_ACCEPTED) return REFUSED;
    return answer.place == 0 ? NO_FINDING : FINDINGS;
}

_Noreturn void unit(void) {
    for (int i = 0; i < MARKS; i++) unit_stack.marks[i] = MARK;
    int status = checked();
    for (int i = 0; i < MARKS; i++)
        if (unit_stack.marks[i] != MARK) status = OVERRUN;
    for (;;) system_call(EXIT, status, 0, 0);
}

__asm__(".globl _start\n"
        "_start:\n"
        "    lea unit_stack + 8 * " NUMBER(MARKS) " + " NUMBER(HUTCH_STACK_CHECK_SCHEDULE) " + " NUMBER(OWN) "(%rip), %rsp\n"
        "    call unit\n");
