/* Times one call of several builds of the library on the same sheets, in turns, in one process; the first two are also compared.

       between CALL LAYOUT ROUNDS OLD.so NEW.so OLD-AGAIN.so < SHEETS

   CALL is sheet_check_schedule, sheet_margins or sheet_read_text. Reads lines "GROUP|NAME|N N ..", or, of texts, "GROUP|NAME|TEXT" with a semicolon for each line feed. Writes
   for each a line "GROUP|NAME|ROWS|NUMBER|PLACE|ROUNDS|OLD|NEW|OLD AGAIN|ANSWERS": the medians in nanoseconds, the number and the place that the
   old one answers, and of the answers `same` or what differs. The sheets of the group `once` come first and are run one after the other, each once in a round; any other is run alone,
   round after round. LAYOUT is a number that decides which comes first and how far apart they lie: at a distance of, say, 128 KiB two copies of the same code
   teach each other's branches to the processor, and the third one looks slower by up to a fifth. */
#include <dlfcn.h>
#include <stdint.h>
#include <stdio.h>
#include <stdlib.h>
#include <string.h>
#include <sys/mman.h>
#include <time.h>

enum { ARMS = 3, ORDERS = 6, ROOM = 800000, ROW = 10, PAGE = 4096, APART = 4096 };

static const double LONG_NS = 1e6;   /* a call that takes longer is timed by the processor time of the thread: it may be interrupted */
static const double BUDGET_NS = 4e8; /* how long the rounds of a sheet may take together, once each arm was at each place */
static const int64_t MARK = -7777777777777777777;

/* In a row of these each arm comes equally often at each place, and right after each of the others; in three each was at each place. */
static const unsigned ORDER[ORDERS][ARMS] = {{0, 1, 2}, {1, 2, 0}, {2, 0, 1}, {2, 1, 0}, {1, 0, 2}, {0, 2, 1}};

struct outcome {
    uint64_t number, place;
};
typedef struct outcome call(const void *lent, size_t length, int64_t *written, size_t room); /* rows and findings, or a text and rows */

struct sheet {
    char *group, *name;
    void *lent;
    size_t length, rows;
    double *times[ARMS];
    size_t rounds;
};

static call *arms[ARMS];
static const char *name;
static int of_texts;
static unsigned layout;
static int64_t written[ROOM], other[ROOM];

static double now(clockid_t clock) {
    struct timespec t;
    clock_gettime(clock, &t);
    return t.tv_sec * 1e9 + t.tv_nsec;
}

static void fail(const char *what) {
    fprintf(stderr, "between: %s\n", what);
    exit(1);
}

static void *got(void *memory) {
    if (!memory) fail("no memory");
    return memory;
}

/* Up to APART pages below the last one. */
static call *load(const char *path) {
    mmap(NULL, (rand() % APART + 1) * (size_t)PAGE, PROT_NONE, MAP_PRIVATE | MAP_ANONYMOUS, -1, 0);
    void *library = dlopen(path, RTLD_NOW | RTLD_LOCAL);
    if (!library) fail(dlerror());
    call *found = (call *)dlsym(library, name);
    if (!found) fail(dlerror());
    return found;
}

static void take_text(struct sheet *s, const char *text) {
    s->lent = got(strdup(text));
    s->length = strlen(text);
    for (char *at = s->lent; (at = strchr(at, ';')); s->rows++) *at = '\n';
}

static void take_numbers(struct sheet *s, const char *at) {
    int64_t *numbers = s->lent = got(malloc((strlen(at) / 2 + 1) * sizeof *numbers));
    for (char *end;; at = end) {
        int64_t x = strtoll(at, &end, 10);
        if (end == at) break;
        numbers[s->length++] = x;
    }
    s->rows = s->length / ROW;
}

static struct sheet sheet_of(char *line, size_t rounds) {
    struct sheet s = {.group = strdup(strtok(line, "|")), .name = strdup(strtok(NULL, "|"))};
    char *rest = strtok(NULL, "|\n");
    (of_texts ? take_text : take_numbers)(&s, rest ? rest : "");
    for (int arm = 0; arm < ARMS; arm++) s.times[arm] = got(malloc(rounds * sizeof **s.times));
    return s;
}

/* Which arm is the k-th of a round; each layout begins with another. */
static int turn(size_t round, int k) { return (ORDER[round % ORDERS][k] + layout) % ARMS; }

static double timed(call *arm, const struct sheet *s, clockid_t clock) {
    double start = now(clock);
    arm(s->lent, s->length, written, ROOM);
    return now(clock) - start;
}

static void one_round(struct sheet *s, clockid_t clock) {
    for (int k = 0; k < ARMS; k++) {
        int arm = turn(s->rounds, k);
        s->times[arm][s->rounds] = timed(arms[arm], s, clock);
    }
    s->rounds++;
}

static void run_alone(struct sheet *s, size_t rounds) {
    clockid_t clock = timed(arms[turn(0, 0)], s, CLOCK_MONOTONIC) > LONG_NS ? CLOCK_THREAD_CPUTIME_ID : CLOCK_MONOTONIC;
    double start = now(CLOCK_MONOTONIC);
    while (s->rounds < rounds && (s->rounds % ARMS || !s->rounds || now(CLOCK_MONOTONIC) - start < BUDGET_NS)) one_round(s, clock);
}

/* Each arm goes through all the sheets before the next does, so that none meets a sheet that was just met. */
static void run_once_each(struct sheet *s, size_t count, size_t rounds) {
    for (size_t round = 0; round < rounds; round++)
        for (int k = 0; k < ARMS; k++) {
            int arm = turn(round, k);
            for (size_t i = 0; i < count; i++) s[i].times[arm][round] = timed(arms[arm], &s[i], CLOCK_MONOTONIC);
        }
    for (size_t i = 0; i < count; i++) s[i].rounds = rounds;
}

static int by_size(const void *a, const void *b) {
    double x = *(const double *)a, y = *(const double *)b;
    return (x > y) - (x < y);
}

static double median(double *times, size_t count) {
    qsort(times, count, sizeof *times, by_size);
    return (times[count / 2] + times[(count - 1) / 2]) / 2;
}

static struct outcome answer(call *arm, const struct sheet *s, int64_t *to) {
    for (size_t i = 0; i < ROOM; i++) to[i] = MARK;
    return arm(s->lent, s->length, to, ROOM);
}

static void print_answers(struct outcome a, struct outcome b) {
    if (a.number != b.number || a.place != b.place) {
        printf("answers %lu, %lu and %lu, %lu\n", a.number, a.place, b.number, b.place);
    } else if (!memcmp(written, other, sizeof written)) {
        puts("same");
    } else {
        size_t i = 0;
        while (written[i] == other[i]) i++;
        printf("the lent number at %zu: %ld and %ld\n", i, written[i], other[i]);
    }
}

static void print_sheet(struct sheet *s) {
    struct outcome a = answer(arms[0], s, written), b = answer(arms[1], s, other);
    printf("%s|%s|%zu|%lu|%lu|%zu", s->group, s->name, s->rows, a.number, a.place, s->rounds);
    for (int arm = 0; arm < ARMS; arm++) printf("|%.0f", median(s->times[arm], s->rounds));
    putchar('|');
    print_answers(a, b);
}

int main(int count, char **words) {
    if (count != 4 + ARMS) fail("usage: between CALL LAYOUT ROUNDS OLD.so NEW.so OLD-AGAIN.so < SHEETS");
    size_t rounds = strtoul(words[3], NULL, 10), sheets = 0, once = 0, room = 0;
    name = words[1];
    of_texts = !strcmp(name, "sheet_read_text");
    layout = strtoul(words[2], NULL, 10);
    srand(layout + 1); /* 0 and 1 would be the same */
    for (int k = 0; k < ARMS; k++) arms[turn(0, k)] = load(words[4 + turn(0, k)]);
    struct sheet *all = NULL;
    char *line = NULL;
    while (getline(&line, &room, stdin) > 0) {
        all = got(realloc(all, (sheets + 1) * sizeof *all));
        all[sheets++] = sheet_of(line, rounds);
    }
    while (once < sheets && !strcmp(all[once].group, "once")) once++;
    run_once_each(all, once, rounds);
    for (size_t i = once; i < sheets; i++) run_alone(&all[i], rounds);
    for (size_t i = 0; i < sheets; i++) print_sheet(&all[i]);
    return 0;
}
