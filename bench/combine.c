/*
 * combine [SECONDS]: the time of combining streams, beside that of a program without the library. For each job and table size to write: the bytes of
 * all streams that are combined, those of the outcome, microseconds of ours and of BuDDy's, the ratio, microseconds and ratio of a BuDDy that stands
 * ready, and "fits" if the outcome's nodes fit its table: none is without a number, and no number is given out again. A job is skipped with a word if
 * one run of ours takes longer than SECONDS (10 unless given; 0: any time will do) or writes more than 64 MiB.
 *
 * Ours is the calls of rule_combine that the job takes, each with all that it does: two streams checked, combined and written, three work tables and
 * the operation cache cleared. BuDDy's is beginning (bdd_init, bdd_setvarnum), reading both texts, which are taken to have no fault, making the
 * diagrams, applying the operator, printing the outcome and ending (bdd_done), for each call (buddy.c); of five sizes that it may begin with, the
 * fastest for the job counts. So each way begins with memory of any content and leaves it clean. Of a BuDDy that stands ready neither beginning nor
 * cleaning counts: it begins once, with the largest size, and between two calls its diagrams are dropped and its caches emptied outside of the time.
 * In a chain, each way goes on from the text that it wrote itself. All run in turns; the best run of each counts.
 *
 * Before that, it is tested that the outcome of ours, read by buddy.c, is the diagram of BuDDy's, that both texts are the same but for their size
 * where the outcome fits, and that the library decides words alike by both.
 *
 * Afterwards: the ratios of all that fits, how time grows as options or terms double, and the pace of a text that is long because few nodes or
 * none can be stored.
 */
#define _POSIX_C_SOURCE 200809L
#include "buddy.h"
#include "rule.h"
#include "rules.h"

#include <setjmp.h>
#include <signal.h>
#include <stdio.h>
#include <stdlib.h>
#include <string.h>
#include <sys/time.h>
#include <time.h>

#define ROOM (1 << 26)
#define TURNS 12
#define RUNS 3
#define TURNS_FOR 1e6
#define WORDS_ASKED 2000
#define BYTES_ASKED 2e8
#define MOST_RATIOS 200

/* What is measured of a job; why it is skipped, if it is. */
typedef struct {
    const char *skipped;
    bool fits;
    size_t in, out;
    double ours, theirs, ready;
} measured;

static rule_record table1[RULE_RECORDS], table2[RULE_RECORDS];
static rule_node table3[RULE_RECORDS];
static double limit = 10e6;

static void must(bool held, const char *what)
{
    if (!held) {
        fprintf(stderr, "combine: %s\n", what);
        exit(1);
    }
}

static double now(void)
{
    struct timespec time;
    clock_gettime(CLOCK_MONOTONIC, &time);
    return (double)time.tv_sec * 1e6 + (double)time.tv_nsec / 1e3;
}

static double least(double a, double b)
{
    return a < b ? a : b;
}

/* ---- Ours */

static sigjmp_buf too_long;

static void at_alarm(int number)
{
    (void)number;
    siglongjmp(too_long, 1);
}

static void set_alarm(double microseconds)
{
    struct itimerval timer = {{0, 0}, {0, 0}};
    timer.it_value.tv_sec = (time_t)(microseconds / 1e6);
    timer.it_value.tv_usec = (suseconds_t)(microseconds - 1e6 * (double)timer.it_value.tv_sec);
    setitimer(ITIMER_REAL, &timer, NULL);
}

static const char *const too_slow = "takes too long", *const too_large = "the text is too long";

/*
 * One call; adds its time. Gives why it is not done, if it is not. It is left in the middle if the time comes to the limit, which harms nothing: the
 * library has no state.
 */
static const char *combine(const job *j, uint32_t size, text a, text b, text *to, size_t room, double *time)
{
    rule_written answer;
    double start;
    if (sigsetjmp(too_long, 1))
        return too_slow;
    if (limit > 0)
        set_alarm(*time < limit ? limit - *time : 1);
    start = now();
    answer = rule_combine(j->n, j->op, size, a.bytes, a.length, b.bytes, b.length, to->bytes, room, table1, RULE_RECORDS, table2, RULE_RECORDS, table3,
                          RULE_RECORDS);
    *time += now() - start;
    set_alarm(0);
    must(answer.cause == RULE_DONE && answer.covered == UINT64_C(1) << j->n, "a call is refused");
    to->length = (size_t)answer.written;
    return answer.ending == RULE_WHOLE ? NULL : too_large;
}

/* The nodes of a text with two children are as many as its numbers to store, and these differ. */
static bool is_fit(text t)
{
    bool stored[RULE_RECORDS + 1] = {false}, again = false;
    size_t ends = 0, storings = 0;
    rule_stepped stepped = rule_step(rule_begin(), t.bytes, t.length);
    while ((stepped = rule_step(stepped.place, t.bytes, t.length)).outcome == RULE_GOT) {
        ends += stepped.element == RULE_CONSTANT || stepped.element == RULE_NUMBER;
        if (stepped.element == RULE_STORING) {
            storings++;
            again = again || stored[stepped.number];
            stored[stepped.number] = true;
        }
    }
    return !again && storings == ends - 1;
}

/* All calls of a job, with two places to write to, of which one has the outcome at the end. */
static const char *combine_all(const job *j, uint32_t size, text to[2], text *outcome, bool *fits, double *time)
{
    const char *not_done;
    uint32_t i;
    *time = 0;
    *outcome = j->streams[0];
    for (i = 1; i < j->count; i++) {
        if ((not_done = combine(j, size, *outcome, j->streams[i], &to[i % 2], ROOM - 1, time)) != NULL)
            return not_done;
        *outcome = to[i % 2];
        outcome->bytes[outcome->length] = 0;
        if (fits != NULL)
            *fits = *fits && is_fit(*outcome);
    }
    return NULL;
}

/* ---- Theirs */

/* The size of a BuDDy that stands ready. */
#define LARGEST (BUDDY_SIZES - 1)

static void clear_or_begin(bool ready, uint32_t size)
{
    if (ready)
        buddy_clear();
    else
        buddy_begin(size);
}

/* All calls of a job: by a BuDDy that stands ready, or by one that begins and ends with each call. */
static void combine_all_by_buddy(const job *j, bool ready, uint32_t size, text to[2], text *outcome, double *time)
{
    uint32_t i;
    *time = 0;
    *outcome = j->streams[0];
    for (i = 1; i < j->count; i++) {
        double start = now();
        clear_or_begin(ready, size);
        if (ready)
            start = now();
        to[i % 2].length = buddy_combine(j->op, outcome->bytes, j->streams[i].bytes, to[i % 2].bytes, ROOM - 1);
        if (!ready)
            buddy_end();
        *time += now() - start;
        *outcome = to[i % 2];
        outcome->bytes[outcome->length] = 0;
    }
}

/* ---- Both alike */

static uint32_t draw(void)
{
    static uint32_t state = 1;
    state ^= state << 13;
    state ^= state >> 17;
    state ^= state << 5;
    return state;
}

static uint32_t verdict(uint32_t n, text t, uint64_t word)
{
    rule_decided decided = rule_decide(n, t.bytes, t.length, word, table1, RULE_RECORDS);
    must(decided.cause == RULE_DONE, "an outcome is no stream");
    return decided.verdict;
}

/* Words drawn at random, every other one with most options as in the word before. */
static void ask(uint32_t n, text ours, text theirs)
{
    int words = (int)least(WORDS_ASKED, BYTES_ASKED / (double)(ours.length + theirs.length)), i;
    uint32_t word = 0;
    for (i = 0; i < words; i++) {
        word = i % 2 == 0 ? draw() : word ^ (draw() & draw() & draw());
        uint64_t asked = n == 0 ? 0 : word >> (32 - n);
        must(verdict(n, ours, asked) == verdict(n, theirs, asked), "a word is decided otherwise");
    }
}

static bool same_but_size(text a, text b)
{
    const uint8_t *from_a = memchr(a.bytes, '\n', a.length), *from_b = memchr(b.bytes, '\n', b.length);
    size_t rest_a = a.length - (size_t)(from_a - a.bytes), rest_b = b.length - (size_t)(from_b - b.bytes);
    return rest_a == rest_b && memcmp(from_a, from_b, rest_a) == 0;
}

static void compare(const job *j, text ours, text theirs, bool fits)
{
    uint32_t numbers = buddy_numbers();
    BDD f, g;
    buddy_clear();
    f = buddy_read(ours.bytes);
    g = buddy_read(theirs.bytes);
    must(f == g, "the outcomes differ");
    bdd_delref(f);
    bdd_delref(g);
    if (numbers <= RULE_RECORDS) {
        rule_checked checked = rule_check(j->n, theirs.bytes, theirs.length, table1, RULE_RECORDS);
        must(checked.cause == RULE_DONE && checked.extent == RULE_COMPLETE, "what is printed is no stream");
        ask(j->n, ours, theirs);
    }
    must(!fits || same_but_size(ours, theirs), "what fits is not the same text");
}

/* ---- Measuring */

static text places[4];

/* The best of some runs in a row, so that what the other way left in the processor's cache does not count. */
static double turn(const job *j, uint32_t size)
{
    text outcome;
    double best = 1e30, time;
    int run;
    for (run = 0; run < RUNS; run++)
        if (combine_all(j, size, places, &outcome, NULL, &time) == NULL)
            best = least(time, best);
    return best;
}

static double turn_by_buddy(const job *j, bool ready, uint32_t size)
{
    text outcome;
    double best = 1e30, time;
    int run;
    for (run = 0; run < RUNS; run++) {
        combine_all_by_buddy(j, ready, size, places + 2, &outcome, &time);
        best = least(time, best);
    }
    return best;
}

/* With each size that BuDDy may begin with; the one that stands ready is gone meanwhile. */
static double turn_by_begun(const job *j)
{
    double best = 1e30;
    uint32_t size;
    buddy_end();
    for (size = 0; size < BUDDY_SIZES; size++)
        best = least(turn_by_buddy(j, false, size), best);
    buddy_begin(LARGEST);
    return best;
}

static measured measure(const job *j, uint32_t size)
{
    measured m = {.fits = true};
    text ours, theirs;
    double start;
    uint32_t i;
    for (i = 0; i < j->count; i++)
        m.in += j->streams[i].length;
    m.skipped = combine_all(j, size, places, &ours, &m.fits, &m.ours);
    if (m.skipped != NULL)
        return m;
    combine_all_by_buddy(j, true, LARGEST, places + 2, &theirs, &m.ready);
    compare(j, ours, theirs, m.fits);
    m.out = ours.length;
    m.theirs = 1e30;
    start = now();
    for (i = 0; i < TURNS && (i == 0 || now() - start < TURNS_FOR); i++) {
        m.ours = least(turn(j, size), m.ours);
        m.ready = least(turn_by_buddy(j, true, LARGEST), m.ready);
        m.theirs = least(turn_by_begun(j), m.theirs);
    }
    return m;
}

/* ---- A line for each job */

static double ratios[2][MOST_RATIOS];
static size_t ratio_count, skipped_count, larger_count;

static void show(job j, uint32_t size)
{
    measured m = measure(&j, size);
    printf("%-28s n %2u size %4u: %6zu ", j.name, (unsigned)j.n, (unsigned)size, m.in);
    if (m.skipped != NULL) {
        skipped_count++;
        printf("bytes, skipped: %s\n", m.skipped);
    } else {
        printf("to %8zu bytes  ours %10.1f us  BuDDy %8.1f us  ratio %9.2f  ready %8.1f us  ratio %9.2f%s\n", m.out, m.ours, m.theirs,
               m.ours / m.theirs, m.ready, m.ours / m.ready, m.fits ? "  fits" : "");
        larger_count += !m.fits;
        if (m.fits && ratio_count < MOST_RATIOS) {
            ratios[0][ratio_count] = m.ours / m.theirs;
            ratios[1][ratio_count++] = m.ours / m.ready;
        }
    }
    fflush(stdout);
    drop(&j);
}

static int rising(const void *a, const void *b)
{
    double x = *(const double *)a, y = *(const double *)b;
    return (x > y) - (x < y);
}

static void show_ratios_of(const char *name, double *all)
{
    qsort(all, ratio_count, sizeof *all, rising);
    if (ratio_count > 0)
        printf("ratios of those that fit, %s: median %.2f, largest %.2f\n", name, all[ratio_count / 2], all[ratio_count - 1]);
}

static void show_ratios(void)
{
    printf("%zu fit their table, %zu do not, %zu skipped\n", ratio_count, larger_count, skipped_count);
    show_ratios_of("BuDDy", ratios[0]);
    show_ratios_of("BuDDy that stands ready", ratios[1]);
}

/* ---- Jobs */

static void show_all(uint32_t size)
{
    uint32_t i;
    for (i = 0; i < JOBS; i++)
        show(nth_job(i), size);
}

/* ---- Growth */

/* One time, and how many times the one before it. */
static void show_growth(job j, double before[2])
{
    measured m = measure(&j, RULE_RECORDS);
    if (m.skipped != NULL) {
        printf("  %-28s skipped: %s\n", j.name, m.skipped);
        before[0] = before[1] = 0;
    } else {
        printf("  %-28s ours %10.1f us", j.name, m.ours);
        if (before[0] > 0)
            printf(" (times %7.2f)", m.ours / before[0]);
        else
            printf("                ");
        printf("  BuDDy %8.1f us", m.theirs);
        if (before[1] > 0)
            printf(" (times %7.2f)", m.theirs / before[1]);
        printf("\n");
        before[0] = m.ours;
        before[1] = m.theirs;
    }
    fflush(stdout);
    drop(&j);
}

static void show_all_growth(void)
{
    double before[2];
    uint32_t n, count;
    size_t i;
    printf("as options double, size %d:\n", RULE_RECORDS);
    for (i = 0; i < FAMILIES; i++)
        for (n = 8, before[0] = before[1] = 0; n <= 32; n *= 2)
            show_growth(families[i](n), before);
    printf("as terms double, size %d:\n", RULE_RECORDS);
    for (count = 2, before[0] = before[1] = 0; count <= 16; count *= 2)
        show_growth(near_terms(count), before);
    for (count = 2, before[0] = before[1] = 0; count <= 16; count *= 2)
        show_growth(terms(count), before);
}

/* ---- Pace */

static void show_pace(job j, uint32_t size, size_t room)
{
    double best = 1e30;
    int turn;
    for (turn = 0; turn < 5; turn++) {
        double time = 0;
        if (combine(&j, size, j.streams[0], j.streams[1], &places[0], room, &time) == too_slow) {
            printf("  %-28s n %2u size %4u: skipped: %s\n", j.name, (unsigned)j.n, (unsigned)size, too_slow);
            drop(&j);
            return;
        }
        best = least(time, best);
    }
    printf("  %-28s n %2u size %4u: %8zu bytes of %s in %10.1f us, %7.2f MB/s\n", j.name, (unsigned)j.n, (unsigned)size, places[0].length,
           places[0].length < room ? "a whole text" : "a full output", best, (double)places[0].length / best);
    fflush(stdout);
    drop(&j);
}

static void show_all_pace(void)
{
    printf("long texts:\n");
    show_pace(odd_with_first(20), 0, ROOM);
    show_pace(half_with_odd(20), 0, ROOM);
    show_pace(half_with_odd(20), 8, ROOM);
    show_pace(half_or_quarter(20), 8, ROOM);
    show_pace(half_with_odd(32), 8, 1 << 20);
    show_pace(half_or_quarter(32), 0, 1 << 20);
}

int main(int count, char **words)
{
    static const uint32_t sizes[] = {RULE_RECORDS, 256, 64};
    struct sigaction action;
    size_t i;
    if (count > 1)
        limit = 1e6 * atof(words[1]);
    memset(&action, 0, sizeof action);
    action.sa_handler = at_alarm;
    sigaction(SIGALRM, &action, NULL);
    for (i = 0; i < 4; i++)
        must((places[i].bytes = malloc(ROOM)) != NULL, "no memory");
    buddy_begin(LARGEST);
    for (i = 0; i < 3; i++)
        show_all(sizes[i]);
    show_ratios();
    show_all_growth();
    show_all_pace();
    return 0;
}
