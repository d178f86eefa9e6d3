/*
 * stack: how much stack each call of rule.h takes, at its worst on the inputs tried here; for combining also by option count, so that what is not
 * there at n 0 is the share of the levels. Counted is all below the frame that calls: arguments, return address, and what the call itself takes.
 *
 * A call runs in a process of its own on a stack that was painted; the deepest byte that changed is how far it went. It is painted twice, with
 * different bytes, since a byte may be written that is like the paint. A call that is not done in 20 milliseconds is ended, and what it took so far
 * counts; how many were ended is said.
 */
#define _XOPEN_SOURCE 700
#define _DEFAULT_SOURCE
#include "rule.h"

#include <signal.h>
#include <stdio.h>
#include <stdlib.h>
#include <string.h>
#include <sys/mman.h>
#include <sys/time.h>
#include <sys/wait.h>
#include <ucontext.h>
#include <unistd.h>

#define STACK (1 << 20)
#define ROOM (1 << 16)
#define MICROSECONDS 20000

typedef struct {
    uint8_t bytes[ROOM];
    size_t length;
} text;

/* The deepest that was seen in some calls, and how many there were and were ended. */
typedef struct {
    size_t bytes, calls, ended;
} depth;

static uint8_t *stack;
static rule_record table1[RULE_RECORDS], table2[RULE_RECORDS];
static rule_node table3[RULE_RECORDS];
static uint8_t output[ROOM], truths[1 << 13];

/* What the calls below take. */
static uint32_t n, op, size;
static uint64_t word;
static size_t room;
static text stream1, stream2;

static void must(bool held, const char *what)
{
    if (!held) {
        fprintf(stderr, "stack: %s\n", what);
        exit(1);
    }
}

/* ---- Calls */

static void nothing(void)
{
}

static void check_once(void)
{
    rule_check(n, stream1.bytes, stream1.length, table1, RULE_RECORDS);
}

static void decide_once(void)
{
    rule_decide(n, stream1.bytes, stream1.length, word, table1, RULE_RECORDS);
}

static void next_once(void)
{
    rule_next(n, stream1.bytes, stream1.length, word, table1, RULE_RECORDS);
}

static void fill_once(void)
{
    rule_fill(n, stream1.bytes, stream1.length, truths, (size_t)1 << n >> 3, table1, RULE_RECORDS);
}

static void write_once(void)
{
    rule_write(n, size, truths, (size_t)1 << n >> 3, output, room, table3, RULE_RECORDS);
}

static void combine_once(void)
{
    rule_combine(n, op, size, stream1.bytes, stream1.length, stream2.bytes, stream2.length, output, room, table1, RULE_RECORDS, table2, RULE_RECORDS,
                 table3, RULE_RECORDS);
}

static void begin_once(void)
{
    rule_begin();
}

static rule_stepped stepped;

static void step_once(void)
{
    stepped = rule_step(stepped.place, stream1.bytes, stream1.length);
}

static void step_all(void)
{
    stepped.place = rule_begin();
    do
        step_once();
    while (stepped.outcome == RULE_GOT);
}

/* ---- Measuring */

static ucontext_t outside, inside;

static void run(void (*call)(void))
{
    must(getcontext(&inside) == 0, "no context");
    inside.uc_stack.ss_sp = stack;
    inside.uc_stack.ss_size = STACK;
    inside.uc_link = &outside;
    makecontext(&inside, call, 0);
    must(swapcontext(&outside, &inside) == 0, "no context");
}

/* How many bytes from the stack's top the deepest one is that is not the paint. */
static size_t deepest(uint8_t paint)
{
    size_t at = 0;
    while (at < STACK && stack[at] == paint)
        at++;
    return STACK - at;
}

/* Runs a call on a painted stack; gives how deep it went, and counts. */
static size_t painted(depth *d, void (*call)(void), uint8_t paint)
{
    static const struct itimerval timer = {{0, 0}, {0, MICROSECONDS}};
    int status;
    pid_t child;
    memset(stack, paint, STACK);
    fflush(stdout);
    child = fork();
    must(child >= 0, "no process");
    if (child == 0) {
        setitimer(ITIMER_REAL, &timer, NULL);
        run(call);
        _exit(0);
    }
    must(waitpid(child, &status, 0) == child, "no process");
    d->calls++;
    d->ended += WIFSIGNALED(status) && WTERMSIG(status) == SIGALRM;
    must((WIFSIGNALED(status) && WTERMSIG(status) == SIGALRM) || (WIFEXITED(status) && WEXITSTATUS(status) == 0), "a call fails");
    must(deepest(paint) < STACK, "the stack is too small");
    return deepest(paint);
}

static const uint8_t paints[2] = {0xa5, 0x5a};

/* What a call of nothing takes, the larger of both. */
static size_t bare;

static void measure_bare(void)
{
    depth none = {0, 0, 0};
    int i;
    for (i = 0; i < 2; i++) {
        size_t bytes = painted(&none, nothing, paints[i]);
        bare = bytes > bare ? bytes : bare;
    }
}

/* Takes up what one call took beyond a call of nothing. */
static void measure(depth *worst, void (*call)(void))
{
    int i;
    for (i = 0; i < 2; i++) {
        size_t bytes = painted(worst, call, paints[i]);
        if (bytes > bare + worst->bytes)
            worst->bytes = bytes - bare;
    }
}

static void show(const char *name, depth d)
{
    printf("%-20s %6zu bytes", name, d.bytes);
    if (d.ended > 0)
        printf(" (%zu of %zu calls ended)", d.ended, d.calls);
    printf("\n");
}

/* ---- Streams of n options */

static void put(text *t, const char *bytes)
{
    size_t length = strlen(bytes);
    must(length <= ROOM - t->length, "a stream is too long");
    memcpy(t->bytes + t->length, bytes, length);
    t->length += length;
}

static void put_many(text *t, const char *bytes, uint32_t count)
{
    for (; count > 0; count--)
        put(t, bytes);
}

static void put_numbers(text *t, const char *form, uint32_t one, uint32_t other)
{
    char bytes[40];
    snprintf(bytes, sizeof bytes, form, (unsigned)one, (unsigned)other);
    put(t, bytes);
}

static void constant(text *t)
{
    put(t, "0\n~0.");
}

/* An odd count of set options: each node is stored. */
static void odd(text *t)
{
    uint32_t i;
    if (n == 0) {
        constant(t);
        return;
    }
    put_numbers(t, "%u\n", RULE_RECORDS, 0);
    put_many(t, "(", n);
    put(t, "0~0):1");
    for (i = 1; i < n; i++)
        put_numbers(t, "~%u):%u", i, i + 1);
    put(t, ".");
}

/* The first children go down, and nothing is stored. */
static void first_deep(text *t)
{
    put(t, "0\n");
    put_many(t, "(", n);
    put(t, "0");
    put_many(t, "~0)", n);
    put(t, ".");
}

/* The second children go down, and nothing is stored. */
static void second_deep(text *t)
{
    put(t, "0\n");
    put_many(t, "(0~", n);
    put(t, "0");
    put_many(t, ")", n);
    put(t, ".");
}

/* The last option alone: one stored node in brackets. */
static void last(text *t)
{
    if (n == 0) {
        constant(t);
        return;
    }
    put(t, "1\n");
    put_many(t, "(", n);
    put(t, "0~0):1");
    put_many(t, ")", n - 1);
    put(t, ".");
}

static void (*const makers[])(text *) = {constant, odd, first_deep, second_deep, last};
#define MAKERS (sizeof makers / sizeof *makers)

/* With every other one, its second half is missing: a stream that is cut. */
#define STREAMS (2 * MAKERS)

static void make(text *t, size_t which)
{
    t->length = 0;
    makers[which / 2](t);
    if (which % 2 == 1)
        t->length /= 2;
}

/* ---- All inputs of a call */

static depth over_streams(void (*call)(void))
{
    depth worst = {0, 0, 0};
    size_t i;
    for (i = 0; i < STREAMS; i++) {
        make(&stream1, i);
        for (word = 0; word < UINT64_C(1) << n; word += (UINT64_C(1) << n) - (n > 0))
            measure(&worst, call);
    }
    return worst;
}

/* A truth table with all words no, with an odd count, or any. */
static void make_truths(int kind)
{
    uint32_t i, state = 1;
    for (i = 0; i < sizeof truths; i++) {
        uint32_t bits = i, is_odd = 0;
        for (; bits != 0; bits >>= 1)
            is_odd ^= bits & 1;
        state = state * 1664525 + 1013904223;
        truths[i] = kind == 0 ? 0 : kind == 1 ? (is_odd ? 0x69 : 0x96) : (uint8_t)(state >> 24);
    }
}

static depth over_truths(void)
{
    static const uint32_t sizes[] = {0, 3, RULE_RECORDS};
    depth worst = {0, 0, 0};
    int kind, i;
    for (kind = 0; kind < 3; kind++)
        for (i = 0; i < 3; i++)
            for (room = 0; room <= ROOM; room += ROOM) {
                make_truths(kind);
                size = sizes[i];
                measure(&worst, write_once);
            }
    return worst;
}

static depth over_pairs(void)
{
    static const uint32_t sizes[] = {0, 3, RULE_RECORDS}, ops[] = {6, 8, 14};
    depth worst = {0, 0, 0};
    size_t i, k, s, o;
    for (i = 0; i < STREAMS; i++)
        for (k = 0; k < STREAMS; k++)
            for (s = 0; s < 3; s++)
                for (o = 0; o < 3; o++) {
                    make(&stream1, i);
                    make(&stream2, k);
                    size = sizes[s];
                    op = ops[o];
                    room = ROOM;
                    measure(&worst, combine_once);
                }
    return worst;
}

static void show_levels(void)
{
    static const uint32_t counts[] = {0, 8, 16, 24, 32};
    depth none = {0, 0, 0};
    size_t i;
    for (i = 0; i < 5; i++) {
        char name[40];
        depth d;
        n = counts[i];
        d = over_pairs();
        snprintf(name, sizeof name, "rule_combine, n %u", (unsigned)n);
        show(name, d);
        if (i == 0)
            none = d;
        else
            printf("%-20s %6zu bytes more than with n 0, %.0f for each level\n", "", d.bytes - none.bytes, (double)(d.bytes - none.bytes) / n);
    }
}

int main(void)
{
    depth beginning = {0, 0, 0};
    stack = mmap(NULL, STACK, PROT_READ | PROT_WRITE, MAP_SHARED | MAP_ANONYMOUS, -1, 0);
    must(stack != MAP_FAILED, "no memory");
    measure_bare();
    n = 32;
    show("rule_check, n 32", over_streams(check_once));
    show("rule_decide, n 32", over_streams(decide_once));
    show("rule_next, n 32", over_streams(next_once));
    n = 16;
    show("rule_fill, n 16", over_streams(fill_once));
    show("rule_write, n 16", over_truths());
    measure(&beginning, begin_once);
    show("rule_begin", beginning);
    n = 32;
    show("rule_step, n 32", over_streams(step_all));
    show_levels();
    return 0;
}
