/*
 * cut: the time of combining streams that are cut, beside that of whole ones of the same length and the same kind, n 16. Of each kind there are two
 * whole rules whose words from some word on are all no, and two that go on as they begin, cut to the length of the whole ones. For each kind and some
 * operators: the bytes of both streams, how many words a run over two cut streams covers, microseconds for a call with both whole, with the second
 * cut, the first, and both; and the ratios to both whole. At the end the largest ratio of all operators. The ways run in turns; the best turn of each
 * counts.
 */
#define _POSIX_C_SOURCE 199309L
#include "rule.h"

#include <stdio.h>
#include <stdlib.h>
#include <string.h>
#include <time.h>

#define OPTIONS 16
#define WORDS (1 << OPTIONS)
#define ROOM (1 << 20)
#define TURNS 40
#define NANOSECONDS_A_TURN 2e6
#define OPERATORS 16

typedef struct {
    uint8_t bytes[ROOM];
    size_t length;
} text;

static rule_record table1[RULE_RECORDS], table2[RULE_RECORDS];
static rule_node table3[RULE_RECORDS];
static uint8_t truths[WORDS / 8], output[ROOM];
static text whole[2], cut[2];
static double largest;

static void must(bool held, const char *what)
{
    if (!held) {
        fprintf(stderr, "cut: %s\n", what);
        exit(1);
    }
}

static double now(void)
{
    struct timespec time;
    clock_gettime(CLOCK_MONOTONIC, &time);
    return (double)time.tv_sec * 1e9 + (double)time.tv_nsec;
}

/* ---- Rules */

static uint64_t draw(void)
{
    static uint64_t state = 1;
    state ^= state << 13;
    state ^= state >> 7;
    state ^= state << 17;
    return state;
}

/* Each word before `end` is yes with a chance of one in `chance`. */
static void random_rule(text *to, uint32_t size, uint32_t end, uint32_t chance)
{
    rule_written written;
    uint32_t w;
    memset(truths, 0, sizeof truths);
    for (w = 0; w < end; w++)
        if ((draw() >> 20) % chance == 0)
            truths[w / 8] |= (uint8_t)(1 << w % 8);
    written = rule_write(OPTIONS, size, truths, sizeof truths, to->bytes, ROOM, table3, RULE_RECORDS);
    must(written.cause == RULE_DONE && written.ending == RULE_WHOLE, "a rule is not written");
    to->length = (size_t)written.written;
}

static void add(text *to, const char *bytes)
{
    size_t length = strlen(bytes);
    memcpy(to->bytes + to->length, bytes, length);
    to->length += length;
}

/* All words are no, each a constant of its own. */
static void add_constants(text *to, uint32_t depth)
{
    if (depth == 0) {
        add(to, "0");
        return;
    }
    add(to, "(");
    add_constants(to, depth - 1);
    if (depth == 1)
        add(to, " ");
    add_constants(to, depth - 1);
    add(to, ")");
}

static void constant_rule(text *to, bool half)
{
    to->length = 0;
    add(to, "0\n");
    if (half)
        add(to, "(");
    add_constants(to, half ? OPTIONS - 1 : OPTIONS);
    add(to, half ? "0)." : ".");
}

/* A node of a few bytes, in a table of the largest size. */
static void small_rule(text *to, const char *node)
{
    char size[16];
    snprintf(size, sizeof size, "%d\n", RULE_RECORDS);
    to->length = 0;
    add(to, size);
    add(to, node);
    add(to, ".");
}

/* ---- Measuring */

/* One call; gives the covered count. */
static uint64_t combine(uint32_t op, const text *a, const text *b)
{
    rule_written written = rule_combine(OPTIONS, op, RULE_RECORDS, a->bytes, a->length, b->bytes, b->length, output, ROOM, table1, RULE_RECORDS, table2,
                                        RULE_RECORDS, table3, RULE_RECORDS);
    must(written.cause == RULE_DONE && written.ending != RULE_OUTPUT_FULL, "a call is refused");
    return written.covered;
}

static void measure(const char *name, uint32_t op, bool shown)
{
    const text *const first[] = {&whole[0], &whole[0], &cut[0], &cut[0]}, *const second[] = {&whole[1], &cut[1], &whole[1], &cut[1]};
    double best[4] = {1e30, 1e30, 1e30, 1e30};
    size_t calls[4], i;
    int turn, way;
    for (way = 0; way < 4; way++) {
        double start = now();
        combine(op, first[way], second[way]);
        calls[way] = (size_t)(NANOSECONDS_A_TURN / (now() - start)) + 1;
    }
    for (turn = 0; turn < TURNS; turn++)
        for (way = 0; way < 4; way++) {
            double start = now(), each;
            for (i = 0; i < calls[way]; i++)
                combine(op, first[way], second[way]);
            each = (now() - start) / (double)calls[way];
            best[way] = each < best[way] ? each : best[way];
        }
    for (way = 1; way < 4; way++)
        largest = best[way] / best[0] > largest ? best[way] / best[0] : largest;
    if (!shown)
        return;
    printf("%-16s op %2u: %6zu and %6zu bytes, %5u words  whole %8.1f us", name, (unsigned)op, whole[0].length, whole[1].length,
           (unsigned)combine(op, &cut[0], &cut[1]), best[0] / 1e3);
    for (way = 1; way < 4; way++)
        printf("  %s %8.1f us, %.2f", way == 1 ? "second cut" : way == 2 ? "first cut" : "both cut", best[way] / 1e3, best[way] / best[0]);
    printf("\n");
}

static void measure_all(const char *name)
{
    uint32_t op;
    int i;
    for (i = 0; i < 2; i++) {
        must(cut[i].length >= whole[i].length, "a stream to cut is too short");
        cut[i].length = whole[i].length;
    }
    for (op = 0; op < OPERATORS; op++)
        measure(name, op, op == 3 || op == 6 || op == 8 || op == 14);
}

int main(void)
{
    static const struct {
        const char *name;
        uint32_t size, chance;
    } kinds[] = {{"random", RULE_RECORDS, 2}, {"random, size 16", 16, 2}, {"few admitted", RULE_RECORDS, 400}};
    size_t k;
    int i;
    for (k = 0; k < sizeof kinds / sizeof *kinds; k++) {
        for (i = 0; i < 2; i++) {
            random_rule(&whole[i], kinds[k].size, WORDS / 2, kinds[k].chance);
            random_rule(&cut[i], kinds[k].size, WORDS, kinds[k].chance);
        }
        measure_all(kinds[k].name);
    }
    for (i = 0; i < 2; i++) {
        constant_rule(&whole[i], true);
        constant_rule(&cut[i], false);
    }
    measure_all("constants");
    for (i = 0; i < 2; i++) {
        small_rule(&whole[i], "((0(0~0):1):2(1~0):3):4");
        small_rule(&cut[i], "(((0(0~0):1):2(1~0):3):4(3~2):5):6");
    }
    measure_all("small");
    printf("the largest ratio of all operators: %.2f\n", largest);
    return 0;
}
