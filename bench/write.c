/*
 * write: the time of writing a truth table of 16 options, a random one with several table sizes, parity, whose second halves are the first ones
 * turned about, and a constant one: microseconds for a call, and nanoseconds for each two-child node written out. Beside it the time of checking the stream that was written, and the ratio. Both run in turns; the
 * best turn of each counts. Each call has to clear its work table of RULE_RECORDS records, and that is in its time.
 */
#define _POSIX_C_SOURCE 199309L
#include "rule.h"

#include <stdio.h>
#include <stdlib.h>
#include <string.h>
#include <time.h>

#define OPTIONS 16
#define TRUTH_BYTES (1 << OPTIONS >> 3)
#define OUTPUT_BYTES (1 << 20)
#define TURNS 60
#define BYTES_A_TURN 60000

static rule_record records[RULE_RECORDS];
static rule_node nodes[RULE_RECORDS];
static uint8_t truths[TRUTH_BYTES], output[OUTPUT_BYTES];

static size_t write_once(uint32_t size)
{
    rule_written written = rule_write(OPTIONS, size, truths, TRUTH_BYTES, output, OUTPUT_BYTES, nodes, RULE_RECORDS);
    if (written.cause != RULE_DONE || written.ending != RULE_WHOLE) {
        fprintf(stderr, "write: the table is not written whole\n");
        exit(1);
    }
    return (size_t)written.written;
}

static void check_once(size_t bytes)
{
    rule_checked checked = rule_check(OPTIONS, output, bytes, records, RULE_RECORDS);
    if (checked.cause != RULE_DONE || checked.extent != RULE_COMPLETE) {
        fprintf(stderr, "write: what is written is no stream\n");
        exit(1);
    }
}

/* A stream has one two-child node fewer than constants and numbers that stand for a node. */
static size_t nodes_in(size_t bytes)
{
    size_t ends = 0;
    rule_stepped stepped = rule_step(rule_begin(), output, bytes);
    while ((stepped = rule_step(stepped.place, output, bytes)).outcome == RULE_GOT)
        ends += stepped.element == RULE_CONSTANT || stepped.element == RULE_NUMBER;
    return ends - 1;
}

static double now(void)
{
    struct timespec time;
    clock_gettime(CLOCK_MONOTONIC, &time);
    return (double)time.tv_sec * 1e9 + (double)time.tv_nsec;
}

static void measure(const char *name, uint32_t size)
{
    double writing = 1e30, checking = 1e30;
    size_t bytes = write_once(size), count = nodes_in(bytes), calls = BYTES_A_TURN / bytes + 1, i;
    int turn;
    for (turn = 0; turn < TURNS; turn++) {
        double start = now(), middle, end;
        for (i = 0; i < calls; i++)
            write_once(size);
        middle = now();
        for (i = 0; i < calls; i++)
            check_once(bytes);
        end = now();
        writing = middle - start < writing ? middle - start : writing;
        checking = end - middle < checking ? end - middle : checking;
    }
    writing /= (double)calls;
    checking /= (double)calls;
    printf("%-8s size %4u: %6zu bytes, %5zu nodes  write %8.1f us", name, (unsigned)size, bytes, count, writing / 1e3);
    if (count != 0)
        printf(", %6.1f ns/node", writing / (double)count);
    printf("  check %8.1f us  ratio %.2f\n", checking / 1e3, writing / checking);
}

int main(void)
{
    static const uint32_t sizes[] = {16, 64, 256, RULE_RECORDS};
    uint64_t state = 1;
    size_t i;
    for (i = 0; i < TRUTH_BYTES; i++) {
        state ^= state << 13;
        state ^= state >> 7;
        state ^= state << 17;
        truths[i] = (uint8_t)(state >> 32);
    }
    for (i = 0; i < sizeof sizes / sizeof *sizes; i++)
        measure("random", sizes[i]);
    for (i = 0; i < TRUTH_BYTES; i++) {
        size_t bits = i, odd = 0;
        for (; bits != 0; bits >>= 1)
            odd ^= bits & 1;
        truths[i] = odd ? 0x69 : 0x96;
    }
    measure("parity", RULE_RECORDS);
    memset(truths, 0xff, TRUTH_BYTES);
    measure("constant", RULE_RECORDS);
    return 0;
}
