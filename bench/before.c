/*
 * before: the time of combining by two builds of the library. For each job of rules.h, for table sizes 768 and 64, and for each operator on the rules
 * "16 of 32" and "8 of 32" of size 768: microseconds of the one before, of the one now, and the ratio of now to before. At the end the least, the
 * middle and the largest ratio. Both run in turns on the same memory, the first of a turn alternates, and the best run of each counts. A job that
 * takes longer than a second is skipped. Before that, it is tested that both write the same bytes.
 */
#define _POSIX_C_SOURCE 199309L
#include "buddy.h"
#include "rule.h"
#include "rules.h"

#include <stdio.h>
#include <stdlib.h>
#include <string.h>
#include <time.h>

#define ROOM (1 << 26)
#define TURNS 200
#define LEAST_TURNS 6
#define TURNS_FOR 0.5
#define LONGEST 1.0
#define OPERATORS 16
#define MOST_RATIOS (2 * (JOBS + OPERATORS))

typedef rule_written combining(uint32_t n, uint32_t op, uint32_t size, const uint8_t *stream1, size_t stream1_bytes, const uint8_t *stream2,
                               size_t stream2_bytes, uint8_t *output, size_t output_bytes, rule_record *table1, size_t records1, rule_record *table2,
                               size_t records2, rule_node *table3, size_t records3);
combining combine_before, combine_now;
static combining *const builds[2] = {combine_before, combine_now};

static rule_record table1[RULE_RECORDS], table2[RULE_RECORDS];
static rule_node table3[RULE_RECORDS];
static uint8_t *places[2], *kept;
static double ratios[MOST_RATIOS];
static size_t ratio_count, skipped_count;

static double seconds(void)
{
    struct timespec time;
    clock_gettime(CLOCK_MONOTONIC, &time);
    return (double)time.tv_sec + (double)time.tv_nsec / 1e9;
}

/* All calls of a job, each from the text that the one before wrote; gives the seconds, and in `outcome` the last text. */
static double run(combining *combine, const job *j, uint32_t size, text *outcome)
{
    double start = seconds();
    uint32_t i;
    *outcome = j->streams[0];
    for (i = 1; i < j->count; i++) {
        text with = j->streams[i];
        rule_written answer = combine(j->n, j->op, size, outcome->bytes, outcome->length, with.bytes, with.length, places[i % 2], ROOM, table1,
                                      RULE_RECORDS, table2, RULE_RECORDS, table3, RULE_RECORDS);
        if (answer.cause != RULE_DONE) {
            fprintf(stderr, "before: a call is refused\n");
            exit(1);
        }
        outcome->bytes = places[i % 2];
        outcome->length = (size_t)answer.written;
    }
    return seconds() - start;
}

/* Both once: they write the same. Gives the seconds of the slower one. */
static double try(const job *j, uint32_t size)
{
    text first, second;
    double one = run(builds[0], j, size, &first), other;
    memcpy(kept, first.bytes, first.length);
    other = run(builds[1], j, size, &second);
    if (first.length != second.length || memcmp(kept, second.bytes, second.length) != 0) {
        fprintf(stderr, "before: the outcomes differ\n");
        exit(1);
    }
    return one > other ? one : other;
}

static void show(const job *j, uint32_t size)
{
    double best[2] = {1e30, 1e30}, start;
    int turn;
    printf("%-28s operator %2u n %2u size %4u: ", j->name, (unsigned)j->op, (unsigned)j->n, (unsigned)size);
    if (try(j, size) > LONGEST) {
        skipped_count++;
        printf("skipped: takes too long\n");
        return;
    }
    start = seconds();
    for (turn = 0; turn < TURNS && (turn < LEAST_TURNS || seconds() - start < TURNS_FOR); turn++) {
        int k;
        for (k = 0; k < 2; k++) {
            int which = (turn + k) % 2;
            text outcome;
            double time = run(builds[which], j, size, &outcome);
            if (time < best[which])
                best[which] = time;
        }
    }
    ratios[ratio_count++] = best[1] / best[0];
    printf("before %10.1f us  now %10.1f us  ratio %5.3f\n", best[0] * 1e6, best[1] * 1e6, best[1] / best[0]);
    fflush(stdout);
}

static int rising(const void *a, const void *b)
{
    double x = *(const double *)a, y = *(const double *)b;
    return (x > y) - (x < y);
}

int main(void)
{
    static const uint32_t sizes[] = {RULE_RECORDS, 64};
    uint32_t i, k, op;
    for (i = 0; i < 2; i++)
        places[i] = malloc(ROOM);
    kept = malloc(ROOM);
    if (places[0] == NULL || places[1] == NULL || kept == NULL) {
        fprintf(stderr, "before: no memory\n");
        return 1;
    }
    buddy_begin(BUDDY_SIZES - 1);
    for (i = 0; i < 2; i++) {
        for (k = 0; k < JOBS; k++) {
            job j = nth_job(k);
            show(&j, sizes[i]);
            drop(&j);
            buddy_clear();
        }
    }
    for (op = 0; op < OPERATORS; op++) {
        job j = half_or_quarter(32);
        j.op = op;
        show(&j, RULE_RECORDS);
        drop(&j);
        buddy_clear();
    }
    qsort(ratios, ratio_count, sizeof *ratios, rising);
    printf("ratios of now to before, %zu (%zu skipped): least %.3f, middle %.3f, largest %.3f\n", ratio_count, skipped_count, ratios[0],
           ratios[ratio_count / 2], ratios[ratio_count - 1]);
    return 0;
}
