/*
 * counts: for each job of rules.h, and each table size to write, what the operation cache did in all calls of the job: the parts that were walked
 * over stored nodes; the hits, looked up and known; the misses, looked up and not known, or known by a number that was given out again; the notes,
 * and those among them that wrote over a row with another key. It wants the library that bench/counts makes.
 */
#include "buddy.h"
#include "rule.h"
#include "rules.h"

#include <stdio.h>
#include <stdlib.h>

#define ROOM (1 << 26)

enum { PARTS, HITS, MISSES, NOTES, OVERWRITTEN, COUNTERS };

static rule_record table1[RULE_RECORDS], table2[RULE_RECORDS];
static rule_node table3[RULE_RECORDS];
static uint8_t *places[2];

static void must(bool held, const char *what)
{
    if (!held) {
        fprintf(stderr, "counts: %s\n", what);
        exit(1);
    }
}

/* All calls of a job; it ends early if a text is too long. */
static bool combine_all(const job *j, uint32_t size, uint64_t counts[COUNTERS])
{
    text from = j->streams[0];
    uint32_t i, k;
    for (i = 1; i < j->count; i++) {
        text with = j->streams[i];
        rule_written answer = rule_combine(j->n, j->op, size, from.bytes, from.length, with.bytes, with.length, places[i % 2], ROOM, table1,
                                           RULE_RECORDS, table2, RULE_RECORDS, table3, RULE_RECORDS);
        must(answer.cause == RULE_DONE, "a call is refused");
        if (answer.ending != RULE_WHOLE)
            return false;
        for (k = 0; k < COUNTERS; k++)
            counts[k] += ((const uint32_t *)table3)[k];
        from.bytes = places[i % 2];
        from.length = (size_t)answer.written;
    }
    must(counts[HITS] + counts[MISSES] <= counts[PARTS] && counts[NOTES] <= counts[MISSES] && counts[OVERWRITTEN] <= counts[NOTES],
         "the counters are not those that the library should have");
    return true;
}

static void show(job j, uint32_t size)
{
    uint64_t counts[COUNTERS] = {0};
    printf("%-28s n %2u size %4u: ", j.name, (unsigned)j.n, (unsigned)size);
    if (combine_all(&j, size, counts))
        printf("parts %9llu  hits %9llu  misses %9llu  notes %9llu  overwritten %9llu\n", (unsigned long long)counts[PARTS],
               (unsigned long long)counts[HITS], (unsigned long long)counts[MISSES], (unsigned long long)counts[NOTES],
               (unsigned long long)counts[OVERWRITTEN]);
    else
        printf("skipped: the text is too long\n");
    fflush(stdout);
    drop(&j);
    buddy_clear();
}

int main(void)
{
    static const uint32_t sizes[] = {RULE_RECORDS, 256, 64};
    uint32_t i, k;
    for (i = 0; i < 2; i++)
        must((places[i] = malloc(ROOM)) != NULL, "no memory");
    buddy_begin(BUDDY_SIZES - 1);
    for (i = 0; i < 3; i++)
        for (k = 0; k < JOBS; k++)
            show(nth_job(k), sizes[i]);
    return 0;
}
