/*
 * bench FILE...: for each stream of 16 options, nanoseconds per byte of checking and of deciding the word in the middle of the covered ones, by
 * the library and by the parser, and the ratio; then of finding the next admitted word from there on and of deciding that word, both by the library,
 * and the ratio. Then of finding the next word from word 0 on in a chain of 31 stored constant nodes with 32 options, beside two other streams of its
 * length: a chain in which a word is found, and one without stored nodes in which none is. At last of finding the next word and of deciding word 0 where
 * no word is admitted and each is a constant of its own, so that all are tried, with 16 and with 32 options. Both run in turns of a short while; the best
 * turn of each counts. Each call has to clear its work table of RULE_RECORDS records, and that is in its time.
 */
#define _POSIX_C_SOURCE 199309L
#include "parser.h"

#include <stdio.h>
#include <stdlib.h>
#include <time.h>

#define OPTIONS 16
#define MOST_OPTIONS 32
#define MOST_BYTES (1 << 17)
#define TURNS 400
#define BYTES_A_TURN 60000

typedef struct {
    const uint8_t *stream;
    size_t bytes;
    uint64_t word;
    uint32_t options;
} job;

static rule_record records[RULE_RECORDS];

static uint64_t check_by_library(job j)
{
    return rule_check(j.options, j.stream, j.bytes, records, RULE_RECORDS).covered;
}

static uint64_t check_by_parser(job j)
{
    return parser_check(j.options, j.stream, j.bytes, records, RULE_RECORDS).covered;
}

static uint64_t decide_by_library(job j)
{
    return rule_decide(j.options, j.stream, j.bytes, j.word, records, RULE_RECORDS).verdict;
}

static uint64_t decide_by_parser(job j)
{
    return parser_decide(j.options, j.stream, j.bytes, j.word, records, RULE_RECORDS).verdict;
}

static uint64_t next_by_library(job j)
{
    return rule_next(j.options, j.stream, j.bytes, j.word, records, RULE_RECORDS).word;
}

static double now(void)
{
    struct timespec time;
    clock_gettime(CLOCK_MONOTONIC, &time);
    return (double)time.tv_sec * 1e9 + (double)time.tv_nsec;
}

/* Nanoseconds of one turn for each byte; exits if an answer is not the one expected. */
static double turn(uint64_t (*call)(job), job j, uint64_t expected)
{
    size_t calls = BYTES_A_TURN / j.bytes + 1, i;
    double start = now();
    for (i = 0; i < calls; i++)
        if (call(j) != expected) {
            fprintf(stderr, "bench: the answers differ\n");
            exit(1);
        }
    return (now() - start) / (double)(calls * j.bytes);
}

/* A call, what it must answer, and what it is put. */
typedef struct {
    const char *name;
    uint64_t (*call)(job);
    uint64_t answer;
    job j;
} side;

static void measure(const char *name, side one, side two)
{
    double first = 1e30, second = 1e30;
    int i;
    for (i = 0; i < TURNS; i++) {
        double a = turn(one.call, one.j, one.answer), b = turn(two.call, two.j, two.answer);
        first = a < first ? a : first;
        second = b < second ? b : second;
    }
    printf("  %-6s  %-8s %6.2f ns/byte  %-8s %6.2f ns/byte  ratio %.2f\n", name, one.name, first, two.name, second, first / second);
}

/* A call by the library and by the parser. */
static void measure_both(const char *name, uint64_t (*library)(job), uint64_t (*parser)(job), job j)
{
    side one = {"library", library, parser(j), j}, two = {"parser", parser, parser(j), j};
    measure(name, one, two);
}

/* Finding the next word, beside another call on the same stream. */
static void measure_next(job j, uint64_t answer, const char *name, uint64_t (*other)(job))
{
    side one = {"library", next_by_library, answer, j}, two = {name, other, other(j), j};
    measure("next", one, two);
}

/* The first admitted word from a word on, by deciding each. */
static uint64_t next_by_parser(job j, uint64_t covered)
{
    for (; j.word < covered; j.word++)
        if (decide_by_parser(j) == RULE_YES)
            return j.word;
    return 0;
}

/* The words of a part, each as a constant of its own, as far as there is room. */
static size_t put_words(uint8_t *bytes, size_t at, int options)
{
    if (at + MOST_OPTIONS + 2 > MOST_BYTES)
        return at;
    if (options == 0) {
        bytes[at] = '0';
        return at + 1;
    }
    bytes[at] = '(';
    at = put_words(bytes, at + 1, options - 1);
    if (options == 1)
        bytes[at++] = ' ';
    at = put_words(bytes, at, options - 1);
    bytes[at] = ')';
    return at + 1;
}

/* 31 stored nodes in a chain, from level 32 up to level 2, each with the one below it as both children; the lowest is `(0 0)` or `(0~0)`. */
static size_t put_chain(uint8_t *bytes, char between)
{
    char *text = (char *)bytes;
    size_t at = (size_t)sprintf(text, "31\n(");
    int k;
    for (k = 0; k < 31; k++)
        text[at++] = '(';
    at += (size_t)sprintf(text + at, "0%c0):1", between);
    for (k = 2; k <= 31; k++)
        at += (size_t)sprintf(text + at, " %d):%d", k - 1, k);
    return at + (size_t)sprintf(text + at, " 31).");
}

/* The chain of constant nodes beside two other streams of its length: a chain in which word 1 is found, and constants in which none is. */
static void measure_chains(uint8_t *words)
{
    static uint8_t constant[1000], other[1000];
    size_t bytes = put_chain(constant, ' ');
    job j = {constant, bytes, 0, MOST_OPTIONS}, k = {other, put_chain(other, '~'), 0, MOST_OPTIONS}, l = {words, bytes, 0, MOST_OPTIONS};
    side one = {"constant", next_by_library, 0, j}, two = {"found", next_by_library, 1, k}, three = {"none", next_by_library, 0, l};
    words[0] = '0';
    words[1] = '\n';
    put_words(words, 2, MOST_OPTIONS);
    if (rule_next(MOST_OPTIONS, constant, bytes, 0, records, RULE_RECORDS).answer != RULE_NO_WORD) {
        fprintf(stderr, "bench: the chain is another one\n");
        exit(1);
    }
    printf("%zu bytes, a chain of 31 stored constant nodes at 32 options\n", bytes);
    measure("next", one, two);
    measure("next", one, three);
}

static void measure_none(uint8_t *bytes, uint32_t options)
{
    job j = {bytes, 0, 0, options};
    bytes[0] = '0';
    bytes[1] = '\n';
    j.bytes = put_words(bytes, 2, (int)options) / 2;
    printf("%zu bytes, %u options, %llu words covered, none admitted\n", j.bytes, options, (unsigned long long)check_by_library(j));
    if (check_by_library(j) == 0 || rule_next(options, j.stream, j.bytes, 0, records, RULE_RECORDS).answer != RULE_NOT_KNOWN) {
        fprintf(stderr, "bench: the rule is another one\n");
        exit(1);
    }
    measure_next(j, 0, "decide", decide_by_library);
}

int main(int count, char **names)
{
    static uint8_t bytes[MOST_BYTES];
    int i;
    for (i = 1; i < count; i++) {
        FILE *file = fopen(names[i], "rb");
        rule_checked checked;
        job j = {bytes, 0, 0, OPTIONS};
        if (file == NULL) {
            perror(names[i]);
            return 1;
        }
        j.bytes = fread(bytes, 1, sizeof bytes, file);
        fclose(file);
        checked = rule_check(OPTIONS, j.stream, j.bytes, records, RULE_RECORDS);
        if (checked.cause != RULE_DONE || checked.covered == 0) {
            fprintf(stderr, "bench: %s is no stream that covers words\n", names[i]);
            return 1;
        }
        j.word = checked.covered / 2;
        printf("%zu bytes, %llu words covered\n", j.bytes, (unsigned long long)checked.covered);
        measure_both("check", check_by_library, check_by_parser, j);
        measure_both("decide", decide_by_library, decide_by_parser, j);
        measure_next(j, next_by_parser(j, checked.covered), "decide", decide_by_library);
    }
    measure_chains(bytes);
    measure_none(bytes, OPTIONS);
    measure_none(bytes, MOST_OPTIONS);
    return 0;
}
