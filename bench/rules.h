/* Rules to combine, as jobs: which streams of how many options by which operator. */
#ifndef RULES_H
#define RULES_H

#include <stddef.h>
#include <stdint.h>

enum { XOR = 6, AND = 8, OR = 14 };

#define MOST_STREAMS 32

typedef struct {
    uint8_t *bytes;
    size_t length;
} text;

/* The streams are combined from the first on: with two of them one call, else a chain of calls. */
typedef struct {
    char name[48];
    uint32_t n, op, count;
    text streams[MOST_STREAMS];
} job;

/*
 * Those for any n options, 8 to 32. "Odd" is an odd count of set options, "16 of 32" just so many, "7th" that their count is a multiple of 7. "Carry":
 * two numbers in turns, the most significant options first, and their sum has one digit more.
 */
#define FAMILIES 9
extern job (*const families[FAMILIES])(uint32_t n);
job odd_with_first(uint32_t n);
job half_or_quarter(uint32_t n);
job half_with_odd(uint32_t n);

/* So many random terms of six literals, n 32: of any options, or each of ten neighbours. */
job terms(uint32_t count);
job near_terms(uint32_t count);

/*
 * All, from 0 on: the families with 32 options; "queens", no two of five queens on 5 x 5 fields threaten each other, and each row has one, 30 rules,
 * n 25; near terms and terms, 2, 4, 8 and 16 of each; a stored node that is no in both halves, 30 levels deep; a stream of which a third of the nodes
 * stand in one bucket of the library's table of nodes.
 */
#define JOBS (FAMILIES + 11)
job nth_job(uint32_t index);

void drop(job *j);

#endif
