/*
 * Combining two streams as a program on a desk does it without the library: both are read to diagrams of BuDDy, and the outcome is printed. It is
 * made of BuDDy's public interface as Debian's libbdd-dev gives it: a node is bdd_ite of its option, and what must outlast a call has a reference.
 */
#ifndef BUDDY_H
#define BUDDY_H

#include <bdd.h>
#include <stdbool.h>
#include <stddef.h>
#include <stdint.h>

/* Options, numbers that a text can give out, and sizes that BuDDy can begin with. */
#define BUDDY_OPTIONS 32
#define BUDDY_NUMBERS (1 << 18)
#define BUDDY_SIZES 5

/* Before all else, with one of the sizes, the last being the largest; after all else. */
void buddy_begin(uint32_t size);
void buddy_end(void);

/* Drops all diagrams without a reference, and empties the caches of the operators, as at the beginning of a job. */
void buddy_clear(void);

/* The diagram of a complete stream without a fault, with a reference. */
BDD buddy_read(const uint8_t *stream);

/* The diagram with a reference until all is cleared; that of a two-child node at a level from 1 on, kept so. */
BDD buddy_keep(BDD f);
BDD buddy_node(uint32_t level, BDD first, BDD second);

/*
 * Prints the stream of a diagram; gives its length, or exits if it is over `room`. Every two-child node is printed once, with a number, and by
 * number from then on; numbers are given out in turn as nodes end, and none is given out again. So it is the stream that document 01 has written if
 * the nodes fit their table. The declared size is RULE_RECORDS.
 */
size_t buddy_print(BDD f, uint8_t *text, size_t room);

/* How many numbers the last print gave out, and the normal function of each, kept as by buddy_keep. */
uint32_t buddy_numbers(void);
BDD buddy_numbered(uint32_t number);

/* Reads both streams, applies the operator (6, 8 or 14), prints; gives the length of what is printed. */
size_t buddy_combine(uint32_t op, const uint8_t *stream1, const uint8_t *stream2, uint8_t *text, size_t room);

#endif
