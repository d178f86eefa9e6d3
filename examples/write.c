/* "9sym", a rule of nine options that admits a word if three to six of them are set: written with two table sizes, and read back. */
#include "rule.h"
#include <stdio.h>
#include <string.h>

#define OPTIONS 9
#define TRUTH_BYTES (1 << OPTIONS >> 3)
#define OUTPUT_BYTES 1000

static rule_record records[RULE_RECORDS];
static rule_node nodes[RULE_RECORDS];

static int admits(unsigned word)
{
    int set = 0;
    for (; word != 0; word >>= 1)
        set += word & 1;
    return set >= 3 && set <= 6;
}

/* A stream has one two-child node fewer than constants and numbers that stand for a node. */
static void show_nodes(uint32_t size, const uint8_t *stream, size_t bytes)
{
    unsigned given[RULE_RECORDS + 1] = {0}, ends = 0, storings = 0, once = 0, number;
    rule_stepped stepped = rule_step(rule_begin(), stream, bytes);
    while ((stepped = rule_step(stepped.place, stream, bytes)).outcome == RULE_GOT) {
        ends += stepped.element == RULE_CONSTANT || stepped.element == RULE_NUMBER;
        if (stepped.element == RULE_STORING && stepped.number <= size) {
            storings++;
            given[stepped.number]++;
        }
    }
    for (number = 1; number <= size; number++)
        once += given[number] == 1;
    printf("%u two-child nodes, %u of them with a number; %u of the numbers 1 to %u given out once\n", ends - 1, storings, once, (unsigned)size);
}

static void show(uint32_t size, const uint8_t *truths)
{
    static const char *const endings[] = {"whole", "input ended", "output full"};
    uint8_t output[OUTPUT_BYTES], back[TRUTH_BYTES];
    rule_written written = rule_write(OPTIONS, size, truths, TRUTH_BYTES, output, sizeof output, nodes, RULE_RECORDS);
    rule_filled filled;
    if (written.cause != RULE_DONE) {
        printf("refused: cause %u\n", (unsigned)written.cause);
        return;
    }
    printf("size %u: %llu bytes, covers %llu of %u, %s\n", (unsigned)size, (unsigned long long)written.written, (unsigned long long)written.covered,
           1u << OPTIONS, endings[written.ending]);
    printf("%.*s\n", (int)written.written, (const char *)output);
    show_nodes(size, output, (size_t)written.written);
    filled = rule_fill(OPTIONS, output, (size_t)written.written, back, sizeof back, records, RULE_RECORDS);
    printf("read back: covers %llu, %s\n", (unsigned long long)filled.covered,
           filled.cause == RULE_DONE && memcmp(back, truths, sizeof back) == 0 ? "the same truth table" : "not the same truth table");
}

int main(void)
{
    uint8_t truths[TRUTH_BYTES] = {0};
    unsigned word;
    for (word = 0; word < 1u << OPTIONS; word++)
        truths[word / 8] |= (uint8_t)(admits(word) << word % 8);
    show(10, truths);
    show(24, truths);
    return 0;
}
