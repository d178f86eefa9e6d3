/*
 * Two rules of three options, "two or more set" and "an odd number set", combined by OR to "one or more set": first while only a part of stream 2 has
 * come, then whole. What was written first stays.
 */
#include "rule.h"
#include <stdio.h>
#include <string.h>

#define OPTIONS 3
#define OR 14
#define SIZE 4
#define OUTPUT_BYTES 100

static const char two_or_more[] = "4\n((0(0~0):1):2(1~0):3):4.", odd[] = "3\n(((0~0):1~1):2~2):3.";

static rule_record table1[RULE_RECORDS], table2[RULE_RECORDS];
static rule_node table3[RULE_RECORDS];

/* Combines with the first bytes of stream 2, so many; gives how many bytes are written. */
static size_t show(size_t come, uint8_t *output)
{
    static const char *const endings[] = {"whole", "input ended", "output full"};
    rule_written written =
        rule_combine(OPTIONS, OR, SIZE, (const uint8_t *)two_or_more, sizeof two_or_more - 1, (const uint8_t *)odd, come, output, OUTPUT_BYTES,
                     table1, RULE_RECORDS, table2, RULE_RECORDS, table3, RULE_RECORDS);
    if (written.cause != RULE_DONE) {
        printf("refused: cause %u, stream %u, byte %llu\n", (unsigned)written.cause, (unsigned)written.stream, (unsigned long long)written.byte);
        return 0;
    }
    printf("%u of %u bytes of stream 2: %llu bytes, covers %llu of %u, %s\n", (unsigned)come, (unsigned)sizeof odd - 1,
           (unsigned long long)written.written, (unsigned long long)written.covered, 1u << OPTIONS, endings[written.ending]);
    printf("%.*s\n", (int)written.written, (const char *)output);
    return (size_t)written.written;
}

int main(void)
{
    uint8_t before[OUTPUT_BYTES], after[OUTPUT_BYTES];
    size_t shorter = show(sizeof "3\n(((0~0):1~1):2" - 1, before), longer = show(sizeof odd - 1, after);
    printf("the longer run's bytes %s with the shorter's\n", shorter <= longer && memcmp(before, after, shorter) == 0 ? "begin" : "do not begin");
    return 0;
}
