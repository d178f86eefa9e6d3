/* The words that a rule admits, one after the other, as a utility steps through them: of a whole rule, of the same cut, of one with 32 options. */
#include "rule.h"
#include <stdio.h>

static rule_record records[RULE_RECORDS];

static void list(const char *name, uint32_t n, const char *stream, size_t bytes)
{
    uint64_t word = 0;
    rule_found found;
    printf("%s:", name);
    while (word < UINT64_C(1) << n) {
        found = rule_next(n, (const uint8_t *)stream, bytes, word, records, RULE_RECORDS);
        if (found.cause != RULE_DONE) {
            printf(" refused, cause %u, stream %u, byte %llu\n", (unsigned)found.cause, (unsigned)found.stream, (unsigned long long)found.byte);
            return;
        }
        if (found.answer != RULE_WORD_FOUND) {
            printf(" %s from %llu on\n", found.answer == RULE_NOT_KNOWN ? "not known" : "none", (unsigned long long)word);
            return;
        }
        printf(" %llu", (unsigned long long)found.word);
        word = found.word + 1;
    }
    printf(", the last word\n");
}

int main(void)
{
    static const char two_or_more[] = "4\n((0(0~0):1):2(1~0):3):4.", neither[] = "1\n~((0~0):1~0).", unknown[] = "1\n(1~0).";
    static const char last[] = "0\n(0(0(0(0(0(0(0(0(0(0(0(0(0(0(0(0(0(0(0(0(0(0(0(0(0(0(0(0(0(0(0(0~0)))))))))))))))))))))))))))))))).";
    size_t bytes = sizeof two_or_more - 1;

    list("two or more of three options", 3, two_or_more, bytes);
    list("the same, cut behind word 5", 3, two_or_more, bytes - 8);
    list("neither of two options", 2, neither, sizeof neither - 1);
    list("all of 32 options", 32, last, sizeof last - 1);
    list("a number that is not in the table", 1, unknown, sizeof unknown - 1);
    return 0;
}
