/* A rule as a module's firmware would use it: checked, asked for each word, read element by element; and one that is refused. */
#include "rule.h"
#include <stdio.h>

static rule_record records[RULE_RECORDS];

static const char *const causes[] = {
    "done", "option count", "operator", "size to write", "work table", "word", "truth table", "wrong byte", "declared size", "too deep",
    "not in the table", "other level", "not storable", "bad number"};

static const char *const elements[] = {"opening", "number", "constant", "turn", "closing", "storing", "end"};

static void show_check(uint32_t n, const uint8_t *stream, size_t bytes)
{
    rule_checked checked = rule_check(n, stream, bytes, records, RULE_RECORDS);
    if (checked.cause != RULE_DONE) {
        printf("refused: cause %u, %s, stream %u, byte %llu\n", (unsigned)checked.cause, causes[checked.cause], (unsigned)checked.stream,
               (unsigned long long)checked.byte);
        return;
    }
    printf("size %u, covers %llu of %llu, %s\n", (unsigned)checked.size, (unsigned long long)checked.covered, 1ULL << n,
           checked.extent == RULE_COMPLETE ? "complete" : "cut");
}

int main(void)
{
    static const char *const verdicts[] = {"no", "yes", "not yet"};
    static const char two_or_more[] = "4\n((0(0~0):1):2(1~0):3):4.", unknown[] = "1\n(1~0).";
    const uint8_t *rule = (const uint8_t *)two_or_more;
    size_t bytes = sizeof two_or_more - 1;
    uint64_t word;
    rule_stepped stepped;

    show_check(3, rule, bytes);
    for (word = 0; word < 8; word++)
        printf("word %u: %s\n", (unsigned)word, verdicts[rule_decide(3, rule, bytes, word, records, RULE_RECORDS).verdict]);

    stepped = rule_step(rule_begin(), rule, bytes);
    while (stepped.outcome == RULE_GOT) {
        printf("%s", elements[stepped.element]);
        if (stepped.element == RULE_NUMBER || stepped.element == RULE_STORING)
            printf(" %u", (unsigned)stepped.number);
        printf(", up to byte %llu\n", (unsigned long long)stepped.place.at);
        stepped = rule_step(stepped.place, rule, bytes);
    }
    printf("%s\n", stepped.outcome == RULE_RAN_OUT ? "the bytes ran out" : "a fault");

    show_check(1, (const uint8_t *)unknown, sizeof unknown - 1);
    return 0;
}
