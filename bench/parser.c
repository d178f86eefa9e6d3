/* A recursive descent parser of streams. Each function that reads says whether it is done, the bytes ran out, or there is a fault. */
#include "parser.h"

#include <stdbool.h>
#include <string.h>

#define MOST_OPTIONS 32
#define MOST_SIZE RULE_RECORDS

/* What a temporary node stands for; 0 is the constant. */
#define TEMPORARY UINT32_MAX

/* No word: it is past all. */
#define NO_WORD UINT64_MAX

typedef enum { DONE, RAN_OUT, FAULT } result;

/* What a node stands for: a number, and how often it had been given out by then. */
typedef struct {
    uint32_t number, stamp;
} standing;

typedef struct {
    const uint8_t *bytes;
    size_t length, at;
    rule_record *records;
    uint32_t n, size;
    uint64_t covered;
    uint64_t word; /* the word to decide */
    uint32_t verdict;
    bool complete;
    bool digit; /* the text of the last node ends in a digit */
    uint32_t cause;
    size_t byte;
} parser;

static result fault(parser *p, uint32_t cause, size_t byte)
{
    p->cause = cause;
    p->byte = byte;
    return FAULT;
}

static bool is_digit(uint8_t byte)
{
    return byte >= '0' && byte <= '9';
}

static rule_record *record(parser *p, uint32_t number)
{
    return &p->records[number - 1];
}

/* The number at this place. A `0` is complete with that digit. Above the largest size the value has no meaning but to be above it. */
static result number(parser *p, uint32_t *value)
{
    uint32_t sum = 0;
    size_t at = p->at;
    if (p->bytes[at] == '0') {
        p->at++;
        *value = 0;
        return DONE;
    }
    while (at < p->length && is_digit(p->bytes[at])) {
        if (sum <= MOST_SIZE)
            sum = sum * 10 + (uint32_t)(p->bytes[at] - '0');
        at++;
    }
    if (at == p->length)
        return RAN_OUT;
    p->at = at;
    *value = sum;
    return DONE;
}

/* The decision of the word at a stored node or the constant. */
static bool walk(parser *p, uint32_t number)
{
    bool decision = false;
    while (number != 0) {
        const rule_record *node = record(p, number);
        if ((p->word >> (p->n - node->level) & 1) == 0) {
            number = node->first;
        } else {
            decision ^= node->complement;
            number = node->second;
        }
    }
    return decision;
}

/* So many words are passed by what stands for a number. */
static void pass(parser *p, uint64_t words, uint32_t number, bool turned)
{
    if (p->word >= p->covered && p->word - p->covered < words)
        p->verdict = turned ^ walk(p, number) ? RULE_YES : RULE_NO;
    p->covered += words;
}

static bool bars(parser *p, standing child)
{
    return child.number == TEMPORARY || (child.number != 0 && record(p, child.number)->stamp != child.stamp);
}

static void count_parent(parser *p, uint32_t number, uint32_t by)
{
    if (number != 0)
        record(p, number)->parents += by;
}

/* A `:` after a two-child node. */
static result store(parser *p, uint32_t level, standing first, bool turned, standing second, standing *node)
{
    uint32_t value;
    rule_record *stored;
    size_t begin = p->at + 1;
    result got;
    if (bars(p, first) || bars(p, second))
        return fault(p, RULE_NOT_STORABLE, p->at);
    if (begin == p->length)
        return RAN_OUT;
    if (!is_digit(p->bytes[begin]))
        return fault(p, RULE_WRONG_BYTE, begin);
    p->at = begin;
    got = number(p, &value);
    if (got != DONE)
        return got;
    if (value == 0 || value > p->size || record(p, value)->parents != 0 || first.number == value || second.number == value)
        return fault(p, RULE_BAD_NUMBER, begin);
    stored = record(p, value);
    count_parent(p, stored->first, UINT32_MAX);
    count_parent(p, stored->second, UINT32_MAX);
    stored->level = level;
    stored->first = first.number;
    stored->second = second.number;
    stored->complement = turned;
    stored->stamp++;
    count_parent(p, first.number, 1);
    count_parent(p, second.number, 1);
    node->number = value;
    node->stamp = stored->stamp;
    p->digit = true;
    return DONE;
}

/* A constant or a number. */
static result leaf(parser *p, uint32_t level, bool turned, standing *node)
{
    size_t begin = p->at;
    uint32_t value;
    result got = number(p, &value);
    if (got != DONE)
        return got;
    node->number = value;
    node->stamp = 0;
    if (value != 0) {
        if (value > p->size || record(p, value)->level == 0)
            return fault(p, RULE_NOT_IN_TABLE, begin);
        if (record(p, value)->level != level)
            return fault(p, RULE_OTHER_LEVEL, begin);
        node->stamp = record(p, value)->stamp;
    }
    pass(p, UINT64_C(1) << (p->n + 1 - level), value, turned);
    p->digit = true;
    return DONE;
}

/* What stands between a first child and a second: `~`, or one space between digits. */
static result between(parser *p, bool *turned)
{
    uint8_t byte = p->bytes[p->at];
    *turned = byte == '~';
    if (*turned) {
        p->at++;
    } else if (p->digit && byte == ' ') {
        p->at++;
        if (p->at == p->length)
            return RAN_OUT;
        if (!is_digit(p->bytes[p->at]))
            return fault(p, RULE_WRONG_BYTE, p->at);
    } else if (p->digit && is_digit(byte)) {
        return fault(p, RULE_WRONG_BYTE, p->at);
    }
    return DONE;
}

/* A node, and what it stands for. `turned`: yes and no are turned about here. */
static result node(parser *p, uint32_t level, bool turned, standing *here)
{
    standing first, second;
    bool turn;
    result got;
    if (p->at == p->length)
        return RAN_OUT;
    if (is_digit(p->bytes[p->at]))
        return leaf(p, level, turned, here);
    if (p->bytes[p->at] != '(')
        return fault(p, RULE_WRONG_BYTE, p->at);
    if (level > p->n)
        return fault(p, RULE_TOO_DEEP, p->at);
    p->at++;
    got = node(p, level + 1, turned, &first);
    if (got != DONE)
        return got;
    if (p->at == p->length)
        return RAN_OUT;
    if (p->bytes[p->at] == ')') {
        if (first.number == TEMPORARY)
            return fault(p, RULE_NOT_STORABLE, p->at);
        pass(p, UINT64_C(1) << (p->n - level), first.number, turned);
        p->at++;
        p->digit = false;
        *here = first;
        return DONE;
    }
    got = between(p, &turn);
    if (got != DONE)
        return got;
    got = node(p, level + 1, turned ^ turn, &second);
    if (got != DONE)
        return got;
    if (p->at == p->length)
        return RAN_OUT;
    if (p->bytes[p->at] != ')')
        return fault(p, RULE_WRONG_BYTE, p->at);
    p->at++;
    p->digit = false;
    here->number = TEMPORARY;
    here->stamp = 0;
    if (p->at < p->length && p->bytes[p->at] == ':')
        return store(p, level, first, turn, second, here);
    return DONE;
}

static result stream_of(parser *p)
{
    standing outermost;
    bool turned = false;
    uint32_t size;
    result got;
    if (p->length == 0)
        return RAN_OUT;
    if (!is_digit(p->bytes[0]))
        return fault(p, RULE_WRONG_BYTE, 0);
    got = number(p, &size);
    if (got != DONE)
        return got;
    if (p->at == p->length)
        return RAN_OUT;
    if (p->bytes[p->at] != '\n')
        return fault(p, RULE_WRONG_BYTE, p->at);
    if (size > MOST_SIZE)
        return fault(p, RULE_DECLARED_SIZE, 0);
    p->at++;
    p->size = size;
    memset(p->records, 0, size * sizeof *p->records);
    if (p->at < p->length && p->bytes[p->at] == '~') {
        turned = true;
        p->at++;
    }
    got = node(p, 1, turned, &outermost);
    if (got != DONE)
        return got;
    if (p->at == p->length)
        return RAN_OUT;
    if (p->bytes[p->at] != '.')
        return fault(p, RULE_WRONG_BYTE, p->at);
    p->at++;
    if (p->at < p->length)
        return fault(p, RULE_WRONG_BYTE, p->at);
    p->complete = true;
    return DONE;
}

/* Reads all of the stream and clears the table. */
static parser parse(uint32_t n, const uint8_t *stream, size_t stream_bytes, uint64_t word, rule_record *table, size_t records)
{
    parser p = {.bytes = stream, .length = stream_bytes, .records = table, .n = n, .word = word, .verdict = RULE_NOT_YET};
    stream_of(&p);
    memset(table, 0, records * sizeof *table);
    return p;
}

rule_checked parser_check(uint32_t n, const uint8_t *stream, size_t stream_bytes, rule_record *table, size_t records)
{
    rule_checked checked = {0};
    parser p;
    if (n > MOST_OPTIONS) {
        checked.cause = RULE_OPTION_COUNT;
        return checked;
    }
    if (records < RULE_RECORDS) {
        checked.cause = RULE_WORK_TABLE;
        return checked;
    }
    p = parse(n, stream, stream_bytes, NO_WORD, table, records);
    if (p.cause != RULE_DONE) {
        checked.cause = p.cause;
        checked.stream = 1;
        checked.byte = p.byte;
        return checked;
    }
    checked.covered = p.covered;
    checked.size = p.size;
    checked.extent = p.complete ? RULE_COMPLETE : RULE_CUT;
    return checked;
}

rule_decided parser_decide(uint32_t n, const uint8_t *stream, size_t stream_bytes, uint64_t word, rule_record *table, size_t records)
{
    rule_decided decided = {0};
    parser p;
    if (n > MOST_OPTIONS)
        decided.cause = RULE_OPTION_COUNT;
    else if (records < RULE_RECORDS)
        decided.cause = RULE_WORK_TABLE;
    else if (word >= UINT64_C(1) << n)
        decided.cause = RULE_WORD;
    if (decided.cause != RULE_DONE)
        return decided;
    p = parse(n, stream, stream_bytes, word, table, records);
    if (p.cause != RULE_DONE) {
        decided.cause = p.cause;
        decided.stream = 1;
        decided.byte = p.byte;
        return decided;
    }
    decided.verdict = p.verdict;
    return decided;
}
