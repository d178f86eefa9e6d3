#include "rules.h"
#include "buddy.h"
#include "rule.h"

#include <stdarg.h>
#include <stdio.h>
#include <stdlib.h>
#include <string.h>

#define ROOM (1 << 20)

static void must(bool held, const char *what)
{
    if (!held) {
        fprintf(stderr, "rules: %s\n", what);
        exit(1);
    }
}

/* ---- Jobs */

static job begin(uint32_t n, uint32_t op, const char *form, ...)
{
    job j = {.n = n, .op = op};
    va_list words;
    va_start(words, form);
    vsnprintf(j.name, sizeof j.name, form, words);
    va_end(words);
    return j;
}

static void add_text(job *j, const uint8_t *bytes, size_t length)
{
    text *t = &j->streams[j->count];
    must(j->count++ < MOST_STREAMS, "too many streams");
    /* A zero behind the last byte, for reading one byte ahead. */
    t->bytes = calloc(length + 1, 1);
    must(t->bytes != NULL, "no memory");
    memcpy(t->bytes, bytes, length);
    t->length = length;
}

static void add(job *j, BDD f)
{
    static uint8_t bytes[ROOM];
    size_t length = buddy_print(f, bytes, sizeof bytes);
    must(buddy_numbers() <= RULE_RECORDS, "a rule has too many nodes");
    add_text(j, bytes, length);
}

void drop(job *j)
{
    while (j->count > 0)
        free(j->streams[--j->count].bytes);
}

/* ---- Counting rules */

#define ODD UINT64_C(0xaaaaaaaaaaaaaaaa)
#define SEVENTH UINT64_C(0x810204081)

/* The options from `first` to `last` that are set number c, and digit c of `counts` is 1. */
static BDD counting(uint32_t first, uint32_t last, uint64_t counts)
{
    BDD f[BUDDY_OPTIONS + 2];
    uint32_t level, c;
    for (c = 0; c <= last - first + 1; c++)
        f[c] = counts >> c & 1 ? bddtrue : bddfalse;
    for (level = last; level >= first; level--)
        for (c = 0; c <= level - first; c++)
            f[c] = buddy_node(level, f[c], f[c + 1]);
    return f[0];
}

static BDD just(uint32_t n, uint32_t count)
{
    return counting(1, n, UINT64_C(1) << count);
}

static BDD option(uint32_t level)
{
    return buddy_node(level, bddfalse, bddtrue);
}

static job odd_with(uint32_t n, uint32_t level)
{
    job j = begin(n, XOR, "odd of %u XOR option %u", n, level);
    add(&j, counting(1, n, ODD));
    add(&j, option(level));
    return j;
}

job odd_with_first(uint32_t n)
{
    return odd_with(n, 1);
}

static job odd_with_middle(uint32_t n)
{
    return odd_with(n, n / 2);
}

static job odd_with_last(uint32_t n)
{
    return odd_with(n, n);
}

job half_or_quarter(uint32_t n)
{
    job j = begin(n, OR, "%u of %u OR %u of %u", n / 2, n, n / 4, n);
    add(&j, just(n, n / 2));
    add(&j, just(n, n / 4));
    return j;
}

static job half_and_quarter(uint32_t n)
{
    job j = begin(n, AND, "%u of %u AND %u of %u", n / 2, n, n / 4, n);
    add(&j, just(n, n / 2));
    add(&j, just(n, n / 4));
    return j;
}

job half_with_odd(uint32_t n)
{
    job j = begin(n, XOR, "%u of %u XOR odd", n / 2, n);
    add(&j, just(n, n / 2));
    add(&j, counting(1, n, ODD));
    return j;
}

static job carry_with_odd(uint32_t n)
{
    job j = begin(n, XOR, "carry of %u + %u XOR odd", n / 2, n / 2);
    BDD f = bddfalse;
    uint32_t level;
    for (level = n - 1; level >= 1 && level < n; level -= 2)
        f = buddy_node(level, buddy_node(level + 1, bddfalse, f), buddy_node(level + 1, f, bddtrue));
    add(&j, f);
    add(&j, counting(1, n, ODD));
    return j;
}

static job seventh_or_half(uint32_t n)
{
    job j = begin(n, OR, "7th of %u OR %u of %u", n, n / 2, n);
    add(&j, counting(1, n, SEVENTH));
    add(&j, just(n, n / 2));
    return j;
}

static job half_with_itself(uint32_t n)
{
    job j = begin(n, XOR, "%u of %u XOR itself", n / 2, n);
    add(&j, just(n, n / 2));
    add(&j, just(n, n / 2));
    return j;
}

job (*const families[FAMILIES])(uint32_t) = {odd_with_first, odd_with_middle, odd_with_last,    half_or_quarter, half_and_quarter,
                                             half_with_odd,  carry_with_odd,  seventh_or_half, half_with_itself};

/* ---- Chains */

#define BOARD 5

static BDD row_has_one(uint32_t row)
{
    BDD f = bddfalse;
    uint32_t column;
    for (column = BOARD; column > 0; column--)
        f = buddy_node(BOARD * row + column, f, bddtrue);
    return f;
}

static bool threatens(uint32_t field, uint32_t other)
{
    int rows = (int)(field / BOARD) - (int)(other / BOARD), columns = (int)(field % BOARD) - (int)(other % BOARD);
    return field != other && (rows == 0 || columns == 0 || abs(rows) == abs(columns));
}

/* No queen on this field, or none on those that it threatens. */
static BDD no_threat(uint32_t field)
{
    BDD none = bddtrue;
    uint32_t other;
    for (other = BOARD * BOARD; other-- > 0;)
        if (threatens(field, other))
            none = buddy_node(other + 1, none, bddfalse);
    return bdd_apply(bdd_nithvar((int)field), none, bddop_or);
}

static job queens(void)
{
    job j = begin(BOARD * BOARD, AND, "queens, %u rules", BOARD + BOARD * BOARD);
    uint32_t i;
    for (i = 0; i < BOARD; i++)
        add(&j, row_has_one(i));
    for (i = 0; i < BOARD * BOARD; i++)
        add(&j, no_threat(i));
    return j;
}

static uint32_t draw(uint32_t *state, uint32_t below)
{
    *state ^= *state << 13;
    *state ^= *state >> 17;
    *state ^= *state << 5;
    return (*state >> 8) % below;
}

#define LITERALS 6

/* Six of the options from a random one on, so many that they are drawn from. */
static BDD term(uint32_t n, uint32_t from, uint32_t *state)
{
    uint32_t options = 0, signs = draw(state, UINT32_C(1) << 20), first = draw(state, n - from + 1), left = LITERALS, level;
    BDD f = bddtrue;
    while (left > 0) {
        uint32_t one = UINT32_C(1) << (first + draw(state, from));
        left -= (options & one) == 0;
        options |= one;
    }
    for (level = n; level > 0; level--)
        if (options >> (level - 1) & 1) {
            f = signs & 1 ? buddy_node(level, bddfalse, f) : buddy_node(level, f, bddfalse);
            signs >>= 1;
        }
    return f;
}

static job terms_from(uint32_t count, uint32_t from, const char *form)
{
    job j = begin(32, OR, form, count);
    uint32_t state = 1, i;
    for (i = 0; i < count; i++)
        add(&j, term(32, from, &state));
    return j;
}

job near_terms(uint32_t count)
{
    return terms_from(count, 10, "OR of %u near terms");
}

job terms(uint32_t count)
{
    return terms_from(count, 32, "OR of %u terms");
}

/* ---- The worst known */

static job deep_constant(void)
{
    job j = begin(30, OR, "(0 0) at level 30 OR 0");
    uint8_t bytes[80];
    size_t length = 0;
    length += (size_t)snprintf((char *)bytes, sizeof bytes, "1\n");
    memset(bytes + length, '(', 29);
    length += 29;
    length += (size_t)snprintf((char *)bytes + length, sizeof bytes - length, "(0 0):1");
    memset(bytes + length, ')', 29);
    length += 29;
    bytes[length++] = '.';
    add_text(&j, bytes, length);
    add_text(&j, (const uint8_t *)"0\n0.", 4);
    return j;
}

/*
 * The first half, at levels from LOW on, gives out the numbers that the nodes of the bucket have as children. These stand at the levels before, and
 * the tree that has them as leaves at those from 2 on.
 */
#define LOW 13
#define LEVELS 3
#define BUCKET 512
#define MOST_LEAVES (1 << (LOW - LEVELS - 2))

/* One round of mixing, and the bucket of a node, as crates/writer_numbers has them. */
static uint64_t stir(uint32_t k, uint64_t v)
{
    uint64_t x = (uint32_t)v, p = x * (uint32_t)(x + k);
    return (p >> 32) + (uint32_t)p;
}

static uint32_t bucket_of(uint32_t level, uint32_t first, uint32_t second, uint32_t turn)
{
    uint64_t x = (((uint64_t)first * 2048 + second) * 64 + level) * 2 + turn;
    return (uint32_t)((uint64_t)(uint32_t)stir(UINT32_C(2246822519), stir(UINT32_C(2654435769), x)) * RULE_RECORDS >> 32);
}

/* All nodes of the bucket at one level whose children are among the first `count` numbers; gives how many there are now. */
static uint32_t fill_bucket(BDD *leaves, uint32_t found, uint32_t level, uint32_t count)
{
    uint32_t a, b, turn;
    for (a = 1; a <= count; a++)
        for (b = 1; b <= count; b++)
            for (turn = 0; turn < 2; turn++)
                if (bucket_of(level, a, b, turn) == BUCKET && !(a == b && turn == 0) && found < MOST_LEAVES) {
                    BDD second = buddy_numbered(b);
                    leaves[found++] = buddy_node(level, buddy_numbered(a), turn ? buddy_keep(bdd_not(second)) : second);
                }
    return found;
}

/* A tree over the leaves. */
static BDD link(const BDD *leaves, uint32_t count, uint32_t level)
{
    if (count == 1)
        return leaves[0];
    return buddy_node(level, link(leaves, count / 2, level + 1), link(leaves + count / 2, count - count / 2, level + 1));
}

static job one_bucket(void)
{
    static uint8_t bytes[ROOM];
    static BDD leaves[MOST_LEAVES];
    uint32_t count, found = 0, level;
    job j;
    BDD low = buddy_keep(bdd_apply(counting(LOW, 32, UINT64_C(0x2d9c6)), counting(LOW + 1, 32, UINT64_C(0x3b4)), bddop_and));
    buddy_print(low, bytes, sizeof bytes);
    count = buddy_numbers();
    for (level = LOW - LEVELS; level < LOW; level++)
        found = fill_bucket(leaves, found, level, count);
    j = begin(32, OR, "%u in one bucket OR 0", found);
    add(&j, buddy_node(1, low, link(leaves, found, 2)));
    add(&j, bddfalse);
    return j;
}

/* ---- All */

job nth_job(uint32_t index)
{
    uint32_t i = index - FAMILIES;
    must(index < JOBS, "no such job");
    if (index < FAMILIES)
        return families[index](32);
    if (i == 0)
        return queens();
    if (i <= 4)
        return near_terms(UINT32_C(1) << i);
    if (i <= 8)
        return terms(UINT32_C(1) << (i - 4));
    return i == 9 ? deep_constant() : one_bucket();
}
