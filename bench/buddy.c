#include "buddy.h"
#include "rule.h"

#include <stdio.h>
#include <stdlib.h>

/* BuDDy may collect at any call, so what is still needed has a reference. */
#define NODES 60000
#define HEADS 4096
#define MOST_KEPT (1 << 16)

static void must(bool held, const char *what)
{
    if (!held) {
        fprintf(stderr, "buddy: %s\n", what);
        exit(1);
    }
}

/* ---- Beginning and clearing */

static void at_growth(int old, int new)
{
    (void)old;
    must(new <= NODES, "the table of nodes grew");
}

/*
 * A larger table or cache takes longer to begin with, and is slower, since less of it stays in the processor's cache; a smaller one collects, grows or
 * forgets. The last has room for every job.
 */
static const struct {
    int nodes, cache;
} sizes[BUDDY_SIZES] = {{1000, 100}, {2000, 300}, {5000, 1000}, {20000, 1000}, {NODES, 3000}};

void buddy_begin(uint32_t size)
{
    must(bdd_init(sizes[size].nodes, sizes[size].cache) == 0 && bdd_setvarnum(BUDDY_OPTIONS) == 0, "BuDDy does not begin");
    bdd_gbc_hook(NULL);
    bdd_resize_hook(at_growth);
    bdd_disable_reorder();
}

void buddy_end(void)
{
    bdd_done();
}

static BDD kept[MOST_KEPT];
static uint32_t kept_count;

BDD buddy_keep(BDD f)
{
    must(kept_count < MOST_KEPT, "too many diagrams are kept");
    return kept[kept_count++] = bdd_addref(f);
}

void buddy_clear(void)
{
    while (kept_count > 0)
        bdd_delref(kept[--kept_count]);
    bdd_gbc();
}

/* ---- Nodes, levels from 1 on */

static BDD node_of(uint32_t level, BDD first, BDD second)
{
    return bdd_ite(bdd_ithvar((int)level - 1), second, first);
}

BDD buddy_node(uint32_t level, BDD first, BDD second)
{
    return buddy_keep(node_of(level, first, second));
}

/* ---- Reading */

static const uint8_t *at;
/* With a reference each, the largest number in use; those not in use are false, which needs none. */
static BDD stored[BUDDY_NUMBERS + 1];
static uint32_t last_stored;

static bool is_digit(uint8_t byte)
{
    return byte >= '0' && byte <= '9';
}

static uint32_t read_number(void)
{
    uint32_t number = 0;
    while (is_digit(*at))
        number = 10 * number + (uint32_t)(*at++ - '0');
    must(number <= BUDDY_NUMBERS, "a number is too large");
    return number;
}

static void read_byte(uint8_t byte)
{
    must(*at++ == byte, "a byte is out of place");
}

static void store(uint32_t number, BDD node)
{
    bdd_delref(stored[number]);
    stored[number] = bdd_addref(node);
    last_stored = number > last_stored ? number : last_stored;
}

static void drop_stored(void)
{
    for (; last_stored > 0; last_stored--) {
        bdd_delref(stored[last_stored]);
        stored[last_stored] = bddfalse;
    }
}

/* A node with the turn or the space before it; what is read has a reference. */
static BDD read_second(uint32_t level);

static BDD read_node(uint32_t level)
{
    BDD node;
    if (is_digit(*at))
        return bdd_addref(stored[read_number()]);
    read_byte('(');
    node = read_node(level + 1);
    if (*at != ')') {
        BDD first = node, second = read_second(level + 1);
        node = bdd_addref(node_of(level, first, second));
        bdd_delref(first);
        bdd_delref(second);
    }
    read_byte(')');
    if (*at == ':') {
        at++;
        store(read_number(), node);
    }
    return node;
}

static BDD read_second(uint32_t level)
{
    bool turned = *at == '~';
    BDD node, other;
    if (turned || *at == ' ')
        at++;
    node = read_node(level);
    if (!turned)
        return node;
    other = bdd_addref(bdd_not(node));
    bdd_delref(node);
    return other;
}

BDD buddy_read(const uint8_t *stream)
{
    BDD node;
    at = stream;
    read_number();
    read_byte('\n');
    node = read_second(1);
    read_byte('.');
    drop_stored();
    return node;
}

/* ---- Printing */

/* For each node of BuDDy, what is known of it in the print that it names: whether it is yes at its first word, and its number if not 0. */
static struct {
    uint32_t print, number;
    bool turned;
} known[NODES + 1000];

/* For each number the node that it was given to, the normal functions of its children by number, and the number before it in its bucket. */
static struct {
    BDD node;
    uint32_t level, first, second, next;
    bool turn;
} given[BUDDY_NUMBERS + 1];

/* The number given out last in each bucket, if `print` is this print. */
static struct {
    uint32_t print, number;
} heads[HEADS];

static uint32_t print, numbers;
static uint8_t *to, *end;

static void put(uint8_t byte)
{
    must(to < end, "a text is too long");
    *to++ = byte;
}

static void put_many(uint8_t byte, uint32_t count)
{
    for (; count > 0; count--)
        put(byte);
}

static void put_number(uint32_t number)
{
    uint8_t digits[10];
    uint32_t count = 0;
    do {
        digits[count++] = (uint8_t)('0' + number % 10);
        number /= 10;
    } while (number != 0);
    while (count > 0)
        put(digits[--count]);
}

/* Yes at its first word: its normal function is the other one. */
static bool is_turned(BDD f)
{
    if (f <= 1)
        return f == 1;
    if (known[f].print != print) {
        known[f].print = print;
        known[f].number = 0;
        known[f].turned = is_turned(bdd_low(f));
    }
    return known[f].turned;
}

static uint32_t bucket_of(uint32_t level, uint32_t first, uint32_t second, bool turn)
{
    uint32_t bucket = (first * 2654435761u + second * 40503u + level * 2 + turn) >> 7 & (HEADS - 1);
    if (heads[bucket].print != print) {
        heads[bucket].print = print;
        heads[bucket].number = 0;
    }
    return bucket;
}

static uint32_t find(uint32_t bucket, uint32_t level, uint32_t first, uint32_t second, bool turn)
{
    uint32_t number = heads[bucket].number;
    while (number != 0 && !(given[number].first == first && given[number].second == second && given[number].level == level && given[number].turn == turn))
        number = given[number].next;
    return number;
}

static uint32_t give(uint32_t bucket, BDD f, uint32_t level, uint32_t first, uint32_t second, bool turn)
{
    must(numbers < BUDDY_NUMBERS, "too many nodes");
    numbers++;
    given[numbers].node = f;
    given[numbers].level = level;
    given[numbers].first = first;
    given[numbers].second = second;
    given[numbers].turn = turn;
    given[numbers].next = heads[bucket].number;
    heads[bucket].number = numbers;
    return numbers;
}

static uint32_t number_of(BDD f)
{
    return f <= 1 ? 0 : known[f].number;
}

/* A constant or a number as a node: a space parts it from a digit before it. */
static void put_reference(uint32_t number)
{
    if (is_digit(to[-1]))
        put(' ');
    put_number(number);
}

static void put_part(BDD f, uint32_t level);

/* Prints a node that has no number; one that turns out to be the other side of a node that has one gets that number in place of its text. */
static void put_node(BDD f, uint32_t level)
{
    uint8_t *start = to;
    bool turn = is_turned(bdd_low(f)) != is_turned(bdd_high(f));
    uint32_t first, second, bucket, number;
    put('(');
    put_part(bdd_low(f), level + 1);
    if (turn)
        put('~');
    put_part(bdd_high(f), level + 1);
    put(')');
    first = number_of(bdd_low(f));
    second = number_of(bdd_high(f));
    bucket = bucket_of(level, first, second, turn);
    number = find(bucket, level, first, second, turn);
    if (number != 0) {
        to = start;
        put_reference(number);
    } else {
        number = give(bucket, f, level, first, second, turn);
        put(':');
        put_number(number);
    }
    known[f].number = number;
}

/* Prints the normal function of a diagram that stands at a level. */
static void put_part(BDD f, uint32_t level)
{
    uint32_t skipped;
    if (f <= 1) {
        put_reference(0);
        return;
    }
    skipped = (uint32_t)bdd_var(f) - level;
    put_many('(', skipped);
    is_turned(f);
    if (known[f].number != 0)
        put_reference(known[f].number);
    else
        put_node(f, level + skipped);
    put_many(')', skipped);
}

size_t buddy_print(BDD f, uint8_t *text, size_t room)
{
    print++;
    numbers = 0;
    to = text;
    end = text + room;
    put_number(RULE_RECORDS);
    put('\n');
    if (is_turned(f))
        put('~');
    put_part(f, 0);
    put('.');
    return (size_t)(to - text);
}

uint32_t buddy_numbers(void)
{
    return numbers;
}

BDD buddy_numbered(uint32_t number)
{
    BDD f = given[number].node;
    return buddy_keep(is_turned(f) ? bdd_not(f) : f);
}

/* ---- Combining */

static int operator_of(uint32_t op)
{
    switch (op) {
    case 6:
        return bddop_xor;
    case 8:
        return bddop_and;
    default:
        must(op == 14, "an operator that is not used here");
        return bddop_or;
    }
}

size_t buddy_combine(uint32_t op, const uint8_t *stream1, const uint8_t *stream2, uint8_t *text, size_t room)
{
    BDD f = buddy_read(stream1), g = buddy_read(stream2), both = bdd_addref(bdd_apply(f, g, operator_of(op)));
    size_t length;
    bdd_delref(f);
    bdd_delref(g);
    length = buddy_print(both, text, room);
    bdd_delref(both);
    return length;
}
