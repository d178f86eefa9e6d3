/*
 * Option rules as decision streams: checking a stream, deciding one word, finding the next admitted word, filling a truth table, writing the stream of
 * a truth table, combining two streams by an operator, and reading a stream element by element.
 *
 * A stream is the table size, one LF, an optional `~`, one node, and `.` as last byte. A stream without its point is cut; it is taken like any
 * other and covers fewer words. n is the option count, 0 to 32; words run from 0 to 2^n - 1, and option 1 has weight 2^(n-1).
 *
 * Libraries. libfirmware.a has rule_check, rule_decide, rule_next and rule_fill; libstepping.a has rule_begin and rule_step; libdesk.a has rule_write
 * and rule_combine. Each stands alone, and all can be linked together. They are proved, and want nothing of the C library but memcpy and memset.
 *
 * Memory. The caller lends all of it and keeps it: the library allocates nothing, keeps nothing between calls and no pointer after one, and has
 * no state, so calls on different memory may run at the same time. Lent pieces must not overlap, but the same stream may be lent twice for combining,
 * since streams are only read. A piece of length 0 may have a null pointer.
 * Any bytes may be in a work table, in an output, or in a truth table to be filled before a call; no answer depends on them.
 */
#ifndef RULE_H
#define RULE_H

#include <stdbool.h>
#include <stddef.h>
#include <stdint.h>

#ifdef __cplusplus
extern "C" {
#endif

/* ---- What is lent */

/*
 * Each piece is lent as a pointer and how many elements stand there.
 *
 * A stream is its bytes, or as many as have come so far. They are only read.
 *
 * A truth table has word w in binary digit w mod 8 (0 lowest) of byte w / 8.
 *
 * An output is where a stream is written, from its first byte on. Bytes beyond those written keep their content.
 *
 * A work table has at least RULE_RECORDS records, aligned as uint32_t is. On return from a call that was refused for one of causes 1 to 6 it is as
 * it was. On every other return all its records are zero, those beyond RULE_RECORDS too.
 */

/*
 * A record of a work table for reading: a stored node. The caller need not set the fields; they tell how large a record is, and what a debugger shows
 * while a call runs.
 */
typedef struct {
    uint32_t level;      /* 1 to n; 0: none */
    uint32_t first;      /* the children, by number; 0: the terminal */
    uint32_t second;
    uint32_t complement; /* whether the edge to the second is complemented */
    uint32_t stamp;      /* how often the number was given out */
    uint32_t parents;    /* how many records have the number as a child */
    uint32_t admits;     /* whether some word below the node is yes */
    uint32_t refuses;    /* whether some word below it is no */
} rule_record;

/* A record of a work table for writing: a stored node, and its places in the recycling queue and in the unique table. */
typedef struct {
    uint32_t level;
    uint32_t first;
    uint32_t second;
    uint32_t complement;
    uint32_t stamp;
    uint32_t parents;
    uint32_t after;    /* the numbers after and before it in the queue */
    uint32_t before;
    uint32_t next;     /* those in its bucket */
    uint32_t previous;
    uint32_t head;     /* the first and the last number of the bucket that has this place */
    uint32_t tail;
} rule_node;

/* The largest table size, and the fewest records of a work table. */
#define RULE_RECORDS 768

/* ---- Why a call is refused */

/*
 * `cause` is RULE_DONE if the call is not refused. Causes 1 to 6 lie in the call; they are tested first, in this order, as far as the call has
 * them, and name stream 0, byte 0. Causes 7 to 13 lie in a stream; they name that stream, 1 or 2 (1 if the call has only one), and the place of the
 * fault in it, counted from 0. A fault in stream 1 counts before one in stream 2; in a stream the lowest place counts, and there the lower number.
 * `stream` and `byte` are 0 if the call is not refused; all that follows them in an answer is 0 if it is.
 */
enum {
    RULE_DONE = 0,
    RULE_OPTION_COUNT = 1,  /* n above 32; for a truth table, n not 3 to 16 */
    RULE_OPERATOR = 2,      /* operator above 15 */
    RULE_SIZE_TO_WRITE = 3, /* size to write above RULE_RECORDS */
    RULE_WORK_TABLE = 4,    /* a work table under RULE_RECORDS records */
    RULE_WORD = 5,          /* word 2^n or more */
    RULE_TRUTH_TABLE = 6,   /* truth table not 2^n / 8 bytes */
    RULE_WRONG_BYTE = 7,    /* byte not allowed there: that byte */
    RULE_DECLARED_SIZE = 8, /* declared size above RULE_RECORDS: its first digit */
    RULE_TOO_DEEP = 9,      /* bracket deeper than n: the bracket */
    RULE_NOT_IN_TABLE = 10, /* number not in the table: its first digit */
    RULE_OTHER_LEVEL = 11,  /* number at another level: its first digit */
    RULE_NOT_STORABLE = 12, /* storing barred by a child, or `(A)` of a temporary A: the `:` or `)` */
    RULE_BAD_NUMBER = 13    /* number to store 0, above the size, a child of a stored node or its own child: its first digit */
};

/* ---- Checking */

enum { RULE_CUT = 0, RULE_COMPLETE = 1 };

/* The covered count (words from 0 upward that the stream decides), the declared size (0 while it is unfinished), and cut or complete. */
typedef struct {
    uint32_t cause, stream;
    uint64_t byte;
    uint64_t covered;
    uint32_t size;
    uint32_t extent;
} rule_checked;

/* Checks a stream for option count n. Tests causes 1 and 4, then 7 to 13. Changes nothing but the work table. */
rule_checked rule_check(uint32_t n, const uint8_t *stream, size_t stream_bytes, rule_record *table, size_t records);

/* ---- Deciding */

enum { RULE_NO = 0, RULE_YES = 1, RULE_NOT_YET = 2 };

/* No, yes, or not yet (the word is at or past the covered count); `spare` is 0. */
typedef struct {
    uint32_t cause, stream;
    uint64_t byte;
    uint32_t verdict;
    uint32_t spare;
} rule_decided;

/*
 * Decides one word. Tests causes 1, 4 and 5, then 7 to 13 in all of the stream, also past the place that decides the word. Changes nothing but
 * the work table.
 */
rule_decided rule_decide(uint32_t n, const uint8_t *stream, size_t stream_bytes, uint64_t word, rule_record *table, size_t records);

/* ---- Finding the next admitted word */

/* No covered word from the one asked on is admitted, and all words are covered; such a word was found; none was, and not all words are covered. */
enum { RULE_NO_WORD = 0, RULE_WORD_FOUND = 1, RULE_NOT_KNOWN = 2 };

/* The word, 0 unless it was found, and which of the three; `spare` is 0. */
typedef struct {
    uint32_t cause, stream;
    uint64_t byte;
    uint64_t word;
    uint32_t answer;
    uint32_t spare;
} rule_found;

/*
 * Finds the least covered word, from `word` on, that the rule admits. Tests causes 1, 4 and 5, then 7 to 13 in all of the stream, also behind the place
 * that decides the word. To list what a rule admits, ask from 0 and go on one past each word found, until that is 2^n or none is found: every covered
 * word that is admitted comes once, rising. Changes nothing but the work table.
 */
rule_found rule_next(uint32_t n, const uint8_t *stream, size_t stream_bytes, uint64_t word, rule_record *table, size_t records);

/* ---- Filling a truth table */

/* The covered count. */
typedef struct {
    uint32_t cause, stream;
    uint64_t byte;
    uint64_t covered;
} rule_filled;

/*
 * Writes the decisions of all words into a truth table of 2^n / 8 bytes, n from 3 to 16: 1 for yes, and 0 from the covered count on. Tests
 * causes 1, 4 and 6, then 7 to 13. If the call is refused, for whatever cause, the truth table is as it was. Changes nothing else but the work
 * table.
 */
rule_filled rule_fill(uint32_t n, const uint8_t *stream, size_t stream_bytes, uint8_t *truths, size_t truth_bytes, rule_record *table, size_t records);

/* ---- What a call that writes answers */

/*
 * All of the stream is written; the streams to combine don't cover all words, and the beginning that their later bytes can't change is written; the
 * output is too short for what there is to write. Writing the stream of a truth table never ends as the second says.
 */
enum { RULE_WHOLE = 0, RULE_INPUT_ENDED = 1, RULE_OUTPUT_FULL = 2 };

/*
 * How many bytes are written, the covered count, and how it ended; `spare` is 0. The covered count does not depend on the output: it is 2^n for a
 * truth table, and for combining the least word that is not settled, or 2^n.
 */
typedef struct {
    uint32_t cause, stream;
    uint64_t byte;
    uint64_t written;
    uint64_t covered;
    uint32_t ending;
    uint32_t spare;
} rule_written;

/* ---- Writing the stream of a truth table */

/*
 * Writes the stream of a truth table of 2^n / 8 bytes, n from 3 to 16, with the table size `size`, 0 to RULE_RECORDS. Tests causes 1, 3, 4 and 6. If the
 * output is shorter than the stream, it gets the stream's first bytes and the ending is RULE_OUTPUT_FULL; that is no refusal. If the call is refused,
 * the output is as it was. The truth table is only read. Changes nothing but the output and the work table.
 */
rule_written rule_write(uint32_t n, uint32_t size, const uint8_t *truths, size_t truth_bytes, uint8_t *output, size_t output_bytes, rule_node *table,
                        size_t records);

/* ---- Combining two streams */

/*
 * Combines two streams by an operator, 0 to 15: on a word for which stream 1 decides a and stream 2 decides b, it gives binary digit 2a + b of the
 * operator, digit 0 lowest (AND 8, OR 14, XOR 6; NOT 3 is that of stream 1). Writes a stream with the table size `size`, 0 to RULE_RECORDS. Tests causes 1
 * to 4, then all of stream 1, then all of stream 2. Streams may be cut. A word is settled if the operator gives one result for all decisions of a stream
 * that does not cover it: with AND, a word that one stream refuses; NOT never waits for stream 2, and 0 and 15 for neither. The covered count is the least
 * word that is not settled, or 2^n; if it is not 2^n, the output gets the beginning that later bytes of the streams can't change, and the ending is
 * RULE_INPUT_ENDED. If the output is shorter than the text, it gets the text's first bytes and the ending is RULE_OUTPUT_FULL. Neither is a refusal. If
 * the call is refused, the output is as it was. `table1` and `table2` are for reading stream 1 and stream 2, `table3` is for writing: each of
 * RULE_RECORDS records or more. Changes nothing but the output and the tables.
 */
rule_written rule_combine(uint32_t n, uint32_t op, uint32_t size, const uint8_t *stream1, size_t stream1_bytes, const uint8_t *stream2,
                          size_t stream2_bytes, uint8_t *output, size_t output_bytes, rule_record *table1, size_t records1, rule_record *table2,
                          size_t records2, rule_node *table3, size_t records3);

/* ---- Reading element by element */

/*
 * The reader knows the shapes of a stream, but no option count and no table: it finds RULE_WRONG_BYTE, and RULE_TOO_DEEP at a 33rd open bracket,
 * and no other fault. It needs no work table.
 */

/* What a node refers to. */
typedef struct {
    uint32_t number, stamp;
} rule_ref;

/* An open node, with what its first child was. */
typedef struct {
    rule_ref first;
    bool second, complement;
} rule_open;

/* The open nodes, at most 32 at one time. */
typedef struct {
    rule_open nodes[32];
    size_t depth;
} rule_opens;

/* A place in a stream. To be passed on, not looked into, but for `at`: the bytes read so far, up to the end of the last element given. */
typedef struct {
    size_t at;
    uint32_t context;
    rule_ref last;
    rule_opens opens;
} rule_place;

/* An element was given; the stream has a fault; the bytes ran out. */
enum { RULE_GOT = 0, RULE_FAULT = 1, RULE_RAN_OUT = 2 };

/* The size with its LF is a number; a storing is `:` with its number; a space belongs to what follows it. */
enum {
    RULE_OPENING = 0,
    RULE_NUMBER = 1,
    RULE_CONSTANT = 2,
    RULE_TURN = 3,
    RULE_CLOSING = 4,
    RULE_STORING = 5,
    RULE_END = 6
};

/*
 * RULE_GOT: the element, its number if it is a number or a storing (4294967295 stands for that number and all above it), and the place after it.
 * RULE_FAULT: cause and byte, and the place as it was. RULE_RAN_OUT: the place as it was. What an outcome does not use is 0. A place is as it was if
 * it has the same `at`, the same number of open nodes and the same entries for these; entries of `nodes` beyond `depth` mean nothing and may differ.
 */
typedef struct {
    uint32_t outcome, element, number, cause;
    size_t byte;
    rule_place place;
} rule_stepped;

/* The place before the first byte of any stream. */
rule_place rule_begin(void);

/*
 * One element on. `place` comes from rule_begin or from a step in this stream or in a beginning of it: when the bytes ran out and more have come,
 * step again from the same place with the longer stream.
 */
rule_stepped rule_step(rule_place place, const uint8_t *stream, size_t stream_bytes);

#ifdef __cplusplus
}
#endif

#endif
