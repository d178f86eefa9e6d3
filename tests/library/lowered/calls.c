/* The calls of rule.h over the functions as they are lowered, for tests/library/unproved: a result and a struct go by reference, a slice as a pointer
 * and a length. */
#include "rule.h"

void lowered_check(rule_checked *, uint32_t, const uint8_t *, size_t, rule_record *, size_t);
void lowered_decide(rule_decided *, uint32_t, const uint8_t *, size_t, uint64_t, rule_record *, size_t);
void lowered_next(rule_found *, uint32_t, const uint8_t *, size_t, uint64_t, rule_record *, size_t);
void lowered_fill(rule_filled *, uint32_t, const uint8_t *, size_t, uint8_t *, size_t, rule_record *, size_t);
void lowered_write(rule_written *, uint32_t, uint32_t, const uint8_t *, size_t, uint8_t *, size_t, rule_node *, size_t);
void lowered_combine(rule_written *, uint32_t, uint32_t, uint32_t, const uint8_t *, size_t, const uint8_t *, size_t, uint8_t *, size_t, rule_record *,
                     size_t, rule_record *, size_t, rule_node *, size_t);
void lowered_begin(rule_place *);
void lowered_step(rule_stepped *, rule_place *, const uint8_t *, size_t);

rule_checked rule_check(uint32_t n, const uint8_t *stream, size_t stream_bytes, rule_record *table, size_t records)
{
    rule_checked r;
    lowered_check(&r, n, stream, stream_bytes, table, records);
    return r;
}

rule_decided rule_decide(uint32_t n, const uint8_t *stream, size_t stream_bytes, uint64_t word, rule_record *table, size_t records)
{
    rule_decided r;
    lowered_decide(&r, n, stream, stream_bytes, word, table, records);
    return r;
}

rule_found rule_next(uint32_t n, const uint8_t *stream, size_t stream_bytes, uint64_t word, rule_record *table, size_t records)
{
    rule_found r;
    lowered_next(&r, n, stream, stream_bytes, word, table, records);
    return r;
}

rule_filled rule_fill(uint32_t n, const uint8_t *stream, size_t stream_bytes, uint8_t *truths, size_t truth_bytes, rule_record *table, size_t records)
{
    rule_filled r;
    lowered_fill(&r, n, stream, stream_bytes, truths, truth_bytes, table, records);
    return r;
}

rule_written rule_write(uint32_t n, uint32_t size, const uint8_t *truths, size_t truth_bytes, uint8_t *output, size_t output_bytes, rule_node *table,
                        size_t records)
{
    rule_written r;
    lowered_write(&r, n, size, truths, truth_bytes, output, output_bytes, table, records);
    return r;
}

rule_written rule_combine(uint32_t n, uint32_t op, uint32_t size, const uint8_t *stream1, size_t stream1_bytes, const uint8_t *stream2,
                          size_t stream2_bytes, uint8_t *output, size_t output_bytes, rule_record *table1, size_t records1, rule_record *table2,
                          size_t records2, rule_node *table3, size_t records3)
{
    rule_written r;
    lowered_combine(&r, n, op, size, stream1, stream1_bytes, stream2, stream2_bytes, output, output_bytes, table1, records1, table2, records2, table3,
                    records3);
    return r;
}

rule_place rule_begin(void)
{
    rule_place r;
    lowered_begin(&r);
    return r;
}

rule_stepped rule_step(rule_place place, const uint8_t *stream, size_t stream_bytes)
{
    rule_stepped r;
    lowered_step(&r, &place, stream, stream_bytes);
    return r;
}
