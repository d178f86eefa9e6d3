/* A plain parser in C that does what rule_check and rule_decide do, for comparing speeds. */
#ifndef PARSER_H
#define PARSER_H

#include "rule.h"

rule_checked parser_check(uint32_t n, const uint8_t *stream, size_t stream_bytes, rule_record *table, size_t records);
rule_decided parser_decide(uint32_t n, const uint8_t *stream, size_t stream_bytes, uint64_t word, rule_record *table, size_t records);

#endif
