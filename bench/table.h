/* The table's calls of crate table_c, as the benchmark makes them. Each answers 0 or the refusal's number. */
#ifndef TABLE_H
#define TABLE_H

#include <stdbool.h>
#include <stddef.h>
#include <stdint.h>

enum { TABLE_WORDS = 4096, TABLE_LISTS = 16320 };

void table_empty(uint32_t *words, uint32_t primary);

uint32_t table_configure(uint32_t *words, uint8_t *lists, uint8_t vrid, uint8_t priority, uint8_t interval,
                         bool preempt, const uint8_t *addresses, size_t addresses_len);

uint32_t table_startup(uint32_t *words, const uint8_t *lists, uint8_t vrid, uint8_t *out, size_t out_len);

uint32_t table_clock(uint32_t *words, const uint8_t *lists, uint8_t vrid, uint32_t ticks,
                     uint8_t *out, size_t out_len);

uint32_t table_packet(uint32_t *words, const uint8_t *lists, const uint8_t *packet, size_t packet_len,
                      uint8_t *out, size_t out_len);

#endif
