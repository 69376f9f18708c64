/* The virtual routers of one interface in plain C: what the table's calls are counted beside. */
#ifndef PLAIN_TABLE_H
#define PLAIN_TABLE_H

#include <stdbool.h>
#include <stddef.h>
#include <stdint.h>

enum plain_state { PLAIN_INITIALIZE, PLAIN_BACKUP, PLAIN_MASTER };

struct plain_router {
    uint8_t vrid; /* 0: the place is free */
    uint8_t priority;
    uint8_t interval;
    bool preempt;
    uint8_t state;
    uint8_t count;
    uint32_t timer; /* ticks of 1/256 second that remain */
    uint32_t accepted;
    uint32_t became;
    uint32_t refused[4]; /* by 10 to 13 */
    uint8_t addresses[64];
};

struct plain_table {
    uint32_t primary;
    uint32_t refused[10]; /* by 1 to 9 */
    struct plain_router routers[255];
};

/* Each answers 0 or the refusal's number. */
void plain_table_empty(struct plain_table *table, uint32_t primary);

uint32_t plain_table_configure(struct plain_table *table, uint8_t vrid, uint8_t priority, uint8_t interval,
                               bool preempt, const uint8_t *addresses, size_t addresses_len);

uint32_t plain_table_startup(struct plain_table *table, uint8_t vrid, uint8_t *out, size_t out_len);

uint32_t plain_table_clock(struct plain_table *table, uint8_t vrid, uint32_t ticks, uint8_t *out, size_t out_len);

uint32_t plain_table_packet(struct plain_table *table, const uint8_t *packet, size_t packet_len,
                            uint8_t *out, size_t out_len);

#endif
