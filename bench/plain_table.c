/* The virtual routers of one interface in plain C: what the table's calls are counted beside. */
#include "plain_table.h"

#include <string.h>

#include "plain.h"

enum { PLACES = 255, OWNER = 255, ADDRESSES_MOST = 64, EMPTY_FRAME = 50, ARP_LEN = 42 };

static uint32_t get32(const uint8_t *at)
{
    return (uint32_t)at[0] << 24 | (uint32_t)at[1] << 16 | (uint32_t)at[2] << 8 | at[3];
}

void plain_table_empty(struct plain_table *table, uint32_t primary)
{
    memset(table, 0, sizeof *table);
    table->primary = primary;
}

/* The lowest place with this VRID, or for 0 the lowest free one. */
static struct plain_router *find(struct plain_table *table, uint8_t vrid)
{
    for (struct plain_router *r = table->routers; r < table->routers + PLACES; r++)
        if (r->vrid == vrid)
            return r;
    return NULL;
}

static struct plain_router *find_router(struct plain_table *table, uint8_t vrid)
{
    return vrid == 0 ? NULL : find(table, vrid);
}

uint32_t plain_table_configure(struct plain_table *table, uint8_t vrid, uint8_t priority, uint8_t interval,
                               bool preempt, const uint8_t *addresses, size_t addresses_len)
{
    struct plain_router *r;

    if (vrid == 0)
        return 14;
    if (priority == 0)
        return 15;
    if (interval == 0)
        return 16;
    if (addresses_len % 4 != 0 || addresses_len == 0 || addresses_len > ADDRESSES_MOST)
        return 17;
    if (find(table, vrid) != NULL)
        return 18;
    r = find(table, 0);
    if (r == NULL)
        return 19;
    memset(r, 0, sizeof *r);
    r->vrid = vrid;
    r->priority = priority;
    r->interval = interval;
    r->preempt = preempt;
    r->count = (uint8_t)(addresses_len / 4);
    memcpy(r->addresses, addresses, addresses_len);
    return 0;
}

static void wait_as_backup(struct plain_router *r)
{
    r->state = PLAIN_BACKUP;
    r->timer = 768 * (uint32_t)r->interval + 256 - r->priority;
}

static uint32_t write_frame(const struct plain_table *table, const struct plain_router *r,
                            uint8_t *out, size_t out_len)
{
    return plain_write_advertisement(r->vrid, r->priority, r->interval, table->primary,
                                     r->addresses, 4 * (size_t)r->count, out, out_len);
}

static uint32_t advertise(const struct plain_table *table, struct plain_router *r, uint8_t *out, size_t out_len)
{
    uint32_t refusal = write_frame(table, r, out, out_len);

    if (refusal == 0)
        r->timer = 256 * (uint32_t)r->interval;
    return refusal;
}

static uint32_t take_over(const struct plain_table *table, struct plain_router *r, uint8_t *out, size_t out_len)
{
    size_t at = EMPTY_FRAME + 4 * (size_t)r->count;

    if (out_len < at + ARP_LEN * (size_t)r->count)
        return 22;
    write_frame(table, r, out, out_len);
    for (size_t i = 0; i < r->count; i++, at += ARP_LEN)
        plain_write_arp(r->vrid, get32(r->addresses + 4 * i), out + at, out_len - at);
    r->state = PLAIN_MASTER;
    r->timer = 256 * (uint32_t)r->interval;
    r->became++;
    return 0;
}

uint32_t plain_table_startup(struct plain_table *table, uint8_t vrid, uint8_t *out, size_t out_len)
{
    struct plain_router *r = find_router(table, vrid);

    if (r == NULL)
        return 20;
    if (r->state != PLAIN_INITIALIZE)
        return 0;
    if (r->priority == OWNER)
        return take_over(table, r, out, out_len);
    wait_as_backup(r);
    return 0;
}

uint32_t plain_table_clock(struct plain_table *table, uint8_t vrid, uint32_t ticks, uint8_t *out, size_t out_len)
{
    struct plain_router *r = find_router(table, vrid);

    if (r == NULL)
        return 20;
    if (r->state == PLAIN_INITIALIZE)
        return 0;
    if (ticks < r->timer) {
        r->timer -= ticks;
        return 0;
    }
    return r->state == PLAIN_BACKUP ? take_over(table, r, out, out_len) : advertise(table, r, out, out_len);
}

/* Refusals 10 to 13. */
static uint32_t router_refusal(const struct plain_router *r, const uint8_t *message)
{
    if (r->priority == OWNER)
        return 10;
    if (message[4] != 0)
        return 11;
    if (message[2] != OWNER &&
        (message[3] != r->count || memcmp(message + 8, r->addresses, 4 * (size_t)r->count) != 0))
        return 12;
    return message[5] == r->interval ? 0 : 13;
}

/* What a router does on a packet that it accepts. */
static uint32_t hear(const struct plain_table *table, struct plain_router *r, uint8_t priority, uint32_t source,
                     uint8_t *out, size_t out_len)
{
    if (r->state == PLAIN_BACKUP) {
        if (priority == 0)
            r->timer = 256 - (uint32_t)r->priority;
        else if (!r->preempt || priority >= r->priority)
            wait_as_backup(r);
    } else if (r->state == PLAIN_MASTER) {
        if (priority == 0)
            return advertise(table, r, out, out_len);
        if (priority > r->priority || (priority == r->priority && source > table->primary))
            wait_as_backup(r);
    }
    return 0;
}

uint32_t plain_table_packet(struct plain_table *table, const uint8_t *packet, size_t packet_len,
                            uint8_t *out, size_t out_len)
{
    uint32_t refusal = plain_judge(packet, packet_len);
    const uint8_t *message;
    struct plain_router *r;

    if (refusal != 0) {
        table->refused[refusal]++;
        return refusal;
    }
    message = packet + 4 * (size_t)(packet[0] & 0x0F);
    r = find_router(table, message[1]);
    if (r == NULL) {
        table->refused[9]++;
        return 9;
    }
    refusal = router_refusal(r, message);
    if (refusal != 0) {
        r->refused[refusal - 10]++;
        return refusal;
    }
    refusal = hear(table, r, message[2], get32(packet + 12), out, out_len);
    if (refusal == 0)
        r->accepted++;
    return refusal;
}
