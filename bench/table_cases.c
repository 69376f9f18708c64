/* The table's calls, to be counted and measured: each on the router at the last place that is taken, in Backup. */
#include "cases.h"

#include <stdio.h>
#include <stdlib.h>
#include <string.h>

#include "packet.h"
#include "plain_table.h"
#include "table.h"

enum { PRIORITY = 100, THEIR_PRIORITY = 200, INTERVAL = 1, FIRES = 924, IP_LEN = 20, EMPTY_LEN = 16 };

struct calls {
    uint32_t (*packet)(void);
    uint32_t (*clock)(uint32_t ticks);
};

enum kind { PACKET, CLOCK };

struct call_case {
    const char *name;
    enum kind kind;
    int routers;
    size_t n;        /* addresses of each */
    uint8_t vrid;    /* of the packet, or of the clock step */
    uint32_t ticks;
    uint32_t answer; /* what the call must answer */
};

static const struct call_case cases[] = {
    {"packet, 1 router", PACKET, 1, 1, 1, 0, 0},
    {"packet, 16 routers", PACKET, 16, 1, 16, 0, 0},
    {"packet, 255 routers", PACKET, 255, 1, 255, 0, 0},
    {"packet, refused by 9", PACKET, 1, 1, 2, 0, 9},
    {"clock, does not fire", CLOCK, 1, 1, 1, FIRES - 1, 0},
    {"takeover, n = 1", CLOCK, 1, 1, 1, FIRES, 0},
    {"takeover, n = 16", CLOCK, 1, 16, 1, FIRES, 0},
};

const int cases_count = sizeof cases / sizeof cases[0];

struct record {
    uint32_t words[16];
};

static uint32_t words[TABLE_WORDS];
static uint8_t lists[TABLE_LISTS];
static struct plain_table table;
static uint8_t packet[IP_LEN + EMPTY_LEN + 4 * 16];
static size_t packet_len;
static uint8_t room[1024], plain_room[1024];
static uint8_t vrid;

/* The records of the last router, in both tables, and what they are before each call. */
static struct record *ours_at, ours_before;
static struct plain_router *plain_at, plain_before;

const char *case_name(int i)
{
    return cases[i].name;
}

uint32_t case_answer(int i)
{
    return cases[i].answer;
}

static void demand(int holds, const char *what, int i)
{
    if (holds)
        return;
    fprintf(stderr, "%s: %s\n", cases[i].name, what);
    exit(1);
}

/* So many routers in Backup, in both tables. */
static void prepare_tables(int i)
{
    const struct call_case *c = &cases[i];
    uint8_t addresses[4 * 16];
    uint32_t refusals = 0;

    for (size_t k = 0; k < sizeof addresses; k++)
        addresses[k] = (uint8_t)(0xC0 + 7 * k);
    table_empty(words, 0xC0A80102);
    plain_table_empty(&table, 0xC0A80102);
    for (int v = 1; v <= c->routers; v++) {
        refusals |= table_configure(words, lists, (uint8_t)v, PRIORITY, INTERVAL, true, addresses, 4 * c->n);
        refusals |= plain_table_configure(&table, (uint8_t)v, PRIORITY, INTERVAL, true, addresses, 4 * c->n);
        refusals |= table_startup(words, lists, (uint8_t)v, room, sizeof room);
        refusals |= plain_table_startup(&table, (uint8_t)v, plain_room, sizeof plain_room);
    }
    demand(refusals == 0, "a router was not configured", i);
    ours_at = (struct record *)words + c->routers;
    plain_at = &table.routers[c->routers - 1];
    ours_before = *ours_at;
    plain_before = *plain_at;
}

static void prepare_packet(const struct call_case *c)
{
    size_t payload = EMPTY_LEN + 4 * c->n;
    uint8_t *message = packet + IP_LEN;

    memset(packet, 0, sizeof packet);
    message[1] = c->vrid;
    message[2] = THEIR_PRIORITY;
    message[5] = INTERVAL;
    memcpy(message + 8, plain_at->addresses, 4 * c->n);
    packet_good_header(packet, IP_LEN, payload);
    packet_good_message(message, (uint8_t)c->n);
    packet_len = IP_LEN + payload;
}

/* Whether both tables hold the same of the last router. */
static int same_records(void)
{
    const uint32_t *w = ours_at->words;
    const struct plain_router *r = plain_at;

    return w[0] == r->vrid && w[1] == r->priority && w[2] == r->interval && w[3] == r->preempt && w[4] == r->state &&
           w[5] == r->timer && w[6] == r->count && w[7] == r->accepted && w[8] == r->became &&
           memcmp(w + 9, r->refused, sizeof r->refused) == 0;
}

void case_prepare(int i)
{
    uint32_t answer;

    prepare_tables(i);
    prepare_packet(&cases[i]);
    vrid = cases[i].vrid;
    memset(room, 0, sizeof room);
    memset(plain_room, 0, sizeof plain_room);
    answer = case_call(&ours, i);
    /* The call puts both records back first, so ours is looked at in between. */
    ours_before = *ours_at;
    demand(case_call(&plain, i) == answer, "the answers differ", i);
    demand(same_records(), "the records differ", i);
    demand(memcmp(room, plain_room, sizeof room) == 0, "the bytes written differ", i);
    demand(memcmp(words + 1, table.refused + 1, 9 * sizeof words[0]) == 0, "the counts of the interface differ", i);
    prepare_tables(i);
}

uint32_t case_call(const struct calls *calls, int i)
{
    /* A call changes the record, and the next is to be the same call; whichever maker is called, both are put back. */
    *ours_at = ours_before;
    *plain_at = plain_before;
    return cases[i].kind == PACKET ? calls->packet() : calls->clock(cases[i].ticks);
}

static uint32_t ours_packet(void)
{
    return table_packet(words, lists, packet, packet_len, room, sizeof room);
}

static uint32_t ours_clock(uint32_t ticks)
{
    return table_clock(words, lists, vrid, ticks, room, sizeof room);
}

static uint32_t plain_packet(void)
{
    return plain_table_packet(&table, packet, packet_len, plain_room, sizeof plain_room);
}

static uint32_t plain_clock(uint32_t ticks)
{
    return plain_table_clock(&table, vrid, ticks, plain_room, sizeof plain_room);
}

/* Handed over what ours are: plain C takes one pointer less, so an instruction too many is taken off it. */
static __attribute__((noipa)) uint32_t nothing_of_packet(uint32_t *w, const uint8_t *l, const uint8_t *p, size_t p_len,
                                                         uint8_t *out, size_t out_len)
{
    (void)w, (void)l, (void)p, (void)p_len, (void)out, (void)out_len;
    return 0;
}

static __attribute__((noipa)) uint32_t nothing_of_clock(uint32_t *w, const uint8_t *l, uint8_t v, uint32_t ticks,
                                                        uint8_t *out, size_t out_len)
{
    (void)w, (void)l, (void)v, (void)ticks, (void)out, (void)out_len;
    return 0;
}

static uint32_t empty_packet(void)
{
    return nothing_of_packet(words, lists, packet, packet_len, room, sizeof room);
}

static uint32_t empty_clock(uint32_t ticks)
{
    return nothing_of_clock(words, lists, vrid, ticks, room, sizeof room);
}

const struct calls ours = {ours_packet, ours_clock};
const struct calls plain = {plain_packet, plain_clock};
const struct calls empty = {empty_packet, empty_clock};
