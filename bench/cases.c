/* The three calls of include/vrrp.h, to be counted and measured. */
#include "cases.h"

#include <stddef.h>
#include <string.h>

#include "packet.h"
#include "plain.h"
#include "vrrp.h"

enum { VRID = 1, PRIORITY = 100, INTERVAL = 1, IP_LEN = 20, EMPTY_LEN = 16 };

struct calls {
    uint32_t (*judge)(const uint8_t *, size_t);
    uint32_t (*write_advertisement)(uint8_t, uint8_t, uint8_t, uint32_t, const uint8_t *, size_t, uint8_t *, size_t);
    uint32_t (*write_arp)(uint8_t, uint32_t, uint8_t *, size_t);
};

enum kind { JUDGE, ADVERTISEMENT, ARP };

struct call_case {
    const char *name;
    enum kind kind;
    size_t n;        /* addresses in the packet or in the frame */
    size_t len;      /* bytes of the packet that are handed over; 0: all */
    uint8_t ttl;
    uint32_t answer; /* what the call must answer */
};

static const uint32_t primary = 0xC0A80102;

static const struct call_case cases[] = {
    {"judge, good, n = 1", JUDGE, 1, 0, 255, 0},
    {"judge, good, n = 16", JUDGE, 16, 0, 255, 0},
    {"judge, good, n = 255", JUDGE, 255, 0, 255, 0},
    {"judge, TTL 254, n = 1", JUDGE, 1, 0, 254, 4},
    {"judge, 19 bytes", JUDGE, 1, 19, 255, 1},
    {"advertisement, n = 1", ADVERTISEMENT, 1, 0, 0, 0},
    {"advertisement, n = 16", ADVERTISEMENT, 16, 0, 0, 0},
    {"ARP frame", ARP, 0, 0, 0, 0},
};

const int cases_count = sizeof cases / sizeof cases[0];

static uint8_t packet[IP_LEN + EMPTY_LEN + 4 * 255];
static size_t packet_len;
static uint8_t addresses[4 * 16];
static uint8_t room[128];

const char *case_name(int i)
{
    return cases[i].name;
}

uint32_t case_answer(int i)
{
    return cases[i].answer;
}

void case_prepare(int i)
{
    const struct call_case *c = &cases[i];
    size_t payload = EMPTY_LEN + 4 * c->n;
    uint8_t *message = packet + IP_LEN;

    memset(packet, 0, sizeof packet);
    message[1] = VRID;
    message[2] = PRIORITY;
    message[5] = INTERVAL;
    for (size_t k = 0; k < 4 * c->n; k++)
        message[8 + k] = (uint8_t)(0xC0 + 7 * k);
    memcpy(addresses, message + 8, sizeof addresses);
    packet_good_header(packet, IP_LEN, payload);
    packet_good_message(message, (uint8_t)c->n);
    packet[8] = c->ttl;
    packet_mend_header(packet, sizeof packet);
    packet_len = c->len != 0 ? c->len : IP_LEN + payload;
}

uint32_t case_call(const struct calls *calls, int i)
{
    const struct call_case *c = &cases[i];

    switch (c->kind) {
    case JUDGE:
        return calls->judge(packet, packet_len);
    case ADVERTISEMENT:
        return calls->write_advertisement(VRID, PRIORITY, INTERVAL, primary, addresses, 4 * c->n, room, sizeof room);
    default:
        return calls->write_arp(VRID, primary, room, sizeof room);
    }
}

static uint32_t empty_judge(const uint8_t *p, size_t p_len)
{
    (void)p, (void)p_len;
    return 0;
}

static uint32_t empty_write_advertisement(uint8_t vrid, uint8_t priority, uint8_t interval, uint32_t address,
                                          const uint8_t *list, size_t list_len, uint8_t *out, size_t out_len)
{
    (void)vrid, (void)priority, (void)interval, (void)address, (void)list, (void)list_len, (void)out, (void)out_len;
    return 0;
}

static uint32_t empty_write_arp(uint8_t vrid, uint32_t address, uint8_t *out, size_t out_len)
{
    (void)vrid, (void)address, (void)out, (void)out_len;
    return 0;
}

const struct calls ours = {vrrp_judge, vrrp_write_advertisement, vrrp_write_arp};
const struct calls plain = {plain_judge, plain_write_advertisement, plain_write_arp};
const struct calls empty = {empty_judge, empty_write_advertisement, empty_write_arp};
