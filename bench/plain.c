/* Judging a packet and writing the two frames in plain C: what the library is compared with and counted beside. */
#include "plain.h"

#include <string.h>

enum {
    ETHERNET_LEN = 14,
    IP_LEN = 20,
    HEAD_LEN = 8,      /* a message up to its addresses */
    EMPTY_LEN = 16,    /* a message without addresses */
    ARP_LEN = 42,
    ADDRESSES_MOST = 64,
    TYPE_IP = 0x0800,
    TYPE_ARP = 0x0806,
    DONT_FRAGMENT = 0x4000,
    FRAGMENT = 0x3FFF, /* the more-fragments bit and the offset */
    PROTOCOL = 112
};

static const uint8_t group[4] = {224, 0, 0, 18};
static const uint8_t group_mac[6] = {0x01, 0x00, 0x5E, 0x00, 0x00, 0x12};
static const uint8_t everyone[6] = {0xFF, 0xFF, 0xFF, 0xFF, 0xFF, 0xFF};

static uint32_t get16(const uint8_t *at)
{
    return (uint32_t)at[0] << 8 | at[1];
}

static void put16(uint8_t *at, uint32_t value)
{
    at[0] = (uint8_t)(value >> 8);
    at[1] = (uint8_t)value;
}

static void put32(uint8_t *at, uint32_t value)
{
    put16(at, value >> 16);
    put16(at + 2, value);
}

/* One's complement sum of an even number of bytes; 32 bits hold the carries of any header or message. */
static uint32_t sum(const uint8_t *at, size_t len)
{
    uint32_t total = 0;

    for (size_t i = 0; i < len; i += 2)
        total += get16(at + i);
    while (total > 0xFFFF)
        total = (total & 0xFFFF) + (total >> 16);
    return total;
}

/* Refusals 1 and 2: is this a whole IPv4 packet? */
static uint32_t judge_header(const uint8_t *packet, size_t packet_len)
{
    size_t header, total;

    if (packet_len < IP_LEN || packet[0] >> 4 != 4)
        return 1;
    header = 4 * (size_t)(packet[0] & 0x0F);
    total = get16(packet + 2);
    if (header < IP_LEN || header > packet_len || total < header || total > packet_len)
        return 1;
    return sum(packet, header) == 0xFFFF ? 0 : 2;
}

/* Refusals 3 and 4: is it for VRRP, and from this link? */
static uint32_t judge_delivery(const uint8_t *packet)
{
    if ((get16(packet + 6) & FRAGMENT) != 0 || packet[9] != PROTOCOL || memcmp(packet + 16, group, 4) != 0)
        return 3;
    return packet[8] == 255 ? 0 : 4;
}

/* Refusals 5 to 8: is its payload an advertisement? */
static uint32_t judge_message(const uint8_t *message, size_t payload)
{
    size_t len;

    if (payload > 0 && message[0] >> 4 != 2)
        return 5;
    if (payload < HEAD_LEN)
        return 6;
    len = EMPTY_LEN + 4 * (size_t)message[3];
    if (payload < len)
        return 6;
    if (sum(message, len) != 0xFFFF)
        return 7;
    return (message[0] & 0x0F) == 1 ? 0 : 8;
}

uint32_t plain_judge(const uint8_t *packet, size_t packet_len)
{
    uint32_t refusal = judge_header(packet, packet_len);
    size_t header;

    if (refusal == 0)
        refusal = judge_delivery(packet);
    if (refusal != 0)
        return refusal;
    header = 4 * (size_t)(packet[0] & 0x0F);
    return judge_message(packet + header, get16(packet + 2) - header);
}

static void put_virtual_mac(uint8_t *at, uint8_t vrid)
{
    static const uint8_t prefix[5] = {0x00, 0x00, 0x5E, 0x00, 0x01};

    memcpy(at, prefix, 5);
    at[5] = vrid;
}

static void put_ethernet(uint8_t *at, const uint8_t *to, uint8_t vrid, uint32_t type)
{
    memcpy(at, to, 6);
    put_virtual_mac(at + 6, vrid);
    put16(at + 12, type);
}

static void put_header(uint8_t *at, uint32_t primary, size_t payload)
{
    memset(at, 0, IP_LEN);
    at[0] = 0x45;
    put16(at + 2, (uint32_t)(IP_LEN + payload));
    put16(at + 6, DONT_FRAGMENT);
    at[8] = 255;
    at[9] = PROTOCOL;
    put32(at + 12, primary);
    memcpy(at + 16, group, 4);
    put16(at + 10, ~sum(at, IP_LEN));
}

static void put_message(uint8_t *at, uint8_t vrid, uint8_t priority, uint8_t interval,
                        const uint8_t *addresses, size_t addresses_len)
{
    at[0] = 0x21;
    at[1] = vrid;
    at[2] = priority;
    at[3] = (uint8_t)(addresses_len / 4);
    at[4] = 0;
    at[5] = interval;
    put16(at + 6, 0);
    memcpy(at + HEAD_LEN, addresses, addresses_len);
    memset(at + HEAD_LEN + addresses_len, 0, EMPTY_LEN - HEAD_LEN);
    put16(at + 6, ~sum(at, EMPTY_LEN + addresses_len));
}

uint32_t plain_write_advertisement(uint8_t vrid, uint8_t priority, uint8_t interval, uint32_t primary,
                                   const uint8_t *addresses, size_t addresses_len, uint8_t *out, size_t out_len)
{
    if (vrid == 0)
        return 14;
    if (interval == 0)
        return 16;
    if (addresses_len % 4 != 0 || addresses_len == 0 || addresses_len > ADDRESSES_MOST)
        return 17;
    if (out_len < ETHERNET_LEN + IP_LEN + EMPTY_LEN + addresses_len)
        return 22;
    put_ethernet(out, group_mac, vrid, TYPE_IP);
    put_header(out + ETHERNET_LEN, primary, EMPTY_LEN + addresses_len);
    put_message(out + ETHERNET_LEN + IP_LEN, vrid, priority, interval, addresses, addresses_len);
    return 0;
}

uint32_t plain_write_arp(uint8_t vrid, uint32_t address, uint8_t *out, size_t out_len)
{
    static const uint8_t request[8] = {0x00, 0x01, 0x08, 0x00, 6, 4, 0x00, 0x01};

    if (vrid == 0)
        return 14;
    if (out_len < ARP_LEN)
        return 22;
    put_ethernet(out, everyone, vrid, TYPE_ARP);
    memcpy(out + 14, request, 8);
    put_virtual_mac(out + 22, vrid);
    put32(out + 28, address);
    memset(out + 32, 0, 6);
    put32(out + 38, address);
    return 0;
}
