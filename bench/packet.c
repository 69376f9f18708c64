/* Putting packets together, good ones and mended ones. */
#include "packet.h"

void packet_put16(uint8_t *at, uint32_t value)
{
    at[0] = (uint8_t)(value >> 8);
    at[1] = (uint8_t)value;
}

void packet_mend(uint8_t *at, size_t len, size_t place)
{
    uint32_t total = 0;

    packet_put16(at + place, 0);
    for (size_t i = 0; i < len; i++)
        total += i % 2 == 0 ? 256 * (uint32_t)at[i] : at[i];
    /* A one's complement sum is the sum modulo 0xFFFF; where 0 is missing, 0x0000 is written. */
    packet_put16(at + place, (0xFFFF - total % 0xFFFF) % 0xFFFF);
}

static size_t header_len(const uint8_t *packet)
{
    return 4 * (size_t)(packet[0] & 0x0F);
}

uint8_t *packet_message(uint8_t *packet)
{
    return packet + header_len(packet);
}

void packet_mend_header(uint8_t *packet, size_t packet_len)
{
    if (packet_len >= 20 && header_len(packet) >= 20 && header_len(packet) <= packet_len)
        packet_mend(packet, header_len(packet), 10);
}

void packet_mend_message(uint8_t *packet, size_t packet_len)
{
    size_t len;

    if (packet_len < 20 || header_len(packet) < 20 || header_len(packet) + 8 > packet_len)
        return;
    len = 16 + 4 * (size_t)packet_message(packet)[3];
    if (header_len(packet) + len <= packet_len)
        packet_mend(packet_message(packet), len, 6);
}

void packet_good_header(uint8_t *packet, size_t header, size_t payload)
{
    packet[0] = (uint8_t)(0x40 | header / 4);
    packet_put16(packet + 2, (uint32_t)(header + payload));
    packet[6] &= 0xC0;
    packet[7] = 0;
    packet[8] = 255;
    packet[9] = 112;
    packet[16] = 224;
    packet[17] = 0;
    packet[18] = 0;
    packet[19] = 18;
    packet_mend(packet, header, 10);
}

void packet_good_message(uint8_t *message, uint8_t n)
{
    message[0] = 0x21;
    message[3] = n;
    packet_mend(message, 16 + 4 * (size_t)n, 6);
}
