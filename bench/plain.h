/* The three calls of include/vrrp.h in plain C, with the same arguments and answers. */
#ifndef PLAIN_H
#define PLAIN_H

#include <stddef.h>
#include <stdint.h>

uint32_t plain_judge(const uint8_t *packet, size_t packet_len);

uint32_t plain_write_advertisement(uint8_t vrid, uint8_t priority, uint8_t interval, uint32_t primary,
                                   const uint8_t *addresses, size_t addresses_len, uint8_t *out, size_t out_len);

uint32_t plain_write_arp(uint8_t vrid, uint32_t address, uint8_t *out, size_t out_len);

#endif
