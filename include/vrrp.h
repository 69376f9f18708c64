/*
 * vrrp.h: judging and writing VRRP version 2 packets (RFC 3768), from the archive libvrrp_c.a.
 *
 * Each call is total: it comes back with an answer for every input, reads no byte outside what it is lent,
 * keeps no pointer, allocates nothing, has no state and may be called from any thread. It needs less than
 * 1 KiB of stack. A pointer whose length is 0 may be NULL. `out` must overlap no other buffer of the call.
 *
 * An answer is 0, or the number of the first check that fails. On a refusal no byte of `out` is changed;
 * on success the bytes of `out` past the written frame are not changed.
 *
 * Addresses given as uint32_t are numbers in the host's own order: 192.168.1.2 is 0xC0A80102. Bytes in
 * packets, frames and `addresses` stand as on the wire, first byte greatest.
 */
#ifndef VRRP_H
#define VRRP_H

#include <stddef.h>
#include <stdint.h>

#ifdef __cplusplus
extern "C" {
#endif

/*
 * Judges an IPv4 packet, which begins at its IP header (no Ethernet bytes), of any length.
 *
 * 0  good: every check passes
 * 1  fewer than 20 bytes; IP version not 4; header length field under 5; header longer than the bytes given;
 *    total length below the header or above the bytes given
 * 2  the one's complement sum of the IP header is not 0xFFFF
 * 3  more-fragments bit or nonzero offset; protocol not 112; destination not 224.0.0.18
 * 4  TTL not 255
 * 5  the payload has a byte, and the VRRP version is not 2
 * 6  the payload has fewer than 8 bytes, or fewer than 16 + 4n, n being its address count
 * 7  the one's complement sum of the message is not 0xFFFF
 * 8  the message type is not 1
 *
 * Bytes past the IP total length, such as Ethernet padding, are never looked at; bytes behind the message
 * inside the payload are passed over. Whether the VRID, the authentication type, the addresses and the
 * interval suit a router is not judged here.
 */
uint32_t vrrp_judge(const uint8_t *packet, size_t packet_len);

/*
 * Writes an advertisement frame, Ethernet header first, at the start of `out`: 50 + addresses_len bytes.
 *
 * vrid       virtual router number, 1 to 255
 * priority   0 to 255; 0 says that the Master is leaving
 * interval   advertisement interval in seconds, 1 to 255
 * primary    the interface's primary address, the packet's source
 * addresses  the virtual addresses, 4 bytes each: 4 to 64 bytes
 *
 * 0   written
 * 14  vrid is 0
 * 16  interval is 0
 * 17  addresses_len is not a multiple of 4, or 0, or above 64
 * 22  out_len is below 50 + addresses_len
 *
 * They are checked in this order.
 */
uint32_t vrrp_write_advertisement(uint8_t vrid, uint8_t priority, uint8_t interval, uint32_t primary,
                                  const uint8_t *addresses, size_t addresses_len, uint8_t *out, size_t out_len);

/*
 * Writes the gratuitous ARP frame of a virtual address, Ethernet header first, at the start of `out`: 42 bytes,
 * not padded to Ethernet's least length.
 *
 * 0   written
 * 14  vrid is 0
 * 22  out_len is below 42
 *
 * They are checked in this order.
 */
uint32_t vrrp_write_arp(uint8_t vrid, uint32_t address, uint8_t *out, size_t out_len);

#ifdef __cplusplus
}
#endif

#endif
