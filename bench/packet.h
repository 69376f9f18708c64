/* Putting packets together, good ones and mended ones, for the harness and for the counted cases. */
#ifndef PACKET_H
#define PACKET_H

#include <stddef.h>
#include <stdint.h>

void packet_put16(uint8_t *at, uint32_t value);

/* Sets the two bytes at place so that the one's complement sum of all len bytes is 0xFFFF. */
void packet_mend(uint8_t *at, size_t len, size_t place);

/* Mends a checksum, going by the lengths as they stand in the packet; where they lead outside it, nothing is done. */
void packet_mend_header(uint8_t *packet, size_t packet_len);
void packet_mend_message(uint8_t *packet, size_t packet_len);

/* Makes the bytes that stand there pass the checks; what no check looks at stays as it is. */
void packet_good_header(uint8_t *packet, size_t header, size_t payload);
void packet_good_message(uint8_t *message, uint8_t n);

/* Where the message begins. */
uint8_t *packet_message(uint8_t *packet);

#endif
