/*
 * Calls the library on some 235,000 packets and 31,000 writes that a fixed seed makes, compares each call with plain C,
 * and writes each as a record to standard output for a second program to verify. Numbers go high byte first:
 *
 *   1, packet length (4), packet, answer (1)
 *   2, VRID, priority, interval, primary (4), address length (2), address bytes, room (2), answer (1), the room after
 *   3, VRID, address (4), room (2), answer (1), the room after
 *   0, count of the records before it (4): the end
 *
 * A room is filled with 0xA5 before the call. Exit 1: a call differs from plain C or touches what it may not, or the
 * seed has missed something.
 */
#include <signal.h>
#include <stdio.h>
#include <stdlib.h>
#include <string.h>
#include <sys/mman.h>

#include "packet.h"
#include "plain.h"
#include "vrrp.h"

enum {
    GUARD = 64,
    GUARD_BYTE = 0x5C,
    FILL = 0xA5,
    LONGEST = 70000,
    CLOSED = 1 << 16, /* whole pages on any machine */
    PACKETS = 1,
    ADVERTISEMENTS = 2,
    ARPS = 3,
    REPORTS = 10,
    OTHER = 23, /* where answers that no call may give are counted */
    PACKETS_LEAST = 200000,
    WRITES_LEAST = 20000,
    ANSWER_LEAST = 50
};

static uint32_t made[4][OTHER + 1];
static uint32_t records;
static uint32_t wrong;

/* ---- Chance, the same in every run: no two draws stand where the compiler may choose their order ---- */

static uint32_t next(void)
{
    static uint64_t state = 0x5652525032;
    uint64_t z = state += 0x9E3779B97F4A7C15;

    z = (z ^ z >> 30) * 0xBF58476D1CE4E5B9;
    z = (z ^ z >> 27) * 0x94D049BB133111EB;
    return (uint32_t)(z >> 32);
}

static uint32_t below(uint32_t n)
{
    return next() % n;
}

/* Once in so many times a number below n, else 0. */
static uint32_t sometimes(uint32_t once_in, uint32_t n)
{
    return below(once_in) == 0 ? below(n) : 0;
}

static void any_bytes(uint8_t *at, size_t len)
{
    for (size_t i = 0; i < len; i++)
        at[i] = (uint8_t)next();
}

/* ---- Lent memory: guard bytes on both sides, then the end against a page that nobody may touch ---- */

struct area {
    uint8_t *start, *end;
};

static struct area packet_area, address_area, room_area;

static struct area new_area(void)
{
    size_t size = 2 * CLOSED;
    uint8_t *start = mmap(NULL, size + CLOSED, PROT_READ | PROT_WRITE, MAP_PRIVATE | MAP_ANONYMOUS, -1, 0);

    if (start == MAP_FAILED || mprotect(start + size, CLOSED, PROT_NONE) != 0) {
        perror("harness");
        exit(1);
    }
    return (struct area){start, start + size};
}

/* Where no bytes are lent the closed way, the pointer is null. */
static uint8_t *lend(const struct area *area, int closed, const uint8_t *bytes, size_t len)
{
    uint8_t *at = closed ? area->end - len : area->start + GUARD;

    memset(at - GUARD, GUARD_BYTE, GUARD);
    if (!closed)
        memset(at + len, GUARD_BYTE, GUARD);
    memcpy(at, bytes, len);
    return closed && len == 0 ? NULL : at;
}

/* Are the guards whole, and the bytes between them these? */
static int holds(const struct area *area, const uint8_t *at, const uint8_t *bytes, size_t len)
{
    if (at == NULL)
        return 1;
    for (size_t i = 1; i <= GUARD; i++)
        if (at[-(ptrdiff_t)i] != GUARD_BYTE || (at + len != area->end && at[len + i - 1] != GUARD_BYTE))
            return 0;
    return memcmp(at, bytes, len) == 0;
}

/* ---- One record for each call ---- */

static uint8_t record[3 * CLOSED];
static size_t record_len;

static void add_bytes(const uint8_t *bytes, size_t len)
{
    memcpy(record + record_len, bytes, len);
    record_len += len;
}

static void add(uint32_t value, int len)
{
    while (len-- > 0)
        record[record_len++] = (uint8_t)(value >> 8 * len);
}

static void print_record(void)
{
    for (size_t i = 0; i < record_len; i++)
        fprintf(stderr, " %02X", record[i]);
    fprintf(stderr, "\n");
}

static void report(uint32_t answer, uint32_t due)
{
    if (wrong++ >= REPORTS)
        return;
    fprintf(stderr, "record %u answers %u, plain C %u:", (unsigned)records, (unsigned)answer, (unsigned)due);
    print_record();
}

/* The closed page was touched: there is no going on, and the record stands as far as the call. */
static void touched(int signal_number)
{
    fprintf(stderr, "signal %d in the call of record %u:", signal_number, (unsigned)records + 1);
    print_record();
    _Exit(1);
}

static void close_record(int good, uint32_t answer, uint32_t due)
{
    made[record[0]][answer < OTHER ? answer : OTHER]++;
    records++;
    if (!good)
        report(answer, due);
    if (fwrite(record, 1, record_len, stdout) != record_len) {
        perror("harness");
        exit(1);
    }
    record_len = 0;
}

/* ---- Judging ---- */

static uint8_t packet[LONGEST];
static size_t packet_len;

/* The packet is judged twice, lent either way. */
static uint32_t judge(void)
{
    uint32_t due = plain_judge(packet, packet_len), answer = due;
    int good = 1;

    add(PACKETS, 1);
    add((uint32_t)packet_len, 4);
    add_bytes(packet, packet_len);
    for (int closed = 0; closed <= 1 && good; closed++) {
        const uint8_t *at = lend(&packet_area, closed, packet, packet_len);

        answer = vrrp_judge(at, packet_len);
        good = answer == due && holds(&packet_area, at, packet, packet_len);
    }
    add(answer, 1);
    close_record(good, answer, due);
    return answer;
}

/* A good packet: trailing bytes are inside the payload, padding is past the total length. */
static void shape(size_t header, size_t n, size_t trailing, size_t padding)
{
    size_t message = 16 + 4 * n;

    packet_len = header + message + trailing + padding;
    any_bytes(packet, packet_len);
    if (below(2) == 0)
        memset(packet + header + message - 8, 0, 8);
    packet_good_header(packet, header, message + trailing);
    packet_good_message(packet + header, (uint8_t)n);
}

static void any_shape(void)
{
    size_t header = 20 + 4 * sometimes(3, 11);
    size_t n = below(8) != 0 ? below(21) : below(256);
    size_t trailing = sometimes(4, 40);
    size_t padding = sometimes(2, 30);

    shape(header, n, trailing, padding);
}

static void every_shape(void)
{
    for (size_t n = 0; n <= 255; n++)
        for (size_t header = 20; header <= 60; header += 4) {
            size_t trailing = sometimes(2, 40);
            size_t padding = sometimes(2, 40);

            shape(header, n, trailing, padding);
            judge();
        }
}

/* One byte is changed; then no checksum is mended, the header's, the message's, or both. */
static void damage(size_t place, uint8_t value)
{
    static uint8_t before[LONGEST];

    memcpy(before, packet, packet_len);
    for (int mending = 0; mending <= 3; mending++) {
        packet[place] = value;
        if ((mending & 1) != 0)
            packet_mend_header(packet, packet_len);
        if ((mending & 2) != 0)
            packet_mend_message(packet, packet_len);
        judge();
        memcpy(packet, before, packet_len);
    }
}

/* Every byte of one packet with options, trailing bytes and padding takes every other value. */
static void every_damage(void)
{
    shape(24, 1, 2, 4);
    for (size_t place = 0; place < packet_len; place++)
        for (unsigned change = 1; change <= 255; change++)
            damage(place, (uint8_t)(packet[place] ^ change));
}

/* Half of the places are among those that the checks look at, half of the changes are by one bit. */
static void any_damage(void)
{
    size_t place = below((uint32_t)packet_len);
    unsigned change = below(2) == 0 ? 1u << below(8) : 1 + below(255);

    if (below(2) == 0)
        place = below(2) == 0 ? below(20) : (size_t)(packet_message(packet) - packet) + below(8);
    damage(place, (uint8_t)(packet[place] ^ change));
}

static void plant_delivery(void)
{
    uint8_t change = (uint8_t)(1 + below(255));

    switch (below(4)) {
    case 0:
        packet[6] |= 0x20;
        break;
    case 1:
        packet_put16(packet + 6, 1u << below(13));
        break;
    case 2:
        packet[9] ^= change;
        break;
    default:
        packet[16 + below(4)] ^= change;
        break;
    }
}

static void plant(int fault)
{
    uint8_t *message = packet_message(packet);

    switch (fault) {
    case 1:
        packet_put16(packet + 2, below(2) == 0 ? below(20) : (uint32_t)packet_len + 1 + below(1000));
        break;
    case 3:
        plant_delivery();
        break;
    case 4:
        packet[8] = (uint8_t)below(255);
        break;
    case 5:
        message[0] ^= 0x10 << below(4);
        break;
    case 6:
        message[3] = 255;
        break;
    case 8:
        message[0] ^= 1 << below(4);
        break;
    }
}

/* Each bit of the set, from the lowest, plants the fault of refusals 1 to 8: the first is the answer. */
static void faults(unsigned set)
{
    uint32_t due = 0, answer;
    size_t n = below(21);
    size_t trailing = below(9);

    shape(24, n, trailing, 4);
    for (int fault = 8; fault >= 1; fault--)
        if ((set >> (fault - 1) & 1) != 0)
            due = (uint32_t)fault;
    for (int fault = 1; fault <= 8; fault++)
        if ((set >> (fault - 1) & 1) != 0)
            plant(fault);
    packet_mend_message(packet, packet_len);
    packet_mend_header(packet, packet_len);
    packet_message(packet)[7] ^= set >> 6 & 1;
    packet[11] ^= set >> 1 & 1;
    answer = judge();
    if (answer != due && wrong++ < REPORTS)
        fprintf(stderr, "record %u answers %u, planted is %u\n", (unsigned)records, (unsigned)answer, (unsigned)due);
}

/* Both checksums due are 0x0000; every pair of fields that passes or just fails is tried. */
static void zero_due(void)
{
    static const uint16_t fields[4] = {0x0000, 0xFFFF, 0x0001, 0xFFFE};
    uint8_t *message;
    size_t len;

    any_shape();
    message = packet_message(packet);
    len = 16 + 4 * (size_t)message[3];
    packet_put16(message + 6, 0);
    packet_mend(message, len, len - 2);
    packet_put16(packet + 10, 0);
    packet_mend(packet, (size_t)(message - packet), 4);
    for (int i = 0; i < 16; i++) {
        packet_put16(packet + 10, fields[i / 4]);
        packet_put16(message + 6, fields[i % 4]);
        judge();
    }
}

/* A good header before whatever stands in the payload. */
static void judge_payload(size_t payload)
{
    packet_len = 20 + payload;
    packet_good_header(packet, 20, payload);
    judge();
}

/* All bytes alike: the packet, its payload, its payload after a good first byte, all but what the checks look at. */
static void alike(uint8_t value, size_t len)
{
    memset(packet, value, sizeof packet);
    packet_len = len;
    judge();
    judge_payload(len);
    packet[20] = 0x21;
    judge_payload(len);
    memset(packet, value, sizeof packet);
    packet_good_message(packet + 20, (uint8_t)len);
    judge_payload(16 + 4 * len);
}

/* The total length cuts the message, whose rest stands in the padding. */
static void cut(size_t n)
{
    for (size_t less = 0; less <= 9; less++) {
        shape(20, n, 0, 0);
        packet_good_header(packet, 20, 16 + 4 * n - less);
        judge();
    }
}

static void every_length(size_t len)
{
    shape(20, 255, 444, 0);
    packet_len = len;
    judge();
    any_bytes(packet, len);
    if (len >= 20) {
        packet[20] = 0x21;
        packet_good_header(packet, 20, len - 20);
    }
    judge();
    if (len >= 36) {
        size_t n = sometimes(2, (uint32_t)(len >= 1056 ? 255 : (len - 36) / 4) + 1);

        shape(20, n, 0, len - 36 - 4 * n);
        judge();
        shape(20, n, len - 36 - 4 * n, 0);
        judge();
    }
}

/* Lengths that 16 bits do not hold, and those that they just do. */
static void long_packets(void)
{
    static const size_t lengths[6] = {65535, 65536, 65536 + 19, 65536 + 39, 65536 + 40, LONGEST};

    for (int i = 0; i < 6; i++) {
        shape(20, 1, 0, lengths[i] - 40);
        judge();
        shape(20, 255, 65535 - 1056, lengths[i] - 65535);
        judge();
    }
    packet_len = 65534;
    judge();
}

static void any_packet(void)
{
    packet_len = below(120);
    any_bytes(packet, packet_len);
    if (below(2) == 0)
        packet[0] = (uint8_t)(0x40 + below(16));
    if (below(2) == 0)
        packet_put16(packet + 2, below(120));
    packet_mend_header(packet, packet_len);
    judge();
}

static void packets(void)
{
    every_shape();
    every_damage();
    for (int i = 0; i < 28000; i++) {
        any_shape();
        judge();
        any_damage();
    }
    for (unsigned set = 0; set < 80 * 256; set++)
        faults(set % 256);
    for (int i = 0; i < 60; i++)
        zero_due();
    for (size_t i = 0; i <= 255; i++) {
        alike(0x00, i);
        alike(0xFF, i);
        cut(i);
    }
    for (size_t len = 0; len <= 1500; len++)
        every_length(len);
    long_packets();
    for (int i = 0; i < 10000; i++)
        any_packet();
}

/* ---- Writing ---- */

struct advertisement {
    uint8_t vrid, priority, interval;
    uint32_t primary;
    size_t addresses_len, room;
};

static uint8_t addresses[CLOSED];
static uint8_t filled[CLOSED]; /* a room before the call, after it, and as plain C leaves it */
static uint8_t after[CLOSED];
static uint8_t due_room[CLOSED];

static void close_write(int good, uint32_t answer, uint32_t due, size_t room_len)
{
    add(answer, 1);
    add_bytes(after, room_len);
    close_record(good, answer, due);
}

static void add_advertisement(const struct advertisement *a)
{
    add(ADVERTISEMENTS, 1);
    add(a->vrid, 1);
    add(a->priority, 1);
    add(a->interval, 1);
    add(a->primary, 4);
    add((uint32_t)a->addresses_len, 2);
    add_bytes(addresses, a->addresses_len);
    add((uint32_t)a->room, 2);
}

static void advertise(const struct advertisement *a)
{
    uint32_t due, answer = 0;
    int good = 1;

    add_advertisement(a);
    memset(due_room, FILL, a->room);
    due = plain_write_advertisement(a->vrid, a->priority, a->interval, a->primary, addresses, a->addresses_len,
                                    due_room, a->room);
    for (int closed = 0; closed <= 1 && good; closed++) {
        const uint8_t *list = lend(&address_area, closed, addresses, a->addresses_len);
        uint8_t *room = lend(&room_area, closed, filled, a->room);

        answer = vrrp_write_advertisement(a->vrid, a->priority, a->interval, a->primary, list, a->addresses_len,
                                          room, a->room);
        good = answer == due && holds(&address_area, list, addresses, a->addresses_len)
            && holds(&room_area, room, due_room, a->room);
        if (room != NULL)
            memcpy(after, room, a->room);
    }
    close_write(good, answer, due, a->room);
}

static void arp(uint8_t vrid, uint32_t address, size_t room_len)
{
    uint32_t due, answer = 0;
    int good = 1;

    add(ARPS, 1);
    add(vrid, 1);
    add(address, 4);
    add((uint32_t)room_len, 2);
    memset(due_room, FILL, room_len);
    due = plain_write_arp(vrid, address, due_room, room_len);
    for (int closed = 0; closed <= 1 && good; closed++) {
        uint8_t *room = lend(&room_area, closed, filled, room_len);

        answer = vrrp_write_arp(vrid, address, room, room_len);
        good = answer == due && holds(&room_area, room, due_room, room_len);
        if (room != NULL)
            memcpy(after, room, room_len);
    }
    close_write(good, answer, due, room_len);
}

/* One that is written, with just the room it needs. */
static struct advertisement any_good(size_t n)
{
    struct advertisement a;

    a.vrid = (uint8_t)(1 + below(255));
    a.priority = (uint8_t)next();
    a.interval = (uint8_t)(1 + below(255));
    a.primary = next();
    a.addresses_len = 4 * n;
    a.room = 50 + 4 * n;
    any_bytes(addresses, 4 * n + 3);
    return a;
}

static void every_room(size_t n)
{
    for (size_t room = 0; room <= 60 + 4 * n; room++) {
        struct advertisement a = any_good(n);

        a.room = room;
        advertise(&a);
    }
}

/* With room to spare, just enough, one byte too few and none. */
static void every_address_length(size_t len)
{
    for (int i = 0; i < 4; i++) {
        struct advertisement a = any_good(len / 4);

        a.addresses_len = len;
        a.room = (const size_t[]){120, 50 + len, 49 + len, 0}[i];
        advertise(&a);
    }
}

/* Lengths that would pass in 8 bits, and about the greatest whose room a record holds. */
static void long_addresses(void)
{
    for (size_t len = 256; len <= 256 + 68; len++)
        every_address_length(len);
    every_address_length(1024);
    every_address_length(65484);
    every_address_length(65485);
}

static void every_byte(uint8_t value)
{
    struct advertisement a = any_good(1 + below(16));

    a.vrid = value;
    advertise(&a);
    a.priority = value;
    advertise(&a);
    a = any_good(1 + below(16));
    a.priority = value;
    advertise(&a);
    a.interval = value;
    advertise(&a);
}

/* Each of the four refusals comes up alone and with others. */
static void any_advertisement(void)
{
    struct advertisement a = any_good(1 + below(16));

    if (below(8) == 0)
        a.vrid = 0;
    if (below(8) == 0)
        a.interval = 0;
    if (below(8) == 0)
        a.priority = 0;
    if (below(4) == 0)
        a.addresses_len = below(81);
    if (below(2) == 0)
        a.room += below(5) - (size_t)2;
    else if (below(4) == 0)
        a.room = below(200);
    any_bytes(addresses, a.addresses_len);
    advertise(&a);
}

/*
 * The last address and the primary address make the checksums of message and header 0x0000. Then both addresses grow:
 * just past 0xFFFF a sum folded once has to be folded again.
 */
static void zero_written(size_t n)
{
    struct advertisement a = any_good(n);
    uint8_t *header = due_room + 14, *message = due_room + 34;

    plain_write_advertisement(a.vrid, a.priority, a.interval, a.primary, addresses, 4 * n, due_room, a.room);
    packet_put16(message + 6, 0);
    packet_mend(message, 16 + 4 * n, 4 * n + 6);
    memcpy(addresses, message + 8, 4 * n);
    packet_put16(header + 10, 0);
    packet_mend(header, 20, 14);
    a.primary = (a.primary & 0xFFFF0000) | (uint32_t)header[14] << 8 | header[15];
    for (int i = 0; i < 3; i++) {
        advertise(&a);
        addresses[4 * n - 1]++;
        a.primary++;
    }
}

static void arps(void)
{
    for (unsigned vrid = 0; vrid <= 255; vrid++)
        for (size_t room = 0; room <= 52; room++)
            arp((uint8_t)vrid, next(), room);
    for (int i = 0; i < 1000; i++) {
        uint8_t vrid = (uint8_t)sometimes(2, 256);
        size_t room = below(300);

        arp(vrid, next(), room);
    }
    arp(1, next(), 65535);
}

static void writes(void)
{
    for (size_t n = 1; n <= 16; n++)
        every_room(n);
    for (int i = 0; i < 5; i++)
        for (size_t len = 0; len <= 80; len++)
            every_address_length(len);
    long_addresses();
    for (unsigned value = 0; value <= 255; value++)
        every_byte((uint8_t)value);
    for (int i = 0; i < 12000; i++)
        any_advertisement();
    for (size_t i = 0; i < 320; i++)
        zero_written(1 + i % 16);
    arps();
}

/* ---- Lengths that 32 bits do not hold: compared with plain C alone, as no record has room for them ---- */

static void must(int good, const char *what)
{
    if (good)
        return;
    fprintf(stderr, "a length above 4,294,967,295: %s\n", what);
    wrong++;
}

static void past_32_bits(void)
{
    const size_t more = (size_t)1 << 32;
    const int flags = MAP_PRIVATE | MAP_ANONYMOUS | MAP_NORESERVE;
    uint8_t *lent = mmap(NULL, more + CLOSED, PROT_READ | PROT_WRITE, flags, -1, 0);
    uint8_t *room = due_room;

    if (lent == MAP_FAILED) {
        fprintf(stderr, "lengths above 4,294,967,295: not tried, as this machine does not lend as much\n");
        return;
    }
    shape(20, 1, 0, 0);
    memcpy(lent, packet, packet_len);
    must(vrrp_judge(lent, more + 19) == plain_judge(lent, more + 19), "packet");
    must(vrrp_write_advertisement(1, 1, 1, 1, lent, more + 4, room, 120)
         == plain_write_advertisement(1, 1, 1, 1, lent, more + 4, room, 120), "addresses");
    must(vrrp_write_advertisement(1, 1, 1, 1, addresses, 4, lent, more + 10)
         == plain_write_advertisement(1, 1, 1, 1, addresses, 4, room, more + 10), "room for an advertisement");
    must(memcmp(lent, room, 54) == 0, "advertisement");
    must(vrrp_write_arp(1, 1, lent, more + 10) == plain_write_arp(1, 1, room, more + 10), "room for an ARP frame");
    must(memcmp(lent, room, 42) == 0, "ARP frame");
    munmap(lent, more + CLOSED);
}

/* ---- The verdict ---- */

static uint32_t sum_of(int kind)
{
    uint32_t sum = 0;

    for (int answer = 0; answer <= OTHER; answer++)
        sum += made[kind][answer];
    return sum;
}

/* Prints how often each answer came up; each that is due, a bit of the set, must have come up often enough. */
static int reached(const char *name, int kind, uint32_t due)
{
    int enough = 1;

    fprintf(stderr, "%-14s %7u:", name, (unsigned)sum_of(kind));
    for (int answer = 0; answer <= OTHER; answer++) {
        if ((due >> answer & 1) != 0 || made[kind][answer] != 0)
            fprintf(stderr, " %d x %u%s", answer, (unsigned)made[kind][answer], answer == OTHER ? " and above" : "");
        if ((due >> answer & 1) != 0 && made[kind][answer] < ANSWER_LEAST)
            enough = 0;
    }
    fprintf(stderr, "%s\n", enough ? "" : " (too few)");
    return enough;
}

static int verdict(void)
{
    const uint32_t arp_answers = 1u << 0 | 1u << 14 | 1u << 22;
    int good = wrong == 0;

    good &= reached("packets", PACKETS, 0x1FF);
    good &= reached("advertisements", ADVERTISEMENTS, arp_answers | 1u << 16 | 1u << 17);
    good &= reached("ARP frames", ARPS, arp_answers);
    if (sum_of(PACKETS) < PACKETS_LEAST || sum_of(ADVERTISEMENTS) + sum_of(ARPS) < WRITES_LEAST) {
        fprintf(stderr, "too few packets or writes\n");
        good = 0;
    }
    if (wrong != 0)
        fprintf(stderr, "%u differ\n", (unsigned)wrong);
    return good ? 0 : 1;
}

int main(void)
{
    packet_area = new_area();
    address_area = new_area();
    room_area = new_area();
    memset(filled, FILL, sizeof filled);
    signal(SIGSEGV, touched);
    signal(SIGBUS, touched);
    packets();
    writes();
    past_32_bits();
    add(0, 1);
    add(records, 4);
    if (fwrite(record, 1, record_len, stdout) != record_len || fflush(stdout) != 0) {
        perror("harness");
        return 1;
    }
    return verdict();
}
