/* SPDX-License-Identifier: Apache-2.0 */
/* A reference for bench/turns: turns of an unauthenticated STAMP reflector in memory, as plain C would make them. A session is
   looked up by a hash of its ends, its number is drawn from a plain counter, and the reply of 44 octets is written. There is no
   atomic word, no second worker, no HMAC, no tail and no port. It makes as many turns as its argument says. */
#include <stdint.h>
#include <stdio.h>
#include <stdlib.h>
#include <string.h>

enum { PLACES = 4096, PACKET = 44, NANOS = 1000000000 };

struct ends {
    uint16_t local, port;
    uint8_t family, address[16];
};

struct arrival {
    struct ends ends;
    uint16_t len;
    uint8_t has_ttl, ttl;
    uint64_t moment;
};

struct session {
    struct ends ends;
    uint8_t used, stateful, ssid[2], error[2];
    uint32_t count;
};

static struct session table[PLACES];

static uint32_t get32(const uint8_t *at) {
    return (uint32_t)at[0] << 24 | (uint32_t)at[1] << 16 | (uint32_t)at[2] << 8 | at[3];
}

static void put32(uint8_t *at, uint32_t value) {
    for (int place = 0; place < 4; place++) at[place] = (uint8_t)(value >> (24 - 8 * place));
}

static void put_stamp(uint8_t *at, uint64_t nanos) {
    put32(at, (uint32_t)(nanos / NANOS + 2208988800u));
    put32(at + 4, (uint32_t)(((nanos % NANOS) << 32) / NANOS));
}

static size_t place_of(const struct ends *ends) {
    uint64_t high, low;
    memcpy(&high, ends->address, 8);
    memcpy(&low, ends->address + 8, 8);
    return (high ^ low << 1 ^ (uint64_t)ends->port << 16 ^ ends->local) * 0x9E3779B97F4A7C15u >> 52;
}

static int same_ends(const struct ends *one, const struct ends *other) {
    return one->local == other->local && one->port == other->port && one->family == other->family &&
           memcmp(one->address, other->address, 16) == 0;
}

/* The place of a session, or that at which there is none. */
__attribute__((noipa)) static struct session *look_up(const struct ends *ends, const uint8_t *ssid) {
    for (size_t place = place_of(ends);; place = (place + 1) % PLACES) {
        struct session *one = &table[place];
        if (!one->used || (memcmp(one->ssid, ssid, 2) == 0 && same_ends(&one->ends, ends))) return one;
    }
}

/* The length of the reply; 0 where there is none. */
__attribute__((noipa)) static size_t turn(const struct arrival *arrival, const uint8_t *packet, uint64_t sending, uint8_t *reply) {
    struct session *one;
    if (arrival->len < 16) return 0;
    one = look_up(&arrival->ends, packet + 14);
    if (!one->used || arrival->len < PACKET) return 0;
    put32(reply, one->stateful ? one->count : get32(packet));
    one->count++;
    put_stamp(reply + 4, sending);
    memcpy(reply + 12, one->error, 2);
    memcpy(reply + 14, packet + 14, 2);
    put_stamp(reply + 16, arrival->moment);
    memcpy(reply + 24, packet, 14);
    memset(reply + 38, 0, 6);
    reply[40] = arrival->has_ttl ? arrival->ttl : 255;
    return PACKET;
}

int main(int count, char **words) {
    static const uint8_t peer[16] = {192, 0, 2, 1};
    struct arrival arrival = {.ends = {.local = 0, .port = 5000, .family = 4}, .len = PACKET, .moment = 1000000000};
    uint8_t packet[PACKET] = {[3] = 5, [12] = 0, 1, 0, 7}, reply[PACKET];
    unsigned long turns = count > 1 ? strtoul(words[1], 0, 10) : 0, replies = 0;
    struct session *one;
    memcpy(arrival.ends.address, peer, 16);
    one = look_up(&arrival.ends, packet + 14);
    one->used = one->stateful = 1;
    one->ends = arrival.ends;
    memcpy(one->ssid, packet + 14, 2);
    one->error[1] = 1;
    for (unsigned long at = 0; at < turns; at++) replies += turn(&arrival, packet, 1000000000 + at, reply) != 0;
    printf("%lu replies, the last with number %u\n", replies, (unsigned)get32(reply));
    return 0;
}
