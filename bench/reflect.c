/* SPDX-License-Identifier: Apache-2.0 */
/* A reference for bench/replay: replays STAMP and TWAMP-Test records as plain C would. It reads a stream of Open and
   Datagram records from standard input and writes the answers to standard output. It has NTP timestamps, the TLV types 1
   and 8, and no tail in authenticated mode; at anything else it ends with 3. */
#include <stdint.h>
#include <stdio.h>
#include <stdlib.h>
#include <string.h>
#include <unistd.h>

enum {
    READ_ROOM = 1 << 18,
    WRITE_ROOM = 1 << 18,
    ANSWER_ROOM = 65567,
    PLACES = 4096,
    ENDS = 21,
    OPEN_BODY = 103,
    DATAGRAM_HEAD = 39,
    DATAGRAM_BODY = 65546,
    PLAIN_LEN = 44,
    AUTH_LEN = 112,
    COVERED = 96,
    TEST_LEN = 14,
    TEST_FIELDS = 41,
    MAC_LEN = 16,
    NANOS = 1000000000
};

enum mode { PLAIN, AUTHENTICATED, TWAMP };

struct hash {
    uint32_t state[8];
    uint64_t len;
    uint8_t rest[64];
};

struct session {
    uint8_t used, ends[ENDS], mode, ssid[2], symmetrical, stateful, keyed, error[2];
    uint16_t reflect;
    uint32_t count;
    struct hash inner, outer;
};

static struct session table[PLACES];
static uint8_t input[READ_ROOM + 65552], output[WRITE_ROOM + ANSWER_ROOM];
static size_t held, due;

static uint32_t get32(const uint8_t *at) {
    return (uint32_t)at[0] << 24 | (uint32_t)at[1] << 16 | (uint32_t)at[2] << 8 | at[3];
}

static uint64_t get64(const uint8_t *at) { return (uint64_t)get32(at) << 32 | get32(at + 4); }

static void put32(uint8_t *at, uint32_t value) {
    for (int place = 0; place < 4; place++) at[place] = (uint8_t)(value >> (24 - 8 * place));
}

static void put_stamp(uint8_t *at, uint64_t nanos) {
    put32(at, (uint32_t)(nanos / NANOS + 2208988800u));
    put32(at + 4, (uint32_t)(((nanos % NANOS) << 32) / NANOS));
}

/* SHA-256 (FIPS 180-4). */

static const uint32_t ROUNDS[64] = {
    0x428a2f98, 0x71374491, 0xb5c0fbcf, 0xe9b5dba5, 0x3956c25b, 0x59f111f1, 0x923f82a4, 0xab1c5ed5, 0xd807aa98, 0x12835b01,
    0x243185be, 0x550c7dc3, 0x72be5d74, 0x80deb1fe, 0x9bdc06a7, 0xc19bf174, 0xe49b69c1, 0xefbe4786, 0x0fc19dc6, 0x240ca1cc,
    0x2de92c6f, 0x4a7484aa, 0x5cb0a9dc, 0x76f988da, 0x983e5152, 0xa831c66d, 0xb00327c8, 0xbf597fc7, 0xc6e00bf3, 0xd5a79147,
    0x06ca6351, 0x14292967, 0x27b70a85, 0x2e1b2138, 0x4d2c6dfc, 0x53380d13, 0x650a7354, 0x766a0abb, 0x81c2c92e, 0x92722c85,
    0xa2bfe8a1, 0xa81a664b, 0xc24b8b70, 0xc76c51a3, 0xd192e819, 0xd6990624, 0xf40e3585, 0x106aa070, 0x19a4c116, 0x1e376c08,
    0x2748774c, 0x34b0bcb5, 0x391c0cb3, 0x4ed8aa4a, 0x5b9cca4f, 0x682e6ff3, 0x748f82ee, 0x78a5636f, 0x84c87814, 0x8cc70208,
    0x90befffa, 0xa4506ceb, 0xbef9a3f7, 0xc67178f2};

static uint32_t turn(uint32_t word, int by) { return word >> by | word << (32 - by); }

static void hash_block(uint32_t *state, const uint8_t *block) {
    uint32_t w[64], a = state[0], b = state[1], c = state[2], d = state[3], e = state[4], f = state[5], g = state[6], h = state[7];
    for (int i = 0; i < 16; i++) w[i] = get32(block + 4 * i);
    for (int i = 16; i < 64; i++) {
        uint32_t low = turn(w[i - 15], 7) ^ turn(w[i - 15], 18) ^ w[i - 15] >> 3;
        uint32_t high = turn(w[i - 2], 17) ^ turn(w[i - 2], 19) ^ w[i - 2] >> 10;
        w[i] = w[i - 16] + low + w[i - 7] + high;
    }
    for (int i = 0; i < 64; i++) {
        uint32_t first = h + (turn(e, 6) ^ turn(e, 11) ^ turn(e, 25)) + ((e & f) ^ (~e & g)) + ROUNDS[i] + w[i];
        uint32_t second = (turn(a, 2) ^ turn(a, 13) ^ turn(a, 22)) + ((a & b) ^ (a & c) ^ (b & c));
        h = g;
        g = f;
        f = e;
        e = d + first;
        d = c;
        c = b;
        b = a;
        a = first + second;
    }
    state[0] += a;
    state[1] += b;
    state[2] += c;
    state[3] += d;
    state[4] += e;
    state[5] += f;
    state[6] += g;
    state[7] += h;
}

static void hash_start(struct hash *hash) {
    static const uint32_t state[8] = {0x6a09e667, 0xbb67ae85, 0x3c6ef372, 0xa54ff53a, 0x510e527f, 0x9b05688c, 0x1f83d9ab, 0x5be0cd19};
    memcpy(hash->state, state, sizeof state);
    hash->len = 0;
}

static void hash_more(struct hash *hash, const uint8_t *octets, size_t len) {
    size_t kept = hash->len % 64;
    hash->len += len;
    if (kept + len < 64) {
        memcpy(hash->rest + kept, octets, len);
        return;
    }
    if (kept != 0) {
        memcpy(hash->rest + kept, octets, 64 - kept);
        hash_block(hash->state, hash->rest);
        octets += 64 - kept;
        len -= 64 - kept;
    }
    for (; len >= 64; octets += 64, len -= 64) hash_block(hash->state, octets);
    memcpy(hash->rest, octets, len);
}

static void hash_end(struct hash *hash, uint8_t *digest) {
    size_t kept = hash->len % 64;
    hash->rest[kept++] = 0x80;
    if (kept > 56) {
        memset(hash->rest + kept, 0, 64 - kept);
        hash_block(hash->state, hash->rest);
        kept = 0;
    }
    memset(hash->rest + kept, 0, 56 - kept);
    put32(hash->rest + 56, (uint32_t)(hash->len >> 29));
    put32(hash->rest + 60, (uint32_t)(hash->len << 3));
    hash_block(hash->state, hash->rest);
    for (int i = 0; i < 8; i++) put32(digest + 4 * i, hash->state[i]);
}

/* HMAC (RFC 2104) under a session's key, whose blocks are hashed once. */

static void hash_key(struct session *one, const uint8_t *block) {
    uint8_t padded[64];
    for (int i = 0; i < 64; i++) padded[i] = block[i] ^ 0x36;
    hash_start(&one->inner);
    hash_more(&one->inner, padded, 64);
    for (int i = 0; i < 64; i++) padded[i] = block[i] ^ 0x5c;
    hash_start(&one->outer);
    hash_more(&one->outer, padded, 64);
}

static void mac(const struct session *one, const uint8_t *first, size_t first_len, const uint8_t *second, size_t second_len, uint8_t *digest) {
    struct hash hash = one->inner;
    hash_more(&hash, first, first_len);
    hash_more(&hash, second, second_len);
    hash_end(&hash, digest);
    hash = one->outer;
    hash_more(&hash, digest, 32);
    hash_end(&hash, digest);
}

static void flush(void) {
    for (size_t done = 0; done < due;) {
        ssize_t count = write(1, output + done, due - done);
        if (count <= 0) exit(8);
        done += (size_t)count;
    }
    due = 0;
}

/* Whether a datagram between its ends is of a session (RFC 8972, section 3). */
static int has_ssid(const struct session *one, const uint8_t *packet, size_t octets) {
    switch (one->mode) {
    case PLAIN: return octets >= 16 && memcmp(one->ssid, packet + 14, 2) == 0;
    case AUTHENTICATED: return octets >= 28 && memcmp(one->ssid, packet + 26, 2) == 0;
    default: return 1;
    }
}

static size_t place_of(const uint8_t *ends) {
    uint64_t a, b;
    memcpy(&a, ends + 1, 8);
    memcpy(&b, ends + 13, 8);
    return (a ^ b << 1) * 0x9E3779B97F4A7C15u >> 52;
}

static struct session *find(const uint8_t *ends, const uint8_t *packet, size_t octets) {
    for (size_t place = place_of(ends);; place = (place + 1) % PLACES) {
        struct session *one = &table[place];
        if (!one->used || (memcmp(one->ends, ends, ENDS) == 0 && has_ssid(one, packet, octets))) return one;
    }
}

static void answer_code(uint8_t tag, uint8_t code) {
    const uint8_t octets[6] = {tag, 0, 0, 0, 1, code};
    memcpy(output + due, octets, 6);
    due += 6;
}

static void open_session(const uint8_t *body) {
    struct session *one;
    size_t place;
    uint8_t flags = body[27];
    if (body[21] > TWAMP || body[24] > 1 || flags & 0xfa || body[30] == 0 || get32(body + 35) != 0) exit(3);
    for (place = place_of(body); (one = &table[place])->used; place = (place + 1) % PLACES) {
        if (memcmp(one->ends, body, ENDS) == 0 && one->mode != body[21]) exit(3);
        if (memcmp(one->ends, body, ENDS) == 0 && memcmp(one->ssid, body + 22, 2) == 0) {
            answer_code(0x81, 1);
            return;
        }
    }
    if (body[21] == AUTHENTICATED && !(flags & 4)) exit(3);
    one->used = 1;
    memcpy(one->ends, body, ENDS);
    one->mode = body[21];
    memcpy(one->ssid, body + 22, 2);
    one->symmetrical = body[24];
    one->reflect = (uint16_t)(body[25] << 8 | body[26]);
    one->stateful = flags & 1;
    one->keyed = (flags & 4) != 0;
    memcpy(one->error, body + 29, 2);
    hash_key(one, body + 39);
    answer_code(0x81, 0);
}

/* Sets the flags of each TLV of a tail that was copied. */
static void flag_tail(const struct session *one, uint8_t *tail, size_t len) {
    size_t at = 0;
    while (len - at >= 4) {
        size_t next = at + 4 + ((size_t)tail[at + 2] << 8 | tail[at + 3]);
        uint8_t unknown = tail[at + 1] == 1 || (tail[at + 1] == 8 && one->keyed) ? 0 : 0x80;
        if (next > len) {
            tail[at] = unknown | 0x40;
            return;
        }
        tail[at] = unknown;
        at = next;
    }
}

/* The place of the HMAC TLV of a tail, or its length where it has none. One that doesn't hold isn't served. */
static size_t check_tail(const struct session *one, const uint8_t *packet, const uint8_t *tail, size_t len) {
    uint8_t digest[32];
    size_t at = 0, next;
    if (!one->keyed) return len;
    for (;; at = next) {
        if (len - at < 4) return len;
        next = at + 4 + ((size_t)tail[at + 2] << 8 | tail[at + 3]);
        if (tail[at + 1] == 8) break;
        if (next > len) return len;
    }
    if (next > len || next - at != 4 + MAC_LEN) exit(3);
    for (size_t later = next; len - later >= 4;) {
        if (tail[later + 1] != 1) exit(3);
        later += 4 + ((size_t)tail[later + 2] << 8 | tail[later + 3]);
        if (later > len) break;
    }
    mac(one, packet, 4, tail, at, digest);
    if (memcmp(digest, tail + at + 4, MAC_LEN) != 0) exit(3);
    return at;
}

static size_t reflect_plain(struct session *one, const uint8_t *body, const uint8_t *packet, size_t octets, uint8_t *reply) {
    size_t tail = octets - PLAIN_LEN, at;
    put32(reply, one->stateful ? one->count : get32(packet));
    put_stamp(reply + 4, get64(body + 31));
    memcpy(reply + 12, one->error, 2);
    memcpy(reply + 14, packet + 14, 2);
    put_stamp(reply + 16, get64(body + 23));
    memcpy(reply + 24, packet, 14);
    memset(reply + 38, 0, 6);
    reply[40] = body[21] ? body[22] : 255;
    if (tail == 0) return octets;
    at = check_tail(one, packet, packet + PLAIN_LEN, tail);
    memcpy(reply + PLAIN_LEN, packet + PLAIN_LEN, tail);
    flag_tail(one, reply + PLAIN_LEN, tail);
    if (at < tail) {
        uint8_t digest[32];
        mac(one, reply, 4, reply + PLAIN_LEN, at, digest);
        reply[PLAIN_LEN + at] = 0;
        memcpy(reply + PLAIN_LEN + at + 4, digest, MAC_LEN);
    }
    return octets;
}

static size_t reflect_authenticated(struct session *one, const uint8_t *body, const uint8_t *packet, size_t octets, uint8_t *reply) {
    uint8_t digest[32];
    if (octets > AUTH_LEN) exit(3);
    memset(reply, 0, COVERED);
    put32(reply, one->stateful ? one->count : get32(packet));
    put_stamp(reply + 16, get64(body + 31));
    memcpy(reply + 24, one->error, 2);
    memcpy(reply + 26, packet + 26, 2);
    put_stamp(reply + 32, get64(body + 23));
    memcpy(reply + 48, packet, 4);
    memcpy(reply + 64, packet + 16, 10);
    reply[80] = body[21] ? body[22] : 255;
    mac(one, reply, COVERED, 0, 0, digest);
    memcpy(reply + COVERED, digest, MAC_LEN);
    return octets;
}

static size_t reflect_test(struct session *one, const uint8_t *body, const uint8_t *packet, size_t octets, uint8_t *reply) {
    size_t from = one->symmetrical ? TEST_FIELDS : TEST_LEN;
    size_t padding = octets > from ? octets - from : 0, len;
    if (padding > one->reflect) padding = one->reflect;
    if (padding > 65507 - TEST_FIELDS) padding = 65507 - TEST_FIELDS;
    put32(reply, one->stateful ? one->count : get32(packet));
    put_stamp(reply + 4, get64(body + 31));
    memcpy(reply + 12, one->error, 2);
    memset(reply + 14, 0, 2);
    put_stamp(reply + 16, get64(body + 23));
    memcpy(reply + 24, packet, 14);
    memset(reply + 38, 0, 2);
    reply[40] = body[21] ? body[22] : 255;
    memcpy(reply + TEST_FIELDS, packet + from, padding);
    len = TEST_FIELDS + padding;
    if (len >= octets) return len;
    memset(reply + len, 0, octets - len);
    return octets;
}

/* Whether the ends and the TTL of a record are spelled as they may be. */
static int is_spelled(const uint8_t *body) {
    static const uint8_t zeros[12];
    if (body[2] == 4 ? memcmp(body + 7, zeros, 12) != 0 : body[2] != 6) return 0;
    return body[21] == 1 || (body[21] == 0 && body[22] == 0);
}

/* Why a datagram isn't reflected, or 0. */
static uint8_t judge(const struct session *one, const uint8_t *packet, size_t octets) {
    uint8_t digest[32];
    static const size_t least[] = {PLAIN_LEN, AUTH_LEN, TEST_LEN};
    if (octets < least[one->mode]) return 2;
    if (one->mode != AUTHENTICATED) return 0;
    mac(one, packet, COVERED, 0, 0, digest);
    return memcmp(digest, packet + COVERED, MAC_LEN) == 0 ? 0 : 3;
}

static void answer(const uint8_t *body, size_t len) {
    const uint8_t *packet = body + DATAGRAM_HEAD;
    size_t octets = len - DATAGRAM_HEAD, reply = 0;
    struct session *one = find(body, packet, octets);
    uint8_t *at = output + due, cause;
    if (!one->used) {
        answer_code(0x84, 1);
        return;
    }
    if ((cause = judge(one, packet, octets)) != 0) {
        answer_code(0x84, cause);
        return;
    }
    switch (one->mode) {
    case PLAIN: reply = reflect_plain(one, body, packet, octets, at + 31); break;
    case AUTHENTICATED: reply = reflect_authenticated(one, body, packet, octets, at + 31); break;
    case TWAMP: reply = reflect_test(one, body, packet, octets, at + 31); break;
    }
    at[0] = 0x84;
    put32(at + 1, (uint32_t)(26 + reply));
    at[5] = 0;
    memcpy(at + 6, body, ENDS);
    put32(at + 27, one->count++);
    due += 31 + reply;
}

int main(void) {
    for (;;) {
        size_t at = 0;
        ssize_t count;
        while (held - at >= 5) {
            size_t len = get32(input + at + 1);
            uint8_t tag = input[at];
            if (tag == 1 ? len != OPEN_BODY : tag != 4 || len < DATAGRAM_HEAD || len > DATAGRAM_BODY) return 6;
            if (held - at < 5 + len) break;
            if (due > WRITE_ROOM) flush();
            if (tag == 4 && !is_spelled(input + at + 5)) return 6;
            if (tag == 4) answer(input + at + 5, len);
            else open_session(input + at + 5);
            at += 5 + len;
        }
        memmove(input, input + at, held - at);
        held -= at;
        flush();
        count = read(0, input + held, READ_ROOM);
        if (count < 0) return 7;
        if (count == 0) return held == 0 ? 0 : 6;
        held += (size_t)count;
    }
}
