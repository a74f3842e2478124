/* SPDX-License-Identifier: Apache-2.0 */
/* A reference for bench/run: a STAMP reflector as plain C would be, with the socket calls of `stampd run` and one thread for
   each worker. It reads its sessions from standard input, a line "LOCAL PEER PORT SSID" each, binds 127.0.0.1 at the ports
   of its words, and serves unauthenticated STAMP, stateful, with NTP timestamps, until it is ended by a signal.

       reflector WORKERS PORT.. <sessions */
#define _GNU_SOURCE
#include <arpa/inet.h>
#include <errno.h>
#include <pthread.h>
#include <stdatomic.h>
#include <stdint.h>
#include <stdio.h>
#include <stdlib.h>
#include <string.h>
#include <sys/epoll.h>
#include <sys/socket.h>
#include <sys/time.h>
#include <time.h>

enum { PLACES = 1 << 15, LOCALS = 16, WORKERS = 64, ROOM = 65536, PLAIN_LEN = 44, WAIT_MILLIS = 100, NANOS = 1000000000 };

struct session {
    uint32_t address;
    uint16_t local, port, ssid, used;
    atomic_uint count;
};

static struct session table[PLACES];
static int sockets[LOCALS], locals, set = -1;

static void fail(const char *what) {
    perror(what);
    exit(1);
}

static uint32_t place(uint16_t local, uint32_t address, uint16_t port, uint16_t ssid) {
    uint64_t hash = (uint64_t)address << 32 | (uint64_t)port << 16 | ssid;
    return (uint32_t)((hash ^ local) * 0x9e3779b97f4a7c15u >> 49);
}

/* The session of these ends, or the free place where it belongs. */
static struct session *find(uint16_t local, uint32_t address, uint16_t port, uint16_t ssid) {
    for (uint32_t at = place(local, address, port, ssid);; at = (at + 1) % PLACES) {
        struct session *one = &table[at];
        if (!one->used) return one;
        if (one->address == address && one->port == port && one->local == local && one->ssid == ssid) return one;
    }
}

static void read_sessions(void) {
    unsigned local, port, ssid;
    char peer[32];
    for (int open = 0; open < PLACES / 2 && scanf("%u %31s %u %u", &local, peer, &port, &ssid) == 4; open++) {
        uint32_t address = ntohl(inet_addr(peer));
        struct session *one = find((uint16_t)local, address, (uint16_t)port, (uint16_t)ssid);
        one->address = address;
        one->local = (uint16_t)local;
        one->port = (uint16_t)port;
        one->ssid = (uint16_t)ssid;
        one->used = 1;
    }
}

static void put32(uint8_t *at, uint32_t value) {
    value = htonl(value);
    memcpy(at, &value, 4);
}

static void put_stamp(uint8_t *at, const struct timespec *moment) {
    put32(at, (uint32_t)((uint64_t)moment->tv_sec + 2208988800u));
    put32(at + 4, (uint32_t)(((uint64_t)moment->tv_nsec << 32) / NANOS));
}

/* The reply of RFC 8762, section 4.3.1, with the octets behind the base packet as they came. */
static void reflect(const uint8_t *in, size_t len, uint8_t *out, uint32_t count, const struct timespec *arrival) {
    struct timespec now;
    put32(out, count);
    memcpy(out + 12, "\0\1", 2);
    memcpy(out + 14, in + 14, 2);
    put_stamp(out + 16, arrival);
    memcpy(out + 24, in, 14);
    memcpy(out + 38, "\0\0\377\0\0\0", 6);
    memcpy(out + PLAIN_LEN, in + PLAIN_LEN, len - PLAIN_LEN);
    clock_gettime(CLOCK_REALTIME, &now);
    put_stamp(out + 4, &now);
}

static void answer(int local, const uint8_t *in, size_t len, uint8_t *out, const struct sockaddr_in *from) {
    struct timespec arrival;
    clock_gettime(CLOCK_REALTIME, &arrival);
    if (len < PLAIN_LEN) return;
    uint16_t ssid = (uint16_t)(in[14] << 8 | in[15]);
    struct session *one = find((uint16_t)local, ntohl(from->sin_addr.s_addr), ntohs(from->sin_port), ssid);
    if (!one->used) return;
    reflect(in, len, out, atomic_fetch_add(&one->count, 1), &arrival);
    sendto(sockets[local], out, len, MSG_NOSIGNAL, (const struct sockaddr *)from, sizeof *from);
}

/* One datagram of a socket, where there is one before its time is up. */
static int take(int local, uint8_t *in, uint8_t *out) {
    struct sockaddr_in from;
    socklen_t size = sizeof from;
    ssize_t len = recvfrom(sockets[local], in, ROOM, set < 0 ? 0 : MSG_DONTWAIT, (struct sockaddr *)&from, &size);
    if (len < 0) return 0;
    answer(local, in, (size_t)len, out, &from);
    return 1;
}

static void *work(void *unused) {
    uint8_t *in = malloc(ROOM), *out = malloc(ROOM);
    struct epoll_event event;
    (void)unused;
    if (!in || !out) fail("malloc");
    for (int turn = 0, idle = 0;; turn = (turn + 1) % locals) {
        idle = take(turn, in, out) ? 0 : idle + 1;
        if (idle < locals || set < 0) continue;
        epoll_wait(set, &event, 1, WAIT_MILLIS);
        idle = 0;
    }
    return NULL;
}

static void open_local(int port) {
    struct sockaddr_in local = {
        .sin_family = AF_INET, .sin_addr.s_addr = htonl(INADDR_LOOPBACK), .sin_port = htons((uint16_t)port)};
    struct timeval wait = {.tv_usec = WAIT_MILLIS * 1000};
    struct epoll_event event = {.events = EPOLLIN | EPOLLET};
    int room = 4 << 20;
    int fd = socket(AF_INET, SOCK_DGRAM | SOCK_CLOEXEC, 0);
    if (fd < 0 || bind(fd, (struct sockaddr *)&local, sizeof local)) fail("bind");
    setsockopt(fd, SOL_SOCKET, SO_RCVTIMEO, &wait, sizeof wait);
    setsockopt(fd, SOL_SOCKET, SO_SNDTIMEO, &wait, sizeof wait);
    setsockopt(fd, SOL_SOCKET, SO_RCVBUF, &room, sizeof room);
    if (set >= 0 && epoll_ctl(set, EPOLL_CTL_ADD, fd, &event)) fail("epoll_ctl");
    sockets[locals++] = fd;
}

int main(int count, char **words) {
    int workers = count > 2 ? atoi(words[1]) : 0;
    pthread_t threads[WORKERS];
    if (workers < 1 || workers > WORKERS || count > 2 + LOCALS) return 2;
    read_sessions();
    if (count > 3 && (set = epoll_create1(EPOLL_CLOEXEC)) < 0) fail("epoll_create1");
    for (int at = 2; at < count; at++) open_local(atoi(words[at]));
    puts("ready");
    fflush(stdout);
    for (int at = 0; at < workers; at++)
        if (pthread_create(&threads[at], NULL, work, NULL)) fail("pthread_create");
    for (int at = 0; at < workers; at++) pthread_join(threads[at], NULL);
}
