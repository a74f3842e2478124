/* SPDX-License-Identifier: Apache-2.0 */
/* The load of bench/run: session senders of STAMP that keep a number of datagrams under way, and count the replies.

       load PID THREADS WINDOW SESSIONS SECONDS PORT..

   There are as many sockets as threads, but no more than sessions. Session number i is sent from 127.1.(i / 256).(i % 256), at
   port FIRST_PORT + i % SOCKETS, with SSID i, to the port number i % PORTS of 127.0.0.1. Each thread keeps WINDOW datagrams
   under way. What process PID takes of the processor is measured over the same time. It prints replies, seconds, processor
   seconds of PID, datagrams without a reply, and wrong replies. */
#define _GNU_SOURCE
#include <arpa/inet.h>
#include <pthread.h>
#include <stdatomic.h>
#include <stdint.h>
#include <stdio.h>
#include <stdlib.h>
#include <string.h>
#include <sys/socket.h>
#include <sys/time.h>
#include <time.h>
#include <unistd.h>

enum { FIRST_PORT = 30100, THREADS = 16, BATCH = 64, PORTS = 16, LEN = 44, ROOM = 128, PATIENCE_MILLIS = 50 };

struct sender {
    pthread_t thread;
    int number, fd;
    uint32_t sequence, session;
    _Atomic uint64_t replies, lost, wrong;
    uint8_t octets[BATCH][ROOM];
    struct sockaddr_in ends[BATCH];
    struct iovec parts[BATCH];
    struct mmsghdr out[BATCH], in[BATCH];
    union {
        char room[CMSG_SPACE(sizeof(struct in_pktinfo))];
        struct cmsghdr align;
    } control[BATCH];
};

static struct sender senders[THREADS];
static int threads, sockets, window, sessions, ports, port[PORTS];
static atomic_int ended;

static void fail(const char *what) {
    perror(what);
    exit(1);
}

static void put32(uint8_t *at, uint32_t value) {
    value = htonl(value);
    memcpy(at, &value, 4);
}

/* The next session of a sender. */
static uint32_t turn(struct sender *one) {
    uint32_t session = one->session;
    one->session += (uint32_t)sockets;
    if (one->session >= (uint32_t)sessions) one->session = (uint32_t)one->number;
    return session;
}

static void prepare(struct sender *one, int at) {
    uint32_t session = turn(one);
    struct msghdr *head = &one->out[at].msg_hdr;
    memset(one->octets[at], 0, LEN);
    put32(one->octets[at], one->sequence++);
    one->octets[at][13] = 1;
    one->octets[at][14] = (uint8_t)(session >> 8);
    one->octets[at][15] = (uint8_t)session;
    one->ends[at] = (struct sockaddr_in){.sin_family = AF_INET, .sin_addr.s_addr = htonl(INADDR_LOOPBACK),
                                         .sin_port = htons((uint16_t)port[session % (uint32_t)ports])};
    one->parts[at] = (struct iovec){one->octets[at], LEN};
    *head = (struct msghdr){.msg_name = &one->ends[at], .msg_namelen = sizeof one->ends[at],
                            .msg_iov = &one->parts[at], .msg_iovlen = 1,
                            .msg_control = one->control[at].room, .msg_controllen = sizeof one->control[at].room};
    struct cmsghdr *part = CMSG_FIRSTHDR(head);
    struct in_pktinfo info = {.ipi_spec_dst.s_addr = htonl(0x7f010000u | (session & 0xffffu))};
    part->cmsg_level = IPPROTO_IP;
    part->cmsg_type = IP_PKTINFO;
    part->cmsg_len = CMSG_LEN(sizeof info);
    memcpy(CMSG_DATA(part), &info, sizeof info);
}

static void send_some(struct sender *one, int count) {
    while (count > 0) {
        int batch = count < BATCH ? count : BATCH;
        for (int at = 0; at < batch; at++) prepare(one, at);
        if (sendmmsg(one->fd, one->out, (unsigned)batch, 0) != batch) fail("sendmmsg");
        count -= batch;
    }
}

/* Whether a reply belongs to a session of this sender, with the sender's Error Estimate and TTL in their places. */
static int is_right(const struct sender *one, const uint8_t *octets, unsigned len) {
    uint32_t session = (uint32_t)(octets[14] << 8 | octets[15]);
    return len == LEN && session < (uint32_t)sessions && session % (uint32_t)sockets == (uint32_t)one->number
        && octets[37] == 1 && octets[40] == 255;
}

static void *run(void *given) {
    struct sender *one = given;
    struct iovec parts[BATCH];
    static _Thread_local uint8_t octets[BATCH][ROOM];
    int underway = window;
    for (int at = 0; at < BATCH; at++) {
        parts[at] = (struct iovec){octets[at], ROOM};
        one->in[at].msg_hdr = (struct msghdr){.msg_iov = &parts[at], .msg_iovlen = 1};
    }
    send_some(one, window);
    while (!ended) {
        int count = recvmmsg(one->fd, one->in, BATCH, MSG_WAITFORONE, NULL);
        if (count <= 0) {
            one->lost += (uint64_t)underway;
            underway = window;
            send_some(one, window);
            continue;
        }
        for (int at = 0; at < count; at++)
            if (!is_right(one, octets[at], one->in[at].msg_len)) one->wrong++;
        one->replies += (uint64_t)count;
        underway = window;
        send_some(one, count);
    }
    return NULL;
}

static void open_sender(struct sender *one, int number) {
    struct sockaddr_in local = {.sin_family = AF_INET, .sin_port = htons((uint16_t)(FIRST_PORT + number % sockets))};
    struct timeval wait = {.tv_usec = PATIENCE_MILLIS * 1000};
    int room = 4 << 20;
    one->number = number % sockets;
    one->session = (uint32_t)one->number;
    if (number >= sockets) {
        one->fd = senders[one->number].fd;
        return;
    }
    one->fd = socket(AF_INET, SOCK_DGRAM, 0);
    if (one->fd < 0 || bind(one->fd, (struct sockaddr *)&local, sizeof local)) fail("bind");
    setsockopt(one->fd, SOL_SOCKET, SO_RCVTIMEO, &wait, sizeof wait);
    setsockopt(one->fd, SOL_SOCKET, SO_RCVBUF, &room, sizeof room);
}

static double seconds_of(clockid_t clock) {
    struct timespec time;
    if (clock_gettime(clock, &time)) fail("clock_gettime");
    return (double)time.tv_sec + (double)time.tv_nsec / 1e9;
}

static void total(uint64_t *sums) {
    sums[0] = sums[1] = sums[2] = 0;
    for (int at = 0; at < threads; at++) {
        sums[0] += senders[at].replies;
        sums[1] += senders[at].lost;
        sums[2] += senders[at].wrong;
    }
}

int main(int count, char **words) {
    clockid_t clock;
    uint64_t before[3], after[3];
    if (count < 7 || count > 6 + PORTS) return 2;
    threads = atoi(words[2]);
    window = atoi(words[3]);
    sessions = atoi(words[4]);
    for (int at = 6; at < count; at++) port[ports++] = atoi(words[at]);
    if (threads < 1 || threads > THREADS || sessions < 1 || sessions > 65536) return 2;
    sockets = threads < sessions ? threads : sessions;
    if (clock_getcpuclockid((pid_t)atoi(words[1]), &clock)) fail("clock_getcpuclockid");
    for (int at = 0; at < threads; at++) open_sender(&senders[at], at);
    if (window > 0)
        for (int at = 0; at < threads; at++)
            if (pthread_create(&senders[at].thread, NULL, run, &senders[at])) fail("pthread_create");
    usleep(200000);
    total(before);
    double began = seconds_of(CLOCK_MONOTONIC), used = seconds_of(clock);
    usleep((useconds_t)(atof(words[5]) * 1e6));
    double wall = seconds_of(CLOCK_MONOTONIC) - began, processor = seconds_of(clock) - used;
    total(after);
    ended = 1;
    for (int at = 0; window > 0 && at < threads; at++) pthread_join(senders[at].thread, NULL);
    printf("%llu %.6f %.6f %llu %llu\n", (unsigned long long)(after[0] - before[0]), wall, processor,
           (unsigned long long)(after[1] - before[1]), (unsigned long long)(after[2] - before[2]));
}
