/* A box's loop in C over the library: gateway PLAN KBIT PORT UPLINK [SECONDS].
   Each leaf of the plan (its bytes, a file) has a UDP port of its own on the loopback, PORT plus its class number: a datagram there stands
   for a frame of that class. What is to go is sent to UPLINK on the loopback, paced to KBIT kbit/s, the charge of each packet counted. It
   runs until SIGINT or SIGTERM, or so many seconds, and then prints a line for each leaf. A packet that is refused by 14 is kept, what
   follows it in its class stays in the port behind it, and it is offered again after the next send of its class: nothing that fits its
   leaf is dropped here. Nothing but 127.0.0.1 is used. Status 1: the plan is refused; 2: bad words; 3: it cannot run.
   Build: cc -std=c11 -O2 -I include examples/gateway.c target/native/libcometbanjo.a -o gateway */
#define _GNU_SOURCE
#include "cometbanjo.h"
#include <arpa/inet.h>
#include <errno.h>
#include <inttypes.h>
#include <poll.h>
#include <signal.h>
#include <stdio.h>
#include <stdlib.h>
#include <string.h>
#include <sys/socket.h>
#include <time.h>
#include <unistd.h>

/* A waiting packet lies in a slot, and its tag is the slot's number. A leaf has 32 in the link and one that is kept. */
enum { SLOTS = CB_CLASSES * (CB_PLACES + 1), NONE = SLOTS };
static uint8_t content[SLOTS][CB_LONGEST];
static uint32_t size_of[SLOTS], free_slots[SLOTS], free_count;

typedef struct leaf {
    int port;                                 /* its socket, -1 where the class is no leaf */
    uint32_t kept;                            /* the packet that 14 has refused, or NONE */
    uint64_t in, out, again, refused, longest_wait;
} leaf;

static cb_link link_;
static leaf leaves[CB_CLASSES];
static volatile sig_atomic_t ended;
static uint64_t uplink_lost;

static void end_it(int number) {
    (void)number;
    ended = 1;
}

static int cannot(const char *what) {
    fprintf(stderr, "gateway: %s%s%s\n", what, errno ? ": " : "", errno ? strerror(errno) : "");
    return 3;
}

static uint64_t now(void) {
    struct timespec t;
    clock_gettime(CLOCK_MONOTONIC, &t);
    return (uint64_t)t.tv_sec * 1000000000u + (uint64_t)t.tv_nsec;
}

static struct sockaddr_in loopback(uint64_t port) {
    struct sockaddr_in a;
    memset(&a, 0, sizeof a);
    a.sin_family = AF_INET;
    a.sin_port = htons((uint16_t)port);
    a.sin_addr.s_addr = htonl(INADDR_LOOPBACK);
    return a;
}

static int count_of(const char *word, uint64_t least, uint64_t most, uint64_t *n) {
    char *end;
    errno = 0;
    *n = strtoull(word, &end, 10);
    return *word >= '0' && *word <= '9' && !*end && !errno && *n >= least && *n <= most;
}

/* Offers the packet in a slot to the link. Accepted: 0. Kept: 14. Else it is handed back, here: counted and gone. */
static uint64_t offer(uint64_t class_, uint32_t slot) {
    cb_answer answer;
    leaf *at = &leaves[class_];
    uint64_t number = cb_arrive(&link_, class_, size_of[slot], slot, &answer);
    at->kept = NONE;
    if (!number) {
        at->in++;
    } else if (number == CB_FULL) {
        at->kept = slot;
        at->again++;
    } else {
        at->refused++;
        free_slots[free_count++] = slot;
    }
    return number;
}

/* Takes what has come to a leaf's port until it is empty or a packet is kept. */
static uint64_t take(uint64_t class_) {
    leaf *at = &leaves[class_];
    while (at->kept == NONE) {
        uint32_t slot = free_slots[--free_count];
        ssize_t n = recv(at->port, content[slot], sizeof content[slot], MSG_DONTWAIT | MSG_TRUNC);
        if (n < 0) {
            free_slots[free_count++] = slot;
            return 0;
        }
        size_of[slot] = (uint32_t)n;
        if (offer(class_, slot) == CB_UNSOUND) return CB_UNSOUND;
    }
    return 0;
}

/* The wire is free: 0 and what was charged, or the refusal. */
static uint64_t serve(int uplink, uint64_t *charged) {
    cb_answer answer;
    uint64_t number = cb_send(&link_, &answer);
    if (number) return number;
    leaf *at = &leaves[answer.class_];
    uint32_t slot = (uint32_t)answer.tag;
    while (send(uplink, content[slot], answer.length, 0) < 0) {
        if (errno == EINTR || errno == EAGAIN || errno == ENOBUFS) continue;
        uplink_lost++; /* nobody listens there */
        break;
    }
    free_slots[free_count++] = slot;
    at->out++;
    if (answer.bytes > at->longest_wait) at->longest_wait = answer.bytes;
    *charged = cb_charge(answer.length);
    if (at->kept != NONE && offer(answer.class_, at->kept) == CB_UNSOUND) return CB_UNSOUND;
    return 0;
}

/* The loop. It ends by a signal or at a time. */
static uint64_t loop(int uplink, uint64_t kbit, uint64_t until) {
    struct pollfd ports[CB_CLASSES];
    uint64_t wire_free = now(), charged;
    while (!ended && now() < until) {
        for (uint64_t c = 1; c < CB_CLASSES; c++) {
            if (leaves[c].port >= 0 && take(c) == CB_UNSOUND) return CB_UNSOUND;
        }
        uint64_t time = now(), wake = until;
        if (time >= wire_free) {
            uint64_t number = serve(uplink, &charged);
            if (number == CB_UNSOUND) return number;
            if (!number) {
                /* a loop that woke late does not slow the wire down; after idling it begins anew */
                if (wire_free + 2000000u < time) wire_free = time;
                wire_free += charged * 8000000u / kbit;
                continue;
            }
        } else if (cb_waiting(&link_) && wire_free < wake) {
            wake = wire_free;
        }
        nfds_t n = 0;
        for (uint64_t c = 1; c < CB_CLASSES; c++) {
            if (leaves[c].port < 0 || leaves[c].kept != NONE) continue;
            ports[n].fd = leaves[c].port;
            ports[n].events = POLLIN;
            n++;
        }
        time = now();
        uint64_t rest = wake > time ? wake - time : 0;
        struct timespec wait = { (time_t)(rest / 1000000000u), (long)(rest % 1000000000u) };
        ppoll(ports, n, until == UINT64_MAX && wake == until ? NULL : &wait, NULL);
    }
    return 0;
}

int main(int words, char **word) {
    static uint8_t plan[CB_PLAN_BYTES + 1];
    uint64_t kbit, port, to, seconds = 0;
    if (words < 5 || words > 6 || !count_of(word[2], 1, 10000000, &kbit) || !count_of(word[3], 1024, 65472, &port) ||
        !count_of(word[4], 1024, 65535, &to) || (words == 6 && !count_of(word[5], 1, 86400, &seconds))) {
        fputs("gateway: expected PLAN KBIT PORT UPLINK [SECONDS]: a plan's bytes, 1 to 10,000,000 kbit/s, ports from 1,024 on\n", stderr);
        return 2;
    }
    if (!cb_fits()) return cannot("the header and the library do not fit: build it again");
    FILE *file = fopen(word[1], "rb");
    if (!file) {
        cannot(word[1]);
        return 2;
    }
    size_t n = fread(plan, 1, sizeof plan, file);
    fclose(file);
    cb_said said;
    if (cb_open(&link_, plan, n, &said)) {
        fprintf(stderr, "gateway: the plan is refused by %" PRIu64 " at %" PRIu64 "\n", said.number, said.place);
        return 1;
    }

    int uplink = socket(AF_INET, SOCK_DGRAM | SOCK_CLOEXEC, 0);
    struct sockaddr_in address = loopback(to);
    if (uplink < 0 || connect(uplink, (struct sockaddr *)&address, sizeof address)) return cannot("the uplink's socket");
    for (uint32_t slot = 0; slot < SLOTS; slot++) free_slots[free_count++] = slot;
    for (uint64_t c = 0; c < CB_CLASSES; c++) {
        leaves[c].port = -1;
        leaves[c].kept = NONE;
        if (!cb_is_leaf(&link_, c)) continue;
        address = loopback(port + c);
        leaves[c].port = socket(AF_INET, SOCK_DGRAM | SOCK_CLOEXEC, 0);
        if (leaves[c].port < 0 || bind(leaves[c].port, (struct sockaddr *)&address, sizeof address)) return cannot("a class's port");
    }
    struct sigaction act;
    memset(&act, 0, sizeof act);
    act.sa_handler = end_it;
    sigaction(SIGINT, &act, NULL);
    sigaction(SIGTERM, &act, NULL);

    printf("gateway: %" PRIu64 " classes, Q %" PRIu64 ", %" PRIu64 " kbit/s to 127.0.0.1:%" PRIu64, cb_classes(&link_),
        cb_round_size(&link_), kbit, to);
    printf("; class c listens at %" PRIu64 " + c\n", port);
    fflush(stdout);
    uint64_t number = loop(uplink, kbit, seconds ? now() + seconds * 1000000000u : UINT64_MAX);
    for (uint64_t c = 1; c < CB_CLASSES; c++) {
        const leaf *at = &leaves[c];
        if (at->port < 0) continue;
        printf("class %" PRIu64 ": in %" PRIu64 ", out %" PRIu64 ", waiting %" PRIu64, c, at->in, at->out, link_.packets[c]);
        printf(", kept and offered again %" PRIu64 ", refused %" PRIu64 ", longest wait %" PRIu64 " bytes\n", at->again, at->refused,
            at->longest_wait);
    }
    if (uplink_lost) printf("nobody listened at the uplink for %" PRIu64 " packets\n", uplink_lost);
    errno = 0;
    if (number == CB_UNSOUND) return cannot("the link is not sound: something else wrote to it");
    return fflush(stdout) ? cannot("standard output cannot be written") : 0;
}
