/* The bottling plant on the loopback: plant PLAN KBIT SECONDS. bin/plant builds and runs it, and draws what it prints.
   The plan's first leaf is the time class, the last four are cameras; every other leaf carries some events. The cameras send twice what
   the uplink takes, a time reply of 90 bytes goes every 40 ms, an event of 200 every 10. All of it comes as datagrams to a port for each
   class, and leaves by a socket paced to KBIT kbit/s: so many seconds through a plain loop, first in first out, and so many through the
   library. The plain loop has as many places as the library has for these leaves; where it is full it leaves packets in their ports, as
   the other does on 14. A reply's wait is what was charged on the link from when it was handed to its port until its last byte has gone.
   It prints
     plan Q WEIGHT CLASS
     side NAME replies N longest N usual N clock_longest US clock_usual US bound N nearest N sent BYTES packets N elapsed US
     each NAME WAIT ..
   `bound`: what was promised to the reply that waited longest, `nearest`: the most of its own bound that a reply used, in thousandths;
   both are 0 where nothing was promised. Status 1: the plan is refused, or a reply waited past its bound; 2: bad words; 3: it cannot run.
   Build: cc -std=c11 -O2 -pthread -I include examples/plant.c target/native/libcometbanjo.a -o plant */
#define _GNU_SOURCE
#include "cometbanjo.h"
#include <arpa/inet.h>
#include <errno.h>
#include <inttypes.h>
#include <poll.h>
#include <pthread.h>
#include <stdatomic.h>
#include <stdio.h>
#include <stdlib.h>
#include <string.h>
#include <sys/socket.h>
#include <time.h>
#include <unistd.h>

enum { SLOTS = CB_CLASSES * (CB_PLACES + 1), NONE = SLOTS, SIZE = 1500, REPLIES = 4096 };
enum { REPLY = 90, REPLY_EVERY = 40000000, EVENT = 200, EVENT_EVERY = 10000000 };

/* What a sender writes into each packet: the link's bytes and the clock when it went to its port. */
typedef struct stamp {
    uint64_t bytes, clock;
} stamp;

typedef struct reply {
    uint64_t wait, clock, bound, own;
} reply;

static uint8_t content[SLOTS][SIZE];
static uint32_t size_of[SLOTS], free_slots[SLOTS], free_count;
static uint64_t bound_of[SLOTS];
static int port[CB_CLASSES], to[CB_CLASSES], uplink, sink;
static uint32_t kept[CB_CLASSES];
static uint64_t kept_since[CB_CLASSES], kept_count;
static uint32_t camera_size[CB_CLASSES];

static cb_link link_;
static uint32_t fifo[SLOTS];
static uint8_t fifo_class[SLOTS];
static uint64_t fifo_first, fifo_held, fifo_room;

static uint64_t time_class, cameras[4], kbit;
static reply replies[REPLIES];
static uint64_t many, sent_packets;
static _Atomic uint64_t charged;
static atomic_int stop;

static uint64_t now(void) {
    struct timespec t;
    clock_gettime(CLOCK_MONOTONIC, &t);
    return (uint64_t)t.tv_sec * 1000000000u + (uint64_t)t.tv_nsec;
}

static int cannot(const char *what) {
    fprintf(stderr, "plant: %s%s%s\n", what, errno ? ": " : "", errno ? strerror(errno) : "");
    exit(3);
}

/* A port of the loopback that is free, and a socket that sends to it. */
static void pair(int *in, int *out) {
    struct sockaddr_in a;
    socklen_t n = sizeof a;
    memset(&a, 0, sizeof a);
    a.sin_family = AF_INET;
    a.sin_addr.s_addr = htonl(INADDR_LOOPBACK);
    *in = socket(AF_INET, SOCK_DGRAM | SOCK_CLOEXEC | SOCK_NONBLOCK, 0);
    *out = socket(AF_INET, SOCK_DGRAM | SOCK_CLOEXEC, 0);
    if (*in < 0 || *out < 0 || bind(*in, (struct sockaddr *)&a, sizeof a) || getsockname(*in, (struct sockaddr *)&a, &n) ||
        connect(*out, (struct sockaddr *)&a, sizeof a)) {
        cannot("a socket of the loopback");
    }
}

static void hand_over(uint64_t class_, uint32_t size) {
    uint8_t packet[SIZE] = { 0 };
    stamp s = { atomic_load(&charged), now() };
    memcpy(packet, &s, sizeof s);
    if (send(to[class_], packet, size, MSG_DONTWAIT) < 0) { /* the port is full: a camera's loss */ }
}

/* The plant's machines: what is due goes to its port, about every millisecond. What leaves the uplink is read and thrown away. */
static void *machines(void *unused) {
    uint64_t begin = now(), next_reply = begin + REPLY_EVERY / 2, next_event = begin, flooded = 0;
    uint8_t away[SIZE];
    (void)unused;
    while (!atomic_load(&stop)) {
        uint64_t time = now();
        /* twice the uplink's rate, the four cameras in turn */
        uint64_t due = (time - begin) / 1000u * kbit / 4000u;
        for (int burst = 0; flooded < due && burst < 64; burst++) {
            for (int k = 0; k < 4; k++) {
                hand_over(cameras[k], camera_size[cameras[k]]);
                flooded += cb_charge(camera_size[cameras[k]]);
            }
        }
        if (time >= next_event) {
            for (uint64_t c = 1; c < CB_CLASSES; c++) {
                int camera = c == cameras[0] || c == cameras[1] || c == cameras[2] || c == cameras[3];
                if (port[c] >= 0 && c != time_class && !camera) hand_over(c, camera_size[c] < EVENT ? camera_size[c] : EVENT);
            }
            next_event += EVENT_EVERY;
        }
        if (time >= next_reply) {
            hand_over(time_class, camera_size[time_class] < REPLY ? camera_size[time_class] : REPLY);
            next_reply += REPLY_EVERY;
        }
        while (recv(sink, away, sizeof away, 0) >= 0) { }
        struct timespec wait = { 0, 1000000 };
        nanosleep(&wait, NULL);
    }
    return NULL;
}

/* The two ways to choose: put a packet, or 14; take the next one, or 15. */
static uint64_t fifo_put(uint64_t class_, uint32_t slot) {
    if (fifo_held == fifo_room) return CB_FULL;
    uint64_t at = (fifo_first + fifo_held++) % fifo_room;
    fifo[at] = slot;
    fifo_class[at] = (uint8_t)class_;
    return 0;
}

static uint64_t fifo_take(uint64_t *class_, uint32_t *slot, uint64_t *own) {
    if (!fifo_held) return CB_NOTHING;
    *slot = fifo[fifo_first];
    *class_ = fifo_class[fifo_first];
    *own = 0;
    fifo_first = (fifo_first + 1) % fifo_room;
    fifo_held--;
    return 0;
}

static uint64_t our_put(uint64_t class_, uint32_t slot) {
    cb_answer answer;
    cb_offered offered;
    bound_of[slot] = class_ == time_class && !cb_offer(&link_, class_, size_of[slot], &offered) ? offered.bound : 0;
    return cb_arrive(&link_, class_, size_of[slot], slot, &answer);
}

static uint64_t our_take(uint64_t *class_, uint32_t *slot, uint64_t *own) {
    cb_answer answer;
    uint64_t number = cb_send(&link_, &answer);
    *class_ = answer.class_;
    *slot = (uint32_t)answer.tag;
    *own = answer.bytes;
    return number;
}

typedef struct way {
    const char *name;
    uint64_t (*put)(uint64_t, uint32_t);
    uint64_t (*take)(uint64_t *, uint32_t *, uint64_t *);
} way;

static void offer(const way *by, uint64_t class_, uint32_t slot) {
    uint64_t number = by->put(class_, slot);
    if (number == CB_FULL) {
        if (kept[class_] == NONE) kept_since[class_] = ++kept_count;
        kept[class_] = slot;
        return;
    }
    kept[class_] = NONE;
    if (number) cannot("a packet of the plant is refused");
}

/* Offers again what was kept: the packets in the order in which they were kept, until one is refused again. */
static void offer_again(const way *by, uint64_t class_) {
    if (by->put == our_put) {
        if (kept[class_] != NONE) offer(by, class_, kept[class_]);
        return;
    }
    uint64_t first = 0;
    for (uint64_t c = 1; c < CB_CLASSES; c++) {
        if (kept[c] != NONE && (!first || kept_since[c] < kept_since[first])) first = c;
    }
    if (first) offer(by, first, kept[first]);
}

static void loop(const way *by, uint64_t until) {
    struct pollfd polled[CB_CLASSES];
    uint64_t wire_free = now(), time, class_ = 0, own = 0;
    uint32_t slot = 0;
    while ((time = now()) < until) {
        for (uint64_t c = 1; c < CB_CLASSES; c++) {
            while (port[c] >= 0 && kept[c] == NONE) {
                uint32_t into = free_slots[--free_count];
                ssize_t n = recv(port[c], content[into], SIZE, 0);
                if (n < 0) {
                    free_slots[free_count++] = into;
                    break;
                }
                size_of[into] = (uint32_t)n;
                offer(by, c, into);
            }
        }
        time = now();
        uint64_t wake = until;
        if (time >= wire_free) {
            uint64_t number = by->take(&class_, &slot, &own);
            if (!number) {
                uint64_t cost = cb_charge(size_of[slot]);
                stamp s;
                memcpy(&s, content[slot], sizeof s);
                if (send(uplink, content[slot], size_of[slot], MSG_DONTWAIT) < 0) { /* nobody reads: it is paced all the same */ }
                if (wire_free + 2000000u < time) wire_free = time;
                wire_free += cost * 8000000u / kbit;
                uint64_t total = atomic_fetch_add(&charged, cost) + cost;
                sent_packets++;
                if (class_ == time_class && many < REPLIES) {
                    uint64_t end = wire_free > time ? wire_free : time;
                    replies[many++] = (reply){ total - s.bytes, end - s.clock, by->put == our_put ? bound_of[slot] : 0, own };
                }
                free_slots[free_count++] = slot;
                offer_again(by, class_);
                continue;
            }
            if (number != CB_NOTHING) cannot("the link is not sound");
        } else if (wire_free < wake) {
            wake = wire_free;
        }
        nfds_t n = 0;
        for (uint64_t c = 1; c < CB_CLASSES; c++) {
            if (port[c] < 0 || kept[c] != NONE) continue;
            polled[n].fd = port[c];
            polled[n].events = POLLIN;
            n++;
        }
        time = now();
        uint64_t rest = wake > time ? wake - time : 0;
        struct timespec wait = { (time_t)(rest / 1000000000u), (long)(rest % 1000000000u) };
        ppoll(polled, n, &wait, NULL);
    }
}

static int by_number(const void *a, const void *b) {
    uint64_t x = *(const uint64_t *)a, y = *(const uint64_t *)b;
    return x < y ? -1 : x > y;
}

/* One side, and its lines; whether a reply waited past its bound. */
static int play(const way *by, uint64_t seconds) {
    static uint64_t waits[REPLIES], clocks[REPLIES];
    pthread_t thread;
    uint64_t longest = 0, bound = 0, nearest = 0, begin;
    int past = 0;
    free_count = 0;
    for (uint32_t s = 0; s < SLOTS; s++) free_slots[free_count++] = s;
    for (uint64_t c = 0; c < CB_CLASSES; c++) {
        kept[c] = NONE;
        if (port[c] >= 0) {
            close(port[c]);
            close(to[c]);
            pair(&port[c], &to[c]);
        }
    }
    many = sent_packets = kept_count = 0;
    atomic_store(&charged, 0);
    atomic_store(&stop, 0);
    begin = now();
    errno = pthread_create(&thread, NULL, machines, NULL);
    if (errno) cannot("a thread");
    loop(by, begin + seconds * 1000000000u);
    uint64_t elapsed = (now() - begin) / 1000u;
    atomic_store(&stop, 1);
    pthread_join(thread, NULL);
    errno = 0;
    if (!many) cannot("no time reply came through");
    for (uint64_t i = 0; i < many; i++) {
        const reply *r = &replies[i];
        waits[i] = r->wait;
        clocks[i] = r->clock / 1000u;
        if (r->wait > longest) {
            longest = r->wait;
            bound = r->bound;
        }
        if (r->bound && r->own * 1000u / r->bound > nearest) nearest = r->own * 1000u / r->bound;
        if (r->bound && r->own > r->bound) past = 1;
    }
    qsort(waits, many, sizeof *waits, by_number);
    qsort(clocks, many, sizeof *clocks, by_number);
    printf("side %s replies %" PRIu64 " longest %" PRIu64 " usual %" PRIu64, by->name, many, longest, waits[many / 2]);
    printf(" clock_longest %" PRIu64 " clock_usual %" PRIu64, clocks[many - 1], clocks[many / 2]);
    printf(" bound %" PRIu64 " nearest %" PRIu64 " sent %" PRIu64 " packets %" PRIu64 " elapsed %" PRIu64 "\n", bound, nearest,
        (uint64_t)atomic_load(&charged), sent_packets, elapsed);
    printf("each %s", by->name);
    for (uint64_t i = 0; i < many; i++) printf(" %" PRIu64, replies[i].wait);
    putchar('\n');
    if (fflush(stdout)) cannot("standard output cannot be written");
    return past;
}

static int count_of(const char *word, uint64_t least, uint64_t most, uint64_t *n) {
    char *end;
    errno = 0;
    *n = strtoull(word, &end, 10);
    return *word >= '0' && *word <= '9' && !*end && !errno && *n >= least && *n <= most;
}

int main(int words, char **word) {
    static uint8_t plan[CB_PLAN_BYTES + 1];
    uint64_t seconds, leaves = 0, last[CB_CLASSES];
    if (words != 4 || !count_of(word[2], 1000, 100000, &kbit) || !count_of(word[3], 1, 60, &seconds)) {
        fputs("plant: expected PLAN KBIT SECONDS: a plan's bytes, 1,000 to 100,000 kbit/s, 1 to 60 seconds a side\n", stderr);
        return 2;
    }
    errno = 0;
    if (!cb_fits()) cannot("the header and the library do not fit: build it again");
    FILE *file = fopen(word[1], "rb");
    if (!file) {
        fprintf(stderr, "plant: no file %s\n", word[1]);
        return 2;
    }
    size_t n = fread(plan, 1, sizeof plan, file);
    fclose(file);
    cb_said said;
    if (cb_open(&link_, plan, n, &said)) {
        fprintf(stderr, "plant: the plan is refused by %" PRIu64 " at %" PRIu64 "\n", said.number, said.place);
        return 1;
    }
    for (uint64_t c = 0; c < CB_CLASSES; c++) {
        port[c] = to[c] = -1;
        if (!cb_is_leaf(&link_, c)) continue;
        last[leaves++] = c;
        camera_size[c] = (uint32_t)(cb_longest(&link_, c) < SIZE ? cb_longest(&link_, c) : SIZE);
        if (camera_size[c] < sizeof(stamp)) {
            fprintf(stderr, "plant: class %" PRIu64 " takes no packet of %zu bytes\n", c, sizeof(stamp));
            return 2;
        }
    }
    if (leaves < 5) {
        fputs("plant: expected a plan with five leaves or more\n", stderr);
        return 2;
    }
    time_class = last[0];
    for (int k = 0; k < 4; k++) cameras[k] = last[leaves - 4 + (uint64_t)k];
    for (uint64_t i = 0; i < leaves; i++) pair(&port[last[i]], &to[last[i]]);
    pair(&sink, &uplink);
    fifo_room = leaves * CB_PLACES;
    printf("plan %" PRIu64 " %" PRIu64 " %" PRIu64 "\n", cb_round_size(&link_), cb_weight(&link_, time_class), time_class);
    fflush(stdout);

    const way plain = { "fifo", fifo_put, fifo_take }, ours = { "ours", our_put, our_take };
    int past = play(&plain, seconds);
    return play(&ours, seconds) || past;
}
