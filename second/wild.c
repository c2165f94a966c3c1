/* Any bytes as a link, through the C face: wild HOW_MANY SEED. bin/compare-box builds it, with the C compiler's sanitizers, and runs it.
   Three trials, so many times each, on random plans with random packets in them:
   - random blocks of 32,440 bytes: every call gives 11, and not a byte changes;
   - good links with one bit or one number changed: no call faults; a refused call, and one that only asks, leaves all 32,440 bytes
     unchanged; 11 is given exactly where a second reading of the soundness list (R101 to R115, R278) finds the link unsound, and after
     each call that is not refused it finds it sound (R116);
   - bursts against single calls: the same answers, row by row, on events cut anywhere and with any room, and the same link after them.
   Every array ends at a page that cannot be touched, so that one byte too many is a fault; in every other turn it begins after one. The
   same seed does the same on every machine.
   Status 1: something differs, and it says what and at which turn; 2: bad words; 3: it cannot run. */
#define _GNU_SOURCE
#include "cometbanjo.h"
#include <inttypes.h>
#include <stdio.h>
#include <stdlib.h>
#include <string.h>
#include <sys/mman.h>
#include <unistd.h>

enum { EVENTS = 4096, ROWS = 64, SIDES = 2 };

/* An array between two pages that cannot be touched, at the end or at the start of what lies between them. */
static void *guarded(size_t size, int side) {
    size_t page = (size_t)sysconf(_SC_PAGESIZE), inner = (size + page - 1) / page * page;
    uint8_t *all = mmap(NULL, inner + 2 * page, PROT_NONE, MAP_PRIVATE | MAP_ANONYMOUS, -1, 0);
    if (all == MAP_FAILED || mprotect(all + page, inner, PROT_READ | PROT_WRITE)) {
        perror("wild: mmap");
        exit(3);
    }
    return side ? all + page : all + page + inner - size;
}

static uint64_t state, turn;
static uint64_t any(void) {
    uint64_t x = state += 0x9e3779b97f4a7c15u;
    x = (x ^ x >> 30) * 0xbf58476d1ce4e5b9u;
    x = (x ^ x >> 27) * 0x94d049bb133111ebu;
    return x ^ x >> 31;
}
static uint64_t below(uint64_t n) {
    return any() % n;
}

static cb_link *links[SIDES], *others[SIDES], was;
static uint8_t *events[SIDES], *plans[SIDES];
static cb_answer *rows[SIDES], *answers[SIDES];
static uint64_t counts[3][32];

static void differs(const char *what, uint64_t number) {
    printf("turn %" PRIu64 ": %s (number %" PRIu64 ")\n", turn, what, number);
    exit(1);
}

/* The second reading of the soundness list: plain, from the rules, over a link of any numbers. */
static int plan_holds(const uint64_t *parent, const uint64_t *weight, const uint64_t *longest, uint64_t count, uint64_t leaves) {
    if (count < 1 || count > 63 || (leaves & 1) || (count < 63 && leaves >> (count + 1))) return 0;
    for (uint64_t i = 0; i < 64; i++) {
        int leaf = (int)(leaves >> i & 1);
        if (i < 1 || i > count) {
            if (parent[i] || weight[i] || longest[i]) return 0;
        } else if (parent[i] >= i || (leaves >> parent[i] & 1) || weight[i] < 1 || weight[i] > 1000000) {
            return 0;
        } else if (leaf ? longest[i] < 1 || longest[i] > CB_LONGEST : longest[i] != 0) {
            return 0;
        }
    }
    for (uint64_t i = 1; i <= count; i++) {
        uint64_t sum = 0, children = 0;
        for (uint64_t k = i + 1; k <= count; k++) {
            if (parent[k] != i) continue;
            sum += weight[k];
            children++;
        }
        if (!(leaves >> i & 1) && (!children || sum > weight[i])) return 0;
    }
    return 1;
}

static int reads_sound(const cb_link *l) {
    const uint64_t *parent = l->shape, *weight = l->shape + 64, *longest = l->shape + 128;
    const uint64_t count = l->shape[192], leaves = l->shape[193], follows = l->shape[194] == 1;
    const uint64_t size = l->stand[0], active = l->stand[1], place = l->stand[2];
    uint64_t packets[64] = { 0 }, bytes[64] = { 0 }, above = 0, whole = 0, sum = 0;
    if (!plan_holds(parent, weight, longest, count, leaves)) return 0;                  /* R101 */
    for (uint64_t i = 1; i <= count; i++) whole += weight[i] + (leaves >> i & 1 ? cb_charge(longest[i]) : 0);
    if (follows ? size > whole : size != whole) return 0;                                              /* R102, R232 */
    for (uint64_t i = 0; i < 64; i++) {
        if (l->start[i] > 31 || l->held[i] > 32 || (l->held[i] && !(leaves >> i & 1))) return 0;         /* R103, R105, R107 */
        for (uint64_t k = 0; k < l->held[i]; k++) {
            uint64_t length = l->lengths[i * 32 + (l->start[i] + k) % 32];
            if (length < 1 || length > longest[i]) return 0;                                           /* R104 */
            bytes[i] += cb_charge(length);
        }
        packets[i] = l->held[i];
    }
    if (count < 63 && active >> (count + 1)) return 0;                                                 /* R108 */
    for (uint64_t i = count; i >= 1; i--) {
        packets[parent[i]] += packets[i];
        bytes[parent[i]] += bytes[i];
        if ((leaves >> i & 1) && (active >> i & 1)) {
            uint64_t first = cb_charge(l->lengths[i * 32 + l->start[i]]);
            if (!l->held[i] || (i < place && l->balance[i] >= first)) return 0;                        /* R106, R114 */
            above |= (uint64_t)1 << i;
        }
        if (above >> i & 1) above |= (uint64_t)1 << parent[i];
    }
    if (above != active) return 0;                                                                     /* R109 */
    for (uint64_t i = 0; i < 64; i++) {
        if (l->packets[i] != packets[i] || l->bytes[i] != bytes[i]) return 0;                          /* R278 */
        if (i && !(active >> i & 1) && (l->balance[i] || l->residual[i])) return 0;                    /* R110 */
        if ((leaves >> i & 1) && l->residual[i]) return 0;                                             /* R111 */
        if (l->balance[i] > size || l->residual[i] > size) return 0;                                   /* so that the sum does not wrap */
        sum += l->balance[i] + l->residual[i];
    }
    return sum == size && place >= 1 && place <= 64;                                                   /* R112, R113 */
}

/* A good plan: random parents, weights bottom up, an inner class without a child made a leaf. */
static size_t random_plan(uint8_t *out) {
    uint32_t parent[64] = { 0 }, weight[64] = { 0 }, longest[64] = { 0 }, children[64] = { 0 };
    uint8_t inner[64] = { 1 };
    uint32_t count = 1 + (uint32_t)below(below(3) ? 8 : 63), most = below(2) ? 9216 : 1 + (uint32_t)below(200);
    for (uint32_t i = 1; i <= count; i++) {
        do parent[i] = (uint32_t)below(i);
        while (!inner[parent[i]]);
        inner[i] = below(3) == 0;
        children[parent[i]]++;
    }
    for (uint32_t i = count; i >= 1; i--) {
        if (!children[i]) inner[i] = 0;
        if (!inner[i]) weight[i] = 1 + (uint32_t)below(below(2) ? 10 : 10000);
        else weight[i] += (uint32_t)below(3);
        longest[i] = inner[i] ? 0 : 1 + (uint32_t)below(most);
        weight[parent[i]] += weight[i];
    }
    size_t n = 0;
    if (below(2)) {
        out[n++] = 3;
        out[n++] = (uint8_t)(1 + below(2));
    }
    for (uint32_t i = 1; i <= count; i++) {
        out[n++] = inner[i] ? 1 : 2;
        out[n++] = (uint8_t)parent[i];
        for (int k = 24; k >= 0; k -= 8) out[n++] = (uint8_t)(weight[i] >> k);
        if (!inner[i]) {
            out[n++] = (uint8_t)(longest[i] >> 8);
            out[n++] = (uint8_t)longest[i];
        }
    }
    out[n++] = 0;
    return n;
}

/* A class that is often a leaf, and a length that it often takes. */
static uint64_t some_class(const cb_link *l) {
    uint64_t c = 0;
    for (int k = 0; k < 4 && !cb_is_leaf(l, c); k++) c = below(cb_classes(l) % 64 + 2);
    return below(20) ? c : below(300);
}
static uint32_t some_length(const cb_link *l, uint64_t c) {
    uint64_t longest = cb_longest(l, c) % 9217 + 1;
    return below(20) ? (uint32_t)(1 + below(longest)) : below(2) ? 0 : (uint32_t)any();
}

/* A good link with packets in it. */
static void random_link(cb_link *l, int side, cb_answer *a) {
    static uint8_t made[CB_PLAN_BYTES];
    cb_said said;
    size_t n = random_plan(made);
    uint8_t *plan = plans[side] + (side ? 0 : CB_PLAN_BYTES - n);
    memcpy(plan, made, n);
    if (cb_open(l, plan, n, &said) || said.used != n) differs("a good plan is refused", said.number);
    for (uint64_t k = below(3) ? below(40) : below(600); k > 0; k--) {
        uint64_t c = some_class(l);
        uint32_t length = some_length(l, c), tag = (uint32_t)any();
        if (below(3)) cb_arrive(l, c, length, tag, a);
        else cb_send(l, a);
        if (a->number == CB_UNSOUND) differs("a link that calls made is not sound", 11);
    }
}

/* An arrival's answer is one that an arrival can have; so a send's. */
static void arrival_fits(const cb_answer *a, uint64_t number, uint64_t c, uint32_t length, uint32_t tag) {
    int known = number == 0 || number == 11 || number == 12 || number == 13 || number == 14;
    if (!known || a->kind != CB_ARRIVAL || a->number != number || a->class_ != c || a->tag != tag || a->rounds) {
        differs("an arrival's answer", number);
    }
    if (a->length != length && a->length != 65535) differs("an arrival's length", number);
    if (a->place != (number && number != 11 ? c : 0) || (number && a->bytes)) differs("a refused arrival's answer", number);
}
static void send_fits(const cb_answer *a, uint64_t number) {
    int known = number == 0 || number == 11 || number == 15;
    if (!known || a->kind != CB_SEND || a->number != number || a->place) differs("a send's answer", number);
    if (number && (a->class_ || a->length || a->tag || a->bytes || a->rounds)) differs("a refused send's answer is not 0", number);
}
static void unchanged(const cb_link *l, const char *what, uint64_t number) {
    if (memcmp(l, &was, sizeof was)) differs(what, number);
}

/* Every call once on a link of any bytes. */
static void all_calls(cb_link *l, cb_answer *a, uint8_t *in, cb_answer *out, int only_11) {
    cb_offered offered;
    cb_silence silence;
    cb_said said;
    cb_burst_said burst;
    uint8_t plan[CB_PLAN_BYTES];
    uint64_t c = some_class(l), number;
    uint32_t length = some_length(l, c), tag = (uint32_t)any();
    was = *l;
    int reading = reads_sound(l);
    uint64_t totals = cb_totals(l), offer = cb_offer(l, c, length, &offered), why = cb_why(l, c, &silence);
    uint64_t written = cb_write(l, plan, below(2) ? sizeof plan : below(40), &said);
    unchanged(l, "a call that only asks changes the link", totals);
    if (totals != (reading ? 0 : 11)) differs("the second reading of soundness", totals);
    if (written != 0 && written != 11 && written != 16) differs("a plan written back", written);
    number = cb_arrive(l, c, length, tag, a);
    arrival_fits(a, number, c, length, tag);
    counts[0][number]++;
    if (number) unchanged(l, "a refused arrival changes the link", number);
    else if (!reads_sound(l)) differs("an arrival leaves a link that is not sound", number);
    int sound = totals == 0;
    if (number != offer || (number != 11) != sound || (why != 11) != sound) differs("two calls judge a link apart", number);
    if (!number && a->bytes != offered.bytes) differs("an offer's bytes", a->bytes);
    was = *l;
    number = cb_send(l, a);
    send_fits(a, number);
    counts[1][number]++;
    if (number) unchanged(l, "a refused send changes the link", number);
    else if (!reads_sound(l)) differs("a send leaves a link that is not sound", number);
    was = *l;
    size_t n = cb_put_arrival(in, c, length, tag);
    n += cb_put_send(in + n);
    number = cb_burst(l, in, n, out, 2, &burst);
    counts[2][number]++;
    if (number == 11) unchanged(l, "a refused burst changes the link", number);
    else if (!reads_sound(l)) differs("a burst leaves a link that is not sound", number);
    if (number == 11 ? burst.place || burst.answers : burst.place != 9 || burst.answers != 2) differs("a burst", number);
    if (only_11 && (totals != 11 || offer != 11 || number != 11)) differs("a random block is taken for a link", number);
}

static void blocks(uint64_t many) {
    for (turn = 0; turn < many; turn++) {
        int side = (int)(turn % SIDES);
        uint64_t *block = (uint64_t *)(void *)links[side];
        for (size_t k = 0; k < CB_LINK_BYTES / 8; k++) block[k] = any();
        all_calls(links[side], answers[side], events[side], rows[side], 1);
    }
}

/* One number of a link changed so that it is often still sound, or nearly. */
static void edit(cb_link *l) {
    uint64_t i = below(64), k = below(64), some = 1 + below(below(2) ? 3 : 2000);
    switch (below(12)) {
    case 10:
    case 11: /* an active leaf's balance at its first packet's charge, or a byte beside it; the root has the rest */
        for (int turns = 0; turns < 64 && !(l->stand[1] & l->shape[193] & (uint64_t)1 << i); turns++) i = (i + 1) % 64;
        some = cb_charge(l->lengths[i * 32 + l->start[i]]) - 1 + below(3);
        l->balance[0] += l->balance[i] - some;
        l->balance[i] = some;
        if (below(2)) l->stand[2] = i + below(3);
        break;
    case 0: /* bytes move from one account to another: the sum stays */
        if (some > l->balance[i]) some = l->balance[i];
        l->balance[i] -= some;
        if (below(3)) l->balance[k] += some;
        else l->residual[k] += some;
        break;
    case 1: l->stand[2] = below(70); break;
    case 2: l->stand[1] ^= (uint64_t)1 << i; break;
    case 3: l->stand[0] += below(2) ? some : (uint64_t)0 - some; break;
    case 4: l->shape[64 + i] += below(2) ? 1 : (uint64_t)0 - 1; break;
    case 5: l->shape[194] = below(3); break;
    case 6: l->start[i] = (uint8_t)below(34); break;
    case 7: l->lengths[i * 32 + below(32)] = (uint16_t)below(10000); break;
    case 8: l->marks[i * 32 + below(32)] = any(); break;
    default: /* a byte more or less of a balance, and of the size in force under rule 2 */
        l->balance[i] += some;
        if (below(2)) l->stand[0] += some;
        break;
    }
}

static void flips(uint64_t many) {
    for (turn = 0; turn < many; turn++) {
        int side = (int)(turn % SIDES);
        cb_link *l = links[side];
        /* some flips on each good link; the first 3,640 bytes and the last 4,224 hold what is judged */
        if (turn % 16 < SIDES) {
            random_link(l, side, answers[side]);
            memcpy(others[side], l, sizeof *l);
        } else {
            memcpy(l, others[side], sizeof *l);
        }
        if (below(2)) {
            size_t at = below(4) ? below(2) ? below(3640) : 28216 + below(4224) : below(CB_LINK_BYTES);
            ((uint8_t *)l)[at] ^= (uint8_t)(1u << below(8));
        } else {
            edit(l);
        }
        all_calls(l, answers[side], events[side], rows[side], 0);
    }
}

static void bursts(uint64_t many) {
    for (turn = 0; turn < many; turn++) {
        int side = (int)(turn % SIDES);
        cb_link *one = links[side], *all = others[side];
        random_link(one, side, answers[side]);
        memcpy(all, one, sizeof *one);
        size_t n = 0, at = 0;
        uint64_t most = below(3) ? 1 + below(40) : 1 + below(400);
        static cb_answer singles[512];
        static uint8_t log[EVENTS];
        for (uint64_t k = 0; k < most; k++) {
            uint64_t c = some_class(one) % 256;
            uint32_t length = some_length(one, c), tag = (uint32_t)any();
            if (length > 65535) length = 65535;
            if (below(5) < 3) {
                n += cb_put_arrival(log + n, c, length, tag);
                cb_arrive(one, c, length, tag, &singles[k]);
            } else {
                n += cb_put_send(log + n);
                cb_send(one, &singles[k]);
            }
        }
        uint64_t done = 0;
        while (at < n) {
            size_t part = below(4) ? 1 + below(below(2) ? 30 : 300) : n - at, room = below(8) ? below(ROWS) : 0;
            if (part > n - at) part = n - at;
            uint8_t *handed = events[side] + (side ? 0 : EVENTS - part);
            memcpy(handed, log + at, part);
            cb_answer *out = rows[side] + (side ? 0 : ROWS - room);
            cb_burst_said said;
            uint64_t number = cb_burst(all, handed, part, out, room, &said);
            if (said.answers > room || said.place > part || number != said.number) differs("a burst's own numbers", number);
            if (memcmp(out, singles + done, said.answers * sizeof *out)) differs("a burst's answers", said.answers);
            int cut = number == 1 && part - said.place < 8, whole = !number && (said.place == part || said.answers == room);
            if (!cut && !whole) differs("a burst's end", number);
            counts[2][number]++;
            done += said.answers;
            at += (size_t)said.place;
        }
        if (done != most) differs("a burst left events out", done);
        if (memcmp(one, all, sizeof *one)) differs("a burst leaves another link than single calls", done);
    }
}

static void told(const char *what, const uint64_t *count) {
    printf("%s:", what);
    for (int n = 0; n < 32; n++) {
        if (count[n] && n) printf(" refused by %d %" PRIu64, n, count[n]);
        else if (count[n]) printf(" good %" PRIu64, count[n]);
    }
}

int main(int words, char **word) {
    char *end1, *end2;
    if (words != 3) {
        fputs("wild: expected HOW_MANY SEED\n", stderr);
        return 2;
    }
    uint64_t many = strtoull(word[1], &end1, 10);
    state = strtoull(word[2], &end2, 10);
    if (*end1 || *end2 || !many) {
        fputs("wild: expected two numbers, HOW_MANY SEED\n", stderr);
        return 2;
    }
    if (!cb_fits()) {
        fputs("wild: the header and the library do not fit: build it again\n", stderr);
        return 3;
    }
    for (int side = 0; side < SIDES; side++) {
        links[side] = guarded(sizeof(cb_link), side);
        others[side] = guarded(sizeof(cb_link), side);
        events[side] = guarded(EVENTS, side);
        plans[side] = guarded(CB_PLAN_BYTES, side);
        rows[side] = guarded(ROWS * sizeof(cb_answer), side);
        answers[side] = guarded(sizeof(cb_answer), side);
    }
    blocks(many / 10 + 1);
    printf("%" PRIu64 " random blocks: 11 each, unchanged\n", many / 10 + 1);
    memset(counts, 0, sizeof counts);
    flips(many);
    printf("%" PRIu64 " good links with one bit or number changed, no fault, unchanged where refused, 11 where a second reading has it; ",
        many);
    told("arrivals", counts[0]);
    told("; sends", counts[1]);
    told("; bursts", counts[2]);
    memset(counts, 0, sizeof counts);
    bursts(many / 10 + 1);
    printf("\n%" PRIu64 " runs by bursts as by single calls; ", many / 10 + 1);
    told("bursts", counts[2]);
    putchar('\n');
    return 0;
}
