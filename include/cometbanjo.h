/* Cometbanjo for a box in C or C++: which packet goes next on a shared link. C11, C++11 or later; link with libcometbanjo.a, which
   bin/native builds. There is no heap, no static and no clock in it: a link is one cb_link, 32,440 bytes, which the caller keeps.

   What every call promises, proved before it was compiled (docs/PROMISES.md):
   - No fault. Any bytes, any numbers and any cb_link are taken: nothing needs a check before it. What breaks a rule is refused by a
     number (docs/refusals.md) and a place; a cb_link that is no sound link is refused by 11 at 0.
   - A refused call changes nothing in the link, not one of its bytes. cb_open alone writes in any case: a refused plan leaves a link that
     every later call refuses by 11.
   - Exactly the rules (docs/rules.md): what is sent, and in which order, is what they say.
   - Bounded wait. A packet that was accepted with D bytes then in its queue, itself among them, in a class of weight w, has gone before
     the link has sent more than (D/w rounded up, plus 1) times Q bytes, whatever else arrives. All bytes are charges (cb_charge), and Q
     is the round size of the whole tree (cb_round_size). cb_offer works it out for a packet that might come now.

   What is yours: that a pointer points to so many bytes; that no two arrays handed to one call overlap; that one call at a time is made on
   a link. A copy of a cb_link is a second link with the same packets: serve one of the two. Every call returns the refusal's number, or 0
   where nothing was refused; the answer says it too. docs/integrating.md leads through it. */
#ifndef COMETBANJO_H
#define COMETBANJO_H

#include <stddef.h>
#include <stdint.h>

#ifdef __cplusplus
#define CB_ASSERT static_assert
extern "C" {
#else
#define CB_ASSERT _Static_assert
#endif

enum {
    CB_VERSION = 1,          /* of this header; cb_fits() compares it with the archive's */
    CB_CLASSES = 64,         /* class numbers 0, the root, to 63 */
    CB_PLACES = 32,          /* packets that a leaf holds at most */
    CB_WAITING = 2048,       /* waiting places in all: class times 32 plus position */
    CB_SHAPE = 195,          /* numbers of a tree: see cb_link */
    CB_LINK_BYTES = 32440,   /* of a cb_link; cb_fits() compares it with the archive's */
    CB_LONGEST = 9216,       /* the longest packet that a plan may allow, in bytes */
    CB_PLAN_BYTES = 507,     /* enough for every plan */
    CB_ARRIVAL_BYTES = 8,    /* of an arrival among the events of a burst */
    CB_SEND_BYTES = 1        /* of a send among them */
};

/* Kinds of events and of answers. */
enum { CB_ARRIVAL = 16, CB_SEND = 17 };

/* The refusals that a running box meets; docs/refusals.md has all of them. */
enum {
    CB_CUT = 1,        /* bytes end inside a record, or before a plan's end */
    CB_UNKNOWN = 2,    /* a record of no known kind */
    CB_UNSOUND = 11,   /* the cb_link is no sound link: open it again from its plan */
    CB_NO_LEAF = 12,   /* the class is not a leaf of the plan */
    CB_LENGTH = 13,    /* length 0, or above the leaf's longest: never cut it to fit */
    CB_FULL = 14,      /* the leaf holds its 32: keep the packet and offer it again after a send of this class */
    CB_NOTHING = 15,   /* a send, and nothing waits: idle */
    CB_SHORT = 16      /* the buffer is shorter than the plan: the place is the length needed */
};

/* Why a leaf sends nothing (cb_why). */
enum { CB_EMPTY = 1, CB_WAITS = 2, CB_LACKS = 3, CB_DUE = 4 };

/* A link: numbers alone, no pointers, no padding. Read it if you like, through the readers below; write none of it. */
typedef struct cb_link {
    uint64_t shape[CB_SHAPE];   /* parents, weights, longest packets of the 64 class numbers; count, set of leaves, rule (1: follows) */
    uint64_t stand[4];          /* size in force, set of active classes, place in the round, running total of charges */
    uint64_t balance[CB_CLASSES];
    uint64_t residual[CB_CLASSES];
    uint64_t packets[CB_CLASSES];   /* waiting at or below each class number: packets .. */
    uint64_t bytes[CB_CLASSES];     /* .. and their charges */
    uint64_t marks[CB_WAITING];
    uint32_t tags[CB_WAITING];
    uint16_t lengths[CB_WAITING];
    uint8_t start[CB_CLASSES];
    uint8_t held[CB_CLASSES];
} cb_link;

/* What an arrival or a send answers.
   CB_ARRIVAL: number and place 0, or the refusal; class_, length and tag as they came; bytes: D, the charged bytes then in its queue,
   itself among them (0 where refused); rounds 0.
   CB_SEND: number and place 0, or the refusal; class_, length and tag of the packet that goes; bytes: what it waited, the bytes charged
   on the link from its acceptance to its end; rounds: how many rounds the call opened, 0 to 2. All five are 0 where refused. */
typedef struct cb_answer {
    uint64_t kind, number, place, class_, length, tag, bytes, rounds;
} cb_answer;

typedef struct cb_said {      /* of a plan read or written: the refusal and its place; bytes used or written, 0 where refused */
    uint64_t number, place, used;
} cb_said;

typedef struct cb_burst_said {   /* of a burst: the refusal; how far it came in the events (see cb_burst); how many answers it laid */
    uint64_t number, place, answers;
} cb_burst_said;

typedef struct cb_offered {   /* the refusal that the packet would meet; else D, and what the link sends at most until it has gone */
    uint64_t number, place, bytes, bound;
} cb_offered;

typedef struct cb_silence {   /* the refusal, 11 or 12; else CB_EMPTY, CB_WAITS, CB_LACKS or CB_DUE, and of CB_LACKS the bytes it lacks */
    uint64_t number, place, reason, lacks;
} cb_silence;

CB_ASSERT(sizeof(cb_link) == CB_LINK_BYTES, "a cb_link has 32,440 bytes");
CB_ASSERT(offsetof(cb_link, shape) == 0, "shape is first");
CB_ASSERT(offsetof(cb_link, stand) == 1560, "stand");
CB_ASSERT(offsetof(cb_link, balance) == 1592, "balance");
CB_ASSERT(offsetof(cb_link, residual) == 2104, "residual");
CB_ASSERT(offsetof(cb_link, packets) == 2616, "packets");
CB_ASSERT(offsetof(cb_link, bytes) == 3128, "bytes");
CB_ASSERT(offsetof(cb_link, marks) == 3640, "marks");
CB_ASSERT(offsetof(cb_link, tags) == 20024, "tags");
CB_ASSERT(offsetof(cb_link, lengths) == 28216, "lengths");
CB_ASSERT(offsetof(cb_link, start) == 32312, "start");
CB_ASSERT(offsetof(cb_link, held) == 32376, "held");
CB_ASSERT(sizeof(cb_answer) == 64 && offsetof(cb_answer, rounds) == 56, "an answer is eight numbers");
CB_ASSERT(sizeof(cb_said) == 24 && sizeof(cb_burst_said) == 24, "three numbers");
CB_ASSERT(sizeof(cb_offered) == 32 && sizeof(cb_silence) == 32, "four numbers");
CB_ASSERT(sizeof(unsigned char) == 1 && sizeof(void *) <= 8, "a machine that the archive can be compiled for");

/* ---- What the archive defines. A length or a class number has 64 bits on every machine. Call those with `_fields` through the functions
   below, which hand over each array of a cb_link; the others as they are. Some work on copies and take tens of kilobytes of stack (cb_open
   a hundred, cb_offer, cb_rates), the others a few: `bin/speed box` tells it for your machine. */

uint64_t cb_version(void);
uint64_t cb_link_bytes(void);
uint64_t cb_open_fields(const uint8_t *plan, uint64_t length, uint64_t *shape, uint64_t *stand, uint64_t *balance, uint64_t *residual,
    uint8_t *start, uint8_t *held, uint16_t *lengths, uint32_t *tags, uint64_t *marks, uint64_t *packets, uint64_t *bytes, uint64_t *said);
uint64_t cb_arrive_fields(uint64_t *shape, uint64_t *stand, uint64_t *balance, uint64_t *residual, uint8_t *start, uint8_t *held,
    uint16_t *lengths, uint32_t *tags, uint64_t *marks, uint64_t *packets, uint64_t *bytes, uint64_t class_, uint32_t length, uint32_t tag,
    uint64_t *answer);
uint64_t cb_send_fields(uint64_t *shape, uint64_t *stand, uint64_t *balance, uint64_t *residual, uint8_t *start, uint8_t *held,
    uint16_t *lengths, uint32_t *tags, uint64_t *marks, uint64_t *packets, uint64_t *bytes, uint64_t *answer);
uint64_t cb_burst_fields(uint64_t *shape, uint64_t *stand, uint64_t *balance, uint64_t *residual, uint8_t *start, uint8_t *held,
    uint16_t *lengths, uint32_t *tags, uint64_t *marks, uint64_t *packets, uint64_t *bytes, const uint8_t *events, uint64_t length,
    uint64_t *out, uint64_t room, uint64_t *said);
uint64_t cb_totals_fields(const uint64_t *shape, const uint64_t *stand, const uint64_t *balance, const uint64_t *residual,
    const uint8_t *start, const uint8_t *held, const uint16_t *lengths, const uint64_t *packets, const uint64_t *bytes);
uint64_t cb_offer_fields(const uint64_t *shape, const uint64_t *stand, const uint64_t *balance, const uint64_t *residual,
    const uint8_t *start, const uint8_t *held, const uint16_t *lengths, const uint32_t *tags, const uint64_t *marks,
    const uint64_t *packets, const uint64_t *bytes, uint64_t class_, uint32_t length, uint64_t *said);
uint64_t cb_why_fields(const uint64_t *shape, const uint64_t *stand, const uint64_t *balance, const uint64_t *residual,
    const uint8_t *start, const uint8_t *held, const uint16_t *lengths, const uint32_t *tags, const uint64_t *marks,
    const uint64_t *packets, const uint64_t *bytes, uint64_t class_, uint64_t *said);
uint64_t cb_write_fields(const uint64_t *shape, uint8_t *out, uint64_t room, uint64_t *said);

/* Which rates a plan gives for a capacity in kbit/s (docs/rates.md). requests: in the leaves' entries what each asks for; afterwards each
   class's request. gets: what each class gets; left: what stays unallotted there. said->used is the last class number here. Refused (the
   plan's numbers, 20, 21): it is 0, and so is every entry of the three tables. */
uint32_t cb_rates(const uint8_t *plan, uint64_t length, uint64_t capacity, cb_said *said, uint64_t requests[64], uint64_t gets[64],
    uint64_t left[64]);

/* The longest waits that a plan promises to a leaf's longest packet, in charged bytes: bytes[0] alone in its queue, bytes[1] as the last of
   32. Returns 0; or 11 where the plan is refused, 12 where the class is no leaf, and both are 0 then. */
uint32_t cb_waits(const uint8_t *plan, uint64_t length, uint64_t class_, uint64_t bytes[2]);

/* The bound for a packet that is accepted with d charged bytes in its queue; 0 where none is promised: the plan is refused, the class is no
   leaf, or d is more than its 32 places can hold. */
uint64_t cb_bound(const uint8_t *plan, uint64_t length, uint64_t class_, uint64_t d);

/* Mends a plan whose shares don't add up: how many weights change, and of each the class, the old weight and the new one, in class order.
   Refused (the reader's numbers but 7, and 22): nothing is listed. */
uint32_t cb_mend(const uint8_t *plan, uint64_t length, cb_said *said, uint64_t *count, uint64_t class_[64], uint64_t old[64],
    uint64_t new_[64]);

/* ---- The calls. */

#define CB_FIELDS_OF(l) (l)->shape, (l)->stand, (l)->balance, (l)->residual, (l)->start, (l)->held, (l)->lengths, (l)->tags, (l)->marks, \
    (l)->packets, (l)->bytes
/* An answer, or answers, as the numbers that they are made of. */
#define CB_NUMBERS(answer) ((uint64_t *)(void *)(answer))

/* Whether this header fits the archive that was linked. Ask once, at start: where it is 0, call nothing else. */
static inline int cb_fits(void) {
    return cb_version() == (uint64_t)CB_VERSION && cb_link_bytes() == (uint64_t)sizeof(cb_link);
}

/* Reads a plan and makes its link; said->used is how many of the bytes it used, and what comes after them is not looked at. Refused (1 to
   9, 17, 18): used is 0, and every call on the link gives 11. What the link held before is gone in both cases. */
static inline uint64_t cb_open(cb_link *l, const uint8_t *plan, size_t length, cb_said *said) {
    return cb_open_fields(plan, length, CB_FIELDS_OF(l), CB_NUMBERS(said));
}

/* A packet comes: 0, and it waits; or 11, 12, 13, 14, and it is still yours. length is the frame's bare length, without its check sequence;
   above 65,535 it is refused by 13. The tag is yours: it is handed back by the send, and never acted on. */
static inline uint64_t cb_arrive(cb_link *l, uint64_t class_, uint32_t length, uint32_t tag, cb_answer *answer) {
    return cb_arrive_fields(CB_FIELDS_OF(l), class_, length, tag, CB_NUMBERS(answer));
}

/* The wire is free: 0, and the packet that goes; or 11, 15. While a packet waits, a send on a sound link sends one. */
static inline uint64_t cb_send(cb_link *l, cb_answer *answer) {
    return cb_send_fields(CB_FIELDS_OF(l), CB_NUMBERS(answer));
}

/* Many events in one call, which decides once, and not for each event, whether the link is sound. events are arrivals and sends one after
   the other (cb_put_arrival, cb_put_send); each gets one answer in out, the same as by cb_arrive or cb_send, while one more fits.
   Returns 0 where the events end or the answers are full: said->place is how many bytes of the events were used; go on from there.
   1 or 2: a cut or an unknown record begins at said->place; what came before it was done and answered.
   11 at 0: no sound link, and nothing was done. said->answers is how many answers were laid, in each case. */
static inline uint64_t cb_burst(cb_link *l, const uint8_t *events, size_t length, cb_answer *out, size_t room, cb_burst_said *said) {
    const uint64_t most = (uint64_t)UINT64_MAX / 8;
    return cb_burst_fields(CB_FIELDS_OF(l), events, length, CB_NUMBERS(out), 8 * ((uint64_t)room < most ? (uint64_t)room : most),
        CB_NUMBERS(said));
}

/* Lays an arrival or a send into the events of a burst; how many bytes that took, 8 or 1. A class above 255 becomes 255 and a length above
   65,535 that number, which no plan has: the burst refuses both as cb_arrive does (12, 13). */
static inline size_t cb_put_arrival(uint8_t *events, uint64_t class_, uint32_t length, uint32_t tag) {
    const uint32_t n = length > 65535u ? 65535u : length;
    events[0] = (uint8_t)CB_ARRIVAL;
    events[1] = (uint8_t)(class_ > 255 ? 255 : class_);
    events[2] = (uint8_t)(n >> 8);
    events[3] = (uint8_t)n;
    events[4] = (uint8_t)(tag >> 24);
    events[5] = (uint8_t)(tag >> 16);
    events[6] = (uint8_t)(tag >> 8);
    events[7] = (uint8_t)tag;
    return CB_ARRIVAL_BYTES;
}
static inline size_t cb_put_send(uint8_t *events) {
    events[0] = (uint8_t)CB_SEND;
    return CB_SEND_BYTES;
}

/* For a panel: 0, and then l->packets[c] and l->bytes[c] are what waits at or below class c, and l->stand[3] the running total of what was
   charged; or 11, and they mean nothing. The link stays as it is. */
static inline uint64_t cb_totals(const cb_link *l) {
    return cb_totals_fields(l->shape, l->stand, l->balance, l->residual, l->start, l->held, l->lengths, l->packets, l->bytes);
}

/* What a packet would be promised if it came now. The link stays as it is. */
static inline uint64_t cb_offer(const cb_link *l, uint64_t class_, uint32_t length, cb_offered *said) {
    return cb_offer_fields(CB_FIELDS_OF(l), class_, length, CB_NUMBERS(said));
}

/* Why a leaf sends nothing: it is empty, it waits for the next round, it lacks so many bytes in this one, or it is due. */
static inline uint64_t cb_why(const cb_link *l, uint64_t class_, cb_silence *said) {
    return cb_why_fields(CB_FIELDS_OF(l), class_, CB_NUMBERS(said));
}

/* The plan of a link as bytes again. Bytes of out after the plan stay; refused (11, 16): none is touched. */
static inline uint64_t cb_write(const cb_link *l, uint8_t *out, size_t room, cb_said *said) {
    return cb_write_fields(l->shape, out, room, CB_NUMBERS(said));
}

/* ---- Readers, of a link that was opened. */

/* What the wire carries for a packet of so many bytes: 4 of check sequence, padding to 64, 20 of preamble and gap. */
static inline uint64_t cb_charge(uint64_t length) {
    return (length + 4 > 64 ? length + 4 : 64) + 20;
}
static inline uint64_t cb_classes(const cb_link *l) {
    return l->shape[192];
}
static inline int cb_is_leaf(const cb_link *l, uint64_t class_) {
    return class_ < CB_CLASSES && (l->shape[193] >> class_ & 1) != 0;
}
static inline uint64_t cb_parent(const cb_link *l, uint64_t class_) {
    return class_ < CB_CLASSES ? l->shape[class_] : 0;
}
static inline uint64_t cb_weight(const cb_link *l, uint64_t class_) {
    return class_ < CB_CLASSES ? l->shape[64 + class_] : 0;
}
static inline uint64_t cb_longest(const cb_link *l, uint64_t class_) {
    return class_ < CB_CLASSES ? l->shape[128 + class_] : 0;
}
/* Packets that wait in the whole link. */
static inline uint64_t cb_waiting(const cb_link *l) {
    return l->packets[0];
}
/* Q, the round size of the whole tree, of which the bound is made; it does not change. (stand[0] is the size in force.) */
static inline uint64_t cb_round_size(const cb_link *l) {
    uint64_t c, q = 0;
    for (c = 1; c < CB_CLASSES; c++) {
        q += l->shape[64 + c];
        if (cb_is_leaf(l, c)) q += cb_charge(l->shape[128 + c]);
    }
    return q;
}

#undef CB_ASSERT
#ifdef __cplusplus
}
#endif
#endif
