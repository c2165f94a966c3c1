/* What bin/linkrun prints, by a program in C over the library: linkrun [burst] <INPUT, a plan and its events, 65,536 bytes at most.
   By single calls, or with the word `burst` by bursts: the lines are the same. Status 2: bad words; 3: it cannot run.
   Build: cc -std=c11 -O2 -I include examples/linkrun.c target/native/libcometbanjo.a -o linkrun */
#include "cometbanjo.h"
#include <inttypes.h>
#include <stdio.h>
#include <string.h>

enum { MOST = 65536, ROWS = 256 };

static uint8_t input[MOST + 1];
static cb_link link_;
static cb_answer rows[ROWS];

static void line_of(const cb_answer *a) {
    if (a->kind == CB_ARRIVAL) {
        printf("%s %" PRIu64 " %" PRIu64 " %" PRIu64 " %" PRIu64 "\n", a->number ? "no" : "in", a->class_, a->length, a->tag,
            a->number ? a->number : a->bytes);
    } else if (a->number) {
        puts("none");
    } else {
        printf("out %" PRIu64 " %" PRIu64 " %" PRIu64 " %" PRIu64 " %" PRIu64 "\n", a->class_, a->length, a->tag, a->rounds, a->bytes);
    }
}

static void stop(uint64_t number, uint64_t place) {
    printf("stop %" PRIu64 " %" PRIu64 "\n", number, place);
}

/* The events one by one, from a place to the input's end; 0, or the number of a malformed event, and where it stands. */
static uint64_t single(size_t n, size_t *place) {
    cb_answer answer;
    for (; *place < n; *place += input[*place] == CB_ARRIVAL ? CB_ARRIVAL_BYTES : CB_SEND_BYTES) {
        const uint8_t *e = input + *place;
        if (e[0] == CB_SEND) {
            cb_send(&link_, &answer);
        } else if (e[0] != CB_ARRIVAL) {
            return CB_UNKNOWN;
        } else if (n - *place < CB_ARRIVAL_BYTES) {
            return CB_CUT;
        } else {
            cb_arrive(&link_, e[1], (uint32_t)e[2] << 8 | e[3], (uint32_t)e[4] << 24 | (uint32_t)e[5] << 16 | (uint32_t)e[6] << 8 | e[7],
                &answer);
        }
        if (answer.number == CB_UNSOUND) return CB_UNSOUND;
        line_of(&answer);
    }
    return 0;
}

/* The same by bursts: the library reads the events. */
static uint64_t bursts(size_t n, size_t *place) {
    cb_burst_said said;
    do {
        cb_burst(&link_, input + *place, n - *place, rows, ROWS, &said);
        for (uint64_t i = 0; i < said.answers; i++) line_of(&rows[i]);
        *place += (size_t)said.place;
    } while (!said.number && *place < n);
    return said.number;
}

int main(int words, char **word) {
    if (words > 2 || (words == 2 && strcmp(word[1], "burst"))) {
        fputs("linkrun: expected the word burst or none, and a run on standard input\n", stderr);
        return 2;
    }
    if (!cb_fits()) {
        fputs("linkrun: the header and the library do not fit: build it again\n", stderr);
        return 3;
    }
    size_t n = fread(input, 1, sizeof input, stdin);
    if (ferror(stdin)) {
        fputs("linkrun: standard input cannot be read\n", stderr);
        return 3;
    }
    cb_said said;
    if (n > MOST) {
        stop(10, MOST);
    } else if (cb_open(&link_, input, n, &said)) {
        stop(said.number, said.place);
    } else {
        printf("link %" PRIu64 " %" PRIu64 "\n", cb_classes(&link_), cb_round_size(&link_));
        size_t place = (size_t)said.used;
        uint64_t number = words == 2 ? bursts(n, &place) : single(n, &place);
        if (number) stop(number, place);
        else printf("end %" PRIu64 "\n", cb_waiting(&link_));
    }
    if (fflush(stdout) || ferror(stdout)) {
        fputs("linkrun: standard output cannot be written\n", stderr);
        return 3;
    }
    return 0;
}
