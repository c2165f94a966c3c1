/* How much stack each call of the archive takes, on a painted stack: stack. bin/speed box runs it. A line: for each call its bytes, the
   thread's own taken off. Status 3: it cannot run. */
#define _GNU_SOURCE
#include "cometbanjo.h"
#include <pthread.h>
#include <stdio.h>
#include <stdlib.h>
#include <string.h>

enum { SIZE = 1 << 20, PAINT = 0xA5, ROWS = 64 };

static uint8_t plan[CB_PLAN_BYTES], events[8 * ROWS];
static size_t plan_length, events_length;
static cb_link link_;
static cb_said said;
static cb_answer answer, rows[ROWS];
static cb_burst_said burst;
static cb_offered offered;
static cb_silence silence;
static uint64_t requests[64], gets[64], left[64], waits[2], count[1];

static void nothing(void) {}
static void open_it(void) { cb_open(&link_, plan, plan_length, &said); }
static void arrive(void) { cb_arrive(&link_, 62, 1500, 1, &answer); }
static void send_it(void) { cb_send(&link_, &answer); }
static void bursts(void) { cb_burst(&link_, events, events_length, rows, ROWS, &burst); }
static void totals(void) { cb_totals(&link_); }
static void offer(void) { cb_offer(&link_, 62, 1500, &offered); }
static void why(void) { cb_why(&link_, 62, &silence); }
static void write_it(void) { uint8_t out[CB_PLAN_BYTES]; cb_write(&link_, out, sizeof out, &said); }
static void rates(void) { cb_rates(plan, plan_length, 1000, &said, requests, gets, left); }
static void waits_of(void) { cb_waits(plan, plan_length, 62, waits); }
static void mend(void) { cb_mend(plan, plan_length, &said, count, requests, gets, left); }

static const struct {
    const char *name;
    void (*call)(void);
} calls[] = { { "nothing", nothing }, { "cb_open", open_it }, { "cb_arrive", arrive }, { "cb_send", send_it }, { "cb_burst", bursts },
    { "cb_totals", totals }, { "cb_offer", offer }, { "cb_why", why }, { "cb_write", write_it }, { "cb_rates", rates },
    { "cb_waits", waits_of }, { "cb_mend", mend } };

static void *run(void *which) {
    calls[*(size_t *)which].call();
    return NULL;
}

int main(void) {
    if (!cb_fits()) {
        fputs("stack: the header and the library do not fit: build it again\n", stderr);
        return 3;
    }
    /* a chain of 31 inner classes, each with a leaf, the last with two: the longest way up */
    for (int c = 1; c <= 63; c++) {
        int leaf = c % 2 == 0 || c == 63, parent = c % 2 == 0 ? c - 1 : c > 2 ? c - 2 : 0;
        uint8_t record[8] = { (uint8_t)(leaf ? 2 : 1), (uint8_t)parent, 0, 0, 0, (uint8_t)(leaf ? 1 : 33 - (c + 1) / 2), 5, 220 };
        memcpy(plan + plan_length, record, leaf ? 8 : 6);
        plan_length += leaf ? 8 : 6;
    }
    plan_length++;
    for (int k = 0; k < ROWS / 2; k++) events_length += cb_put_arrival(events + events_length, 62, 1500, (uint32_t)k);
    for (int k = 0; k < ROWS / 2; k++) events_length += cb_put_send(events + events_length);
    if (cb_open(&link_, plan, plan_length, &said)) {
        fprintf(stderr, "stack: its own plan is refused by %d at %d\n", (int)said.number, (int)said.place);
        return 3;
    }
    uint8_t *stack = aligned_alloc(65536, SIZE);
    if (!stack) return 3;
    size_t base = 0;
    for (size_t which = 0; which < sizeof calls / sizeof *calls; which++) {
        pthread_attr_t attributes;
        pthread_t thread;
        memset(stack, PAINT, SIZE);
        pthread_attr_init(&attributes);
        if (pthread_attr_setstack(&attributes, stack, SIZE) || pthread_create(&thread, &attributes, run, &which)) return 3;
        pthread_join(thread, NULL);
        pthread_attr_destroy(&attributes);
        size_t clean = 0;
        while (clean < SIZE && stack[clean] == PAINT) clean++;
        if (!which) base = SIZE - clean;
        else printf("%s%s %zu", which == 1 ? "" : ", ", calls[which].name, SIZE - clean > base ? SIZE - clean - base : 0);
    }
    puts("");
    free(stack);
    return 0;
}
