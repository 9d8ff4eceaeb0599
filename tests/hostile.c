/* Calls every entry with hostile input: random bytes, damaged records, areas of no and of odd length, counts and numbers at their
 * limits. Each area is allocated with its exact length, so that valgrind sees any access outside it.
 * usage: hostile CALLS RECORD.. */
#include <stdio.h>
#include <stdlib.h>
#include <string.h>

#include "yolkgorge.h"

static uint64_t state = 0x9E3779B97F4A7C15u;

static uint32_t below(uint32_t n) {
    state ^= state << 13;
    state ^= state >> 7;
    state ^= state << 17;
    return (uint32_t)(state >> 32) % n;
}

typedef struct {
    uint8_t *bytes;
    size_t length;
} area;

/* An area of exactly this length, with random bytes, mostly small ones. */
static area make(size_t length) {
    area a = {malloc(length ? length : 1), length};
    if (!a.bytes) abort();
    for (size_t i = 0; i < length; i++) a.bytes[i] = (uint8_t)(below(4) ? below(4) : below(256));
    return a;
}

static size_t some_length(size_t most) {
    switch (below(6)) {
    case 0: return 0;
    case 1: return below(16);
    case 2: return most;
    case 3: return most - 1;
    default: return below((uint32_t)most + 1);
    }
}

static size_t some_count(void) {
    static const size_t counts[] = {0, 1, 2, 5, 2001, 2002, 65535, 65536, SIZE_MAX, SIZE_MAX - 1, SIZE_MAX / 2, SIZE_MAX / 4 + 1};
    return below(2) ? counts[below(sizeof counts / sizeof *counts)] : below(40);
}

/* A record from a file, whole, cut, changed or followed by more; or random bytes. */
static area some_record(int files, char **names) {
    uint8_t bytes[YOLKGORGE_RECORD_SIZE + 64];
    area a;
    FILE *file = below(5) ? fopen(names[below((uint32_t)files)], "rb") : NULL;
    size_t length = 0;
    if (!file) return make(some_length(64));
    length = fread(bytes, 1, sizeof bytes - 8, file);
    fclose(file);
    if (!below(4)) length = below((uint32_t)length + 1);
    a = make(length + (below(4) ? 0 : below(4)));
    memcpy(a.bytes, bytes, length);
    if (!below(3) && length) a.bytes[below((uint32_t)length)] = (uint8_t)below(256);
    return a;
}

static unsigned long replies[32];

static void note(int64_t answer) { replies[answer > 0 ? 13 + (answer > 12 ? 0 : answer) : -answer]++; }

typedef int64_t sparing_planner(const uint8_t *, size_t, uint8_t *, size_t, uint8_t *, size_t, uint8_t *, size_t);
static sparing_planner *const sparing[] = {yolkgorge_plan_fewest_payments, yolkgorge_plan_fewest_deliveries, yolkgorge_plan_fewest_moves};

/* Plans with all four planners in the same areas. Answers the step count of the plan that stands there then, or 0 if none was made. */
static size_t planned(area record, area places, area sums, area order, area work) {
    int64_t n = yolkgorge_plan(record.bytes, record.length, places.bytes, places.length, sums.bytes, sums.length, order.bytes, order.length,
                               work.bytes, work.length);
    size_t made = n > 0 ? (size_t)n : 0;
    note(n);
    for (uint32_t first = below(3), i = first; i < first + 3; i++) {
        n = sparing[i % 3](record.bytes, record.length, places.bytes, places.length, sums.bytes, sums.length, order.bytes, order.length);
        note(n);
        if (n > 0) made = (size_t)n;
    }
    return made;
}

int main(int argc, char **argv) {
    long calls = argc > 2 ? atol(argv[1]) : 0;
    for (long i = 0; i < calls; i++) {
        area record = some_record(argc - 2, argv + 2);
        area places = make(some_length(4002)), sums = make(some_length(8004)), order = make(some_length(9)), work = make(some_length(32768));
        area session = make(below(4) ? YOLKGORGE_SESSION_SIZE : some_length(12)), bounds = make(below(4) ? 16 : some_length(20));
        size_t count = some_count(), made;
        uint32_t refusal;
        if (below(2)) memset(order.bytes, 0, order.length);
        made = planned(record, places, sums, order, work);
        if (made && below(2)) count = made;
        refusal = yolkgorge_check(record.bytes, record.length, count, places.bytes, places.length, sums.bytes, sums.length, order.bytes,
                                  order.length);
        note(-(int64_t)refusal);
        if (refusal && made && count == made) return 1; /* a plan of ours */
        note(-(int64_t)yolkgorge_bounds(record.bytes, record.length, some_count(), order.bytes, order.length, bounds.bytes, bounds.length));
        note(-(int64_t)yolkgorge_open(session.bytes, session.length, record.bytes, record.length, count, places.bytes, places.length, sums.bytes,
                                      sums.length, order.bytes, order.length));
        note(-(int64_t)yolkgorge_report(session.bytes, session.length, count, places.bytes, places.length, sums.bytes, sums.length, below(3),
                                        below(2) ? below(8) : (uint32_t)some_count()));
        note(-(int64_t)yolkgorge_finished(session.bytes, session.length, count));
        free(record.bytes), free(places.bytes), free(sums.bytes), free(order.bytes), free(work.bytes), free(session.bytes), free(bounds.bytes);
    }
    for (int e = 0; e <= 12; e++) printf("%d: %lu\n", e, replies[e]);
    return 0;
}
