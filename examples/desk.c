/* A desk: plans the deal of a record file, shows bounds and plan, says what plans that spare transfers or deliveries have to
 * offer, and carries the plan out step by step.
 * usage: desk RECORD */
#include <inttypes.h>
#include <stdio.h>
#include <string.h>

#include "yolkgorge.h"

/* One byte more than the longest record, so that a longer file is refused and not cut. */
static uint8_t record[YOLKGORGE_RECORD_SIZE + 1];
static uint8_t places[YOLKGORGE_PLACES_SIZE(YOLKGORGE_MOST_UNITS)];
static uint8_t sums[YOLKGORGE_SUMS_SIZE(YOLKGORGE_MOST_UNITS)];
static uint8_t order[YOLKGORGE_ORDER_SIZE];
static uint8_t work[YOLKGORGE_MOST_WORK_SIZE];
static size_t length;
static size_t count;

static int64_t signed_at(const uint8_t *bytes) {
    uint64_t n = 0;
    int64_t result;
    for (int i = 7; i >= 0; i--) n = n << 8 | bytes[i];
    memcpy(&result, &n, sizeof result);
    return result;
}

static void show_bounds(uint32_t place) {
    uint8_t bounds[YOLKGORGE_BOUNDS_SIZE];
    uint32_t refusal = yolkgorge_bounds(record, length, place, order, sizeof order, bounds, sizeof bounds);
    if (refusal)
        printf("bounds of place %" PRIu32 ": refused %" PRIu32 "\n", place, refusal);
    else
        printf("bounds of place %" PRIu32 ": paid from %" PRId64 " to %" PRId64 "\n", place, signed_at(bounds), signed_at(bounds + 8));
}

/* After refusal 9. A negative upper bound shows that not even the start is safe; it may be unsafe without one, by its price alone.
 * (Unit prices would need order bytes.) */
static void show_unsafe_start(void) {
    uint8_t bounds[YOLKGORGE_BOUNDS_SIZE];
    uint32_t refusal = yolkgorge_bounds(record, length, 0, order, sizeof order, bounds, sizeof bounds);
    if (!refusal && signed_at(bounds + 8) < 0)
        printf("the start is not safe: its upper bound is %" PRId64 "\n", signed_at(bounds + 8));
}

/* Plans for a bank that charges for each transfer, for a courier that charges for each delivery, and for both. */
typedef int64_t sparing_planner(const uint8_t *, size_t, uint8_t *, size_t, uint8_t *, size_t, uint8_t *, size_t);
static const struct {
    const char *name;
    sparing_planner *plan;
} offers[] = {{"payments", yolkgorge_plan_fewest_payments},
              {"deliveries", yolkgorge_plan_fewest_deliveries},
              {"moves", yolkgorge_plan_fewest_moves}};

static void show_offer(const char *name, sparing_planner *plan) {
    static uint8_t own_places[sizeof places], own_sums[sizeof sums], own_order[sizeof order];
    uint32_t place = 0, paid = 0, payments = 0, deliveries = 0;
    int64_t answer = plan(record, length, own_places, sizeof own_places, own_sums, sizeof own_sums, own_order, sizeof own_order);
    for (size_t k = 0; (int64_t)k < answer; k++) {
        uint32_t next_place = yolkgorge_place_at(own_places, k), next_paid = yolkgorge_sum_at(own_sums, k);
        payments += next_paid > paid;
        deliveries += next_place > place;
        place = next_place;
        paid = next_paid;
    }
    if (answer < 0) /* a table: these plans are for ladders and unit prices */
        printf("fewest %s: refused %" PRId64 "\n", name, -answer);
    else
        printf("fewest %s: %" PRIu32 " payments, %" PRIu32 " deliveries\n", name, payments, deliveries);
}

/* A report, and what the ledger says to it. */
static uint32_t report(uint8_t *session, uint32_t side, uint32_t number) {
    uint32_t refusal =
        yolkgorge_report(session, YOLKGORGE_SESSION_SIZE, count, places, sizeof places, sums, sizeof sums, side, number);
    printf("  %s %" PRIu32 ": ", side == YOLKGORGE_DELIVERY ? "delivered to" : "paid", number);
    if (refusal)
        printf("refused %" PRIu32 "\n", refusal);
    else
        printf("taken\n");
    return refusal;
}

/* Carries out all steps: of each first the payment, then the delivery. The first report is a wrong one. */
static int carry_out(void) {
    uint8_t session[YOLKGORGE_SESSION_SIZE];
    uint32_t place = 0, paid = 0;
    uint32_t refusal = yolkgorge_open(session, sizeof session, record, length, count, places, sizeof places, sums, sizeof sums, order,
                                      sizeof order);
    if (refusal) return 1;
    printf("session\n");
    if (report(session, YOLKGORGE_DELIVERY, UINT32_MAX) != YOLKGORGE_UNFIT) return 1;
    for (size_t k = 0; k < count; k++) {
        uint32_t next_place = yolkgorge_place_at(places, k), next_paid = yolkgorge_sum_at(sums, k);
        if (next_paid != paid && report(session, YOLKGORGE_PAYMENT, next_paid)) return 1;
        if (next_place != place && report(session, YOLKGORGE_DELIVERY, next_place)) return 1;
        place = next_place;
        paid = next_paid;
    }
    if (yolkgorge_finished(session, sizeof session, count) != 1) return 1;
    printf("finished\n");
    return 0;
}

int main(int argc, char **argv) {
    FILE *file = argc == 2 ? fopen(argv[1], "rb") : NULL;
    int64_t answer;
    if (!file) {
        fprintf(stderr, "usage: desk RECORD\n");
        return 2;
    }
    length = fread(record, 1, sizeof record, file);
    fclose(file);
    answer = yolkgorge_plan(record, length, places, sizeof places, sums, sizeof sums, order, sizeof order, work, sizeof work);
    if (answer < 0) {
        printf("refused %" PRId64 "\n", -answer);
        if (answer == -YOLKGORGE_IMPOSSIBLE) show_unsafe_start();
        return 0;
    }
    count = (size_t)answer;
    show_bounds(0);
    show_bounds(yolkgorge_place_at(places, count - 1));
    for (size_t k = 0; k < count; k++)
        printf("step %zu: place %" PRIu32 ", paid %" PRIu32 "\n", k + 1, yolkgorge_place_at(places, k), yolkgorge_sum_at(sums, k));
    for (size_t i = 0; i < sizeof offers / sizeof *offers; i++) show_offer(offers[i].name, offers[i].plan);
    return carry_out();
}
