/* Yolkgorge: plans the exchange of countable units for money in steps, such that at no moment either firm gains by
 * leaving; checks plans that are brought; keeps account of how far a plan is carried out.
 *
 * The supplier delivers units, the buyer pays. A deal is described by a contract record, a string of bytes. A place is a
 * state of delivery: how many units have been delivered, or, for a table, the number of its row. A plan is a list of steps;
 * each step names the place and the paid total that it goes to. Its delivery and its payment may come in either order.
 *
 * Safe. A plan is safe if neither firm gains by leaving in any state that it passes, whichever of a step's two moves comes
 * first. A firm that leaves bears its defection cost, but at the start, with nothing delivered and nothing paid, it bears none.
 * So the start is safe exactly if the price is from the whole cost to the whole value, both included: the supplier's cost of
 * the last place less that of place 0, and the buyer's value likewise. (Only row 0 of a table can have a cost or a value.)
 * Every other state is safe exactly if the paid total lies within the bounds of its place (yolkgorge_bounds).
 *
 * Areas. All data crosses as bytes in areas that the caller owns, each a pointer and a length in bytes; nothing is kept after
 * a call and nothing is allocated. Where a length is 0 its pointer is not followed. Areas that a call writes must not overlap
 * any other area of that call. A place takes two bytes and a sum four, little-endian (yolkgorge_place_at and
 * yolkgorge_sum_at read them); bytes at the end of an area that are too few for an entry count as none and stay as they are.
 *
 * Answers. Every refusal has a number, below. A refused call changes no area, but for YOLKGORGE_IMPOSSIBLE, which zeroes
 * the work area.
 *
 * Threads. The library has no state of its own: calls on different areas may run at the same time. Stack: a call needs
 * at most about 7 KiB (seen: 7,000 bytes, planning unit prices; 6,776 for a table), and some 2 KiB more at the first call
 * in a program whose dynamic linker looks up memset and memcpy only then (seen: 9,208); give a thread 32 KiB.
 */
#ifndef YOLKGORGE_H
#define YOLKGORGE_H

#include <stddef.h>
#include <stdint.h>

#ifdef __cplusplus
extern "C" {
#endif

/* Refusals, and what to do about them. */
enum {
    YOLKGORGE_TRUNCATED = 1,  /* the record ends inside a field: pass the whole record */
    YOLKGORGE_MAP = 2,        /* its bit map names no form, two forms, or an unknown bit: not a record of this version;
                                 or it is a table, where a plan with fewest payments, deliveries or moves is asked for */
    YOLKGORGE_VALUE = 3,      /* a price or defection cost that is stated is zero, or a bit stands beyond a table's last row */
    YOLKGORGE_LIMIT = 4,      /* an amount or a total is above 1,000,000,000: state it in larger coins */
    YOLKGORGE_RANGE = 5,      /* a count of units, items or rows is out of range, or a place is above the last one */
    YOLKGORGE_FALLING = 6,    /* a cell of a table is below that of a row with one unit less */
    YOLKGORGE_TRAILING = 7,   /* bytes follow the record: pass its own length */
    YOLKGORGE_SHORT = 8,      /* an area is too short: see the sizes below */
    YOLKGORGE_IMPOSSIBLE = 9, /* no safe plan exists, whatever the order of the units: renegotiate the deal, first of all a price
                                 below the whole cost or above the whole value (see Safe, above) */
    YOLKGORGE_UNFIT = 10,     /* the report does not fit the open step: nothing has changed, look at the plan */
    YOLKGORGE_FINISHED = 11,  /* the session is finished already */
    YOLKGORGE_UNSAFE = 12     /* the plan is not safe, does not end, or its order bytes do not name each item once */
};

/* Sizes, by U, all units of the deal, and by the rows of a table. These are enough for every deal:
 * U is at most 1,000 for a ladder and for unit prices; a table has at most 128 rows and U at most 127. */
#define YOLKGORGE_MOST_UNITS 1000
#define YOLKGORGE_MOST_STEPS(units) (2 * (size_t)(units) + 1)
#define YOLKGORGE_PLACES_SIZE(units) (2 * YOLKGORGE_MOST_STEPS(units))
#define YOLKGORGE_SUMS_SIZE(units) (4 * YOLKGORGE_MOST_STEPS(units))
#define YOLKGORGE_ORDER_SIZE 8
#define YOLKGORGE_WORK_SIZE(rows, units) ((size_t)(rows) * (2 * (size_t)(units) + 2)) /* for a table; else 0 */
#define YOLKGORGE_MOST_WORK_SIZE YOLKGORGE_WORK_SIZE(128, 127)
#define YOLKGORGE_RECORD_SIZE 8016 /* no record is longer */
#define YOLKGORGE_SESSION_SIZE 10
#define YOLKGORGE_BOUNDS_SIZE 16

/* Entry k of an area of places, and of an area of sums. */
static inline uint32_t yolkgorge_place_at(const uint8_t *places, size_t k) {
    return (uint32_t)places[2 * k] | (uint32_t)places[2 * k + 1] << 8;
}

static inline uint32_t yolkgorge_sum_at(const uint8_t *sums, size_t k) {
    const uint8_t *s = sums + 4 * k;
    return (uint32_t)s[0] | (uint32_t)s[1] << 8 | (uint32_t)s[2] << 16 | (uint32_t)s[3] << 24;
}

/* Plans a deal. Answers the number of steps n, at least 1, or minus the number of a refusal (1 to 9).
 *
 * On success the first n entries of `places` and `sums` are the plan, and all entries after them are zero. The first
 * eight bytes of `order` name the order in which the items of unit prices are delivered, by their numbers from 1 and then
 * zeros; for a ladder and a table they are all zero. The whole work area is zero.
 * No safe plan in that order has fewer steps; for a table, no safe plan in any order.
 *
 * The same record gives the same plan at every desk: answer and areas are fixed to the last byte.
 *   Unit prices: items whose unit cost is at least the unit value come first. Each time it is the one with the greatest cost
 *   less value of a unit, of those whose unit value is at most upper less lower at the place reached. The others fill the
 *   order from its end: each time the greatest value less cost of a unit, of those whose unit cost is at most upper less
 *   lower at the place after it. On a tie the lower item number is taken. Upper and lower are here the bounds of the place
 *   (yolkgorge_bounds) before they are clipped.
 *   Table: of the safe plans with fewest steps, the one whose list of rows is earliest, compared from the first step. */
int64_t yolkgorge_plan(const uint8_t *record, size_t record_len, uint8_t *places, size_t places_len, uint8_t *sums,
                       size_t sums_len, uint8_t *order, size_t order_len, uint8_t *work, size_t work_len);

/* Plans a ladder or unit prices where each transfer or each delivery costs something. A payment is a step in which the paid
 * total rises, a delivery one in which the place rises; moves are payments and deliveries together. Of all safe plans in the
 * same order, however long,
 *   yolkgorge_plan_fewest_payments    has as few payments as any: it starts with a delivery only;
 *   yolkgorge_plan_fewest_deliveries  has as few deliveries as any: it starts with a payment only;
 *   yolkgorge_plan_fewest_moves       has as few moves as any: it is the one of these two with fewer moves, and the one that
 *                                     starts with a payment if both have equally many.
 * They may take more steps than yolkgorge_plan, but at most YOLKGORGE_MOST_STEPS(U).
 *
 * Answers, areas and order are those of yolkgorge_plan, without a work area: the number of steps, or minus the number of a
 * refusal (1 to 9; 2 also for every table, ahead of 8: ask yolkgorge_plan). 9 means here as there that no safe plan exists at
 * all. */
int64_t yolkgorge_plan_fewest_payments(const uint8_t *record, size_t record_len, uint8_t *places, size_t places_len,
                                       uint8_t *sums, size_t sums_len, uint8_t *order, size_t order_len);
int64_t yolkgorge_plan_fewest_deliveries(const uint8_t *record, size_t record_len, uint8_t *places, size_t places_len,
                                         uint8_t *sums, size_t sums_len, uint8_t *order, size_t order_len);
int64_t yolkgorge_plan_fewest_moves(const uint8_t *record, size_t record_len, uint8_t *places, size_t places_len,
                                    uint8_t *sums, size_t sums_len, uint8_t *order, size_t order_len);

/* Checks a plan of `count` steps from wherever it comes. Answers 0 if it is a safe plan of the deal along the order that
 * its order bytes name, its start included, else the number of a refusal (1 to 8, 12). */
uint32_t yolkgorge_check(const uint8_t *record, size_t record_len, size_t count, const uint8_t *places, size_t places_len,
                         const uint8_t *sums, size_t sums_len, const uint8_t *order, size_t order_len);

/* The bounds of a place: the paid total is safe there from `lower` to `upper`, both included; only whether nothing paid at
 * place 0 is safe, the start, they do not tell (see Safe, above). Answers 0 and stores them in the first sixteen bytes of
 * `bounds`, lower then upper, each a signed 64-bit number in two's complement, little-endian; else answers the number of a
 * refusal (1 to 8, 12).
 *   lower: the price, less the value of what is not delivered yet, less the buyer's defection cost; clipped to at least 0
 *   upper: the price, less the cost of what is not delivered yet, plus the supplier's defection cost; clipped to at most the
 *          price. A negative one stays negative: no paid total is safe there, nor at the start, and the deal has no plan (9). */
uint32_t yolkgorge_bounds(const uint8_t *record, size_t record_len, size_t place, const uint8_t *order, size_t order_len,
                          uint8_t *bounds, size_t bounds_len);

/* Sessions. A session is ten bytes in an area of the caller: copy it, store it, hand it on as you like. Hand in the plan
 * that it was opened with each time. */

enum { YOLKGORGE_DELIVERY = 0, YOLKGORGE_PAYMENT = 1 };

/* Checks a plan and opens a session on it. Answers 0 and stores the session, else the number of a refusal (1 to 8, 12). */
uint32_t yolkgorge_open(uint8_t *session, size_t session_len, const uint8_t *record, size_t record_len, size_t count,
                        const uint8_t *places, size_t places_len, const uint8_t *sums, size_t sums_len, const uint8_t *order,
                        size_t order_len);

/* Reports that a delivery reached a place (YOLKGORGE_DELIVERY), or that a payment reached a paid total
 * (YOLKGORGE_PAYMENT). Answers 0 and stores the next session, else 8, 11 or 10, and the session stays as it was. A report
 * is taken only if it is the open step's own and was not made before; the account never moves on any other. */
uint32_t yolkgorge_report(uint8_t *session, size_t session_len, size_t count, const uint8_t *places, size_t places_len,
                          const uint8_t *sums, size_t sums_len, uint32_t side, uint32_t number);

/* Answers 1 if all `count` steps are passed, that is, all is delivered and the price is paid; 0 if not; 8 if the area is too
 * short for a session. */
uint32_t yolkgorge_finished(const uint8_t *session, size_t session_len, size_t count);

#ifdef __cplusplus
}
#endif

#endif
