/* Plans the record in a file once, by planning or by a plan that spares payments, deliveries or moves, and prints the answer: for
 * counting instructions.
 * usage: plan_file plan|payments|deliveries|moves RECORD */
#include <stdio.h>
#include <string.h>

#include "yolkgorge.h"

static uint8_t record[8192], places[2 * 2001], sums[4 * 2001], order[8], work[128 * 256];

int main(int argc, char **argv) {
    FILE *file = argc == 3 ? fopen(argv[2], "rb") : NULL;
    if (!file) {
        fprintf(stderr, "usage: plan_file plan|payments|deliveries|moves RECORD\n");
        return 2;
    }
    size_t length = fread(record, 1, sizeof record, file);
    fclose(file);
    long long answer;
    if (!strcmp(argv[1], "payments"))
        answer = yolkgorge_plan_fewest_payments(record, length, places, sizeof places, sums, sizeof sums, order, sizeof order);
    else if (!strcmp(argv[1], "deliveries"))
        answer = yolkgorge_plan_fewest_deliveries(record, length, places, sizeof places, sums, sizeof sums, order, sizeof order);
    else if (!strcmp(argv[1], "moves"))
        answer = yolkgorge_plan_fewest_moves(record, length, places, sizeof places, sums, sizeof sums, order, sizeof order);
    else
        answer = yolkgorge_plan(record, length, places, sizeof places, sums, sizeof sums, order, sizeof order, work, sizeof work);
    printf("%lld\n", answer);
    return 0;
}
