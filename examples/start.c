/*
 * Bounds where elimination is refused, through the calls for C.
 *
 * Half of what passes through V1 goes on into V2, at most half of V2 returns to
 * V1, and V1 gets three tonnes. V3, V4 and V5 pass cream round: each gives a
 * third to each of the three, itself included. In millionths a third is 333333,
 * so that they lose next to nothing, and elimination, which rounds, cannot tell
 * it from nothing. A start box needs no elimination, and sweeps tighten it: all of
 * these boxes hold the true weights. Of V3 to V5, which the farm's milk does not
 * reach, the last one says only that less than three tonnes pass.
 */
#include <inttypes.h>
#include <stdio.h>
#include <stdlib.h>
#include <string.h>

#include "kifwaleb.h"

enum { VATS = 5, NUMBERS = 2 * VATS, ALLOWED = 100 };

/* Row i, column j: the share of vat j that goes on into vat i, lower then upper,
 * in millionths. */
static const int64_t shares[VATS * NUMBERS] = {
    0,      0,      0, 500000, 0,      0,      0,      0,      0,      0,
    500000, 500000, 0, 0,      0,      0,      0,      0,      0,      0,
    0,      0,      0, 0,      333333, 333333, 333333, 333333, 333333, 333333,
    0,      0,      0, 0,      333333, 333333, 333333, 333333, 333333, 333333,
    0,      0,      0, 0,      333333, 333333, 333333, 333333, 333333, 333333
};

/* To each vat from the farm, lower then upper, in grams. */
static const int64_t deliveries[NUMBERS] = { 3000000, 3000000, 0, 0, 0, 0, 0, 0, 0, 0 };

/* What is known without any calculation: at most 20 tonnes pass through a vat. */
static const int64_t known[NUMBERS] = {
    0, 20000000, 0, 20000000, 0, 20000000, 0, 20000000, 0, 20000000
};

static int refused(const char *call, KifwalebOutcome outcome)
{
    fprintf(stderr, "the %s was refused: number %" PRIu64 ", place %" PRIu64 "\n",
            call, outcome.number, outcome.place);
    return EXIT_FAILURE;
}

static void print_bounds(const int64_t *bounds)
{
    int vat;

    for (vat = 0; vat < VATS; vat++)
        printf("V%d: %" PRId64 " to %" PRId64 " g\n",
               vat + 1, bounds[2 * vat], bounds[2 * vat + 1]);
}

int main(void)
{
    int64_t bounds[NUMBERS] = { 0 };
    KifwalebOutcome outcome;

    outcome = kifwaleb_eliminate_balance(VATS, shares, VATS * NUMBERS,
                                         deliveries, NUMBERS, bounds, NUMBERS);
    if (outcome.number != KIFWALEB_CONTAINS_ZERO)
        return refused("elimination, otherwise than foreseen,", outcome);
    printf("elimination: no row serves at step %" PRIu64 "\n", outcome.place);

    /* Every solution lies in this box, too. */
    outcome = kifwaleb_start_box(VATS, shares, VATS * NUMBERS,
                                 deliveries, NUMBERS, bounds, NUMBERS);
    if (outcome.number != KIFWALEB_DONE)
        return refused("start box", outcome);
    puts("start box");
    print_bounds(bounds);

    /* Sweeps begin with the narrower of two boxes that hold the weights. */
    if (kifwaleb_narrower(VATS, bounds, NUMBERS, known, NUMBERS) == KIFWALEB_FIRST) {
        puts("narrower: the start box");
    } else {
        puts("narrower: what is known");
        memcpy(bounds, known, sizeof bounds);
    }
    outcome = kifwaleb_sweep(VATS, shares, VATS * NUMBERS,
                             deliveries, NUMBERS, bounds, NUMBERS, ALLOWED);
    if (outcome.number != KIFWALEB_DONE && outcome.number != KIFWALEB_SPENT)
        return refused("sweep call", outcome);
    printf("sweeps: %s %" PRIu64 "\n",
           outcome.number == KIFWALEB_DONE ? "settled" : "spent", outcome.count);
    print_bounds(bounds);

    return EXIT_SUCCESS;
}
