/*
 * Half passes and a weighing, through the calls for C.
 *
 * Half of what passes through V1 goes on into V2, at most half of V2 returns to
 * V1, and V1 gets three tonnes. At most ten pass through a vat. After a pass up
 * and one down V2 is weighed; the next pass up takes that on to V1.
 */
#include <inttypes.h>
#include <stdio.h>
#include <stdlib.h>

#include "kifwaleb.h"

enum { VATS = 2, NUMBERS = 2 * VATS };

/* Row i, column j: the share of vat j that goes on into vat i, lower then upper,
 * in millionths. */
static const int64_t shares[VATS * NUMBERS] = {
    0,      0,      0, 500000,
    500000, 500000, 0, 0
};

/* To each vat from the farm, lower then upper, in grams. */
static const int64_t deliveries[NUMBERS] = { 3000000, 3000000, 0, 0 };

static const int64_t known[NUMBERS] = { 0, 10000000, 0, 10000000 };

/* All that is kept from one call to the next; nothing is loaded yet. */
static int64_t state[KIFWALEB_HALF_LENGTH];

/* Prints the bounds after a call that is not refused. */
static void done(const char *call, KifwalebOutcome outcome)
{
    const int64_t *bounds = state + KIFWALEB_HALF_BOX;
    int vat;

    if (outcome.number != KIFWALEB_DONE) {
        fprintf(stderr, "%s was refused: number %" PRIu64 ", place %" PRIu64 "\n",
                call, outcome.number, outcome.place);
        exit(EXIT_FAILURE);
    }
    puts(call);
    for (vat = 0; vat < VATS; vat++)
        printf("V%d: %" PRId64 " to %" PRId64 " g\n",
               vat + 1, bounds[2 * vat], bounds[2 * vat + 1]);
}

int main(void)
{
    done("load", kifwaleb_half_load(state, KIFWALEB_HALF_LENGTH,
                                    VATS, shares, VATS * NUMBERS,
                                    deliveries, NUMBERS, known, NUMBERS));
    done("up", kifwaleb_half_up(state, KIFWALEB_HALF_LENGTH));
    done("down", kifwaleb_half_down(state, KIFWALEB_HALF_LENGTH));

    /* The scale says 1.9 tonnes at most. */
    done("V2 weighed", kifwaleb_half_narrow(state, KIFWALEB_HALF_LENGTH,
                                            2, 1000000, 1900000));
    done("up", kifwaleb_half_up(state, KIFWALEB_HALF_LENGTH));

    return EXIT_SUCCESS;
}
