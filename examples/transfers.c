/*
 * A list of transfers in place of the matrix, through the calls for C.
 *
 * Half of what passes through V1 goes on into V2, at most half of V2 returns to
 * V1, and V1 gets three tonnes. V3 to V32 get a third of what passes through the
 * vat before. All other shares are 0 and need not be listed.
 */
#include <inttypes.h>
#include <stdio.h>
#include <stdlib.h>

#include "kifwaleb.h"

enum { VATS = 32, NUMBERS = 2 * VATS, TRANSFERS = VATS, ALLOWED = 100, SHOWN = 4 };

/* The receiving vat, the giving vat, and the share in millionths, lower then upper.
 * They come by receiving and then by giving vat. */
static KifwalebTransfer transfers[TRANSFERS] = {
    { 1, 2, 0, 500000 },
    { 2, 1, 500000, 500000 }
};

/* To each vat from the farm, lower then upper, in grams. */
static const int64_t deliveries[NUMBERS] = { 3000000, 3000000 };

static int refused(const char *call, KifwalebOutcome outcome)
{
    fprintf(stderr, "the %s was refused: number %" PRIu64 ", place %" PRIu64 "\n",
            call, outcome.number, outcome.place);
    return EXIT_FAILURE;
}

int main(void)
{
    int64_t bounds[NUMBERS] = { 0 };
    KifwalebOutcome outcome;
    int vat;

    for (vat = 3; vat <= VATS; vat++)
        transfers[vat - 1] = (KifwalebTransfer){ vat, vat - 1, 333333, 333334 };
    printf("transfers: %d\n", TRANSFERS);

    outcome = kifwaleb_eliminate_transfers(VATS, transfers, TRANSFERS,
                                           deliveries, NUMBERS, bounds, NUMBERS);
    if (outcome.number != KIFWALEB_DONE)
        return refused("elimination", outcome);
    outcome = kifwaleb_sweep_transfers(VATS, transfers, TRANSFERS,
                                       deliveries, NUMBERS, bounds, NUMBERS, ALLOWED);
    if (outcome.number != KIFWALEB_DONE && outcome.number != KIFWALEB_SPENT)
        return refused("sweep call", outcome);
    printf("sweeps: %s %" PRIu64 "\n",
           outcome.number == KIFWALEB_DONE ? "settled" : "spent", outcome.count);
    for (vat = 0; vat < SHOWN; vat++)
        printf("V%d: %" PRId64 " to %" PRId64 " g\n",
               vat + 1, bounds[2 * vat], bounds[2 * vat + 1]);

    return EXIT_SUCCESS;
}
