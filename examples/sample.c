/*
 * The sample of the vat balance, through the calls for C.
 *
 * Half of what passes through V1 goes on into V2, at most half of V2 returns to
 * V1, and V1 gets three tonnes. How much of the farm's milk passes through each?
 */
#include <inttypes.h>
#include <stdio.h>
#include <stdlib.h>

#include "kifwaleb.h"

enum { VATS = 2, NUMBERS = 2 * VATS, ALLOWED = 100 };

/* Row i, column j: the share of vat j that goes on into vat i, lower then upper,
 * in millionths. */
static const int64_t shares[VATS * NUMBERS] = {
    0,      0,      0, 500000,
    500000, 500000, 0, 0
};

/* To each vat from the farm, lower then upper, in grams. */
static const int64_t deliveries[NUMBERS] = { 3000000, 3000000, 0, 0 };

/* The same as a cellar text. */
static const char text[] =
    "V1;V2\n"
    "0:0;0:500000\n"
    "500000:500000;0:0\n"
    "3000000:3000000;0:0\n";

static int refused(const char *call, KifwalebOutcome outcome)
{
    fprintf(stderr, "the %s was refused: number %" PRIu64 ", place %" PRIu64 "\n",
            call, outcome.number, outcome.place);
    return EXIT_FAILURE;
}

static void print_bounds(const int64_t *bounds)
{
    int vat;

    for (vat = 0; vat < VATS; vat++)
        printf("V%d: %" PRId64 " to %" PRId64 " g\n",
               vat + 1, bounds[2 * vat], bounds[2 * vat + 1]);
}

int main(void)
{
    int64_t bounds[NUMBERS] = { 0 };
    uint8_t sheet[KIFWALEB_SHEET_LENGTH] = { 0 };
    KifwalebOutcome outcome;

    /* The first bounds. */
    outcome = kifwaleb_eliminate_balance(VATS, shares, VATS * NUMBERS,
                                         deliveries, NUMBERS, bounds, NUMBERS);
    if (outcome.number != KIFWALEB_DONE)
        return refused("elimination", outcome);
    puts("elimination");
    print_bounds(bounds);

    /* Sweeps tighten them, in place. 'Spent' is no refusal. */
    outcome = kifwaleb_sweep(VATS, shares, VATS * NUMBERS,
                             deliveries, NUMBERS, bounds, NUMBERS, ALLOWED);
    if (outcome.number != KIFWALEB_DONE && outcome.number != KIFWALEB_SPENT)
        return refused("sweep call", outcome);
    printf("sweeps: %s %" PRIu64 "\n",
           outcome.number == KIFWALEB_DONE ? "settled" : "spent", outcome.count);
    print_bounds(bounds);

    /* All of it at once, from a text to a sheet, which says itself whether the
     * sweeps settled. The text is lent without its byte 0. */
    outcome = kifwaleb_report((const uint8_t *)text, sizeof text - 1,
                              sheet, sizeof sheet);
    if (outcome.number != KIFWALEB_DONE && outcome.number != KIFWALEB_SPENT)
        return refused("report", outcome);
    puts("sheet");
    fwrite(sheet, 1, outcome.count, stdout);

    return EXIT_SUCCESS;
}
