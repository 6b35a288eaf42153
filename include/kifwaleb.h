/*
 * Kifwaleb: bounds on one farm's milk through a loop of vats.
 *
 * The calls of the archive target/staticlib/libcapi.a, which 'tools/archive capi'
 * makes. It is for x86-64 Linux.
 *
 * THE INTERFACE IS NOT FROZEN. A later version adds a slice of load-cell
 * readings to the eliminations, the start box, the sweep calls and the load of half
 * rows. Header and archive must come from the same version: C does not notice if they
 * do not.
 *
 * Numbers are counts of units of one millionth: of a whole for shares, of a
 * tonne (so one gram) for weights. An interval is two of them, lower end then
 * upper end, lower not above upper, both from -2,000,000,000 to 2,000,000,000;
 * these limits are 'the range' below. With n vats a matrix is 2*n*n numbers, row
 * by row, and a right side or a box 2*n numbers; in the calls kifwaleb_..._transfers
 * a list of transfers stands in place of the matrix. Vats, rows and lines are
 * numbered from 1.
 *
 * A slice is passed as a pointer and a length, which counts numbers, bytes or
 * transfers. All numbers, lengths and texts are tested: a wrong one is refused with
 * a number and a place, and no refusal changes anything that was lent.
 * kifwaleb_narrower alone refuses nothing: it takes a wrong box for the wider one.
 * Pointers cannot be tested. It is the caller who sees to it that
 * - no pointer is null, also with length 0, and each is aligned for its type;
 * - as many numbers, bytes or transfers as the length says lie there, all of them
 *   set, also in a slice that a call only writes;
 * - a slice without 'const' has no byte in common with another slice of the call;
 *   two slices with 'const' may be the same;
 * - nobody else writes to a lent slice before the call returns, nor reads one
 *   without 'const'. For a mapped file this means other processes too, and that
 *   nobody shortens it.
 *
 * No call allocates memory or waits, and the archive keeps nothing for the next
 * call: what the calls kifwaleb_half_... keep lies in a slice of the caller's. Give a
 * thread that calls at least 128 kB of stack: kifwaleb_report, which takes the most,
 * takes about 38 kB, and the rest is for the thread itself and the C library.
 */
#ifndef KIFWALEB_H
#define KIFWALEB_H

#include <stddef.h>
#include <stdint.h>

#ifdef __cplusplus
extern "C" {
#endif

/* One whole, or one tonne, in units. */
#define KIFWALEB_SCALE 1000000

/* The ends of the range, in units. */
#define KIFWALEB_LOWEST (-2000000000)
#define KIFWALEB_HIGHEST 2000000000

/* The most vats, and the most sweeps, or passes there and back, that may be allowed
 * to one call. */
#define KIFWALEB_MOST_VATS 32
#define KIFWALEB_MOST_SWEEPS 10000

/* The most transfers in one list. */
#define KIFWALEB_MOST_TRANSFERS 1024

/* The bytes of a lent sheet: exactly so many. */
#define KIFWALEB_SHEET_LENGTH 2048

/* The numbers of a state of half rows, exactly so many, and where in it the box
 * begins. */
#define KIFWALEB_HALF_LENGTH 2434
#define KIFWALEB_HALF_BOX 2

/* What 'number' says. All but DONE and SPENT are refusals. */
enum KifwalebNumber {
    /* Done, or settled; the result is written. Place 0. */
    KIFWALEB_DONE = 0,
    /* The number of vats is 0 or above 32. Place 0. */
    KIFWALEB_SIZE = 1,
    /* A slice has the wrong length. Place 1 the matrix, or a list of more than 1,024
     * transfers, 2 the right side, 3 the box or the sheet; the lowest if there are
     * several. */
    KIFWALEB_LENGTH = 2,
    /* An interval has its ends out of sequence or out of the range. The place is
     * the first such interval, counted from 0 through matrix or list, right side
     * and start box; in a single step the operand, 0 or 1; of a weighed interval 0. */
    KIFWALEB_ENDS = 3,
    /* The sweeps allowed are 0 or above 10,000. Place 0. */
    KIFWALEB_ALLOWED = 4,
    /* The divisor contains 0, its ends included. In an elimination the place is the
     * step that finds no row without 0 in its column; in a single step it is 0. */
    KIFWALEB_CONTAINS_ZERO = 5,
    /* A result is out of the range. The place is the row, after the swaps so far; in
     * a single step and for a start box it is 0. */
    KIFWALEB_OUT_OF_RANGE = 6,
    /* The start box, or the box of a state, holds no solution, or none within a
     * weighed interval. The place is the vat at which that was found. */
    KIFWALEB_EMPTY = 7,
    /* The text is not as described. Only kifwaleb_report returns it. The place is
     * the first faulty line, or 0 if the text has more than 65,536 bytes. */
    KIFWALEB_TEXT = 8,
    /* The last sweep allowed still changed the box; the result is written, and more
     * sweeps might tighten it. Place 0. */
    KIFWALEB_SPENT = 9,
    /* Neither do all rows of the shares' magnitudes come to less than one, nor do all
     * columns. Only kifwaleb_start_box returns it. Place 0. */
    KIFWALEB_SUMS = 10,
    /* A receiving or giving vat is none from 1 to n. Only the calls
     * kifwaleb_..._transfers return it. The place is the first such transfer, from 0. */
    KIFWALEB_TRANSFER_VAT = 11,
    /* A transfer does not come after the one before it, by receiving and then giving
     * vat. Only the calls kifwaleb_..._transfers return it. The place is the first such
     * transfer, from 0. */
    KIFWALEB_TRANSFER_ORDER = 12,
    /* Nothing is loaded, or a half pass is out of turn. Only the calls
     * kifwaleb_half_... return it. Place 0. */
    KIFWALEB_NOT_DUE = 19,
    /* The vat to be narrowed is none from 1 to n. Only kifwaleb_half_narrow returns
     * it. Place 0. */
    KIFWALEB_NO_VAT = 20
};

/* What kifwaleb_narrower returns. These are no outcome numbers: they name a box. */
enum KifwalebNarrower {
    /* Neither box is one. */
    KIFWALEB_NEITHER = 0,
    KIFWALEB_FIRST = 1,
    KIFWALEB_SECOND = 2
};

/* What a single step answers. lo and hi are the result; on a refusal both are 0. */
typedef struct KifwalebStep {
    uint64_t number;
    uint64_t place;
    int64_t lo;
    int64_t hi;
} KifwalebStep;

/* What any other call but kifwaleb_narrower answers. The count is of whole sweeps,
 * or of the bytes of a sheet; it is 0 for an elimination, for a start box and on half
 * rows. */
typedef struct KifwalebOutcome {
    uint64_t number;
    uint64_t place;
    uint64_t count;
} KifwalebOutcome;

/* One share of a list: [lo, hi] of what passes through the giving vat goes on into
 * the receiving vat. */
typedef struct KifwalebTransfer {
    int64_t receiver;
    int64_t giver;
    int64_t lo;
    int64_t hi;
} KifwalebTransfer;

/*
 * The exact sum of the intervals a and b.
 * DONE with the sum; else ENDS (place 0 for a, 1 for b) or OUT_OF_RANGE,
 * whichever comes first in this sequence.
 */
KifwalebStep kifwaleb_sum(int64_t a_lo, int64_t a_hi, int64_t b_lo, int64_t b_hi);

/*
 * The exact difference, a less b.
 * Outcomes as for the sum.
 */
KifwalebStep kifwaleb_difference(int64_t a_lo, int64_t a_hi, int64_t b_lo, int64_t b_hi);

/*
 * The narrowest interval with ends in units that holds every product of a number
 * in a and one in b.
 * Outcomes as for the sum.
 */
KifwalebStep kifwaleb_product(int64_t a_lo, int64_t a_hi, int64_t b_lo, int64_t b_hi);

/*
 * The narrowest interval with ends in units that holds every quotient of a number
 * in a by one in b.
 * DONE with the quotient; else ENDS (place 0 for a, 1 for b), CONTAINS_ZERO if b
 * contains 0, or OUT_OF_RANGE, whichever comes first in this sequence.
 */
KifwalebStep kifwaleb_quotient(int64_t a_lo, int64_t a_hi, int64_t b_lo, int64_t b_hi);

/*
 * Bounds on each component of the solutions x of A*x = f, by elimination. At each
 * step k, the lowest row from k on whose entry in column k does not contain 0 is
 * swapped with row k; components keep their numbers. Takes n, the matrix a, the
 * right side f, and a box for the bounds; what the box holds before does not matter.
 * Going back, f less the row's products is summed exactly and rounded outward once;
 * every other product and every quotient is rounded outward by itself.
 * DONE, and the bounds are written to the box; else the first of
 *   SIZE;
 *   LENGTH, the place says which slice;
 *   ENDS, the place counts through matrix and right side;
 *   CONTAINS_ZERO with the step, if every row from it on contains 0 in its column,
 *   or OUT_OF_RANGE with the row, by its place after the swaps so far, whichever
 *   the calculation meets first.
 * The count is 0.
 */
KifwalebOutcome kifwaleb_eliminate(size_t n,
                                   const int64_t *a, size_t a_len,
                                   const int64_t *f, size_t f_len,
                                   int64_t *bounds, size_t bounds_len);

/*
 * Bounds on each component of the solutions x of the balance x = B*x + b. Row i,
 * column j of the matrix is the share of what passes through vat j that goes on
 * into vat i; b has each vat's delivery from the farm. The call first forms I - B
 * and then does as kifwaleb_eliminate.
 * Outcomes as there, but OUT_OF_RANGE can also mean a row of I - B, and then comes
 * before any CONTAINS_ZERO.
 */
KifwalebOutcome kifwaleb_eliminate_balance(size_t n,
                                           const int64_t *b_matrix, size_t b_matrix_len,
                                           const int64_t *b, size_t b_len,
                                           int64_t *bounds, size_t bounds_len);

/*
 * Bounds on each component of the solutions x of the balance x = B*x + b, without
 * elimination: wide ones, from which sweeps can start where an elimination is
 * refused. Takes n, B and b as above, and a box for the bounds; what the box holds
 * before does not matter. The magnitude of an interval is the greater of its ends,
 * signs left off. If in every row the magnitudes of the shares come to less than
 * one, the reach is the greatest over the rows of: the sum of magnitudes of shares
 * times those of the deliveries, divided by one less the row's magnitudes. Else, if
 * they come to less than one in every column, it is the sum of all these products,
 * divided by one less the greatest column. Each product and each quotient is
 * rounded up to units. The box is b with every lower end lowered and every upper end
 * raised by the reach. It holds every solution.
 * DONE, and the bounds are written to the box; else the first of
 *   SIZE;
 *   LENGTH, the place says which slice;
 *   ENDS, the place counts through matrix and right side;
 *   SUMS;
 *   OUT_OF_RANGE with place 0, if a sum of products, a quotient or an end of the
 *   box is out of the range; a refusal by rows is not tried again by columns.
 * The count is 0.
 */
KifwalebOutcome kifwaleb_start_box(size_t n,
                                   const int64_t *b_matrix, size_t b_matrix_len,
                                   const int64_t *b, size_t b_len,
                                   int64_t *bounds, size_t bounds_len);

/*
 * Tightens bounds on the solutions of x = B*x + b. Takes n, B and b as above, a
 * start box, and the number of sweeps allowed, 1 to 10,000. For each vat, b and all
 * products of its row are summed exactly, rounded outward once to units, and
 * intersected with its bounds. Every solution in the start box is in the box written,
 * and no bound gets wider.
 * To tighten a box that kifwaleb_eliminate wrote from A and f, lend B = I - A and
 * b = f: for an entry [lo, hi] of A, [1000000 - hi, 1000000 - lo] on the diagonal
 * and [-hi, -lo] elsewhere. A itself in B's place tightens something else.
 * Divide each row of A and f before the elimination so that its diagonal is near
 * one, and B's near 0: where it is well above one, or below 0, sweeps as a rule
 * tighten nothing.
 * DONE if settled: the last whole sweep changed nothing. SPENT if the last sweep
 * allowed still changed a bound. Either writes the box over the start box, and the
 * count is of the whole sweeps done, the one that changed nothing included. Else
 * the first of
 *   SIZE;
 *   LENGTH, the place says which slice;
 *   ALLOWED;
 *   ENDS, the place counts through matrix, right side and start box;
 *   EMPTY with the vat, and the count is of the whole sweeps before.
 * The other refusals have count 0.
 */
KifwalebOutcome kifwaleb_sweep(size_t n,
                               const int64_t *b_matrix, size_t b_matrix_len,
                               const int64_t *b, size_t b_len,
                               int64_t *bounds, size_t bounds_len,
                               size_t allowed);

/*
 * As kifwaleb_sweep, but there and back: one pass goes from vat 1 to n and then from
 * n to 1, always with the newest bounds, and is allowed and counted as one sweep.
 * Outcomes as there. DONE if settled: the last whole pass changed nothing, there or back.
 * EMPTY comes there or back, and the count is of the whole passes before.
 * A pass takes as long as two sweeps. Unless the answer is EMPTY, the box lies inside
 * the one that kifwaleb_sweep leaves with as many sweeps allowed. EMPTY can come where
 * kifwaleb_sweep has not found it out yet, and comes wherever kifwaleb_sweep says so.
 * Where both settle they leave the same box: take this call where most milk runs against
 * the numbering of the vats, and kifwaleb_sweep where most runs along it.
 */
KifwalebOutcome kifwaleb_symmetric_sweep(size_t n,
                                         const int64_t *b_matrix, size_t b_matrix_len,
                                         const int64_t *b, size_t b_len,
                                         int64_t *bounds, size_t bounds_len,
                                         size_t allowed);

/*
 * As kifwaleb_eliminate_balance, with a list of transfers in place of B: at most 1,024
 * of them, which may be none, sorted by receiving and then by giving vat, each pair of
 * vats at most once. The receiving vat is the row of B and the giving vat its column;
 * the share of a pair that is not listed is 0, and one that is listed may be 0 too.
 * Outcome, count and box are those of kifwaleb_eliminate_balance for the matrix that
 * the list stands for, but the tests before the calculation are
 *   SIZE;
 *   LENGTH, with place 1 for more than 1,024 transfers;
 *   TRANSFER_VAT with the transfer; the whole list is tested for this first;
 *   TRANSFER_ORDER with the transfer;
 *   ENDS, the place counts through list and right side.
 */
KifwalebOutcome kifwaleb_eliminate_transfers(size_t n,
                                             const KifwalebTransfer *transfers, size_t count,
                                             const int64_t *b, size_t b_len,
                                             int64_t *bounds, size_t bounds_len);

/*
 * As kifwaleb_sweep, with a list of transfers in place of B, as above.
 * Outcome, count and box are those of kifwaleb_sweep for the matrix that the list stands
 * for, but the tests before the calculation are
 *   SIZE;
 *   LENGTH, with place 1 for more than 1,024 transfers;
 *   ALLOWED;
 *   TRANSFER_VAT with the transfer; the whole list is tested for this first;
 *   TRANSFER_ORDER with the transfer;
 *   ENDS, the place counts through list, right side and start box.
 */
KifwalebOutcome kifwaleb_sweep_transfers(size_t n,
                                         const KifwalebTransfer *transfers, size_t count,
                                         const int64_t *b, size_t b_len,
                                         int64_t *bounds, size_t bounds_len,
                                         size_t allowed);

/*
 * As kifwaleb_symmetric_sweep, with a list of transfers in place of B.
 * Tests as for kifwaleb_sweep_transfers; outcome, count and box are those of
 * kifwaleb_symmetric_sweep.
 */
KifwalebOutcome kifwaleb_symmetric_sweep_transfers(size_t n,
                                                   const KifwalebTransfer *transfers,
                                                   size_t count,
                                                   const int64_t *b, size_t b_len,
                                                   int64_t *bounds, size_t bounds_len,
                                                   size_t allowed);

/*
 * The calls kifwaleb_half_... do the pass there and back of kifwaleb_symmetric_sweep by
 * halves, one a call, with about half as many products: for each vat the exact sums left
 * and right of the diagonal are kept from one half to the next. Before either half the box
 * can be read, and a vat narrowed by what a scale says of it.
 * All that is kept lies in the state, KIFWALEB_HALF_LENGTH numbers of the caller's. Nothing
 * is loaded while all of them are 0, nor in a slice of another length. From
 * KIFWALEB_HALF_BOX on it has the 2*n numbers of the box, to be read; the rest is for these
 * calls alone. A state may be copied, also back, and set to 0. Of a state with other
 * numbers than these calls left in it nothing is promised but that each call returns, with
 * one of its outcomes. Each state stands for itself: several can be in use at once.
 *
 * This call loads a state with n, B, b and a start box, as for kifwaleb_sweep, and needs
 * none of them later. It replaces whatever the state held, which can be anything that is
 * set. The start box may not be the one within the state: lend a copy. Afterwards the half
 * pass up is due.
 * DONE, or else the first of
 *   NOT_DUE, if the state has not KIFWALEB_HALF_LENGTH numbers;
 *   SIZE;
 *   LENGTH, the place says which slice;
 *   ENDS, the place counts through matrix, right side and start box.
 * A refusal leaves the state as it was, and the count is 0, here and in the next three.
 */
KifwalebOutcome kifwaleb_half_load(int64_t *state, size_t state_len, size_t n,
                                   const int64_t *b_matrix, size_t b_matrix_len,
                                   const int64_t *b, size_t b_len,
                                   const int64_t *bounds, size_t bounds_len);

/*
 * The half pass up, from vat 1 to n, on the box of the state. Afterwards the half pass
 * down is due. From a load on, and as long as no vat is narrowed, k times up and down leave
 * the box that kifwaleb_symmetric_sweep leaves with k allowed.
 * DONE, or else the first of
 *   NOT_DUE, if nothing is loaded or the other half pass is due;
 *   EMPTY with the vat. This half pass is then still due.
 */
KifwalebOutcome kifwaleb_half_up(int64_t *state, size_t state_len);

/*
 * The half pass down, from vat n to 1. Afterwards the half pass up is due.
 * Outcomes as for the half pass up.
 */
KifwalebOutcome kifwaleb_half_down(int64_t *state, size_t state_len);

/*
 * Narrows one vat, counted from 1, by a weighed interval: the vat's bounds become what
 * they have in common with it. Before either half pass, which stays due.
 * DONE, also if nothing changes, or else the first of
 *   NOT_DUE, if nothing is loaded;
 *   NO_VAT, if the vat is 0 or above n;
 *   ENDS with place 0;
 *   EMPTY with the vat, if there is nothing in common.
 */
KifwalebOutcome kifwaleb_half_narrow(int64_t *state, size_t state_len,
                                     size_t vat, int64_t lo, int64_t hi);

/*
 * Which of two boxes has the smaller sum of widths, a width being the upper end less
 * the lower end. Takes n and both boxes, which may be the same.
 * FIRST or SECOND; FIRST if the sums are equal. A slice is no box if n is 0 or above
 * 32, if it has not 2*n numbers, or if an interval in it has its ends out of sequence
 * or out of the range. If only one of the two is a box it is that one, and NEITHER if
 * none is. The answer is one of enum KifwalebNarrower, and no outcome number.
 */
uint64_t kifwaleb_narrower(size_t n,
                           const int64_t *first, size_t first_len,
                           const int64_t *second, size_t second_len);

/*
 * From a cellar text to its sheet: eliminates from the text's B and b, sweeps with
 * 100 allowed, and writes the lines that the program 'balance' prints. Takes the
 * text, of any length and with any bytes, and out, of exactly 2,048 bytes.
 * DONE if the sweeps settled, SPENT if all 100 were done and the last still changed
 * a bound. Either writes the sheet to the beginning of out: the count is of its
 * bytes, no byte 0 follows, and what lies past it stays as it was. Else the first of
 *   TEXT with the faulty line;
 *   LENGTH with place 3, if out has another length;
 *   ENDS, the place counts through B and b;
 *   CONTAINS_ZERO with the pivot, OUT_OF_RANGE with the row, or EMPTY with the vat,
 *   whichever the calculation meets first.
 * Then nothing is written and the count is 0. The line 'refused' with number and
 * place, which the program prints, is left to the caller.
 */
KifwalebOutcome kifwaleb_report(const uint8_t *text, size_t text_len,
                                uint8_t *out, size_t out_len);

#ifdef __cplusplus
}
#endif

#endif
