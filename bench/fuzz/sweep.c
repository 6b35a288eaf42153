/*
 * A fuzzer over kifwaleb_sweep and kifwaleb_symmetric_sweep. The fuzzer's bytes
 * become one call; what the call answers is held to what the header promises of
 * it.
 */
#include "common.h"

enum { MATRIX, RIGHT, BOX, SLICES };

/* More numbers than 33 vats have. */
enum { MOST_VATS = KIFWALEB_MOST_VATS, MOST_NUMBERS = 2 * 33 * 33 + 8 };

typedef int64_t Box[MOST_NUMBERS];

/* Either of the two. */
typedef KifwalebOutcome Sweep(size_t n, const int64_t *b_matrix, size_t b_matrix_len,
                              const int64_t *b, size_t b_len,
                              int64_t *bounds, size_t bounds_len, size_t allowed);

/* The call under way. */
static struct {
    Sweep *sweep;
    size_t n;
    size_t allowed;
    size_t lengths[SLICES];
    Box numbers[SLICES];
    int last[SLICES];            /* where each slice lies in its room */
    int shared;                  /* whether the right side lies in the matrix */
    int planted;                 /* whether 'solution' is one, and in the box */
    int64_t solution[MOST_VATS];
} call;

static Lent lent[SLICES];

/* How often a box was written that had to hold a known solution, or to lie in another. */
static uint64_t solutions_held, boxes_inside;

static int there_and_back(void)
{
    return call.sweep == kifwaleb_symmetric_sweep;
}

static void show_call(void)
{
    static const char *const names[SLICES] = { "matrix", "right side", "box" };

    fprintf(stderr, "%s, n %zu, allowed %zu%s\n",
            there_and_back() ? "symmetric sweep" : "sweep", call.n, call.allowed,
            call.shared ? ", the right side lies in the matrix" : "");
    for (int s = 0; s < SLICES; s++) {
        fprintf(stderr, "%s, %zu numbers:", names[s], call.lengths[s]);
        for (size_t k = 0; k < call.lengths[s]; k++)
            fprintf(stderr, "%s%" PRId64, k % 2 == 1 ? ":" : " ", call.numbers[s][k]);
        fprintf(stderr, "\n");
    }
    if (call.planted) {
        fprintf(stderr, "a solution:");
        for (size_t i = 0; i < call.n; i++)
            fprintf(stderr, " %" PRId64, call.solution[i]);
        fprintf(stderr, "\n");
    }
}

/* ---- from bytes to a call */

static size_t take_size(Bytes *bytes)
{
    static const size_t wrong[] = {
        0, 33, 34, 64, (size_t)1 << 31, (size_t)1 << 32, (size_t)1 << 63, SIZE_MAX
    };
    unsigned kind = take(bytes);

    if (kind < 208)
        return 1 + kind % 4;
    if (kind < 244)
        return 5 + take(bytes) % 28;
    return wrong[kind % 8];
}

/* Few sweeps as a rule, for speed, and fewer where there are many vats. */
static size_t take_allowed(Bytes *bytes, size_t n)
{
    static const size_t turning[] = { 0, 1, 9999, 10000, 10001, (size_t)1 << 32, SIZE_MAX, 100 };
    unsigned kind = take(bytes);

    if (kind < 192 || n > 8)
        return kind < 252 ? 1 + kind % 16 : turning[kind % 8];
    if (kind < 240)
        return 1 + take(bytes);
    if (kind < 244)
        return take_wide(bytes, 2) % 10002;
    return turning[kind % 8];
}

/* The length that n asks for, or sometimes another. */
static size_t take_length(Bytes *bytes, size_t right)
{
    unsigned kind = take(bytes);
    size_t length = right;

    if (kind >= 248)
        switch (kind % 8) {
        case 0: length = 0; break;
        case 1: length = right - 1; break;
        case 2: length = right + 1; break;
        case 3: length = right / 2; break;
        case 4: length = right * 2; break;
        case 5: length = right + 2; break;
        default: length = take_wide(bytes, 2); break;
        }
    return length <= MOST_NUMBERS ? length : MOST_NUMBERS;
}

static void take_numbers(Bytes *bytes, int slice)
{
    for (size_t k = 0; k < call.lengths[slice]; k += 2)
        take_interval(bytes, call.numbers[slice] + k);
}

/* What vat i must get from the farm if the weights are 'solution' and the shares are ends of
 * B's intervals. Each product is parted into wholes and a rest, so that no sum overflows. */
static void plant_delivery(Bytes *bytes, size_t i, const int64_t *solution, int64_t *ends)
{
    int64_t wholes = 0, rest = 0;

    for (size_t j = 0; j < call.n; j++) {
        int64_t share = call.numbers[MATRIX][2 * (i * call.n + j) + take(bytes) % 2];
        int64_t product = share * solution[j];
        int64_t over = (product % KIFWALEB_SCALE + KIFWALEB_SCALE) % KIFWALEB_SCALE;

        wholes += (product - over) / KIFWALEB_SCALE;
        rest += over;
    }
    ends[0] = solution[i] - wholes - (rest + KIFWALEB_SCALE - 1) / KIFWALEB_SCALE - take(bytes) % 4;
    ends[1] = solution[i] - wholes - rest / KIFWALEB_SCALE + take(bytes) % 4;
}

/* Puts right side and box around one solution, which no sweep may lose. Leaves the call as it is
 * if a delivery would be out of the range. */
static void plant(Bytes *bytes)
{
    int64_t deliveries[2 * MOST_VATS], ends[2];

    for (size_t i = 0; i < call.n; i++) {
        take_interval(bytes, ends);
        call.solution[i] = inside(ends[0]);
    }
    for (size_t i = 0; i < call.n; i++) {
        plant_delivery(bytes, i, call.solution, deliveries + 2 * i);
        if (faulty(deliveries + 2 * i))
            return;
    }
    memcpy(call.numbers[RIGHT], deliveries, 2 * call.n * sizeof *deliveries);
    for (size_t i = 0; i < call.n; i++) {
        int64_t below = (int64_t)take_wide(bytes, 1 + i % 4);
        int64_t above = (int64_t)take_wide(bytes, 4 - i % 4);

        call.numbers[BOX][2 * i] = inside(call.solution[i] - below);
        call.numbers[BOX][2 * i + 1] = inside(call.solution[i] + above);
    }
    call.planted = 1;
}

/* The refusal that the tests before the calculation must give, or DONE. */
static KifwalebOutcome tested(size_t allowed)
{
    size_t right[SLICES] = { 2 * call.n * call.n, 2 * call.n, 2 * call.n };
    uint64_t place = 0;

    if (call.n == 0 || call.n > MOST_VATS)
        return (KifwalebOutcome){ KIFWALEB_SIZE, 0, 0 };
    for (int s = 0; s < SLICES; s++)
        if (call.lengths[s] != right[s])
            return (KifwalebOutcome){ KIFWALEB_LENGTH, (uint64_t)s + 1, 0 };
    if (allowed == 0 || allowed > KIFWALEB_MOST_SWEEPS)
        return (KifwalebOutcome){ KIFWALEB_ALLOWED, 0, 0 };
    for (int s = 0; s < SLICES; s++)
        for (size_t k = 0; k < call.lengths[s]; k += 2, place++)
            if (faulty(call.numbers[s] + k))
                return (KifwalebOutcome){ KIFWALEB_ENDS, place, 0 };
    return (KifwalebOutcome){ KIFWALEB_DONE, 0, 0 };
}

/* Sweeps that go on for about as long as they are allowed. As long as the upper end of one vat is
 * above 999,999, that many millionths of it, rounded up, are one unit less. A pass there and back
 * takes off two; the last one may have only one to take off. */
static void make_slow(Bytes *bytes)
{
    size_t vat = take(bytes) % call.n;
    unsigned kind = take(bytes);
    size_t changes = kind < 192 ? kind : 9996 + kind % 8;
    size_t units = there_and_back() && changes > 0 ? 2 * changes - take(bytes) % 2 : changes;
    int64_t *own = call.numbers[MATRIX] + 2 * (vat * call.n + vat);

    memset(call.numbers, 0, sizeof call.numbers);
    own[0] = own[1] = 999999;
    call.numbers[BOX][2 * vat + 1] = 999999 + (int64_t)units;
    call.allowed = changes + take(bytes) % 4;
}

static void take_call(Bytes *bytes)
{
    unsigned kind = take(bytes);
    int back = take(bytes) % 2;
    size_t n = take_size(bytes);
    size_t few = n <= 33 ? n : 1;

    call.sweep = back ? kifwaleb_symmetric_sweep : kifwaleb_sweep;
    call.n = n;
    call.allowed = take_allowed(bytes, n);
    for (int s = 0; s < SLICES; s++) {
        call.last[s] = kind >> s & 1;
        call.lengths[s] = take_length(bytes, s == MATRIX ? 2 * few * few : 2 * few);
    }
    bytes->again = kind >> 3 & 1;
    bytes->sound = kind >> 5 != 2;
    call.planted = call.shared = 0;
    if (kind / 8 == 2 && n >= 1 && n <= 2) {
        make_slow(bytes);
        return;
    }
    for (int s = 0; s < SLICES; s++)
        take_numbers(bytes, s);
    call.shared = kind >= 240 && call.lengths[RIGHT] <= call.lengths[MATRIX];
    if (call.shared)
        memcpy(call.numbers[RIGHT], call.numbers[MATRIX], call.lengths[RIGHT] * sizeof(int64_t));
    else if ((kind >> 4 & 3) == 0 && tested(1).number == KIFWALEB_DONE)
        plant(bytes);
}

/* ---- one call and what holds of it by itself */

static int64_t *numbers_of(const Lent *numbers)
{
    return (int64_t *)(void *)numbers->slice;
}

/* Lends everything, with 'box' as the start box, and leaves in 'box' what the call left there. */
static KifwalebOutcome swept_by(Sweep *sweep, int64_t *box, size_t allowed)
{
    const Lent *right = &lent[call.shared ? MATRIX : RIGHT];
    KifwalebOutcome outcome;
    int written;

    for (int s = 0; s < SLICES; s++)
        lend(&lent[s], s == BOX ? box : call.numbers[s], call.lengths[s] * sizeof *box,
             call.last[s]);
    outcome = sweep(call.n, numbers_of(&lent[MATRIX]), call.lengths[MATRIX],
                    numbers_of(right), call.lengths[RIGHT],
                    numbers_of(&lent[BOX]), call.lengths[BOX], allowed);
    written = outcome.number == KIFWALEB_DONE || outcome.number == KIFWALEB_SPENT;
    promised(kept(&lent[MATRIX], 0), "the matrix and what lies beside it stay as they are");
    promised(kept(&lent[RIGHT], 0), "the right side and what lies beside it stay as they are");
    promised(kept(&lent[BOX], written ? lent[BOX].length : 0),
             "nothing beside the box changes, and a refusal changes nothing in it");
    if (written)
        memcpy(box, lent[BOX].slice, lent[BOX].length);
    return outcome;
}

static KifwalebOutcome swept(int64_t *box, size_t allowed)
{
    return swept_by(call.sweep, box, allowed);
}

/* How many units a call took off the widths; also that it widened nothing. */
static uint64_t taken_off(const int64_t *start, const int64_t *box)
{
    uint64_t units = 0;

    for (size_t k = 0; k < 2 * call.n; k += 2) {
        promised(start[k] <= box[k] && box[k + 1] <= start[k + 1], "no bound gets wider");
        promised(box[k] <= box[k + 1], "a written box has lower ends not above upper ends");
        units += (uint64_t)(box[k] - start[k]) + (uint64_t)(start[k + 1] - box[k + 1]);
    }
    return units;
}

static void check_written(KifwalebOutcome outcome, size_t allowed,
                          const int64_t *start, const int64_t *box)
{
    int settled = outcome.number == KIFWALEB_DONE;
    uint64_t changing = outcome.count - (uint64_t)settled;
    uint64_t units = taken_off(start, box);

    promised(outcome.place == 0, "0 and 9 have place 0");
    promised(outcome.count >= 1 && outcome.count <= allowed, "0 and 9 count 1 to all allowed");
    promised(settled || outcome.count == allowed, "9 has done all the sweeps allowed");
    promised(units >= changing, "every sweep but a settled one's last takes off a unit");
    promised(changing > 0 || units == 0, "a box that no sweep changed stays as it is");
    for (size_t i = 0; call.planted && i < call.n; i++)
        promised(box[2 * i] <= call.solution[i] && call.solution[i] <= box[2 * i + 1],
                 "a solution in the start box is in the box written");
}

static void check_alone(KifwalebOutcome outcome, size_t allowed,
                        const int64_t *start, const int64_t *box)
{
    KifwalebOutcome refusal = tested(allowed);

    if (refusal.number != KIFWALEB_DONE) {
        promised(same_outcome(outcome, refusal),
                 "1, 2, 4 and 3 come first, with their place and count 0");
        return;
    }
    switch (outcome.number) {
    case KIFWALEB_DONE:
    case KIFWALEB_SPENT:
        check_written(outcome, allowed, start, box);
        break;
    case KIFWALEB_EMPTY:
        promised(outcome.place >= 1 && outcome.place <= call.n, "7 has a vat as its place");
        promised(outcome.count < allowed, "7 counts fewer sweeps than allowed");
        promised(!call.planted, "7 comes only if no solution is in the start box");
        break;
    default:
        promised(0, "a sweep call that passes its tests answers 0, 7 or 9");
    }
}

/* ---- what holds of several calls */

/* Whichever call settled it, and whichever goes on. */
static void check_settled(const int64_t *box)
{
    static Box after;
    static Sweep *const calls[] = { kifwaleb_sweep, kifwaleb_symmetric_sweep };
    KifwalebOutcome expected = { KIFWALEB_DONE, 0, 1 };

    for (int k = 0; k < 2; k++) {
        memcpy(after, box, 2 * call.n * sizeof *box);
        promised(same_outcome(swept_by(calls[k], after, call.allowed), expected),
                 "a settled box is settled after one sweep of either call");
        promised(memcmp(after, box, 2 * call.n * sizeof *box) == 0,
                 "a settled box stays as it is");
    }
}

_Static_assert(sizeof(KifwalebTransfer) == 32 && offsetof(KifwalebTransfer, giver) == 8
               && offsetof(KifwalebTransfer, lo) == 16 && offsetof(KifwalebTransfer, hi) == 24,
               "a transfer lies in memory as four numbers do");

/* The same from the list of the shares that are not 0. */
static void check_listed(KifwalebOutcome whole, const int64_t *box)
{
    static KifwalebTransfer list[MOST_VATS * MOST_VATS];
    static Box after;
    size_t n = call.n, count = 0;
    KifwalebOutcome outcome;

    for (size_t k = 0; k < n * n; k++) {
        const int64_t *ends = call.numbers[MATRIX] + 2 * k;
        int64_t receiver = (int64_t)(1 + k / n), giver = (int64_t)(1 + k % n);

        if (ends[0] != 0 || ends[1] != 0)
            list[count++] = (KifwalebTransfer){ receiver, giver, ends[0], ends[1] };
    }
    memcpy(after, call.numbers[BOX], 2 * n * sizeof *box);
    outcome = (there_and_back() ? kifwaleb_symmetric_sweep_transfers : kifwaleb_sweep_transfers)(
        n, list, count, call.numbers[RIGHT], 2 * n, after, 2 * n, call.allowed);
    promised(same_outcome(outcome, whole), "the call from the list answers as from the matrix");
    promised(memcmp(after, box, 2 * n * sizeof *box) == 0,
             "the call from the list leaves the box of the call from the matrix");
}

/* A symmetric call against the ordinary one with as many sweeps allowed. A box in which either
 * settled stands for all later ones. */
static void check_inside(KifwalebOutcome symmetric, const int64_t *box)
{
    static Box around;
    KifwalebOutcome ordinary;

    memcpy(around, call.numbers[BOX], 2 * call.n * sizeof *box);
    ordinary = swept_by(kifwaleb_sweep, around, call.allowed);
    if (symmetric.number == KIFWALEB_EMPTY)
        return;
    promised(ordinary.number != KIFWALEB_EMPTY,
             "where the ordinary call finds no solution the symmetric one finds none either");
    for (size_t k = 0; k < 2 * call.n; k += 2)
        promised(around[k] <= box[k] && box[k + 1] <= around[k + 1],
                 "the box after each pass lies inside the ordinary one after as many sweeps");
    if (symmetric.number == KIFWALEB_DONE && ordinary.number == KIFWALEB_DONE)
        promised(memcmp(around, box, 2 * call.n * sizeof *box) == 0,
                 "where both settle they leave the same box");
    boxes_inside++;
}

/* The same sweeps in two calls: the second only goes on if the first was spent. */
static void check_parted(KifwalebOutcome whole, const int64_t *box, size_t first)
{
    static Box parted;
    KifwalebOutcome outcome;

    memcpy(parted, call.numbers[BOX], 2 * call.n * sizeof *box);
    outcome = swept(parted, first);
    check_alone(outcome, first, call.numbers[BOX], parted);
    if (outcome.number == KIFWALEB_SPENT) {
        outcome = swept(parted, call.allowed - first);
        outcome.count += first;
    }
    promised(same_outcome(outcome, whole), "two calls answer as one call with all their sweeps");
    if (whole.number != KIFWALEB_EMPTY)
        promised(memcmp(parted, box, 2 * call.n * sizeof *box) == 0,
                 "two calls leave the box of one call with all their sweeps");
}

/* Just as many sweeps as the call needed are enough, and one fewer is spent. */
static void check_count(KifwalebOutcome whole, const int64_t *box)
{
    static Box after;
    size_t bytes = 2 * call.n * sizeof *box;
    size_t enough = whole.count + (whole.number == KIFWALEB_EMPTY);
    KifwalebOutcome spent = { KIFWALEB_SPENT, 0, enough - 1 };

    memcpy(after, call.numbers[BOX], bytes);
    promised(same_outcome(swept(after, enough), whole), "the sweeps that were counted are enough");
    promised(memcmp(after, box, bytes) == 0, "the sweeps that were counted lead to the same box");
    if (enough == 1)
        return;
    memcpy(after, call.numbers[BOX], bytes);
    promised(same_outcome(swept(after, enough - 1), spent), "one sweep fewer is spent");
    check_written(spent, enough - 1, call.numbers[BOX], after);
    if (whole.number == KIFWALEB_DONE)
        promised(memcmp(after, box, bytes) == 0, "a settled call's last sweep changes nothing");
}

static void print_held(void)
{
    fprintf(stderr, "boxes that held a known solution: %" PRIu64 ", that lay inside those of the"
            " ordinary call: %" PRIu64 "\n", solutions_held, boxes_inside);
}

int LLVMFuzzerInitialize(int *argc, char ***argv)
{
    (void)argc;
    (void)argv;
    atexit(print_held);
    for (int s = 0; s < SLICES; s++)
        lent[s] = room_for(sizeof(Box));
    begin();
    return 0;
}

int LLVMFuzzerTestOneInput(const uint8_t *data, size_t size)
{
    static Box box;
    Bytes bytes = { data, size, 0, 0, 0 };
    KifwalebOutcome outcome;

    take_call(&bytes);
    if (shown)
        show_call();
    memcpy(box, call.numbers[BOX], sizeof box);
    outcome = swept(box, call.allowed);
    check_alone(outcome, call.allowed, call.numbers[BOX], box);
    note(outcome, call.n);
    if (tested(call.allowed).number != KIFWALEB_DONE)
        return 0;
    solutions_held += (uint64_t)call.planted;
    check_listed(outcome, box);
    if (outcome.number == KIFWALEB_DONE)
        check_settled(box);
    if (outcome.number != KIFWALEB_SPENT)
        check_count(outcome, box);
    if (there_and_back() && take(&bytes) % 4 == 0)
        check_inside(outcome, box);
    if (call.allowed >= 2)
        check_parted(outcome, box, 1 + take(&bytes) % (call.allowed - 1));
    return 0;
}
