/*
 * A fuzzer over the calls kifwaleb_half_... The fuzzer's bytes become a state, of any
 * numbers or as a load leaves it but for some, and operations on it. Whatever it holds,
 * a call returns with one of its outcomes, and a refusal changes nothing.
 */
#include "common.h"

enum { MATRIX, RIGHT, BOX, STATE, LENT };
enum { LOAD, UP, DOWN, NARROW };
enum { LENGTH = KIFWALEB_HALF_LENGTH, MOST_NUMBERS = LENGTH + 2, MOST_CALLS = 32 };

/* The operation under way, with all that is lent. Only a load has the first three. */
static struct {
    int kind;
    size_t n, vat;
    int64_t ends[2];
    size_t lengths[LENT];
    int64_t numbers[LENT][MOST_NUMBERS];
} call;

static Lent lent[LENT];

static void show_call(void)
{
    static const char *const names[] = { "load", "up", "down", "narrow" };

    fprintf(stderr, "%s, n %zu, vat %zu, %" PRId64 ":%" PRId64 "; matrix, right side, box, state:",
            names[call.kind], call.n, call.vat, call.ends[0], call.ends[1]);
    for (int s = 0; s < LENT; s++) {
        fprintf(stderr, "\n%zu numbers:", call.lengths[s]);
        for (size_t k = 0; k < call.lengths[s]; k++)
            fprintf(stderr, " %" PRId64, call.numbers[s][k]);
    }
    fprintf(stderr, "\n");
}

/* ---- from bytes to operations */

/* Mostly few vats and right lengths. */
static void take_system(Bytes *bytes)
{
    unsigned kind = take(bytes);
    size_t few = kind < 224 ? 1 + kind % 4 : 1 + kind % 32;

    call.n = kind < 252 ? few : take_wide(bytes, 8);
    for (int s = MATRIX; s <= BOX; s++) {
        unsigned wrong = take(bytes);

        call.lengths[s] = (s == MATRIX ? 2 * few * few : 2 * few) + (wrong < 252 ? 0 : wrong % 3);
        for (size_t k = 0; k < call.lengths[s]; k += 2)
            take_interval(bytes, call.numbers[s] + k);
    }
}

static void take_state(Bytes *bytes)
{
    unsigned kind = take(bytes);

    memset(call.numbers[STATE], 0, sizeof call.numbers[STATE]);
    if (kind % 4 != 0)
        kifwaleb_half_load(call.numbers[STATE], LENGTH, call.n,
                           call.numbers[MATRIX], call.lengths[MATRIX],
                           call.numbers[RIGHT], call.lengths[RIGHT],
                           call.numbers[BOX], call.lengths[BOX]);
    for (size_t k = 0; kind % 8 == 0 && k < LENGTH; k += 2)
        take_interval(bytes, call.numbers[STATE] + k);
    for (unsigned some = kind / 8 % 8; some > 0; some--)
        take_any(bytes, call.numbers[STATE] + take_wide(bytes, 2) % (LENGTH - 1));
}

static void take_call(Bytes *bytes)
{
    static const size_t lengths[] = { 0, 1, 66, LENGTH - 1, LENGTH + 1, LENGTH + 2 };
    unsigned kind = take(bytes);

    call.kind = (int)(kind % 4);
    call.lengths[STATE] = kind < 248 ? LENGTH : lengths[take(bytes) % 6];
    if (call.kind == NARROW) {
        call.vat = kind < 240 ? take(bytes) % 8 : take_wide(bytes, kind % 16);
        take_interval(bytes, call.ends);
    } else if (call.kind == LOAD && kind < 64) {
        take_system(bytes);
    }
}

/* ---- one operation and what holds of it */

static KifwalebOutcome called(void)
{
    int64_t *slices[LENT];
    size_t *lengths = call.lengths;

    for (int s = 0; s < LENT; s++)
        slices[s] = (int64_t *)(void *)lent[s].slice;
    switch (call.kind) {
    case UP: return kifwaleb_half_up(slices[STATE], lengths[STATE]);
    case DOWN: return kifwaleb_half_down(slices[STATE], lengths[STATE]);
    case NARROW:
        return kifwaleb_half_narrow(slices[STATE], lengths[STATE], call.vat,
                                    call.ends[0], call.ends[1]);
    default:
        return kifwaleb_half_load(slices[STATE], lengths[STATE], call.n,
                                  slices[MATRIX], lengths[MATRIX], slices[RIGHT], lengths[RIGHT],
                                  slices[BOX], lengths[BOX]);
    }
}

static int listed(uint64_t number)
{
    if (call.lengths[STATE] != LENGTH)
        return number == KIFWALEB_NOT_DUE;
    if (call.kind == LOAD)
        return number <= KIFWALEB_ENDS;
    return number == KIFWALEB_DONE || number == KIFWALEB_EMPTY || number == KIFWALEB_NOT_DUE
        || (call.kind == NARROW && (number == KIFWALEB_NO_VAT || number == KIFWALEB_ENDS));
}

static void check(KifwalebOutcome outcome)
{
    int done = outcome.number == KIFWALEB_DONE, empty = outcome.number == KIFWALEB_EMPTY;

    note(outcome, call.n);
    promised(listed(outcome.number), "the outcome is one of the call's");
    promised(outcome.count == 0, "the count is 0");
    promised(call.kind == LOAD || (outcome.place > 0) == empty, "7 alone has a place");
    for (int s = MATRIX; s <= BOX; s++)
        promised(kept(&lent[s], 0), "what is only read and what lies beside it stay as they are");
    promised(kept(&lent[STATE], done ? lent[STATE].length : 0),
             "nothing beside the state changes, and a refusal changes nothing in it");
    if (done)
        memcpy(call.numbers[STATE], lent[STATE].slice, lent[STATE].length);
}

int LLVMFuzzerInitialize(int *argc, char ***argv)
{
    (void)argc;
    (void)argv;
    for (int s = 0; s < LENT; s++)
        lent[s] = room_for(sizeof call.numbers[s]);
    begin();
    return 0;
}

int LLVMFuzzerTestOneInput(const uint8_t *data, size_t size)
{
    Bytes bytes = { data, size, 0, 0, 0 };
    unsigned kind = take(&bytes);
    int calls = 0;

    bytes.again = kind >> 4 & 1;
    bytes.sound = kind >> 5 & 1;
    take_system(&bytes);
    take_state(&bytes);
    do {
        take_call(&bytes);
        if (shown)
            show_call();
        for (int s = 0; s < LENT; s++)
            lend(&lent[s], call.numbers[s], call.lengths[s] * sizeof(int64_t), kind >> s & 1);
        check(called());
    } while (++calls < MOST_CALLS && bytes.at < size);
    return 0;
}
