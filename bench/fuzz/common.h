/*
 * What all fuzzers need: slices whose surroundings are watched, intervals out
 * of the fuzzer's bytes, and a table of the outcomes that were reached.
 */
#ifndef KIFWALEB_FUZZ_COMMON_H
#define KIFWALEB_FUZZ_COMMON_H

#define _DEFAULT_SOURCE

#include <inttypes.h>
#include <stdio.h>
#include <stdlib.h>
#include <string.h>
#include <sys/mman.h>
#include <unistd.h>

#include "kifwaleb.h"

/* The names that libFuzzer calls. */
int LLVMFuzzerInitialize(int *argc, char ***argv);
int LLVMFuzzerTestOneInput(const uint8_t *data, size_t size);

/* ---- promises */

/* Prints the call under way, so that a finding can be read. */
static void show_call(void);

static void promised(int holds, const char *promise)
{
    if (holds)
        return;
    fprintf(stderr, "\nBROKEN PROMISE: %s\n", promise);
    show_call();
    abort();
}

static inline int same_outcome(KifwalebOutcome a, KifwalebOutcome b)
{
    return a.number == b.number && a.place == b.place && a.count == b.count;
}

/* ---- lent slices */

/* The watched bytes beside a slice. */
enum { ZONE = 4096 };

/*
 * A slice that is lent to a call. On one side it touches a page that is closed
 * for reading and writing: a call that steps past that end is stopped by the
 * system. On the other side lie ZONE bytes that must stay as they are.
 */
typedef struct Lent {
    uint8_t *room;    /* what lies between two closed pages */
    size_t size;      /* of the room */
    uint8_t *slice;
    size_t length;    /* of the slice, in bytes */
    uint8_t *watched; /* the slice and its zone */
    uint8_t *before;  /* what they held when the slice was lent */
} Lent;

static Lent room_for(size_t most)
{
    size_t page = (size_t)sysconf(_SC_PAGESIZE);
    size_t size = (most + ZONE + page - 1) / page * page;
    uint8_t *all = mmap(NULL, size + 2 * page, PROT_NONE, MAP_PRIVATE | MAP_ANONYMOUS, -1, 0);
    Lent lent = { 0 };

    if (all == MAP_FAILED || mprotect(all + page, size, PROT_READ | PROT_WRITE) != 0) {
        perror("no room for a lent slice");
        exit(2);
    }
    lent.room = all + page;
    lent.size = size;
    lent.before = malloc(size);
    if (lent.before == NULL)
        exit(2);
    return lent;
}

/* Fills the slice. If 'last', it ends where the room ends, else it begins where
 * the room begins. */
static void lend(Lent *lent, const void *content, size_t length, int last)
{
    lent->length = length;
    lent->slice = last ? lent->room + lent->size - length : lent->room;
    lent->watched = last ? lent->slice - ZONE : lent->room;
    memset(lent->watched, 0xA5, length + ZONE);
    if (length > 0)
        memcpy(lent->slice, content, length);
    memcpy(lent->before, lent->watched, length + ZONE);
}

/* Whether slice and zone are as they were, past the first 'written' bytes of the slice. */
static int kept(const Lent *lent, size_t written)
{
    size_t start = (size_t)(lent->slice - lent->watched);
    size_t rest = start + written;

    return memcmp(lent->watched, lent->before, start) == 0
        && memcmp(lent->watched + rest, lent->before + rest, lent->length + ZONE - rest) == 0;
}

/* ---- the fuzzer's bytes */

typedef struct Bytes {
    const uint8_t *all;
    size_t size;
    size_t at;
    int again; /* whether they begin anew at their end, so that few bytes fill many intervals */
    int sound; /* whether all intervals are mended, so that the call comes to a calculation */
} Bytes;

/* The next byte; 0 where there is none. */
static unsigned take(Bytes *bytes)
{
    if (bytes->at >= bytes->size && bytes->again)
        bytes->at = 0;
    return bytes->at < bytes->size ? bytes->all[bytes->at++] : 0;
}

static uint64_t take_wide(Bytes *bytes, int count)
{
    uint64_t value = 0;

    while (count-- > 0)
        value = value << 8 | take(bytes);
    return value;
}

/* Ends at which a calculation may turn. The first INSIDE of them are in the range. */
enum { INSIDE = 20, EDGES = 32 };

static const int64_t edges[EDGES] = {
    0, 1, -1, 2, 999999, 1000000, 1000001, -999999, -1000000, 500000,
    -500000, 2000000, 44721359, -44721360, 1999000000, -1999000000,
    KIFWALEB_HIGHEST, KIFWALEB_LOWEST, KIFWALEB_HIGHEST - 1, KIFWALEB_LOWEST + 1,
    2000000001, -2000000001, 9999999999, -9999999999, 10000000000, 2147483648,
    -2147483649, 4294967296, INT64_MAX, INT64_MIN, INT64_MAX - 1, INT64_MIN + 1
};

/* An end so far inside the range that a width of three bytes has room beside it. */
static int64_t take_end(Bytes *bytes)
{
    return (int64_t)(take_wide(bytes, 4) % 3940000001u) - 1970000000;
}

static int faulty(const int64_t *ends)
{
    return ends[0] > ends[1] || ends[0] < KIFWALEB_LOWEST || ends[1] > KIFWALEB_HIGHEST;
}

/* The nearest end in the range. */
static int64_t inside(int64_t end)
{
    if (end < KIFWALEB_LOWEST)
        return KIFWALEB_LOWEST;
    return end > KIFWALEB_HIGHEST ? KIFWALEB_HIGHEST : end;
}

/* An interval of any two ends, far out of the range or out of sequence too. */
static void take_any(Bytes *bytes, int64_t *ends)
{
    for (int end = 0; end < 2; end++) {
        unsigned kind = take(bytes);

        ends[end] = kind < 128 ? edges[kind % EDGES] : (int64_t)take_wide(bytes, 8);
    }
    if (bytes->sound && faulty(ends)) {
        int64_t a = inside(ends[0]), b = inside(ends[1]);

        ends[0] = a < b ? a : b;
        ends[1] = a < b ? b : a;
    }
}

/* Mostly what a cellar has: noughts, shares, shares of nearly one, weights. */
static void take_interval(Bytes *bytes, int64_t *ends)
{
    unsigned kind = take(bytes);
    int64_t lower = 0, width = 0;

    switch (kind % 8) {
    case 0: break;
    case 1: lower = (int64_t)take_wide(bytes, 2) * 15; width = take(bytes); break;
    case 2: lower = KIFWALEB_SCALE - (int64_t)take_wide(bytes, 2) / 4; break;
    case 3: lower = edges[take(bytes) % INSIDE]; break;
    case 4: lower = KIFWALEB_LOWEST; width = (int64_t)KIFWALEB_HIGHEST - lower; break;
    case 5: lower = take_end(bytes); width = (int64_t)take_wide(bytes, 3); break;
    case 6: lower = (int64_t)take(bytes) - 128; width = take(bytes) % 16; break;
    default:
        take_any(bytes, ends);
        return;
    }
    ends[0] = lower;
    ends[1] = lower + width;
}

/* ---- the outcomes reached */

/* Places of refusals lie below this: the intervals of 32 vats are the most. */
enum { NUMBERS = 21, PLACES = 32 * 32 + 2 * 32 };

static struct {
    uint64_t times;
    uint64_t most_count;
    size_t most_vats;
    size_t places;             /* how many different ones */
    uint8_t at_place[PLACES];
} reached[NUMBERS];

static void note(KifwalebOutcome outcome, size_t vats)
{
    promised(outcome.number < NUMBERS, "the number is one of the table");
    promised(outcome.place < PLACES, "no place is above that of the last interval");
    reached[outcome.number].times++;
    reached[outcome.number].places += !reached[outcome.number].at_place[outcome.place];
    reached[outcome.number].at_place[outcome.place] = 1;
    if (outcome.count > reached[outcome.number].most_count)
        reached[outcome.number].most_count = outcome.count;
    if (vats <= KIFWALEB_MOST_VATS && vats > reached[outcome.number].most_vats)
        reached[outcome.number].most_vats = vats;
}

static void print_reached(void)
{
    for (int number = 0; number < NUMBERS; number++)
        if (reached[number].times > 0)
            fprintf(stderr, "outcome %d: times %" PRIu64 ", places %zu, vats to %zu, sweeps to %"
                    PRIu64 "\n", number, reached[number].times, reached[number].places,
                    reached[number].most_vats, reached[number].most_count);
}

/* Whether each call is to be shown before it is made. */
static int shown;

static void begin(void)
{
    shown = getenv("KIFWALEB_SHOW") != NULL;
    atexit(print_reached);
}

#endif
