/*
 * A fuzzer over kifwaleb_report. The fuzzer's bytes become a text and a lent
 * sheet. The text is read here a second time, from its description alone, and
 * the sheet that the other calls lead to is compared byte by byte.
 */
#include "common.h"

enum {
    MOST_VATS = KIFWALEB_MOST_VATS,
    MOST_BYTES = 65536, /* of a text that is not too long */
    MOST_TEXT = 70000,
    MOST_SHEET = 4096,
    MOST_NAME = 16,
    MOST_DIGITS = 10,
    ALLOWED = 100
};

/* The call under way. */
static uint8_t text[MOST_TEXT];
static size_t text_length;
static size_t sheet_length;
static int last;

static Lent lent_text, lent_sheet;

static void show_call(void)
{
    fprintf(stderr, "sheet of %zu bytes, text of %zu bytes:\n", sheet_length, text_length);
    for (size_t at = 0; at < text_length; at++)
        fprintf(stderr, text[at] == '\n' || (text[at] >= ' ' && text[at] <= '~') ? "%c" : "\\x%02x",
                text[at]);
    fprintf(stderr, "(end of the text)\n");
}

/* ---- from bytes to a text */

static void add(const void *bytes, size_t length)
{
    if (length > MOST_TEXT - text_length)
        length = MOST_TEXT - text_length;
    if (length > 0)
        memcpy(text + text_length, bytes, length);
    text_length += length;
}

/* Names of 2 to 16 bytes, all different; a few bytes make one too long or the first once more. */
static void add_name(Bytes *bytes, size_t vat)
{
    char name[40];
    unsigned kind = take(bytes);
    int width = kind == 251 ? MOST_NAME : 1 + (int)(kind % (MOST_NAME - 1));

    if (kind >= 252 && vat > 1)
        add(text, (size_t)((uint8_t *)memchr(text, ';', text_length) - text));
    else
        add(name, (size_t)snprintf(name, sizeof name, "%c%0*zu",
                                   "Vv-0"[kind / 16 % 4], width, vat));
}

static void add_interval(Bytes *bytes)
{
    char value[48];
    int64_t ends[2];

    take_interval(bytes, ends);
    add(value, (size_t)snprintf(value, sizeof value, "%" PRId64 ":%" PRId64, ends[0], ends[1]));
}

/* A text as described, but for what the bytes make faulty. */
static void build_text(Bytes *bytes)
{
    unsigned kind = take(bytes);
    size_t n = kind < 208 ? 1 + kind % 4 : 1 + take(bytes) % 33;

    bytes->sound = kind % 8 > 0;
    bytes->again = take(bytes) % 2 == 0;
    for (size_t vat = 1; vat <= n; vat++) {
        add_name(bytes, vat);
        add(vat < n ? ";" : "\n", 1);
    }
    for (size_t line = 0; line <= n; line++)
        for (size_t vat = 1; vat <= n; vat++) {
            add_interval(bytes);
            add(vat < n ? ";" : "\n", 1);
        }
    bytes->again = 0;
}

/* Two vats give each other nearly everything, so that the sweeps go on for long. */
static void build_slow_text(Bytes *bytes)
{
    char lines[160];
    unsigned share = 1000000 - (unsigned)take_wide(bytes, 2) / 4;
    unsigned width = take(bytes) % 4;
    unsigned delivery = (unsigned)take_wide(bytes, 3);

    add(lines, (size_t)snprintf(lines, sizeof lines, "A;B\n0:0;%u:%u\n%u:%u;0:0\n%u:%u;%u:%u\n",
                                share, share, share, share + width,
                                delivery, delivery, delivery, delivery + width));
}

/* Changes, drops or doubles a byte, adds one at the end, or ends the text early. */
static void damage(Bytes *bytes)
{
    size_t at = text_length > 0 ? take_wide(bytes, 2) % text_length : 0;
    uint8_t byte = (uint8_t)take(bytes);

    if (text_length == 0 || text_length == MOST_TEXT)
        return;
    switch (take(bytes) % 6) {
    case 0: text[at] = byte; break;
    case 1: text[at] = (uint8_t)";:\n-0\r x"[byte % 8]; break;
    case 2: memmove(text + at, text + at + 1, --text_length - at); break;
    case 3: memmove(text + at + 1, text + at, text_length++ - at); break;
    case 4: text[text_length++] = byte; break;
    default: text_length = at; break;
    }
}

/* Repeats the text up to a length about the limit. */
static void fill(unsigned kind)
{
    static const size_t lengths[] = { MOST_BYTES - 1, MOST_BYTES, MOST_BYTES + 1, MOST_TEXT };
    size_t whole = text_length > 0 ? text_length : 1;

    while (text_length < lengths[kind % 4]) {
        text[text_length] = text_length >= whole ? text[text_length - whole] : '\n';
        text_length++;
    }
}

static size_t take_sheet_length(Bytes *bytes)
{
    static const size_t wrong[] = { 0, 1, 543, 1917, 2047, 2049, 4095, MOST_SHEET };

    return wrong[take(bytes) % 8];
}

/* The first byte says what becomes of the others; after a letter they are the text. */
static void take_call(Bytes *bytes)
{
    unsigned kind = take(bytes);

    text_length = 0;
    last = kind & 1;
    sheet_length = kind % 32 == 31 ? take_sheet_length(bytes) : KIFWALEB_SHEET_LENGTH;
    if (kind < 128)
        add(bytes->all + bytes->at, bytes->size - bytes->at);
    else if (kind < 240)
        build_text(bytes);
    else
        build_slow_text(bytes);
    if (kind >= 128)
        for (unsigned times = take(bytes) / 64; times > 1; times--)
            damage(bytes);
    if (kind < 8 || (kind >= 232 && kind < 240))
        fill(kind / 2);
}

/* ---- the text, read a second time */

typedef struct Span {
    const uint8_t *from, *to;
} Span;

/* The text's numbers: those of B, row by row, then those of b. */
static struct {
    size_t n;
    Span names;
    int64_t numbers[2 * MOST_VATS * (MOST_VATS + 1)];
} cellar;

/* Cuts off the part before the first 'byte', and the byte itself; all if there is none. */
static Span cut(Span *rest, uint8_t byte)
{
    size_t length = (size_t)(rest->to - rest->from);
    const uint8_t *found = length > 0 ? memchr(rest->from, byte, length) : NULL;
    Span part = { rest->from, found != NULL ? found : rest->to };

    rest->from = found != NULL ? found + 1 : rest->to;
    return part;
}

/* The number of parts that ';' makes of a line: one more than there are of it. */
static size_t parts(Span line)
{
    size_t count = 1;

    for (; line.from < line.to; line.from++)
        count += *line.from == ';';
    return count;
}

static int is_name(Span name)
{
    static const char good[] =
        "ABCDEFGHIJKLMNOPQRSTUVWXYZabcdefghijklmnopqrstuvwxyz0123456789-";

    if (name.from == name.to || name.to - name.from > MOST_NAME)
        return 0;
    for (; name.from < name.to; name.from++)
        if (memchr(good, *name.from, sizeof good - 1) == NULL)
            return 0;
    return 1;
}

static int read_names(Span line)
{
    Span names[MOST_VATS];
    size_t n = parts(line);

    if (n > MOST_VATS)
        return 0;
    cellar.n = n;
    cellar.names = line;
    for (size_t i = 0; i < n; i++) {
        names[i] = cut(&line, ';');
        if (!is_name(names[i]))
            return 0;
        for (size_t j = 0; j < i; j++)
            if (names[j].to - names[j].from == names[i].to - names[i].from
                && memcmp(names[j].from, names[i].from, (size_t)(names[i].to - names[i].from)) == 0)
                return 0;
    }
    return 1;
}

static int read_end(Span digits, int64_t *end)
{
    int negative = digits.from < digits.to && *digits.from == '-';
    int64_t value = 0;

    digits.from += negative;
    if (digits.from == digits.to || digits.to - digits.from > MOST_DIGITS)
        return 0;
    if (*digits.from == '0' && (negative || digits.to - digits.from > 1))
        return 0;
    for (; digits.from < digits.to; digits.from++) {
        if (*digits.from < '0' || *digits.from > '9')
            return 0;
        value = 10 * value + (*digits.from - '0');
    }
    *end = negative ? -value : value;
    return 1;
}

static int read_values(Span line, int64_t *numbers)
{
    if (parts(line) != cellar.n)
        return 0;
    for (size_t i = 0; i < cellar.n; i++) {
        Span upper = cut(&line, ';');
        Span lower = cut(&upper, ':');

        if (!read_end(lower, numbers + 2 * i) || !read_end(upper, numbers + 2 * i + 1))
            return 0;
    }
    return 1;
}

/* Reads the text; returns its first faulty line, or 0. */
static size_t read_text(void)
{
    Span rest = { text, text + text_length };

    for (size_t line = 1; line == 1 || line <= cellar.n + 2; line++) {
        int ended = memchr(rest.from, '\n', (size_t)(rest.to - rest.from)) != NULL;
        Span part = cut(&rest, '\n');

        if (!ended || !(line == 1 ? read_names(part)
                                  : read_values(part, cellar.numbers + 2 * cellar.n * (line - 2))))
            return line;
    }
    return rest.from < rest.to ? cellar.n + 3 : 0;
}

/* ---- the sheet that the text must lead to */

static char expected[KIFWALEB_SHEET_LENGTH];
static size_t expected_length;

/* What it says: 0 settled, 9 spent, or a refusal. */
static KifwalebOutcome said;

static void expect(const char *bytes, size_t length)
{
    promised(length <= sizeof expected - expected_length, "every sheet has room in 2,048 bytes");
    memcpy(expected + expected_length, bytes, length);
    expected_length += length;
}

static void expect_refusal(uint64_t number, uint64_t place)
{
    char line[64];

    expect(line, (size_t)snprintf(line, sizeof line, "refused %" PRIu64 " %" PRIu64 "\n",
                                  number, place));
    said = (KifwalebOutcome){ number, place, 0 };
}

/* The three lines of a calculation. */
static void expect_bounds(const int64_t *box, KifwalebOutcome outcome)
{
    char part[64];

    expect((const char *)cellar.names.from, (size_t)(cellar.names.to - cellar.names.from));
    for (size_t i = 0; i < cellar.n; i++) {
        int64_t lower = box[2 * i], upper = box[2 * i + 1];

        promised(!faulty(box + 2 * i), "the bounds are in the range, lower not above upper");
        expect(part, (size_t)snprintf(part, sizeof part, "%c%" PRId64 ":%" PRId64,
                                      i == 0 ? '\n' : ';', lower, upper));
    }
    expect(part, (size_t)snprintf(part, sizeof part, "\n%s %" PRIu64 "\n",
                                  outcome.number == KIFWALEB_DONE ? "settled" : "spent",
                                  outcome.count));
    said = outcome;
}

/* The sweeps over an elimination's box. */
static void expect_swept(int64_t *box)
{
    size_t n = cellar.n, half = 2 * n * n;
    KifwalebOutcome outcome =
        kifwaleb_sweep(n, cellar.numbers, half, cellar.numbers + half, 2 * n, box, 2 * n, ALLOWED);

    promised(outcome.number == KIFWALEB_DONE || outcome.number == KIFWALEB_SPENT,
             "the box of an elimination holds a solution");
    promised(outcome.count >= 1 && outcome.count <= ALLOWED, "a sheet counts 1 to 100 sweeps");
    promised(outcome.number == KIFWALEB_DONE || outcome.count == ALLOWED, "'spent' counts all 100");
    expect_bounds(box, outcome);
}

/* A faulty interval is found here; the rest is left to the calls for a text's numbers. */
static void expect_calculated(void)
{
    size_t n = cellar.n, half = 2 * n * n;
    int64_t box[2 * MOST_VATS] = { 0 };
    KifwalebOutcome outcome;

    for (size_t place = 0; place < n * n + n; place++)
        if (faulty(cellar.numbers + 2 * place)) {
            expect_refusal(KIFWALEB_ENDS, place);
            return;
        }
    outcome = kifwaleb_eliminate_balance(n, cellar.numbers, half, cellar.numbers + half, 2 * n,
                                         box, 2 * n);
    promised(outcome.count == 0, "an elimination has count 0");
    if (outcome.number == KIFWALEB_DONE) {
        expect_swept(box);
        return;
    }
    promised(outcome.number == KIFWALEB_CONTAINS_ZERO || outcome.number == KIFWALEB_OUT_OF_RANGE,
             "an elimination that passes its tests answers 0, 5 or 6");
    promised(outcome.place >= 1 && outcome.place <= n, "the place of 5 and 6 is one of 1 to n");
    expect_refusal(outcome.number, outcome.place);
}

static void expect_sheet(void)
{
    int too_long = text_length > MOST_BYTES;
    size_t line;

    expected_length = 0;
    cellar.n = 0;
    line = too_long ? 0 : read_text();
    if (too_long || line > 0)
        expect_refusal(KIFWALEB_TEXT, line);
    else
        expect_calculated();
    promised(line <= MOST_VATS + 3, "a faulty line is one of 1 to 35");
}

/* ---- the call */

/* Calls with a sheet that is full of 'ink', which must show wherever nothing is written. */
static KifwalebOutcome reported(int ink)
{
    static uint8_t blank[MOST_SHEET];
    KifwalebOutcome outcome;

    memset(blank, ink, sheet_length);
    lend(&lent_text, text, text_length, last);
    lend(&lent_sheet, blank, sheet_length, !last);
    outcome = kifwaleb_report(lent_text.slice, text_length, lent_sheet.slice, sheet_length);
    promised(kept(&lent_text, 0), "the text and what lies beside it stay as they are");
    promised(outcome.count <= sheet_length, "the count is at most the bytes of the sheet");
    promised(kept(&lent_sheet, outcome.count), "nothing changes but the bytes that are counted");
    return outcome;
}

/* What the call must return, the sheet being expected. The one place that says it. */
static KifwalebOutcome expected_outcome(void)
{
    int reached = said.number == KIFWALEB_DONE || said.number == KIFWALEB_SPENT;

    if (sheet_length != KIFWALEB_SHEET_LENGTH && said.number != KIFWALEB_TEXT)
        return (KifwalebOutcome){ KIFWALEB_LENGTH, 3, 0 };
    return (KifwalebOutcome){ said.number, said.place, reached ? expected_length : 0 };
}

static void check_call(int ink)
{
    KifwalebOutcome due = expected_outcome();

    promised(same_outcome(reported(ink), due), "number, place and count are those that are due");
    promised(memcmp(lent_sheet.slice, expected, due.count) == 0,
             "the sheet is the one that the text leads to");
}

int LLVMFuzzerInitialize(int *argc, char ***argv)
{
    (void)argc;
    (void)argv;
    lent_text = room_for(MOST_TEXT);
    lent_sheet = room_for(MOST_SHEET);
    begin();
    return 0;
}

int LLVMFuzzerTestOneInput(const uint8_t *data, size_t size)
{
    Bytes bytes = { data, size, 0, 0, 0 };

    take_call(&bytes);
    if (shown)
        show_call();
    expect_sheet();
    if (shown)
        fprintf(stderr, "expected:\n%.*s", (int)expected_length, expected);
    check_call(0x5A);
    check_call(0xC3);
    note(expected_outcome().number == KIFWALEB_LENGTH ? expected_outcome() : said, cellar.n);
    return 0;
}
