/*
 * Measures how much stack each call of include/corbatan.h needs, prints it, and ends with status 1 where that is more
 * than CORBATAN_STACK.
 *
 * A call is made on a stack of its own, a region that was painted before. The bytes from the region's end down to the
 * lowest that lost its paint are what the call took: its return address, its arguments and its reply are among them,
 * since all these stand on a stack. Nothing else runs on that stack, and so what a compiler makes of this file hardly
 * counts. What a call happens to write in the colour of the paint would not show, so each is made over two colours.
 * Each is made once before, so that the functions of the C library that it uses are bound by then.
 */
#include "corbatan.h"

#include <inttypes.h>
#include <stdio.h>
#include <string.h>

#define N CORBATAN_MAX_SIGNALS
#define STREETS 12

/* Far more than a call should need, so that one that needs more stays inside and is found out. */
#define WORDS (CORBATAN_STACK / 2)
static volatile uint64_t region[WORDS];

/* What the next call gets. The counts stand apart, so that they can be wrong. */
static uint32_t cycle, reds[N], distances[N], outbound[N], inbound[N], offsets[N], first, second, headway;
static uint32_t kinds[N], lent[N];
static double positions[N], row_outbound[N], row_inbound[N];
static uint8_t lent_bytes[CORBATAN_MAX_SHEET];
static size_t signals, links, room, bytes_room;
static uint8_t sheet[4096];
static size_t sheet_count;

static CorbatanPlan plan;
static CorbatanVolumes volumes;
static CorbatanMeasure measure;
static CorbatanSheet numbers;
static CorbatanWriting writing;
static CorbatanText text;

#define STREET cycle, reds, signals, distances, signals, outbound, links, inbound, links

#define ROWS cycle, kinds, signals, positions, signals, row_outbound, signals, row_inbound, signals, reds, signals

static void call_read(void) { numbers = corbatan_read(sheet, sheet_count); }
static void call_survey(void) { numbers = corbatan_survey(ROWS); }
static void call_write(void) { writing = corbatan_write(STREET, lent_bytes, bytes_room); }
static void call_print(void) { text = corbatan_print(sheet, sheet_count); }
static void call_equal(void) { plan = corbatan_equal(STREET, lent, room); }
static void call_outbound(void) { plan = corbatan_outbound(STREET, first, lent, room); }
static void call_inbound(void) { plan = corbatan_inbound(STREET, first, lent, room); }
static void call_platoons(void) { plan = corbatan_platoons(STREET, first, second, lent, room); }
static void call_volumes(void) { volumes = corbatan_volumes(STREET, first, second, headway, lent, room); }
static void call_equal_seconds(void) { plan = corbatan_equal_seconds(STREET, lent, room); }
static void call_outbound_seconds(void) { plan = corbatan_outbound_seconds(STREET, first, lent, room); }
static void call_inbound_seconds(void) { plan = corbatan_inbound_seconds(STREET, first, lent, room); }
static void call_platoons_seconds(void) { plan = corbatan_platoons_seconds(STREET, first, second, lent, room); }
static void call_volumes_seconds(void) { plan = corbatan_volumes_seconds(STREET, first, second, headway, lent, room); }
static void call_measure(void) { measure = corbatan_measure(STREET, offsets, signals); }

static struct {
    const char *name;
    void (*make)(void);
    size_t most;
} calls[] = {
    {"corbatan_read", call_read, 0},
    {"corbatan_survey", call_survey, 0},
    {"corbatan_write", call_write, 0},
    {"corbatan_print", call_print, 0},
    {"corbatan_equal", call_equal, 0},
    {"corbatan_outbound", call_outbound, 0},
    {"corbatan_inbound", call_inbound, 0},
    {"corbatan_platoons", call_platoons, 0},
    {"corbatan_volumes", call_volumes, 0},
    {"corbatan_equal_seconds", call_equal_seconds, 0},
    {"corbatan_outbound_seconds", call_outbound_seconds, 0},
    {"corbatan_inbound_seconds", call_inbound_seconds, 0},
    {"corbatan_platoons_seconds", call_platoons_seconds, 0},
    {"corbatan_volumes_seconds", call_volumes_seconds, 0},
    {"corbatan_measure", call_measure, 0},
};
#define CALLS (sizeof calls / sizeof calls[0])

/* on_stack(f, end) calls f on the stack that ends at `end`, or at the multiple of 16 below it. */
void on_stack(void (*f)(void), volatile void *end);
__asm__(".text\n"
        ".globl on_stack\n"
        ".type on_stack, @function\n"
        "on_stack:\n"
        "    pushq %rbp\n"
        "    movq %rsp, %rbp\n"
        "    movq %rsi, %rsp\n"
        "    andq $-16, %rsp\n"
        "    callq *%rdi\n"
        "    movq %rbp, %rsp\n"
        "    popq %rbp\n"
        "    retq\n"
        ".size on_stack, . - on_stack\n");

/* How many bytes a call takes, seen over one colour. */
static size_t taken(void (*call)(void), uint64_t colour)
{
    size_t kept = 0;
    for (size_t i = 0; i < WORDS; i++)
        region[i] = colour;
    on_stack(call, region + WORDS);
    while (kept < WORDS && region[kept] == colour)
        kept++;
    return (WORDS - kept) * sizeof region[0];
}

/* Makes every call on what is set, and keeps the most that each took. */
static void measure_all(void)
{
    static const uint64_t colours[] = {0xa5a5a5a5a5a5a5a5u, 0x5a5a5a5a5a5a5a5au};
    for (size_t k = 0; k < CALLS; k++)
        for (size_t c = 0; c < 2; c++) {
            size_t bytes = taken(calls[k].make, colours[c]);
            if (bytes > calls[k].most)
                calls[k].most = bytes;
        }
}

static uint32_t below(uint32_t bound)
{
    static uint64_t state = 1;
    state = state * 6364136223846793005u + 1442695040888963407u;
    return (uint32_t)(state >> 33) % bound;
}

/* Sets a street of n signals, with the greatest numbers that the rules allow or with random ones, and as many rows of a
   survey, which are those of another street. Its cycle is a whole number of seconds, so that every call plans it. */
static void set_street(size_t n, int greatest)
{
    signals = room = n;
    links = n - 1;
    bytes_room = sizeof lent_bytes;
    cycle = greatest ? 6000 : 10 * (1 + below(600));
    headway = greatest ? 100 : 20;
    for (size_t i = 0; i < n; i++) {
        reds[i] = greatest ? 5999 : 1 + below(cycle - 1);
        distances[i] = greatest ? (uint32_t)(20000001 - n + i) : (uint32_t)i * 600000 + below(600000);
        outbound[i] = greatest ? 40000 : 1000 + below(39001);
        inbound[i] = greatest ? 40000 : 1000 + below(39001);
        offsets[i] = greatest ? 11999 : below(2 * cycle);
        kinds[i] = greatest ? CORBATAN_CHAINAGE : CORBATAN_GAP;
        positions[i] = greatest ? 20000 - (double)(n - 1 - i) * 0.125 : below(5001) * 0.125;
        row_outbound[i] = i == 0 ? 0 : greatest ? 40 : (8 + below(313)) * 0.125;
        row_inbound[i] = i == 0 ? 0 : greatest ? 40 : (8 + below(313)) * 0.125;
    }
}

/* Lets every k-th signal of the street that is set rest in green, with a red of 0; none where k is 0. */
static void rest_every(size_t k)
{
    for (size_t i = 0; k > 0 && i < signals; i += k)
        reds[i] = 0;
}

/* Writes the sheet of what is set. */
static void set_sheet(void)
{
    char *at = (char *)sheet;
    at += sprintf(at, "1\n%" PRIu32 "\n%zu\n", cycle, signals);
    for (size_t i = 0; i < signals; i++)
        at += sprintf(at, "%" PRIu32 " %" PRIu32 "\n", distances[i], reds[i]);
    at += sprintf(at, "%zu\n", links);
    for (size_t i = 0; i < links; i++)
        at += sprintf(at, "%" PRIu32 " %" PRIu32 "\n", outbound[i], inbound[i]);
    sheet_count = (size_t)(at - (char *)sheet);
}

/* Measures a street, with requests from the greatest width that its greens allow down to one that is refused. */
static void measure_street(void)
{
    uint32_t widest = 2 * cycle;
    set_sheet();
    for (size_t i = 0; i < signals; i++)
        if (2 * (cycle - reds[i]) < widest)
            widest = 2 * (cycle - reds[i]);
    for (first = widest, second = 1; first > 0; first /= 4, second *= 7)
        measure_all();
    measure_all();
}

static void measure_with(uint32_t *number, uint32_t changed)
{
    uint32_t kept = *number;
    *number = changed;
    set_sheet();
    measure_all();
    *number = kept;
}

/* A NaN: the float of which every bit is set. */
static double every_bit(void)
{
    double number;
    memset(&number, 255, sizeof number);
    return number;
}

static void measure_with_float(double *number, double changed)
{
    double kept = *number;
    *number = changed;
    measure_all();
    *number = kept;
}

/* Measures refusals of the street that is set: of numbers, each at its first and at its last place, and of counts. A
   number stands for a platoon and for a volume. Here 10,000 vehicles an hour have too long a platoon and 10,001 are too
   many, and a platoon of 100,001 halves is too long. */
static void measure_refusals(void)
{
    static const uint32_t too_much[] = {10000, 10001, 100001};
    first = second = 0;
    for (size_t k = 0; k < 3; k++) {
        measure_with(&first, too_much[k]);
        measure_with(&second, too_much[k]);
    }
    measure_with(&headway, 0);
    measure_with(&headway, 101);
    measure_with(&cycle, 6001);
    measure_with(&cycle, 5999);
    for (size_t i = 0; i < signals; i += signals - 1) {
        measure_with(&reds[i], cycle);
        measure_with(&distances[i], 20000001);
        measure_with(&offsets[i], 2 * cycle);
        measure_with(&kinds[i], 2);
        measure_with_float(&positions[i], 20000.125);
        measure_with_float(&row_outbound[i], every_bit());
        measure_with_float(&row_inbound[i], 0.0625);
    }
    measure_with(&outbound[0], 999);
    measure_with(&inbound[links - 1], 40001);
    room--;
    sheet_count--;
    bytes_room--;
    measure_all();
    memset(sheet, '9', sizeof sheet);
    sheet_count = 2048;
    links--;
    measure_all();
    sheet_count = 2049;
    signals = 0;
    measure_all();
}

int main(void)
{
    size_t most = 0;
    for (size_t k = 0; k < CALLS; k++)
        calls[k].make();
    for (size_t k = 0; k < STREETS; k++) {
        set_street(k % 4 == 3 ? k : N, k == 0);
        rest_every(k % 3);
        measure_street();
    }
    set_street(N, 1);
    measure_refusals();
    for (size_t k = 0; k < CALLS; k++) {
        printf("%s %zu\n", calls[k].name, calls[k].most);
        most = calls[k].most > most ? calls[k].most : most;
    }
    printf("the most %zu, and CORBATAN_STACK is %d\n", most, CORBATAN_STACK);
    return most > CORBATAN_STACK;
}
