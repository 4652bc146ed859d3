/* Measures how many bytes of stack each call takes, its return address among them, and prints a Markdown table: each call runs on painted
 * memory, and how far down the paint has changed is what it took. Bytes at the low end of a frame that are set aside and never written do
 * not show. */
#include "dapplescree.h"
#include "lengths.h"
#include "step_table.h"
#include <stdint.h>
#include <stdlib.h>
#include <string.h>
#include <ucontext.h>

enum { HOPS = 3, BLOCKS = HOPS + 1, ROOM = 1 << 20 };

static int16_t samples[BLOCKS * MOST_M], sound[HOPS * MOST_M];
static int32_t spectra[BLOCKS * MOST_M], coefficients[BLOCKS * MOST_M];
static const int32_t silence[BLOCKS * MOST_M];
static int64_t state[DAPPLESCREE_STATE];
static uint8_t page[DAPPLESCREE_PAGE(MOST_N, HOPS)], table[TABLE_ROOM];
static uint32_t distance[1], named[3], found[3];
static double values[MOST_M], pair[2];

static size_t n, m, table_length;
static uint32_t left, right, order;

/* a call that does nothing: it takes its return address */
static __attribute__((noipa)) uint32_t nothing(size_t length, const int16_t *x, size_t x_length, int32_t *out, size_t out_length)
{
    (void)length, (void)x, (void)x_length, (void)out, (void)out_length;
    return 0;
}

static uint32_t call_nothing(void)
{
    return nothing(n, samples, n, coefficients, m);
}

static uint32_t direct(void)
{
    return dapplescree_analyse_direct(n, left, right, samples, n, coefficients, m);
}

static uint32_t by_short_route(void)
{
    return dapplescree_analyse_short(n, left, right, samples, n, coefficients, m);
}

static uint32_t by_double_route(void)
{
    return dapplescree_analyse_double(n, left, right, samples, n, coefficients, m);
}

static uint32_t fresh(void)
{
    return dapplescree_stream_fresh(n, state, DAPPLESCREE_STATE);
}

/* a step runs more than once on a stream, and each time brings the block that is expected */
static uint32_t step(void)
{
    uint32_t number = (uint32_t)state[DAPPLESCREE_EXPECTED];
    return dapplescree_stream_step(state, DAPPLESCREE_STATE, number, left, right, spectra, m, sound, m);
}

static uint32_t step_levels(void)
{
    uint32_t number = (uint32_t)state[DAPPLESCREE_EXPECTED];
    return dapplescree_stream_step_levels(state, DAPPLESCREE_STATE, number, left, right, table, table_length, spectra, m, sound, m);
}

static uint32_t recording_direct(void)
{
    return dapplescree_analyse_recording_direct(n, HOPS, order, samples, HOPS * m, coefficients, BLOCKS * m);
}

static uint32_t recording_short(void)
{
    return dapplescree_analyse_recording_short(n, HOPS, order, samples, HOPS * m, coefficients, BLOCKS * m);
}

static uint32_t recording_double(void)
{
    return dapplescree_analyse_recording_double(n, HOPS, order, samples, HOPS * m, coefficients, BLOCKS * m);
}

static uint32_t synthesis(void)
{
    return dapplescree_synthesise_recording(n, HOPS, order, spectra, BLOCKS * m, sound, HOPS * m);
}

static uint32_t printed(void)
{
    return dapplescree_page(n, HOPS, order, spectra, BLOCKS * m, page, DAPPLESCREE_PAGE(n, HOPS));
}

static uint32_t quantise(void)
{
    return dapplescree_quantise(n, table, table_length, spectra, m, coefficients, m);
}

/* every number is a level */
static uint32_t dequantise(void)
{
    return dapplescree_dequantise(n, table, table_length, spectra, m, coefficients, m);
}

/* of the direct route, which every length has */
static uint32_t told_distance(void)
{
    return dapplescree_told_distance(n, 0, table, table_length, distance, 1);
}

/* of the hop's last sample, between blocks that change in every coefficient */
static uint32_t largest_share(void)
{
    return dapplescree_largest_share(n, left, spectra, m, spectra + m, m, spectra + 2 * m, m, spectra + 3 * m, m, m - 1, named, 3);
}

static uint32_t reorder(void)
{
    return dapplescree_reorder(n, HOPS, order, spectra, BLOCKS * m, coefficients, BLOCKS * m);
}

/* from silence, so that every coefficient changes */
static uint32_t largest_share_recording(void)
{
    return dapplescree_largest_share_recording(n, HOPS, order, silence, BLOCKS * m, spectra, BLOCKS * m, HOPS - 1, m - 1, named, 3);
}

/* one trial, which passes and so goes through the whole recording */
static uint32_t coarsest_step(void)
{
    return dapplescree_coarsest_step(n, HOPS, samples, HOPS * m, 31, 1, found, 3);
}

static uint32_t floats(void)
{
    return dapplescree_floats(n, spectra, m, values, m);
}

static uint32_t highest_lowest(void)
{
    return dapplescree_highest_lowest(n, spectra, m, pair, 2);
}

static const struct call {
    const char *name;
    uint32_t (*run)(void);
    uint32_t order;
} calls[] = {
    {"direct", direct, 0},
    {"short route", by_short_route, 0},
    {"double route", by_double_route, 0},
    {"fresh", fresh, 0},
    {"step", step, 0},
#define IN_ORDERS(name, run) {name, run, 0}, {name ", by frequency", run, 1}
    IN_ORDERS("recording, direct", recording_direct),
    IN_ORDERS("recording, short route", recording_short),
    IN_ORDERS("recording, double route", recording_double),
    IN_ORDERS("recording, synthesis", synthesis),
    IN_ORDERS("page", printed),
    {"reorder to by block", reorder, 0},
    {"reorder to by frequency", reorder, 1},
    {"quantise", quantise, 0},
    {"dequantise", dequantise, 0},
    {"told distance", told_distance, 0},
    {"step on levels", step_levels, 0},
    {"largest share", largest_share, 0},
    IN_ORDERS("largest share, recording", largest_share_recording),
    {"coarsest step", coarsest_step, 0},
    {"floats", floats, 0},
    {"highest and lowest", highest_lowest, 0},
};

enum { CALLS = sizeof calls / sizeof calls[0] };

static uint8_t stack[ROOM] __attribute__((aligned(64)));
static ucontext_t here, there;
static uint32_t (*running)(void);
static uint32_t refused;

static void run(void)
{
    refused |= running();
}

/* Runs a call on the stack. */
static void run_there(uint32_t (*call)(void))
{
    running = call;
    getcontext(&there);
    there.uc_stack.ss_sp = stack;
    there.uc_stack.ss_size = sizeof stack;
    there.uc_link = &here;
    makecontext(&there, run, 0);
    swapcontext(&here, &there);
}

/* How many bytes of the stack, from its top down to the last that a call changed. */
static size_t depth(uint32_t (*call)(void), uint8_t paint)
{
    size_t kept = 0;
    memset(stack, paint, sizeof stack);
    run_there(call);
    while (kept < sizeof stack && stack[kept] == paint)
        kept++;
    if (kept == 0) {
        fprintf(stderr, "bench: a call takes more than %d bytes of stack\n", ROOM);
        exit(1);
    }
    return sizeof stack - kept;
}

/* What is written may be the paint itself, so two are tried, with every pair of shapes: each left one is the right one before it, as a stream
 * expects, and the last right one is the first left one. */
static size_t deepest(uint32_t (*call)(void))
{
    static const uint8_t paints[] = {0x5a, 0xa5};
    static const uint32_t rights[] = {0, 1, 1, 0};
    size_t most = 0;
    for (int p = 0; p < 2; p++)
        for (int r = 0; r < 4; r++) {
            left = right;
            right = rights[r];
            size_t taken = depth(call, paints[p]);
            most = taken > most ? taken : most;
        }
    return most;
}

static size_t bytes(uint32_t (*call)(void))
{
    return deepest(call) - deepest(call_nothing) + sizeof(void *);
}

/* Turns to one length and its step table, with a fresh stream of it where it is offered, and else one of no length. */
static void turn_to(size_t length)
{
    n = length;
    m = n / 2;
    table_length = write_table(table, m);
    memset(state, 0, sizeof state);
    fresh();
}

/* Random samples and coefficients, over the whole of either range. */
static void prepare(void)
{
    uint32_t z = 1;
    for (size_t i = 0; i < sizeof samples / sizeof samples[0]; i++)
        samples[i] = (int16_t)((z = z * 1664525u + 1013904223u) >> 16);
    for (size_t i = 0; i < sizeof spectra / sizeof spectra[0]; i++)
        spectra[i] = (int32_t)((z = z * 1664525u + 1013904223u) >> 2) - 536870912;
}

static void print_row(const struct call *call)
{
    printf("| %s |", call->name);
    for (int l = 0; l < LENGTHS; l++) {
        turn_to(lengths[l]);
        refused = 0;
        order = call->order;
        size_t taken = bytes(call->run);
        if (refused)
            printf(NOT_OFFERED);
        else
            printf(" %zu |", taken);
    }
    printf("\n");
}

int main(void)
{
    prepare();
    print_head("bytes of stack");
    for (int c = 0; c < CALLS; c++)
        print_row(&calls[c]);
    return 0;
}
