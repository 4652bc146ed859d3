/* Times the library beside plain C of the same definitions, in one run: each round gives every contender one short batch, and the least time of
 * a batch counts. Prints Markdown. With the word 'count' it runs one batch of each for callgrind, which counts instructions. A contender that
 * is not offered at a length is left out there. */
#define _POSIX_C_SOURCE 200809L
#include "lengths.h"
#include "library.h"
#include "plain.h"
#include "step_table.h"
#include <math.h>
#include <stdio.h>
#include <stdlib.h>
#include <string.h>
#include <time.h>
#ifdef HAVE_CALLGRIND
#include <valgrind/callgrind.h>
#else
#define CALLGRIND_ZERO_STATS
#define CALLGRIND_DUMP_STATS_AT(text)
#endif
#ifdef HAVE_FFTW
#include <fftw3.h>
#endif
#ifdef HAVE_AVTX
#include <libavutil/tx.h>
#endif

/* the most hops of a recording, the most blocks of a batch, and room for its coefficients or for the padded recording that it is */
enum { LONGEST = 4095, MOST_BLOCKS = 512, BATCH = 4096 };

/* blocks of a batch, for some tens of microseconds at each length; a sixteenth of them still is a recording */
static const size_t batches[LENGTHS] = {MOST_BLOCKS, 256, 128, 64, 32, 32};

/* For each length a recording of random samples between two hops of zeros, its coefficients by direct analysis at long joints, those of a batch at
 * short joints, those of a batch by frequency, a step table, plain C's levels of a batch by it, what they come back as, the sound of that, and what
 * moved samples in it, the floats of a batch and the pairs of its highest and lowest ones, a batch of silence that ends in a click, and room for
 * every result. The last hop of a batch is zeros too, so that its blocks are those of a recording of its own, of one hop fewer. Sound begins with the
 * run-in, so that each sample returns at its place in the padded recording. */
static int16_t all_padded[LENGTHS][(LONGEST + 2) * MOST_M], *padded;
static int32_t all_spectra[LENGTHS][(LONGEST + 1) * MOST_M], *spectra;
static int32_t all_short_joints[LENGTHS][BATCH], *short_joints;
static int32_t all_by_frequency[LENGTHS][BATCH], *by_frequency;
static uint8_t all_tables[LENGTHS][TABLE_ROOM], *table;
static size_t table_lengths[LENGTHS], table_length;
static int32_t all_levels[LENGTHS][BATCH], *levels;
static int32_t all_restored[LENGTHS][BATCH], *restored;
static int16_t all_restored_sound[LENGTHS][BATCH], *restored_sound;
static uint32_t all_movers[LENGTHS][3 * MOST_BLOCKS], *expected_movers;
static double all_floats[LENGTHS][BATCH], *expected_floats;
static double all_pairs[LENGTHS][2 * MOST_BLOCKS], *expected_pairs;
static int16_t all_late_clicks[LENGTHS][BATCH], *late_click;
static int32_t coefficients[(LONGEST + 1) * MOST_M];
static int16_t sound[(LONGEST + 1) * MOST_M];
static uint32_t movers[3 * MOST_BLOCKS], found[3];
static double values[BATCH];
static int64_t tail[MOST_M];

static uint32_t refused;

/* The searches that are timed, by a recording, the allowed distance and the budget. By step 1024 every recording returns within 24 of its own, so the
 * first trial passes, over all blocks. No coefficient of a lone click is above 64 times its height, so by steps of more than 128 times that every
 * level is 0 and the click does not return: with less allowed, each trial fails, and not before the last sample. */
enum { COARSEST = 1024, CLICK = 7, SURE = 32 * (CLICK - 1) + 15 };
#define PASSING padded, 31, 1
#define FAILING(trials) late_click, CLICK - 1, trials

/* A call over a batch, and whether it is there and takes length l: a block is refused with 1 where its route, direct, short or double, does not. */
#define CALL_AS(name, whose, call, route, ...)                                      \
    static void whose##_##name(size_t n, size_t blocks)                             \
    {                                                                               \
        refused |= whose.call(n, blocks, __VA_ARGS__);                              \
    }                                                                               \
    static int whose##_offers_##name(int l)                                         \
    {                                                                               \
        return whose.call && whose.route(lengths[l], 1, padded, coefficients) != 1; \
    }
#define CALL(whose, call, route, ...) CALL_AS(call, whose, call, route, __VA_ARGS__)

#define CALLS(whose)                                                                  \
    CALL(whose, direct, direct, padded, coefficients)                                 \
    CALL(whose, by_short_route, by_short_route, padded, coefficients)                 \
    CALL(whose, by_double_route, by_double_route, padded, coefficients)               \
    CALL(whose, recording_direct, direct, padded, coefficients)                       \
    CALL(whose, recording_short, by_short_route, padded, coefficients)                \
    CALL(whose, recording_double, by_double_route, padded, coefficients)              \
    CALL(whose, direct_short_joints, direct, padded, coefficients)                    \
    CALL(whose, by_short_route_short_joints, by_short_route, padded, coefficients)    \
    CALL(whose, by_double_route_short_joints, by_double_route, padded, coefficients)  \
    CALL(whose, step, direct, spectra, sound)                                         \
    CALL(whose, synthesis, direct, spectra, sound)                                    \
    CALL(whose, step_short_joints, direct, short_joints, sound)                       \
    CALL(whose, quantise, direct, table, table_length, spectra, coefficients)         \
    CALL(whose, dequantise, direct, table, table_length, levels, coefficients)        \
    CALL(whose, step_levels, direct, table, table_length, levels, sound)              \
    CALL(whose, largest_share, direct, spectra, restored, movers)                     \
    CALL(whose, floats, direct, spectra, values)                                      \
    CALL(whose, highest_lowest, direct, spectra, values)                              \
    CALL(whose, recording_direct_by_frequency, direct, padded, coefficients)          \
    CALL(whose, recording_short_by_frequency, by_short_route, padded, coefficients)   \
    CALL(whose, recording_double_by_frequency, by_double_route, padded, coefficients) \
    CALL(whose, synthesis_by_frequency, direct, by_frequency, sound)                  \
    CALL(whose, reordered_by_block, direct, by_frequency, coefficients)               \
    CALL(whose, reordered_by_frequency, direct, spectra, coefficients)                \
    CALL(whose, there_and_back, direct, padded, coefficients, sound)                  \
    CALL_AS(passing_trial, whose, coarsest_step, direct, PASSING, found)              \
    CALL_AS(failing_trial, whose, coarsest_step, direct, FAILING(1), found)           \
    CALL_AS(failing_10_trials, whose, coarsest_step, direct, FAILING(10), found)      \
    CALL_AS(failing_100_trials, whose, coarsest_step, direct, FAILING(100), found)

CALLS(library)
#ifdef BEFORE
/* the calls of an earlier commit, which has BEFORE bytes of them: one that it does not have yet is null */
extern const struct library earlier;
static struct library before;
CALLS(before)
#endif

#define PLAIN_ANALYSIS(call)                                                  \
    static void run_##call(size_t n, size_t blocks)                           \
    {                                                                         \
        for (size_t b = 0; b < blocks; b++)                                   \
            call(n, 0, 0, padded + b * (n / 2), coefficients + b * (n / 2));  \
    }

#define PLAIN_STEP(call)                                                      \
    static void run_##call(size_t n, size_t blocks)                           \
    {                                                                         \
        memset(tail, 0, sizeof tail);                                         \
        for (size_t b = 0; b < blocks; b++)                                   \
            call(n, 0, 0, tail, spectra + b * (n / 2), sound + b * (n / 2));  \
    }

#define PLAIN_LEVELS(call, from)                                                                            \
    static void run_##call(size_t n, size_t blocks)                                                         \
    {                                                                                                       \
        for (size_t b = 0; b < blocks; b++)                                                                 \
            refused |= call(n, table, table_length, from + b * (n / 2), coefficients + b * (n / 2));        \
    }

#define PLAIN_STEP_LEVELS(call)                                                                             \
    static void run_##call(size_t n, size_t blocks)                                                         \
    {                                                                                                       \
        memset(tail, 0, sizeof tail);                                                                       \
        for (size_t b = 0; b < blocks; b++)                                                                 \
            refused |= call(n, 0, 0, table, table_length, tail, levels + b * (n / 2), sound + b * (n / 2)); \
    }

/* the samples that the library is asked about: see library.h */
#define PLAIN_LARGEST_SHARE(call)                                                                                                  \
    static void run_##call(size_t n, size_t blocks)                                                                                \
    {                                                                                                                              \
        size_t m = n / 2, place = m / 2;                                                                                           \
        for (size_t b = 0; b < blocks; b++) {                                                                                      \
            size_t first = b * m, second = b + 1 < blocks ? first + m : 0;                                                         \
            call(n, b & 1, spectra + first, restored + first, spectra + second, restored + second, place, movers + 3 * b);         \
            place = place + 1 < m ? place + 1 : 0;                                                                                 \
        }                                                                                                                          \
    }

#define PLAIN_FLOATS(call, count)                                                                                                  \
    static void run_##call(size_t n, size_t blocks)                                                                                \
    {                                                                                                                              \
        for (size_t b = 0; b < blocks; b++)                                                                                        \
            refused |= call(n, spectra + b * (n / 2), n / 2, values + b * (count), count);                                         \
    }

#define PLAIN_SEARCH(name, variant, ...)                                      \
    static void run_##variant##_##name(size_t n, size_t blocks)               \
    {                                                                         \
        variant##_coarsest_step(n, blocks - 1, __VA_ARGS__, found);           \
    }

#define PLAIN_SEARCHES(variant)                                               \
    PLAIN_SEARCH(passing_trial, variant, PASSING)                             \
    PLAIN_SEARCH(failing_trial, variant, FAILING(1))                          \
    PLAIN_SEARCH(failing_10_trials, variant, FAILING(10))                     \
    PLAIN_SEARCH(failing_100_trials, variant, FAILING(100))

PLAIN_ANALYSIS(plain_o3_analyse_direct)
PLAIN_ANALYSIS(plain_o3_analyse_folded)
PLAIN_ANALYSIS(plain_o3_analyse_short)
PLAIN_ANALYSIS(plain_o3_analyse_double)
PLAIN_ANALYSIS(plain_native_analyse_direct)
PLAIN_ANALYSIS(plain_native_analyse_folded)
PLAIN_ANALYSIS(plain_native_analyse_short)
PLAIN_ANALYSIS(plain_native_analyse_double)
PLAIN_STEP(plain_o3_step_direct)
PLAIN_STEP(plain_o3_step_folded)
PLAIN_STEP(plain_native_step_direct)
PLAIN_STEP(plain_native_step_folded)
PLAIN_LEVELS(plain_o3_quantise, spectra)
PLAIN_LEVELS(plain_o3_dequantise, levels)
PLAIN_LEVELS(plain_native_quantise, spectra)
PLAIN_LEVELS(plain_native_dequantise, levels)
PLAIN_STEP_LEVELS(plain_o3_step_levels)
PLAIN_STEP_LEVELS(plain_native_step_levels)
PLAIN_LARGEST_SHARE(plain_o3_largest_share)
PLAIN_LARGEST_SHARE(plain_native_largest_share)
PLAIN_FLOATS(plain_o3_floats, n / 2)
PLAIN_FLOATS(plain_o3_highest_lowest, 2)
PLAIN_FLOATS(plain_native_floats, n / 2)
PLAIN_FLOATS(plain_native_highest_lowest, 2)
PLAIN_SEARCHES(plain_o3)
PLAIN_SEARCHES(plain_native)

static int plain_offers(int l)
{
    return l < LENGTHS;
}

static int plain_offers_short(int l)
{
    return lengths[l] <= 72;
}

static int plain_offers_double(int l)
{
    return lengths[l] == 36 || lengths[l] == 72;
}

/* Floating point, for scale only: window, transform and, in synthesis, overlap and rounding to samples. */
static float windows[LENGTHS][MOST_N], *window;

#if defined HAVE_FFTW || defined HAVE_AVTX
static float float_tail[MOST_M];

static int16_t float_sample(float z)
{
    z = z < -32768 ? -32768 : z > 32767 ? 32767 : z;
    return (int16_t)lrintf(z);
}
#endif

#ifdef HAVE_FFTW
static fftwf_plan plans[LENGTHS], plan;
static float dct_in[MOST_M] __attribute__((aligned(64))), dct_out[MOST_M] __attribute__((aligned(64)));

static int fftw_offers(int l)
{
    return plans[l] != NULL;
}

static void fftw_analysis(size_t n, size_t blocks)
{
    size_t m = n / 2, h = m / 2;
    for (size_t b = 0; b < blocks; b++) {
        const int16_t *x = padded + b * m;
        for (size_t j = 0; j < h; j++)
            dct_in[j] = -window[3 * h - 1 - j] * x[3 * h - 1 - j] - window[3 * h + j] * x[3 * h + j];
        for (size_t j = h; j < m; j++)
            dct_in[j] = window[j - h] * x[j - h] - window[3 * h - 1 - j] * x[3 * h - 1 - j];
        fftwf_execute(plan);
        /* REDFT11 doubles its sums */
        for (size_t k = 0; k < m; k++)
            coefficients[b * m + k] = (int32_t)lrintf(32 * dct_out[k]);
    }
}

static void fftw_synthesis(size_t n, size_t blocks)
{
    size_t m = n / 2, h = m / 2;
    float scale = 1 / (32.0f * (float)n);
    memset(float_tail, 0, sizeof float_tail);
    for (size_t b = 0; b < blocks; b++) {
        for (size_t k = 0; k < m; k++)
            dct_in[k] = scale * (float)spectra[b * m + k];
        fftwf_execute(plan);
        for (size_t i = 0; i < h; i++)
            sound[b * m + i] = float_sample(float_tail[i] + window[i] * dct_out[h + i]);
        for (size_t i = h; i < m; i++)
            sound[b * m + i] = float_sample(float_tail[i] - window[i] * dct_out[3 * h - 1 - i]);
        for (size_t i = 0; i < h; i++)
            float_tail[i] = -window[m + i] * dct_out[h - 1 - i];
        for (size_t i = h; i < m; i++)
            float_tail[i] = -window[m + i] * dct_out[i - h];
    }
}
#endif

#ifdef HAVE_AVTX
static AVTXContext *forwards[LENGTHS], *inverses[LENGTHS], *forward, *inverse;
static av_tx_fn forward_txs[LENGTHS], inverse_txs[LENGTHS], forward_tx, inverse_tx;
static float tx_in[MOST_N] __attribute__((aligned(64))), tx_out[MOST_N] __attribute__((aligned(64)));
static float tx_sign;

static int avtx_offers(int l)
{
    return forwards[l] && inverses[l];
}

/* A context stays empty where FFmpeg does not offer the length. */
static void avtx_init(int l)
{
    float scale = 1;
    size_t m = lengths[l] / 2;
    if (av_tx_init(&forwards[l], &forward_txs[l], AV_TX_FLOAT_MDCT, 0, (int)m, &scale, 0) < 0
        || av_tx_init(&inverses[l], &inverse_txs[l], AV_TX_FLOAT_MDCT, 1, (int)m, &scale, 0) < 0)
        return;
    /* versions differ in the sign of the inverse: cosine 0 is near -1 at place 3M/2 - 1 */
    memset(tx_in, 0, sizeof tx_in);
    tx_in[0] = 1;
    inverse_txs[l](inverses[l], tx_out, tx_in, sizeof(float));
    tx_sign = tx_out[m - 1] < 0 ? 1 : -1;
}

static void avtx_analysis(size_t n, size_t blocks)
{
    size_t m = n / 2;
    for (size_t b = 0; b < blocks; b++) {
        for (size_t i = 0; i < n; i++)
            tx_in[i] = window[i] * padded[b * m + i];
        forward_tx(forward, tx_out, tx_in, sizeof(float));
        for (size_t k = 0; k < m; k++)
            coefficients[b * m + k] = (int32_t)lrintf(64 * tx_out[k]);
    }
}

/* The inverse gives places M/2 to 3M/2 - 1; the others follow by symmetry. */
static void avtx_synthesis(size_t n, size_t blocks)
{
    size_t m = n / 2, h = m / 2;
    float scale = tx_sign / (16.0f * (float)n);
    memset(float_tail, 0, sizeof float_tail);
    for (size_t b = 0; b < blocks; b++) {
        for (size_t k = 0; k < m; k++)
            tx_in[k] = scale * (float)spectra[b * m + k];
        inverse_tx(inverse, tx_out, tx_in, sizeof(float));
        for (size_t i = 0; i < h; i++)
            sound[b * m + i] = float_sample(float_tail[i] - window[i] * tx_out[h - 1 - i]);
        for (size_t i = h; i < m; i++)
            sound[b * m + i] = float_sample(float_tail[i] + window[i] * tx_out[i - h]);
        for (size_t i = 0; i < h; i++)
            float_tail[i] = window[m + i] * tx_out[h + i];
        for (size_t i = h; i < m; i++)
            float_tail[i] = window[m + i] * tx_out[3 * h - 1 - i];
    }
}
#endif

/* What a contender's result is held to before it is timed, numbers, sound behind the run-in, what is named, floats bit by bit, or what a search finds
 * (step, trials, untried), how many of them a block has, 0 standing for M, and how far it may be from them. From THERE_AND_BACK on they are those of
 * the coarsest step, which has a table of its own. */
enum result {
    COEFFICIENTS, NEAR_COEFFICIENTS, DOUBLE_COEFFICIENTS, FLOAT_COEFFICIENTS, SHORT_JOINTS, NEAR_SHORT_JOINTS, DOUBLE_SHORT_JOINTS, SOUND, FLOAT_SOUND,
    LEVELS, RESTORED, RESTORED_SOUND, MOVERS, FLOATS, PAIRS, IN_BANDS, NEAR_IN_BANDS, DOUBLE_IN_BANDS, THERE_AND_BACK, PASSED, FAILED, FAILED_10,
    FAILED_100
};

#define FAILED_AFTER(trials) {SURE, trials, COARSEST - trials - SURE}
static const struct {
    int32_t **numbers;
    int16_t **sound;
    uint32_t **movers;
    double **floats;
    size_t each;
    uint32_t found[3];
    long apart;
} expected[] = {
    [COEFFICIENTS] = {.numbers = &spectra},
    [NEAR_COEFFICIENTS] = {.numbers = &spectra, .apart = 16},
    [DOUBLE_COEFFICIENTS] = {.numbers = &spectra, .apart = 32},
    [FLOAT_COEFFICIENTS] = {.numbers = &spectra, .apart = 64},
    [SHORT_JOINTS] = {.numbers = &short_joints},
    [NEAR_SHORT_JOINTS] = {.numbers = &short_joints, .apart = 16},
    [DOUBLE_SHORT_JOINTS] = {.numbers = &short_joints, .apart = 32},
    [SOUND] = {.sound = &padded},
    [FLOAT_SOUND] = {.sound = &padded, .apart = 1},
    [LEVELS] = {.numbers = &levels},
    [RESTORED] = {.numbers = &restored},
    [RESTORED_SOUND] = {.sound = &restored_sound},
    [MOVERS] = {.movers = &expected_movers, .each = 3},
    [FLOATS] = {.floats = &expected_floats},
    [PAIRS] = {.floats = &expected_pairs, .each = 2},
    [IN_BANDS] = {.numbers = &by_frequency},
    [NEAR_IN_BANDS] = {.numbers = &by_frequency, .apart = 16},
    [DOUBLE_IN_BANDS] = {.numbers = &by_frequency, .apart = 32},
    [THERE_AND_BACK] = {.sound = &padded},
    [PASSED] = {.found = {COARSEST, 1, 0}},
    [FAILED] = {.found = FAILED_AFTER(1)},
    [FAILED_10] = {.found = FAILED_AFTER(10)},
    [FAILED_100] = {.found = FAILED_AFTER(100)},
};

struct contender {
    const char *name;
    void (*run)(size_t n, size_t blocks);
    /* whether it is offered at length l, which is turned to */
    int (*offers)(int l);
    enum result result;
    int native;
    int offered[LENGTHS];
    double ns[LENGTHS];
};

static struct contender contenders[] = {
/* rows of the library and, where there is one, of the earlier archive; rows of either build of plain C */
#ifdef BEFORE
#define LIBRARIES(ROWS) ROWS("library", library), ROWS("before", before)
#else
#define LIBRARIES(ROWS) ROWS("library", library)
#endif
#define VARIANTS(ROWS) ROWS(plain_o3, "-O3", 0), ROWS(plain_native, "-O3 -march=native", 1)
#define ROW(name, whose, call, result) {name, whose##_##call, whose##_offers_##call, result, 0, {0}, {0}}
#define ANALYSES(name, whose)                                                                       \
    ROW(name ", direct", whose, direct, COEFFICIENTS),                                              \
    ROW(name ", short route", whose, by_short_route, NEAR_COEFFICIENTS),                            \
    ROW(name ", double route", whose, by_double_route, DOUBLE_COEFFICIENTS),                        \
    ROW(name ", recording, direct", whose, recording_direct, COEFFICIENTS),                         \
    ROW(name ", recording, short route", whose, recording_short, NEAR_COEFFICIENTS),                \
    ROW(name ", recording, double route", whose, recording_double, DOUBLE_COEFFICIENTS),            \
    ROW(name ", direct, short joints", whose, direct_short_joints, SHORT_JOINTS),                   \
    ROW(name ", short route, short joints", whose, by_short_route_short_joints, NEAR_SHORT_JOINTS), \
    ROW(name ", double route, short joints", whose, by_double_route_short_joints, DOUBLE_SHORT_JOINTS)
#define SYNTHESES(name, whose)                                                              \
    ROW(name ", step", whose, step, SOUND),                                                 \
    ROW(name ", recording, synthesis", whose, synthesis, SOUND),                            \
    ROW(name ", step, short joints", whose, step_short_joints, SOUND)
#define ON_LEVELS(name, whose)                                                              \
    ROW(name ", quantise", whose, quantise, LEVELS),                                        \
    ROW(name ", dequantise", whose, dequantise, RESTORED),                                  \
    ROW(name ", step on levels", whose, step_levels, RESTORED_SOUND)
#define ON_SHARES(name, whose)                                                              \
    ROW(name ", largest share", whose, largest_share, MOVERS)
#define AS_FLOATS(name, whose)                                                              \
    ROW(name ", floats", whose, floats, FLOATS),                                            \
    ROW(name ", highest and lowest", whose, highest_lowest, PAIRS)
#define IN_ORDERS(name, whose)                                                                                  \
    ROW(name ", recording, direct, by frequency", whose, recording_direct_by_frequency, IN_BANDS),              \
    ROW(name ", recording, short route, by frequency", whose, recording_short_by_frequency, NEAR_IN_BANDS),     \
    ROW(name ", recording, double route, by frequency", whose, recording_double_by_frequency, DOUBLE_IN_BANDS), \
    ROW(name ", recording, synthesis, by frequency", whose, synthesis_by_frequency, SOUND),                     \
    ROW(name ", recording, reordered by block", whose, reordered_by_block, COEFFICIENTS),                       \
    ROW(name ", recording, reordered by frequency", whose, reordered_by_frequency, IN_BANDS)
#define IN_SEARCHES(name, whose)                                                            \
    ROW(name ", recording, there and back", whose, there_and_back, THERE_AND_BACK),         \
    ROW(name ", a trial that passes", whose, passing_trial, PASSED),                        \
    ROW(name ", 1 trial that fails", whose, failing_trial, FAILED),                         \
    ROW(name ", 10 trials that fail", whose, failing_10_trials, FAILED_10),                 \
    ROW(name ", 100 trials that fail", whose, failing_100_trials, FAILED_100)
#define PLAIN_ON_LEVELS(variant, options, native)                                                                     \
    {"plain C, quantise, " options, run_##variant##_quantise, plain_offers, LEVELS, native, {0}, {0}},                \
    {"plain C, dequantise, " options, run_##variant##_dequantise, plain_offers, RESTORED, native, {0}, {0}},          \
    {"plain C, step on levels, " options, run_##variant##_step_levels, plain_offers, RESTORED_SOUND, native, {0}, {0}}
#define PLAIN_AS_FLOATS(variant, options, native)                                                                     \
    {"plain C, floats, " options, run_##variant##_floats, plain_offers, FLOATS, native, {0}, {0}},                    \
    {"plain C, highest and lowest, " options, run_##variant##_highest_lowest, plain_offers, PAIRS, native, {0}, {0}}
#define PLAIN_IN_SEARCHES(variant, options, native)                                                                           \
    {"plain C, a trial that passes, " options, run_##variant##_passing_trial, plain_offers, PASSED, native, {0}, {0}},        \
    {"plain C, 1 trial that fails, " options, run_##variant##_failing_trial, plain_offers, FAILED, native, {0}, {0}},         \
    {"plain C, 10 trials that fail, " options, run_##variant##_failing_10_trials, plain_offers, FAILED_10, native, {0}, {0}}, \
    {"plain C, 100 trials that fail, " options, run_##variant##_failing_100_trials, plain_offers, FAILED_100, native, {0}, {0}}
    LIBRARIES(ANALYSES),
    {"plain C, direct, -O3", run_plain_o3_analyse_direct, plain_offers, COEFFICIENTS, 0, {0}, {0}},
    {"plain C, folded, -O3", run_plain_o3_analyse_folded, plain_offers, COEFFICIENTS, 0, {0}, {0}},
    {"plain C, short route, -O3", run_plain_o3_analyse_short, plain_offers_short, NEAR_COEFFICIENTS, 0, {0}, {0}},
    {"plain C, double route, -O3", run_plain_o3_analyse_double, plain_offers_double, DOUBLE_COEFFICIENTS, 0, {0}, {0}},
    {"plain C, direct, -O3 -march=native", run_plain_native_analyse_direct, plain_offers, COEFFICIENTS, 1, {0}, {0}},
    {"plain C, folded, -O3 -march=native", run_plain_native_analyse_folded, plain_offers, COEFFICIENTS, 1, {0}, {0}},
    {"plain C, short route, -O3 -march=native", run_plain_native_analyse_short, plain_offers_short, NEAR_COEFFICIENTS, 1, {0}, {0}},
    {"plain C, double route, -O3 -march=native", run_plain_native_analyse_double, plain_offers_double, DOUBLE_COEFFICIENTS, 1, {0}, {0}},
#ifdef HAVE_FFTW
    {"FFTW REDFT11 (float)", fftw_analysis, fftw_offers, FLOAT_COEFFICIENTS, 0, {0}, {0}},
#endif
#ifdef HAVE_AVTX
    {"FFmpeg av_tx MDCT (float)", avtx_analysis, avtx_offers, FLOAT_COEFFICIENTS, 0, {0}, {0}},
#endif
    LIBRARIES(SYNTHESES),
    {"plain C, step, direct, -O3", run_plain_o3_step_direct, plain_offers, SOUND, 0, {0}, {0}},
    {"plain C, step, folded, -O3", run_plain_o3_step_folded, plain_offers, SOUND, 0, {0}, {0}},
    {"plain C, step, direct, -O3 -march=native", run_plain_native_step_direct, plain_offers, SOUND, 1, {0}, {0}},
    {"plain C, step, folded, -O3 -march=native", run_plain_native_step_folded, plain_offers, SOUND, 1, {0}, {0}},
#ifdef HAVE_FFTW
    {"FFTW REDFT11 (float), step", fftw_synthesis, fftw_offers, FLOAT_SOUND, 0, {0}, {0}},
#endif
#ifdef HAVE_AVTX
    {"FFmpeg av_tx MDCT (float), step", avtx_synthesis, avtx_offers, FLOAT_SOUND, 0, {0}, {0}},
#endif
    LIBRARIES(ON_LEVELS),
    VARIANTS(PLAIN_ON_LEVELS),
    LIBRARIES(ON_SHARES),
    LIBRARIES(IN_ORDERS),
    {"plain C, largest share, -O3", run_plain_o3_largest_share, plain_offers, MOVERS, 0, {0}, {0}},
    {"plain C, largest share, -O3 -march=native", run_plain_native_largest_share, plain_offers, MOVERS, 1, {0}, {0}},
    LIBRARIES(AS_FLOATS),
    VARIANTS(PLAIN_AS_FLOATS),
    LIBRARIES(IN_SEARCHES),
    VARIANTS(PLAIN_IN_SEARCHES),
};

enum { CONTENDERS = sizeof contenders / sizeof contenders[0] };

static double seconds(clockid_t clock)
{
    struct timespec t;
    clock_gettime(clock, &t);
    return (double)t.tv_sec + (double)t.tv_nsec * 1e-9;
}

/* Makes the step table of length l, and plain C's results by it. */
static void prepare_levels(int l)
{
    size_t n = lengths[l], m = n / 2;
    int64_t zeros[MOST_M] = {0};
    table_lengths[l] = write_table(all_tables[l], m);
    for (size_t b = 0; b < batches[l]; b++) {
        int32_t *level = all_levels[l] + b * m;
        plain_o3_quantise(n, all_tables[l], table_lengths[l], all_spectra[l] + b * m, level);
        plain_o3_dequantise(n, all_tables[l], table_lengths[l], level, all_restored[l] + b * m);
        plain_o3_step_direct(n, 0, 0, zeros, all_restored[l] + b * m, all_restored_sound[l] + b * m);
    }
}

/* Makes the floats of length l, and the pairs of its blocks. */
static void prepare_floats(int l)
{
    size_t m = lengths[l] / 2;
    for (size_t i = 0; i < batches[l] * m; i++)
        all_floats[l][i] = ldexp(all_spectra[l][i], -6);
    for (size_t b = 0; b < batches[l]; b++) {
        double *block = all_floats[l] + b * m, *pair = all_pairs[l] + 2 * b;
        pair[0] = pair[1] = block[0];
        for (size_t k = 1; k < m; k++) {
            pair[0] = fmax(pair[0], block[k]);
            pair[1] = fmin(pair[1], block[k]);
        }
    }
}

/* Puts the coefficients of so many blocks of m by frequency. */
static void put_by_frequency(size_t m, size_t blocks, const int32_t *by_block, int32_t *out)
{
    for (size_t b = 0; b < blocks; b++)
        for (size_t k = 0; k < m; k++)
            out[k * blocks + b] = by_block[b * m + k];
}

/* Makes what each length needs. */
static void prepare(void)
{
    uint32_t z = 1;
    for (int l = 0; l < LENGTHS; l++) {
        size_t n = lengths[l], m = n / 2;
        for (size_t i = m; i < (LONGEST + 1) * m; i++) {
            z = z * 1664525u + 1013904223u;
            all_padded[l][i] = (int16_t)(z >> 16);
        }
        memset(all_padded[l] + batches[l] * m, 0, m * sizeof padded[0]);
        for (size_t b = 0; b <= LONGEST; b++)
            plain_o3_analyse_direct(n, 0, 0, all_padded[l] + b * m, all_spectra[l] + b * m);
        for (size_t b = 0; b < batches[l]; b++)
            plain_o3_analyse_direct(n, b > 0, 1, all_padded[l] + b * m, all_short_joints[l] + b * m);
        put_by_frequency(m, batches[l], all_spectra[l], all_by_frequency[l]);
        all_late_clicks[l][batches[l] * m - 1] = CLICK;
        prepare_levels(l);
        prepare_floats(l);
        for (size_t i = 0; i < n; i++)
            windows[l][i] = (float)sin(3.141592653589793 * (double)(2 * i + 1) / (double)(2 * n));
#ifdef HAVE_FFTW
        plans[l] = fftwf_plan_r2r_1d((int)m, dct_in, dct_out, FFTW_REDFT11, FFTW_PATIENT);
#endif
#ifdef HAVE_AVTX
        avtx_init(l);
#endif
    }
}

/* Turns to one length. */
static void turn_to(int l)
{
    padded = all_padded[l];
    spectra = all_spectra[l];
    short_joints = all_short_joints[l];
    by_frequency = all_by_frequency[l];
    table = all_tables[l];
    table_length = table_lengths[l];
    levels = all_levels[l];
    restored = all_restored[l];
    restored_sound = all_restored_sound[l];
    expected_movers = all_movers[l];
    expected_floats = all_floats[l];
    expected_pairs = all_pairs[l];
    late_click = all_late_clicks[l];
    window = windows[l];
#ifdef HAVE_FFTW
    plan = plans[l];
#endif
#ifdef HAVE_AVTX
    forward = forwards[l];
    inverse = inverses[l];
    forward_tx = forward_txs[l];
    inverse_tx = inverse_txs[l];
#endif
}

/* What plain C names of the change to each length's levels. */
static void prepare_movers(void)
{
    for (int l = 0; l < LENGTHS; l++) {
        turn_to(l);
        run_plain_o3_largest_share(lengths[l], batches[l]);
        memcpy(expected_movers, movers, sizeof movers);
    }
}

/* Whether a step is found. */
static int is_search(enum result result)
{
    return expected[result].found[0] > 0;
}

/* How far number i of a result is from what is expected. */
static long off(enum result result, size_t i)
{
    int16_t **heard = expected[result].sound;
    if (expected[result].movers)
        return labs((long)movers[i] - (long)(*expected[result].movers)[i]);
    if (expected[result].floats)
        return memcmp(values + i, *expected[result].floats + i, sizeof values[0]) != 0;
    if (is_search(result))
        return labs((long)found[i] - (long)expected[result].found[i]);
    return labs(heard ? (long)sound[i] - (*heard)[i] : (long)coefficients[i] - (*expected[result].numbers)[i]);
}

/* Runs a contender's batch once, where it is offered, and holds its result to what is expected. */
static void verify(struct contender *c, int l)
{
    size_t n = lengths[l], m = n / 2, blocks = batches[l], each = expected[c->result].each;
    size_t end = is_search(c->result) ? 3 : blocks * (each ? each : m);
    int wrong = 0;
    c->offered[l] = c->offers(l);
    if (!c->offered[l])
        return;
    memset(coefficients, 0x55, sizeof coefficients);
    memset(sound, 0x55, sizeof sound);
    memset(movers, 0x55, sizeof movers);
    memset(values, 0x55, sizeof values);
    memset(found, 0x55, sizeof found);
    refused = 0;
    c->run(n, blocks);
    for (size_t i = expected[c->result].sound ? m : 0; i < end; i++)
        wrong |= off(c->result, i) > expected[c->result].apart;
    if (wrong || refused) {
        fprintf(stderr, "bench: %s gives another result at N = %zu\n", c->name, n);
        exit(1);
    }
}

/* How many blocks a batch goes through: a search goes through all of them in each of its trials. */
static double passed_through(const struct contender *c, int l)
{
    return (double)batches[l] * (is_search(c->result) ? expected[c->result].found[1] : 1);
}

/* One batch. An untimed part of it goes before, so that its tables are at hand. */
static void time_batch(struct contender *c, int l)
{
    c->run(lengths[l], batches[l] / 16);
    double start = seconds(CLOCK_MONOTONIC);
    c->run(lengths[l], batches[l]);
    double spent = (seconds(CLOCK_MONOTONIC) - start) * 1e9 / passed_through(c, l);
    if (c->ns[l] <= 0 || spent < c->ns[l])
        c->ns[l] = spent;
}

/* Whether a batch takes more than a millisecond. */
static int is_long(const struct contender *c, int l)
{
    return c->ns[l] * passed_through(c, l) > 1e6;
}

/* The least time of a batch over many rounds, every contender at every length in each round, long batches in every tenth. */
static void time_all(int rounds)
{
    for (int r = -1; r < rounds; r++)
        for (int l = 0; l < LENGTHS; l++) {
            turn_to(l);
            for (int c = 0; c < CONTENDERS; c++) {
                if (r < 0)
                    verify(&contenders[c], l);
                else if (contenders[c].offered[l] && (r % 10 == 0 || !is_long(&contenders[c], l)))
                    time_batch(&contenders[c], l);
            }
        }
}

static const struct contender *named(const char *name)
{
    for (int c = 0; c < CONTENDERS; c++)
        if (!strcmp(contenders[c].name, name))
            return &contenders[c];
    fprintf(stderr, "bench: no contender %s\n", name);
    exit(1);
}

/* Whether it is offered at any length: if not, it has no row. */
static int offered_at_all(const struct contender *c)
{
    int offered = 0;
    for (int l = 0; l < LENGTHS; l++)
        offered |= c->offered[l];
    return offered;
}

static void print_ratio(const char *a, const char *b)
{
    const struct contender *over = named(a), *under = named(b);
    if (!offered_at_all(over) || !offered_at_all(under))
        return;
    printf("| %s ÷ %s |", a, b);
    for (int l = 0; l < LENGTHS; l++) {
        if (over->offered[l] && under->offered[l])
            printf(" %.2f |", over->ns[l] / under->ns[l]);
        else
            printf(NOT_OFFERED);
    }
    printf("\n");
}

/* Those of the coarsest step, or all others. */
static void print_times(const char *title, int of_coarsest_step)
{
    print_head(title);
    for (int c = 0; c < CONTENDERS; c++) {
        if (!offered_at_all(&contenders[c]) || (contenders[c].result >= THERE_AND_BACK) != of_coarsest_step)
            continue;
        printf("| %s |", contenders[c].name);
        for (int l = 0; l < LENGTHS; l++) {
            if (contenders[c].offered[l])
                printf(" %.0f |", contenders[c].ns[l]);
            else
                printf(NOT_OFFERED);
        }
        printf("\n");
    }
}

#ifdef BEFORE
/* each call of an earlier commit beside the same of this one */
static void print_ratios_to_before(void)
{
    for (int c = 0; c < CONTENDERS; c++) {
        char name[100];
        if (strncmp(contenders[c].name, "before", 6))
            continue;
        snprintf(name, sizeof name, "library%s", contenders[c].name + 6);
        print_ratio(name, contenders[c].name);
    }
}
#endif

/* the routes beside plain C and each other, at either shape of joint, and of a recording */
static void print_ratios_of_analyses(void)
{
    print_ratio("library, direct", "plain C, folded, -O3");
    print_ratio("library, direct", "plain C, folded, -O3 -march=native");
    print_ratio("library, direct", "plain C, direct, -O3");
    print_ratio("library, short route", "plain C, short route, -O3");
    print_ratio("library, short route", "plain C, short route, -O3 -march=native");
    print_ratio("library, short route", "library, direct");
    print_ratio("library, double route", "plain C, double route, -O3");
    print_ratio("library, double route", "plain C, double route, -O3 -march=native");
    print_ratio("library, double route", "library, direct");
    print_ratio("library, double route", "library, short route");
    print_ratio("plain C, double route, -O3", "plain C, short route, -O3");
    print_ratio("library, direct, short joints", "library, direct");
    print_ratio("library, short route, short joints", "library, short route");
    print_ratio("library, double route, short joints", "library, double route");
    print_ratio("library, recording, direct", "library, direct");
    print_ratio("library, recording, short route", "library, short route");
    print_ratio("library, recording, double route", "library, double route");
}

/* levels, shares and floats beside plain C */
static void print_ratios_of_blocks(void)
{
    print_ratio("library, quantise", "plain C, quantise, -O3");
    print_ratio("library, quantise", "plain C, quantise, -O3 -march=native");
    print_ratio("library, dequantise", "plain C, dequantise, -O3");
    print_ratio("library, dequantise", "plain C, dequantise, -O3 -march=native");
    print_ratio("library, step on levels", "plain C, step on levels, -O3");
    print_ratio("library, step on levels", "plain C, step on levels, -O3 -march=native");
    print_ratio("library, step on levels", "library, step");
    print_ratio("library, largest share", "plain C, largest share, -O3");
    print_ratio("library, largest share", "plain C, largest share, -O3 -march=native");
    print_ratio("library, floats", "plain C, floats, -O3");
    print_ratio("library, floats", "plain C, floats, -O3 -march=native");
    print_ratio("library, highest and lowest", "plain C, highest and lowest, -O3");
    print_ratio("library, highest and lowest", "plain C, highest and lowest, -O3 -march=native");
}

static void print_ratios(void)
{
    printf("\n");
    print_head("ratio");
#ifdef BEFORE
    print_ratios_to_before();
#endif
    print_ratios_of_analyses();
    print_ratio("library, step", "plain C, step, folded, -O3");
    print_ratio("library, step", "plain C, step, folded, -O3 -march=native");
    print_ratio("library, step", "plain C, step, direct, -O3");
    print_ratio("library, step, short joints", "library, step");
    print_ratio("library, recording, synthesis", "library, step");
#ifdef HAVE_FFTW
    print_ratio("library, direct", "FFTW REDFT11 (float)");
    print_ratio("library, step", "FFTW REDFT11 (float), step");
#endif
#ifdef HAVE_AVTX
    print_ratio("library, direct", "FFmpeg av_tx MDCT (float)");
    print_ratio("library, step", "FFmpeg av_tx MDCT (float), step");
#endif
    print_ratios_of_blocks();
}

/* The sizes of recordings that are timed, and the calls over them, in pairs, by block and by frequency. The longest has a power of two of blocks,
 * so that by frequency the coefficients of a block compete for few places of a cache: the size before it shows them where they do not. */
static const size_t hops[] = {1, 4, 16, 64, 256, 1024, 4000, LONGEST};
static const char *const kinds[] = {
    "direct", "direct, by frequency", "short route", "short route, by frequency", "double route", "double route, by frequency",
    "synthesis", "synthesis, by frequency", "reordered by block", "reordered by frequency",
};
enum { SIZES = sizeof hops / sizeof hops[0], KINDS = sizeof kinds / sizeof kinds[0] };

/* A recording's coefficients by frequency lie otherwise at each size. The least time of a block, or 0 where a call is not offered. */
static int32_t sized[SIZES][(LONGEST + 1) * MOST_M];
static double least[LENGTHS][KINDS][SIZES];

static const struct contender *recording(int kind)
{
    char name[100];
    snprintf(name, sizeof name, "library, recording, %s", kinds[kind]);
    return named(name);
}

/* The time of a block of a recording. Long calls are interrupted now and then, so the processor's own time counts here. */
static double time_recording(const struct contender *c, size_t n, size_t blocks)
{
    /* short recordings are repeated, so that the clock's own cost is small */
    size_t repeats = blocks < 512 ? 512 / blocks : 1;
    double start = seconds(CLOCK_THREAD_CPUTIME_ID);
    for (size_t i = 0; i < repeats; i++)
        c->run(n, blocks);
    return (seconds(CLOCK_THREAD_CPUTIME_ID) - start) * 1e9 / (double)(repeats * blocks);
}

/* The least time of a block at each size, for each call that is offered at length l. */
static void time_recordings_of(int l, int rounds)
{
    for (int s = 0; s < SIZES; s++)
        put_by_frequency(lengths[l] / 2, hops[s] + 1, spectra, sized[s]);
    for (int r = 0; r < rounds; r++)
        for (int k = 0; k < KINDS; k++)
            for (int s = 0; s < SIZES && recording(k)->offered[l]; s++) {
                by_frequency = sized[s];
                double spent = time_recording(recording(k), lengths[l], hops[s] + 1);
                if (r == 0 || spent < least[l][k][s])
                    least[l][k][s] = spent;
            }
}

/* A row for each call that is offered at length l. */
static void print_recordings_of(int l)
{
    for (int k = 0; k < KINDS; k++) {
        if (!recording(k)->offered[l])
            continue;
        printf("| N = %zu, %s |", lengths[l], kinds[k]);
        for (int s = 0; s < SIZES; s++)
            printf(" %.0f |", least[l][k][s]);
        printf("\n");
    }
}

/* A recording's cost per block, of which it has one more than hops, as it grows. */
static void time_recordings(int rounds)
{
    printf("\n| a recording, ns per block |");
    for (int s = 0; s < SIZES; s++)
        printf(" H = %zu |", hops[s]);
    printf("\n|---|");
    for (int s = 0; s < SIZES; s++)
        printf("---:|");
    printf("\n");
    for (int l = 0; l < LENGTHS; l++) {
        turn_to(l);
        time_recordings_of(l, rounds);
        print_recordings_of(l);
    }
}

/* A recording of one size by one call beside another, or alone where they are the same. */
static void print_beside(int size, int kind, int beside)
{
    for (int l = 0; l < LENGTHS; l++) {
        double over = least[l][kind][size], under = least[l][beside][size];
        if (over <= 0)
            printf(NOT_OFFERED);
        else if (kind == beside)
            printf(" %.0f |", over);
        else
            printf(" %.2f |", over / under);
    }
    printf("\n");
}

/* The two longest sizes in either order, and what by frequency costs beside by block. */
static void print_orders(void)
{
    printf("\n");
    print_head("a recording, ns per block");
    for (int k = 0; k < KINDS; k++)
        for (int s = SIZES - 2; s < SIZES; s++) {
            printf("| H = %zu, %s |", hops[s], kinds[k]);
            print_beside(s, k, k);
        }
    printf("\n");
    print_head("ratio");
    for (int k = 1; k < KINDS; k += 2)
        for (int s = SIZES - 2; s < SIZES; s++) {
            printf("| H = %zu, %s ÷ %s |", hops[s], kinds[k], kinds[k - 1]);
            print_beside(s, k, k - 1);
        }
}

/* A trial beside analysis and synthesis of the same recording and beside plain C's, and many beside one. */
static void print_coarsest_step(void)
{
    printf("\n");
    print_times("coarsest step, ns per block and trial", 1);
    printf("\n");
    print_head("ratio");
    print_ratio("library, a trial that passes", "library, recording, there and back");
    print_ratio("library, a trial that passes", "plain C, a trial that passes, -O3");
    print_ratio("library, a trial that passes", "plain C, a trial that passes, -O3 -march=native");
    print_ratio("library, 10 trials that fail", "library, 1 trial that fails");
    print_ratio("library, 100 trials that fail", "library, 1 trial that fails");
    print_ratio("library, 100 trials that fail", "plain C, 100 trials that fail, -O3");
    print_ratio("library, 100 trials that fail", "plain C, 100 trials that fail, -O3 -march=native");
}

/* One batch of each for callgrind, a dump after each. Code for the machine at hand is left out: valgrind may not know its instructions. */
static void count_all(void)
{
    for (int l = 0; l < LENGTHS; l++) {
        turn_to(l);
        for (int c = 0; c < CONTENDERS; c++) {
            char text[100];
            if (contenders[c].native)
                continue;
            verify(&contenders[c], l);
            if (!contenders[c].offered[l])
                continue;
            snprintf(text, sizeof text, "%s;%zu;%.0f", contenders[c].name, lengths[l], passed_through(&contenders[c], l));
            CALLGRIND_ZERO_STATS;
            contenders[c].run(lengths[l], batches[l]);
            CALLGRIND_DUMP_STATS_AT(text);
        }
    }
}

int main(int argc, char **argv)
{
#ifdef BEFORE
    memcpy(&before, &earlier, BEFORE < sizeof before ? BEFORE : sizeof before);
#endif
    plain_o3_init();
    prepare();
    prepare_movers();
    if (argc > 1 && !strcmp(argv[1], "count")) {
        count_all();
        return 0;
    }
    plain_native_init();
    time_all(1500);
    print_times("ns per block", 0);
    print_ratios();
    print_coarsest_step();
    time_recordings(60);
    print_orders();
    return refused != 0;
}
