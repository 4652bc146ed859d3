/* The library's calls over a batch of blocks: see library.h. */
#include "library.h"
#include "dapplescree.h"

#define ANALYSIS(name, call, shape)                                                                                       \
    static uint32_t name(size_t n, size_t blocks, const int16_t *padded, int32_t *coefficients)                           \
    {                                                                                                                     \
        uint32_t refused = 0;                                                                                             \
        for (size_t b = 0; b < blocks; b++)                                                                               \
            refused |= call(n, b > 0 ? shape : 0, shape, padded + b * (n / 2), n, coefficients + b * (n / 2), n / 2);     \
        return refused;                                                                                                   \
    }

/* the body of a batch of steps from a fresh stream on, each with these arguments for block b between its shapes and its hop */
#define STEPS(call, shape, ...)                                                                                           \
    static int64_t state[DAPPLESCREE_STATE];                                                                              \
    uint32_t refused = dapplescree_stream_fresh(n, state, DAPPLESCREE_STATE);                                             \
    for (size_t b = 0; b < blocks; b++)                                                                                   \
        refused |= call(state, DAPPLESCREE_STATE, (uint32_t)b, b > 0 ? shape : 0, shape, __VA_ARGS__,                     \
                        sound + b * (n / 2), n / 2);                                                                      \
    return refused;

#define STEP(name, shape)                                                                                                 \
    static uint32_t name(size_t n, size_t blocks, const int32_t *spectra, int16_t *sound)                                 \
    {                                                                                                                     \
        STEPS(dapplescree_stream_step, shape, spectra + b * (n / 2), n / 2)                                               \
    }

#define LEVELS(name, call)                                                                                                \
    static uint32_t name(size_t n, size_t blocks, const uint8_t *table, size_t table_length,                              \
                         const int32_t *from, int32_t *to)                                                                \
    {                                                                                                                     \
        uint32_t refused = 0;                                                                                             \
        for (size_t b = 0; b < blocks; b++)                                                                               \
            refused |= call(n, table, table_length, from + b * (n / 2), n / 2, to + b * (n / 2), n / 2);                  \
        return refused;                                                                                                   \
    }

/* so many floats for each block */
#define FLOATS(name, call, count)                                                                                         \
    static uint32_t name(size_t n, size_t blocks, const int32_t *spectra, double *floats)                                 \
    {                                                                                                                     \
        uint32_t refused = 0;                                                                                             \
        for (size_t b = 0; b < blocks; b++)                                                                               \
            refused |= call(n, spectra + b * (n / 2), n / 2, floats + b * (count), count);                                \
        return refused;                                                                                                   \
    }

/* the orders of a recording's coefficients */
enum { BY_BLOCK, BY_FREQUENCY };

#define RECORDING(name, call, order)                                                                                      \
    static uint32_t name(size_t n, size_t blocks, const int16_t *padded, int32_t *coefficients)                           \
    {                                                                                                                     \
        size_t m = n / 2, hops = blocks - 1;                                                                              \
        return call(n, hops, order, padded + m, hops * m, coefficients, blocks * m);                                      \
    }

/* the run-in is no part of a recording's sound */
#define SYNTHESIS(name, order)                                                                                            \
    static uint32_t name(size_t n, size_t blocks, const int32_t *spectra, int16_t *sound)                                 \
    {                                                                                                                     \
        size_t m = n / 2, hops = blocks - 1;                                                                              \
        return dapplescree_synthesise_recording(n, hops, order, spectra, blocks * m, sound + m, hops * m);                \
    }

#define REORDERED(name, to)                                                                                               \
    static uint32_t name(size_t n, size_t blocks, const int32_t *spectra, int32_t *coefficients)                          \
    {                                                                                                                     \
        size_t length = blocks * (n / 2);                                                                                 \
        return dapplescree_reorder(n, blocks - 1, to, spectra, length, coefficients, length);                             \
    }

ANALYSIS(direct, dapplescree_analyse_direct, 0)
ANALYSIS(direct_short_joints, dapplescree_analyse_direct, 1)
ANALYSIS(by_short_route, dapplescree_analyse_short, 0)
ANALYSIS(by_short_route_short_joints, dapplescree_analyse_short, 1)
ANALYSIS(by_double_route, dapplescree_analyse_double, 0)
ANALYSIS(by_double_route_short_joints, dapplescree_analyse_double, 1)
STEP(step, 0)
STEP(step_short_joints, 1)
LEVELS(quantise, dapplescree_quantise)
LEVELS(dequantise, dapplescree_dequantise)
FLOATS(floats, dapplescree_floats, n / 2)
FLOATS(highest_lowest, dapplescree_highest_lowest, 2)

static uint32_t step_levels(size_t n, size_t blocks, const uint8_t *table, size_t table_length, const int32_t *levels, int16_t *sound)
{
    STEPS(dapplescree_stream_step_levels, 0, table, table_length, levels + b * (n / 2), n / 2)
}

static uint32_t largest_share(size_t n, size_t blocks, const int32_t *spectra, const int32_t *changed, uint32_t *named)
{
    size_t m = n / 2, place = m / 2;
    uint32_t refused = 0;
    for (size_t b = 0; b < blocks; b++) {
        size_t first = b * m, second = b + 1 < blocks ? first + m : 0;
        refused |= dapplescree_largest_share(n, b & 1, spectra + first, m, changed + first, m, spectra + second, m, changed + second, m, place,
                                             named + 3 * b, 3);
        place = place + 1 < m ? place + 1 : 0;
    }
    return refused;
}

RECORDING(recording_direct, dapplescree_analyse_recording_direct, BY_BLOCK)
RECORDING(recording_direct_by_frequency, dapplescree_analyse_recording_direct, BY_FREQUENCY)
RECORDING(recording_short, dapplescree_analyse_recording_short, BY_BLOCK)
RECORDING(recording_short_by_frequency, dapplescree_analyse_recording_short, BY_FREQUENCY)
RECORDING(recording_double, dapplescree_analyse_recording_double, BY_BLOCK)
RECORDING(recording_double_by_frequency, dapplescree_analyse_recording_double, BY_FREQUENCY)
SYNTHESIS(synthesis, BY_BLOCK)
SYNTHESIS(synthesis_by_frequency, BY_FREQUENCY)
REORDERED(reordered_by_block, BY_BLOCK)
REORDERED(reordered_by_frequency, BY_FREQUENCY)

static uint32_t there_and_back(size_t n, size_t blocks, const int16_t *padded, int32_t *coefficients, int16_t *sound)
{
    return recording_direct(n, blocks, padded, coefficients) | synthesis(n, blocks, coefficients, sound);
}

static uint32_t coarsest_step(size_t n, size_t blocks, const int16_t *padded, uint32_t allowed, size_t budget, uint32_t *found)
{
    size_t m = n / 2, hops = blocks - 1;
    return dapplescree_coarsest_step(n, hops, padded + m, hops * m, allowed, budget, found, 3);
}

const struct library library = {
    direct, by_short_route, recording_direct, recording_short, step, synthesis, direct_short_joints, by_short_route_short_joints, step_short_joints,
    quantise, dequantise, step_levels, largest_share, recording_direct_by_frequency, recording_short_by_frequency, synthesis_by_frequency,
    reordered_by_block, reordered_by_frequency, by_double_route, by_double_route_short_joints, recording_double, recording_double_by_frequency,
    there_and_back, coarsest_step, floats, highest_lowest,
};
