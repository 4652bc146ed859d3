/* The library's calls over a batch of blocks, as bench.c times them: each returns the refusals, or'ed. A checkout of an earlier commit is timed
 * beside this one under the name `before`, by its own library.c and library.h, for the calls as they were: so what is new goes to the end, and what
 * lies beyond the bytes of its struct is not asked of it. */
#include <stddef.h>
#include <stdint.h>

struct library {
    /* n, blocks, a padded recording of blocks - 1 hops, its blocks' coefficients */
    uint32_t (*direct)(size_t, size_t, const int16_t *, int32_t *);
    uint32_t (*by_short_route)(size_t, size_t, const int16_t *, int32_t *);
    uint32_t (*recording_direct)(size_t, size_t, const int16_t *, int32_t *);
    uint32_t (*recording_short)(size_t, size_t, const int16_t *, int32_t *);
    /* n, blocks, their coefficients, a hop of sound for each block */
    uint32_t (*step)(size_t, size_t, const int32_t *, int16_t *);
    uint32_t (*synthesis)(size_t, size_t, const int32_t *, int16_t *);
    /* the same at short joints, where those above are at long ones; the first block's left joint is long, as a fresh stream expects it */
    uint32_t (*direct_short_joints)(size_t, size_t, const int16_t *, int32_t *);
    uint32_t (*by_short_route_short_joints)(size_t, size_t, const int16_t *, int32_t *);
    uint32_t (*step_short_joints)(size_t, size_t, const int32_t *, int16_t *);
    /* n, blocks, a step table's bytes and how many; coefficients and their levels, levels and what they come back as, levels and their sound */
    uint32_t (*quantise)(size_t, size_t, const uint8_t *, size_t, const int32_t *, int32_t *);
    uint32_t (*dequantise)(size_t, size_t, const uint8_t *, size_t, const int32_t *, int32_t *);
    uint32_t (*step_levels)(size_t, size_t, const uint8_t *, size_t, const int32_t *, int16_t *);
    /* n, blocks, their coefficients and changed ones, and three numbers for each block: what is named of a sample that it and the next block cover,
     * the first block being next to the last; the sample's place goes round the hop from its middle on, and the shape of the joint is either in turn */
    uint32_t (*largest_share)(size_t, size_t, const int32_t *, const int32_t *, uint32_t *);
    /* a recording with its coefficients by frequency, where those above are by block */
    uint32_t (*recording_direct_by_frequency)(size_t, size_t, const int16_t *, int32_t *);
    uint32_t (*recording_short_by_frequency)(size_t, size_t, const int16_t *, int32_t *);
    uint32_t (*synthesis_by_frequency)(size_t, size_t, const int32_t *, int16_t *);
    /* n, blocks, a recording's coefficients in the other order, and in this one */
    uint32_t (*reordered_by_block)(size_t, size_t, const int32_t *, int32_t *);
    uint32_t (*reordered_by_frequency)(size_t, size_t, const int32_t *, int32_t *);
    /* by the double route: n, blocks, a padded recording of blocks - 1 hops, its blocks' coefficients */
    uint32_t (*by_double_route)(size_t, size_t, const int16_t *, int32_t *);
    uint32_t (*by_double_route_short_joints)(size_t, size_t, const int16_t *, int32_t *);
    uint32_t (*recording_double)(size_t, size_t, const int16_t *, int32_t *);
    uint32_t (*recording_double_by_frequency)(size_t, size_t, const int16_t *, int32_t *);
    /* n, blocks, a padded recording of blocks - 1 hops, its coefficients by direct analysis, and their sound */
    uint32_t (*there_and_back)(size_t, size_t, const int16_t *, int32_t *, int16_t *);
    /* n, blocks, a padded recording of blocks - 1 hops, the allowed distance, the budget, and three numbers: the coarsest step, trials, untried */
    uint32_t (*coarsest_step)(size_t, size_t, const int16_t *, uint32_t, size_t, uint32_t *);
    /* n, blocks, their coefficients, and M floats or a pair for each block */
    uint32_t (*floats)(size_t, size_t, const int32_t *, double *);
    uint32_t (*highest_lowest)(size_t, size_t, const int32_t *, double *);
};

extern const struct library library;
