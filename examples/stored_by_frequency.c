/* Stored by frequency: a recording with a call in the middle is analysed by frequency, and the call's band, one coefficient of all blocks, is read
 * where it lies together. The coefficients are put by block and back again, and both orders give the same sound. Then the band is muted in three
 * blocks, and the sample that this moved most is explained, from either order.
 *
 *   (cd crates/c_face && rt lib) && mkdir -p target
 *   gcc -O2 -Wall -Wextra -Iinclude examples/stored_by_frequency.c crates/c_face/out/libc_face.a -o target/stored_by_frequency
 *   target/stored_by_frequency
 */
#include "dapplescree.h"
#include <stdio.h>
#include <stdlib.h>
#include <string.h>

enum { N = 36, M = N / 2, HOPS = 50, BLOCKS = HOPS + 1, SAMPLES = HOPS * M, COEFFICIENTS = BLOCKS * M, BY_BLOCK = 0, BY_FREQUENCY = 1 };

/* the call, a wave of eight samples in these hops, lies in coefficient 4, which is a wave of 2 * N / 9; and the blocks in which it is muted */
enum { FIRST_HOP = 20, LAST_HOP = 29, PERIOD = 8, BAND = 4, MUTED = 23, MUTED_BLOCKS = 3 };

static int16_t recording[SAMPLES], before[SAMPLES], after[SAMPLES];
static int32_t bands[COEFFICIENTS], blocks[COEFFICIENTS], muted_bands[COEFFICIENTS], muted_blocks[COEFFICIENTS], back[COEFFICIENTS];

static void record(void)
{
    for (int i = 0; i < SAMPLES; i++) {
        int hop = i / M, call = hop >= FIRST_HOP && hop <= LAST_HOP ? (i % PERIOD < PERIOD / 2 ? 9000 : -9000) : 0;
        recording[i] = (int16_t)(i * 7919 % 401 - 200 + call);
    }
}

static uint32_t reorder(uint32_t to, const int32_t *from, int32_t *reordered)
{
    return dapplescree_reorder(N, HOPS, to, from, COEFFICIENTS, reordered, COEFFICIENTS);
}

static uint32_t play(uint32_t order, const int32_t *coefficients, int16_t *sound)
{
    return dapplescree_synthesise_recording(N, HOPS, order, coefficients, COEFFICIENTS, sound, SAMPLES);
}

static uint32_t name(uint32_t order, const int32_t *original, const int32_t *changed, size_t sample, uint32_t *named)
{
    return dapplescree_largest_share_recording(N, HOPS, order, original, COEFFICIENTS, changed, COEFFICIENTS, sample / M, sample % M, named, 3);
}

/* The block in which a band is loudest. */
static size_t loudest(const int32_t *band)
{
    size_t most = 0;
    for (size_t b = 0; b < BLOCKS; b++)
        most = abs(band[b]) > abs(band[most]) ? b : most;
    return most;
}

/* There and back, and the sound of either order: the recording. */
static int orders_agree(void)
{
    if (reorder(BY_BLOCK, bands, blocks) || reorder(BY_FREQUENCY, blocks, back) || play(BY_FREQUENCY, bands, before) || play(BY_BLOCK, blocks, after))
        return 0;
    int same = !memcmp(bands, back, sizeof bands), heard = !memcmp(before, recording, sizeof before) && !memcmp(after, recording, sizeof after);
    printf("by block and back, the coefficients are %s; played from either order, the sound is %s\n", same ? "the same" : "others",
           heard ? "the recording" : "another");
    return same && heard;
}

/* The band muted in a few blocks, which lie side by side, and the sample that this moved most. */
static int explained(void)
{
    uint32_t named[3], by_block[3], silent[3];
    size_t most = 0;
    memcpy(muted_bands, bands, sizeof bands);
    memset(muted_bands + BAND * BLOCKS + MUTED, 0, MUTED_BLOCKS * sizeof bands[0]);
    if (play(BY_FREQUENCY, muted_bands, after) || reorder(BY_BLOCK, muted_bands, muted_blocks))
        return 0;
    for (size_t i = 0; i < SAMPLES; i++)
        most = abs(after[i] - before[i]) > abs(after[most] - before[most]) ? i : most;
    if (name(BY_FREQUENCY, bands, muted_bands, most, named) || name(BY_BLOCK, blocks, muted_blocks, most, by_block)
        || name(BY_FREQUENCY, bands, muted_bands, 0, silent))
        return 0;
    printf("muted, sample %zu went from %d to %d: by coefficient %u of block %u, and sample 0 %s\n", most, before[most], after[most], named[2],
           named[1], silent[0] ? "was moved" : "was moved by no coefficient");
    return named[0] == 1 && named[1] - MUTED < MUTED_BLOCKS && named[2] == BAND && !memcmp(named, by_block, sizeof named) && silent[0] == 0;
}

int main(void)
{
    record();
    if (dapplescree_analyse_recording_direct(N, HOPS, BY_FREQUENCY, recording, SAMPLES, bands, COEFFICIENTS))
        return 1;
    const int32_t *band = bands + BAND * BLOCKS;
    size_t block = loudest(band);
    printf("band %d is %d in block 0 and %d in block %zu, where it is loudest\n", BAND, band[0], band[block], block);
    int inside = block >= FIRST_HOP && block <= LAST_HOP + 1;
    return !(inside & orders_agree() & explained());
}
