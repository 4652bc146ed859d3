/* Which coefficient moved this sample: a recording is stored by coarse steps and played back. Of the sample that moved most, the block and the
 * coefficient with the largest share are named, and played with that coefficient as it was the sample is compared again. A sample of the silence
 * before the sound is moved by no coefficient at all.
 *
 *   (cd crates/c_face && rt lib) && mkdir -p target
 *   gcc -O2 -Wall -Wextra -Iinclude examples/largest_share.c crates/c_face/out/libc_face.a -o target/largest_share
 *   target/largest_share
 */
#include "dapplescree.h"
#include <stdio.h>
#include <stdlib.h>
#include <string.h>

enum { N = 36, M = N / 2, HOPS = 50, SAMPLES = HOPS * M, SILENCE = 3 * M, COEFFICIENTS = (HOPS + 1) * M, BY_BLOCK = 0 };

/* lines of first coefficient, last coefficient, step: fine below, coarse above */
static const char table[] = "0,3,16\n4,11,333\n12,17,6000\n";

static int16_t recording[SAMPLES], before[SAMPLES], after[SAMPLES];
static int32_t original[COEFFICIENTS], changed[COEFFICIENTS];

/* Every block to levels and back. */
static uint32_t store(void)
{
    const uint8_t *bytes = (const uint8_t *)table;
    size_t length = strlen(table);
    int32_t levels[M];
    uint32_t refused = 0;
    for (size_t b = 0; b < COEFFICIENTS; b += M) {
        refused |= dapplescree_quantise(N, bytes, length, original + b, M, levels, M);
        refused |= dapplescree_dequantise(N, bytes, length, levels, M, changed + b, M);
    }
    return refused;
}

static int distance(size_t sample)
{
    return abs(after[sample] - before[sample]);
}

static size_t moved_most(void)
{
    size_t most = 0;
    for (size_t i = 0; i < SAMPLES; i++)
        most = distance(i) > distance(most) ? i : most;
    return most;
}

/* The sample's hop lies in the block of its own number and in the next one, and every joint of a recording is long. */
static uint32_t name(size_t sample, uint32_t *named)
{
    size_t first = sample / M * M, second = first + M;
    return dapplescree_largest_share(N, 0, original + first, M, changed + first, M, original + second, M, changed + second, M, sample % M,
                                     named, 3);
}

int main(void)
{
    uint32_t named[3], refused = 0;
    for (int i = SILENCE; i < SAMPLES; i++)
        recording[i] = (int16_t)(i * 7919 % 65536 - 32768);
    refused |= dapplescree_analyse_recording_direct(N, HOPS, BY_BLOCK, recording, SAMPLES, original, COEFFICIENTS);
    refused |= store();
    refused |= dapplescree_synthesise_recording(N, HOPS, BY_BLOCK, original, COEFFICIENTS, before, SAMPLES);
    refused |= dapplescree_synthesise_recording(N, HOPS, BY_BLOCK, changed, COEFFICIENTS, after, SAMPLES);
    size_t sample = moved_most();
    refused |= name(sample, named);
    if (refused)
        return 1;
    size_t block = sample / M + named[1], at = block * M + named[2];
    printf("sample %zu moved most, by %d: hop %zu, place %zu\n", sample, distance(sample), sample / M, sample % M);
    printf("the largest share is that of coefficient %u of block %zu, which went from %d to %d\n", named[2], block, original[at], changed[at]);

    changed[at] = original[at];
    if (dapplescree_synthesise_recording(N, HOPS, BY_BLOCK, changed, COEFFICIENTS, after, SAMPLES))
        return 1;
    printf("with that coefficient as it was, the sample moves by %d\n", distance(sample));

    if (name(0, named))
        return 1;
    printf("sample 0 %s\n", named[0] ? "was moved" : "was moved by no coefficient");
    return named[0] != 0 || distance(0) != 0;
}
