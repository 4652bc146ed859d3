/* There and back: a recording of four hops, every joint of it long, is analysed and synthesised again, block by block and whole, and what
 * returns is held to it.
 *
 *   (cd crates/c_face && rt lib) && mkdir -p target
 *   gcc -O2 -Wall -Wextra -Iinclude examples/there_and_back.c crates/c_face/out/libc_face.a -o target/there_and_back
 *   target/there_and_back
 */
#include "dapplescree.h"
#include <stdio.h>

enum { N = 216, M = N / 2, HOPS = 4, SAMPLES = HOPS * M, COEFFICIENTS = (HOPS + 1) * M, BY_BLOCK = 0 };

static int differing(const int16_t *returned, const int16_t *recording)
{
    int count = 0;
    for (int i = 0; i < SAMPLES; i++)
        count += returned[i] != recording[i];
    return count;
}

int main(void)
{
    /* a hop of zeros before the recording and one after it: block b then covers its hops b - 1 and b */
    int16_t padded[M + SAMPLES + M] = {0}, *recording = padded + M, hops[M + SAMPLES], whole[SAMPLES];
    int32_t block[M], blocks[COEFFICIENTS];
    int64_t state[DAPPLESCREE_STATE];
    uint32_t refused = 0;

    for (int i = 0; i < SAMPLES; i++)
        recording[i] = (int16_t)(i * 7919 % 65536 - 32768);

    refused |= dapplescree_stream_fresh(N, state, DAPPLESCREE_STATE);
    for (uint32_t b = 0; b <= HOPS; b++) {
        refused |= dapplescree_analyse_direct(N, 0, 0, padded + b * M, N, block, M);
        refused |= dapplescree_stream_step(state, DAPPLESCREE_STATE, b, 0, 0, block, M, hops + b * M, M);
    }
    refused |= dapplescree_analyse_recording_direct(N, HOPS, BY_BLOCK, recording, SAMPLES, blocks, COEFFICIENTS);
    refused |= dapplescree_synthesise_recording(N, HOPS, BY_BLOCK, blocks, COEFFICIENTS, whole, SAMPLES);
    if (refused)
        return 1;

    /* the first hop of a stream is the run-in; the calls over a recording drop it */
    int by_block = differing(hops + M, recording), by_recording = differing(whole, recording);
    printf("%d samples: %d differ block by block, %d by the calls over a recording\n", SAMPLES, by_block, by_recording);
    printf("N = 11 gives %u\n", dapplescree_analyse_direct(11, 0, 0, padded, N, block, M));
    printf("N = %d by the short route gives %u\n", N, dapplescree_analyse_short(N, 0, 0, padded, N, block, M));
    printf("a right shape of 2 gives %u\n", dapplescree_analyse_direct(N, 0, 2, padded, N, block, M));
    return by_block || by_recording;
}
