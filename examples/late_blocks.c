/* Late blocks: the blocks of a recording reach a stream shuffled and twice each, round after round, until it has taken all of them. It turns away
 * every block that it does not expect, and what returns is held to the recording.
 *
 *   (cd crates/c_face && rt lib) && mkdir -p target
 *   gcc -O2 -Wall -Wextra -Iinclude examples/late_blocks.c crates/c_face/out/libc_face.a -o target/late_blocks
 *   target/late_blocks
 */
#include "dapplescree.h"
#include <stdio.h>
#include <string.h>

enum { N = 72, M = N / 2, HOPS = 30, SAMPLES = HOPS * M, BLOCKS = HOPS + 1, ROUND = 2 * BLOCKS, BY_BLOCK = 0 };

/* numbers that look random and are the same in every run */
static uint32_t below(uint32_t count)
{
    static uint32_t z = 1;
    z = z * 1664525u + 1013904223u;
    return (z >> 16) % count;
}

int main(void)
{
    static int16_t recording[SAMPLES], hops[M + SAMPLES];
    static int32_t blocks[BLOCKS * M];
    static uint32_t order[ROUND];
    int64_t state[DAPPLESCREE_STATE];
    uint32_t refused = 0;

    for (int i = 0; i < SAMPLES; i++)
        recording[i] = (int16_t)((int)below(65536) - 32768);
    /* every block's number twice, shuffled: each goes to a place that is drawn, and what stood there goes to the end */
    for (uint32_t i = 0; i < ROUND; i++) {
        uint32_t place = below(i + 1);
        order[i] = order[place];
        order[place] = i % BLOCKS;
    }
    refused |= dapplescree_analyse_recording_direct(N, HOPS, BY_BLOCK, recording, SAMPLES, blocks, BLOCKS * M);
    refused |= dapplescree_stream_fresh(N, state, DAPPLESCREE_STATE);
    if (refused)
        return 1;

    /* the expected block is in every round, so there are no more rounds than blocks */
    int offers = 0, taken = 0;
    while (taken < BLOCKS && offers < BLOCKS * ROUND) {
        uint32_t b = order[offers++ % ROUND];
        /* a block that is turned away leaves its place in hops as it was; the joints of a recording are long */
        refused = dapplescree_stream_step(state, DAPPLESCREE_STATE, b, 0, 0, blocks + b * M, M, hops + b * M, M);
        if (refused != 0 && refused != 7)
            return 1;
        taken += refused == 0;
    }

    /* the hop of block 0 is the run-in */
    int same = taken == BLOCKS && memcmp(hops + M, recording, sizeof recording) == 0;
    printf("%d blocks were taken in %d offers, %d of which were turned away with 7\n", taken, offers, offers - taken);
    printf("%s\n", same ? "every sample came back" : "not every sample came back");
    return !same;
}
