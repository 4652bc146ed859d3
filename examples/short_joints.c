/* Short joints: a click in silence goes through a stream whose joints are all long, and through one that passes to short joints about the click
 * and back to long ones. Unchanged, every sample returns. Stored coarsely, the click is heard before its time, with short joints by fewer places.
 *
 *   (cd crates/c_face && rt lib) && mkdir -p target
 *   gcc -O2 -Wall -Wextra -Iinclude examples/short_joints.c crates/c_face/out/libc_face.a -o target/short_joints
 *   target/short_joints
 */
#include "dapplescree.h"
#include <stdio.h>

/* places are counted from the hop of zeros before the recording on; END is where the returned ones end */
enum { N = 72, M = N / 2, HOPS = 8, END = (HOPS + 1) * M, CLICK_HOP = 5, CLICK = CLICK_HOP * M + 3 * M / 4, COARSE = 65536 };

static int16_t padded[END + M], returned[END];

/* the shape of the joint in a hop: the one asked for about the click, long elsewhere */
static uint32_t shape_in(uint32_t hop, uint32_t asked)
{
    return hop + 1 >= CLICK_HOP && hop <= CLICK_HOP + 1 ? asked : 0;
}

/* There and back block by block, each coefficient cut to a multiple of step in between. */
static uint32_t pass(uint32_t asked, int32_t step)
{
    int32_t block[M];
    int64_t state[DAPPLESCREE_STATE];
    uint32_t refused = dapplescree_stream_fresh(N, state, DAPPLESCREE_STATE);
    for (uint32_t b = 0; b <= HOPS; b++) {
        uint32_t left = shape_in(b, asked), right = shape_in(b + 1, asked);
        refused |= dapplescree_analyse_direct(N, left, right, padded + b * M, N, block, M);
        for (int k = 0; k < M; k++)
            block[k] = block[k] / step * step;
        refused |= dapplescree_stream_step(state, DAPPLESCREE_STATE, b, left, right, block, M, returned + b * M, M);
    }
    return refused;
}

/* the place of the first returned sample that differs, behind the run-in; END for none */
static int first_differing(void)
{
    int i = M;
    while (i < END && returned[i] == padded[i])
        i++;
    return i;
}

int main(void)
{
    static const char *const names[] = {"long", "short"};
    int same = 1;
    padded[CLICK] = 30000;
    for (uint32_t shape = 0; shape < 2; shape++) {
        if (pass(shape, 1))
            return 1;
        same &= first_differing() == END;
        if (pass(shape, COARSE))
            return 1;
        printf("%s joints about the click: stored coarsely, it is heard from %d places before it on\n", names[shape], CLICK - first_differing());
    }
    printf("%s\n", same ? "unchanged, every sample came back" : "unchanged, not every sample came back");
    return !same;
}
