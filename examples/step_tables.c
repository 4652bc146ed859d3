/* Step tables: a customer's table, the distance that is told for it by each route, and a recording that is stored as levels and played from them.
 * Every returned sample is held to the told distance. Then three tables that are turned away.
 *
 *   (cd crates/c_face && rt lib) && mkdir -p target
 *   gcc -O2 -Wall -Wextra -Iinclude examples/step_tables.c crates/c_face/out/libc_face.a -o target/step_tables
 *   target/step_tables
 */
#include "dapplescree.h"
#include <stdio.h>
#include <stdlib.h>
#include <string.h>

enum { N = 36, M = N / 2, HOPS = 50, SAMPLES = HOPS * M };

/* lines of first coefficient, last coefficient, step: fine below, coarse above */
static const char table[] = "0,3,16\n4,11,333\n12,17,2500\n";

/* with a hop of zeros before the recording and one after it */
static int16_t padded[M + SAMPLES + M], hops[M + SAMPLES];

static uint32_t told(uint32_t route, const char *text, uint32_t *distance)
{
    return dapplescree_told_distance(N, route, (const uint8_t *)text, strlen(text), distance, 1);
}

/* the routes by their numbers */
typedef uint32_t analysis(size_t, uint32_t, uint32_t, const int16_t *, size_t, int32_t *, size_t);
static analysis *const analyses[] = {dapplescree_analyse_direct, dapplescree_analyse_short, dapplescree_analyse_double};

/* Block by block to levels by a route, and back to hops. */
static uint32_t pass(uint32_t route)
{
    const uint8_t *bytes = (const uint8_t *)table;
    size_t length = strlen(table);
    int32_t block[M], levels[M];
    int64_t state[DAPPLESCREE_STATE];
    uint32_t refused = dapplescree_stream_fresh(N, state, DAPPLESCREE_STATE);
    for (uint32_t b = 0; b <= HOPS; b++) {
        refused |= analyses[route](N, 0, 0, padded + b * M, N, block, M);
        refused |= dapplescree_quantise(N, bytes, length, block, M, levels, M);
        /* a recorder stores the levels; at the desk they are played */
        refused |= dapplescree_stream_step_levels(state, DAPPLESCREE_STATE, b, 0, 0, bytes, length, levels, M, hops + b * M, M);
    }
    return refused;
}

/* the largest distance met behind the run-in */
static uint32_t largest(void)
{
    uint32_t met = 0;
    for (int i = M; i < M + SAMPLES; i++) {
        uint32_t distance = (uint32_t)abs(hops[i] - padded[i]);
        met = distance > met ? distance : met;
    }
    return met;
}

int main(void)
{
    static const char *const names[] = {"directly", "by the short route", "by the double route"};
    static const char *const wrong[] = {"0,3,16\n4,17,333", "0,3,16\n5,17,333\n", "0,3,16\n3,17,333\n"};
    uint32_t distance = 0, kept = 1;
    for (int i = 0; i < SAMPLES; i++)
        padded[M + i] = (int16_t)(i * 7919 % 65536 - 32768);
    for (uint32_t route = 0; route < 3; route++) {
        if (told(route, table, &distance) || pass(route))
            return 1;
        kept &= largest() <= distance;
        printf("analysed %s: %u is told, %u is the largest distance met\n", names[route], distance, largest());
    }
    for (int i = 0; i < 3; i++)
        printf("turned away with %u:\n%s%s", told(0, wrong[i], &distance), wrong[i], i == 0 ? " (no line feed)\n" : "");
    printf("%s\n", kept ? "every sample came back within the told distance" : "not every sample came back within the told distance");
    return !kept;
}
