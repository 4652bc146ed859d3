/* The coarsest step: storage is short, so of a recording with a quiet hum and a click a crew asks for the coarsest step by which every sample still
 * returns within a distance that it allows, by one budget of trials or another. Each answer is held to the recording by the other calls: stored by
 * the step found, every sample returns within that distance; where no coarser step is left untried, by the next one a sample does not.
 *
 *   (cd crates/c_face && rt lib) && mkdir -p target
 *   gcc -O2 -Wall -Wextra -Iinclude examples/coarsest_step.c crates/c_face/out/libc_face.a -o target/coarsest_step
 *   target/coarsest_step
 */
#include "dapplescree.h"
#include <stdio.h>
#include <stdlib.h>

enum { N = 36, M = N / 2, HOPS = 50, SAMPLES = HOPS * M, COEFFICIENTS = (HOPS + 1) * M, BY_BLOCK = 0 };

/* the hum, a wave of so many samples, and the click, which begins in the middle of a hop and falls off */
enum { PERIOD = 60, HUM = 40, CLICK = 30 * M + M / 2, CLICK_SAMPLES = 12, LOUDEST = 24000, COARSEST = 1024 };

static int16_t recording[SAMPLES], returned[SAMPLES];
static int32_t original[COEFFICIENTS], stored[COEFFICIENTS];

static void record(void)
{
    for (int i = 0; i < SAMPLES; i++)
        recording[i] = (int16_t)(abs(i % PERIOD - PERIOD / 2) * 4 * HUM / PERIOD - HUM);
    for (int i = 0; i < CLICK_SAMPLES; i++)
        recording[CLICK + i] = (int16_t)((i % 2 ? -LOUDEST : LOUDEST) / (i + 1));
}

/* One block to levels and back, by a table of one line. */
static uint32_t pass(uint32_t step, const int32_t *block, int32_t *out)
{
    uint8_t table[20];
    size_t length = (size_t)snprintf((char *)table, sizeof table, "0,%d,%u\n", M - 1, step);
    int32_t levels[M];
    return dapplescree_quantise(N, table, length, block, M, levels, M) | dapplescree_dequantise(N, table, length, levels, M, out, M);
}

/* How far from its own the sample that moves most returns, where every block is stored by this step; -1 where a call refuses. */
static int farthest(uint32_t step)
{
    uint32_t refused = 0;
    int most = 0;
    for (size_t b = 0; b < COEFFICIENTS; b += M)
        refused |= pass(step, original + b, stored + b);
    refused |= dapplescree_synthesise_recording(N, HOPS, BY_BLOCK, stored, COEFFICIENTS, returned, SAMPLES);
    for (int i = 0; i < SAMPLES; i++)
        most = abs(returned[i] - recording[i]) > most ? abs(returned[i] - recording[i]) : most;
    return refused ? -1 : most;
}

static uint32_t ask(uint32_t allowed, size_t budget, uint32_t *found)
{
    return dapplescree_coarsest_step(N, HOPS, recording, SAMPLES, allowed, budget, found, 3);
}

/* Whether the trials are within the budget and add up: each step above the one found failed or is untried, and the one found was tried too, unless
 * it is the sure step. */
static int counted(uint32_t allowed, size_t budget, uint32_t step, uint32_t trials, uint32_t untried)
{
    uint32_t sure = allowed < 32 ? 32 * allowed + 15 : COARSEST, failed = COARSEST - step - untried;
    return trials <= budget && trials == failed + (step > sure);
}

/* Whether the step found keeps every sample within what is allowed and, where none above it is untried, the next one does not. */
static int kept(uint32_t allowed, size_t budget)
{
    uint32_t found[3];
    if (ask(allowed, budget, found))
        return 0;
    uint32_t step = found[0], trials = found[1], untried = found[2];
    int near = farthest(step), far = farthest(step + 1), largest = untried == 0 && step < COARSEST;
    printf("%7u %6zu: %5u %6u %7u; the farthest sample returns %d away", allowed, budget, step, trials, untried, near);
    if (largest)
        printf(", by step %u %d away", step + 1, far);
    printf("\n");
    return counted(allowed, budget, step, trials, untried) && near >= 0 && near <= (int)allowed && (!largest || far > (int)allowed);
}

int main(void)
{
    static const struct {
        uint32_t allowed;
        size_t budget;
    } asked[] = {{0, 0}, {0, 100}, {0, COARSEST}, {3, 0}, {3, COARSEST}, {6, COARSEST}, {31, 0}, {31, 1}, {32, 0}};
    uint32_t found[3], beyond = ask(33, COARSEST, found);
    int as_promised = beyond == 12;
    record();
    if (dapplescree_analyse_recording_direct(N, HOPS, BY_BLOCK, recording, SAMPLES, original, COEFFICIENTS))
        return 1;
    printf("allowed budget:  step trials untried\n");
    for (size_t i = 0; i < sizeof asked / sizeof asked[0]; i++)
        as_promised &= kept(asked[i].allowed, asked[i].budget);
    printf("an allowed distance of 33 gives %u\n", beyond);
    printf("%s\n", as_promised ? "every answer is as promised" : "not every answer is as promised");
    return !as_promised;
}
