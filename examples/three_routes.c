/* Three routes: random and loud blocks of 36 and of 72 samples, analysed directly, by the short route and by the double route, and how far from the
 * direct coefficients those of the other two lie at most. The short route keeps within 16 units of 1/64, the double route within 32.
 *
 *   (cd crates/c_face && rt lib) && mkdir -p target
 *   gcc -O2 -Wall -Wextra -Iinclude examples/three_routes.c crates/c_face/out/libc_face.a -o target/three_routes
 *   target/three_routes
 */
#include "dapplescree.h"
#include <stdio.h>
#include <stdlib.h>

enum { MOST_N = 72, MOST_M = MOST_N / 2, BLOCKS = 100000 };

static uint32_t random_bits(void)
{
    static uint32_t z = 1;
    return (z = z * 1664525u + 1013904223u) >> 16;
}

/* Every other block has the loudest samples alone. */
static void fill(int16_t *block, size_t n, int loud)
{
    for (size_t i = 0; i < n; i++) {
        uint32_t bits = random_bits();
        block[i] = loud ? (bits & 1 ? 32767 : -32768) : (int16_t)bits;
    }
}

static int larger(int apart, const int32_t *x, const int32_t *y, size_t m)
{
    for (size_t k = 0; k < m; k++)
        apart = abs(x[k] - y[k]) > apart ? abs(x[k] - y[k]) : apart;
    return apart;
}

int main(void)
{
    static const size_t lengths[] = {36, 72};
    int16_t block[MOST_N] = {0};
    int32_t direct[MOST_M], by_short[MOST_M], by_double[MOST_M];
    uint32_t refused = 0;
    int kept = 1;
    for (int l = 0; l < 2; l++) {
        size_t n = lengths[l], m = n / 2;
        int short_apart = 0, double_apart = 0;
        for (uint32_t b = 0; b < BLOCKS; b++) {
            /* every pair of shapes in turn */
            uint32_t left = b >> 1 & 1, right = b >> 2 & 1;
            fill(block, n, b & 1);
            refused |= dapplescree_analyse_direct(n, left, right, block, n, direct, m);
            refused |= dapplescree_analyse_short(n, left, right, block, n, by_short, m);
            refused |= dapplescree_analyse_double(n, left, right, block, n, by_double, m);
            short_apart = larger(short_apart, by_short, direct, m);
            double_apart = larger(double_apart, by_double, direct, m);
        }
        kept &= short_apart <= 16 && double_apart <= 32;
        printf("N = %zu, largest difference over %d blocks: short route %d, double route %d\n", n, BLOCKS, short_apart, double_apart);
    }
    printf("N = 24 by the double route gives %u\n", dapplescree_analyse_double(24, 0, 0, block, 24, by_double, 12));
    return refused || !kept;
}
