/* Writes the coefficients of a recording as floats for a plotting desk. N is the argument; standard input brings 16-bit samples, raw and
 * little-endian, as sound tools write them. Zeros fill the last hop.
 *
 *   (cd crates/c_face && rt lib) && mkdir -p target
 *   gcc -O2 -Wall -Wextra -Iinclude examples/spectrogram.c crates/c_face/out/libc_face.a -o target/spectrogram
 *   sox whale.wav -t raw -e signed -b 16 -c 1 - | target/spectrogram 216 > whale.csv 2> whale.summary
 *
 * Standard output gets CSV: a line block,k,value for each coefficient, block by block. Standard error gets the summary, two lines of CSV:
 *
 *   highest,BLOCK,VALUE
 *   lowest,BLOCK,VALUE
 *
 * the highest and the lowest value of the recording, each with the first block that holds it.
 *
 * Input that has no coefficients gets a message and exit status 2. A recording has at most 4,095 hops; of a longer one, hand in a piece at a time.
 */
#define PROGRAM "spectrogram"
#include "recording.h"

/* the pair of a recording as far as it is gone through, with the blocks that hold its two values */
struct summary {
    double highest, lowest;
    size_t highest_block, lowest_block;
};

/* Prints the lines of one block. A value is X/64, so six decimal places hold it exactly, and it reads back as the same double. */
static uint32_t print_block(size_t n, size_t block, const int32_t *x)
{
    double floats[M];
    uint32_t refused = dapplescree_floats(n, x, n / 2, floats, n / 2);
    for (size_t k = 0; k < n / 2 && !refused; k++)
        printf("%zu,%zu,%.6f\n", block, k, floats[k]);
    return refused;
}

/* Takes the pair of one block into the summary. */
static uint32_t summarise(size_t n, size_t block, const int32_t *x, struct summary *all)
{
    double pair[2];
    uint32_t refused = dapplescree_highest_lowest(n, x, n / 2, pair, 2);
    if (refused)
        return refused;
    if (block == 0 || pair[0] > all->highest) {
        all->highest = pair[0];
        all->highest_block = block;
    }
    if (block == 0 || pair[1] < all->lowest) {
        all->lowest = pair[1];
        all->lowest_block = block;
    }
    return 0;
}

int main(int argc, char **argv)
{
    int status;
    size_t n = tabled(argc, argv), m = n / 2, hops = record(n, &status);
    if (hops == 0)
        return status;

    struct summary all = {0};
    uint32_t refused = dapplescree_analyse_recording_direct(n, hops, BY_BLOCK, samples, hops * m, coefficients, (hops + 1) * m);
    printf("block,k,value\n");
    for (size_t b = 0; b <= hops && !refused; b++) {
        refused = print_block(n, b, coefficients + b * m);
        if (!refused)
            refused = summarise(n, b, coefficients + b * m, &all);
    }
    if (refused)
        return failed(1, "the library refused a call");
    if (fflush(stdout) != 0 || ferror(stdout))
        return failed(1, "standard output cannot be written");
    fprintf(stderr, "highest,%zu,%.6f\nlowest,%zu,%.6f\n", all.highest_block, all.highest, all.lowest_block, all.lowest);
    return 0;
}
