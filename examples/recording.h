/* What the examples share that read a recording: N is the argument, and standard input brings 16-bit samples, raw and little-endian. PROGRAM,
 * the program's name, stands before each message.
 */
#include "dapplescree.h"
#include <stdio.h>
#include <stdlib.h>
#include <string.h>

/* room for the most hops of the longest length */
enum { HOPS = 4095, N = 216, M = N / 2, BY_BLOCK = 0 };

static uint8_t bytes[2 * HOPS * M + 1];
static int16_t samples[HOPS * M];
static int32_t coefficients[(HOPS + 1) * M];

/* the length that the argument names, or 0 */
static size_t tabled(int argc, char **argv)
{
    static const char *const words[] = {"12", "24", "36", "72", "108", "216"};
    for (int i = 0; i < 6 && argc == 2; i++)
        if (strcmp(argv[1], words[i]) == 0)
            return (size_t)atoi(words[i]);
    return 0;
}

static int failed(int status, const char *message)
{
    fprintf(stderr, PROGRAM ": %s\n", message);
    return status;
}

/* Reads the samples, zeros filling the last hop, and says how many hops they fill; 0 where there is no recording, and then `status` is the exit
 * status. */
static size_t record(size_t n, int *status)
{
    *status = 2;
    if (n == 0) {
        failed(2, "the argument is the block length: 12, 24, 36, 72, 108 or 216");
        return 0;
    }
    size_t m = n / 2, most = HOPS * m, length = fread(bytes, 1, 2 * most + 1, stdin), count = length / 2;
    if (ferror(stdin))
        *status = failed(1, "standard input cannot be read");
    else if (length == 0)
        failed(2, "no samples on standard input");
    else if (length > 2 * most)
        fprintf(stderr, PROGRAM ": more than %zu samples, the most at N = %zu\n", most, n);
    else if (length % 2 != 0)
        failed(2, "an odd number of bytes: the last sample is half a sample");
    else
        *status = 0;
    for (size_t i = 0; i < count && *status == 0; i++) {
        int sample = bytes[2 * i] + 256 * bytes[2 * i + 1];
        samples[i] = (int16_t)(sample < 32768 ? sample : sample - 65536);
    }
    return *status == 0 ? (count + m - 1) / m : 0;
}
