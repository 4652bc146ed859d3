/* Prints the coefficients of a recording as a page. N is the argument; standard input brings 16-bit samples, raw and little-endian, as sound
 * tools write them. Zeros fill the last hop.
 *
 *   (cd crates/c_face && rt lib) && mkdir -p target
 *   gcc -O2 -Wall -Wextra -Iinclude examples/coefficient_page.c crates/c_face/out/libc_face.a -o target/coefficient_page
 *   sox whale.wav -t raw -e signed -b 16 -c 1 - | target/coefficient_page 36
 *
 * Input that has no page gets a message and exit status 2.
 */
#define PROGRAM "coefficient_page"
#include "recording.h"

static uint8_t page[DAPPLESCREE_PAGE(N, HOPS)];

int main(int argc, char **argv)
{
    int status;
    size_t n = tabled(argc, argv), m = n / 2, hops = record(n, &status);
    if (hops == 0)
        return status;

    size_t blocks = (hops + 1) * m, printed = DAPPLESCREE_PAGE(n, hops);
    uint32_t refused = dapplescree_analyse_recording_direct(n, hops, BY_BLOCK, samples, hops * m, coefficients, blocks);
    if (!refused)
        refused = dapplescree_page(n, hops, BY_BLOCK, coefficients, blocks, page, printed);
    if (refused)
        return failed(1, "the library refused a call");
    if (fwrite(page, 1, printed, stdout) != printed || fflush(stdout) != 0)
        return failed(1, "standard output cannot be written");
    return 0;
}
