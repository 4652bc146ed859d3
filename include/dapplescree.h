/* Dapplescree: the filter bank of the seabed recorder, a windowed MDCT in whole numbers.
 *
 * Link crates/c_face/out/libc_face.a (`(cd crates/c_face && rt lib)`). N is the block length: 12, 24, 36, 72, 108 or 216, the tabled lengths. M = N/2 is
 * a hop. Direct analysis and synthesis are offered at every tabled length, the short route at 12, 24, 36 and 72, the double route, which splits
 * by three and again (document 02, P12), at 36 and 72. A sample is an int16_t. A coefficient is an int32_t counted in units of 1/64. A float is a
 * double, the 64-bit one of IEEE 754. y, S, X, U, V, rnd, C and K below are those of document 01, with the turn cut in 864 parts and an exact half
 * going away from zero (document 02, P4 and P5): sound without -32,768 has, with its sign turned, the same coefficients with their signs turned. A
 * recording has one hop of zeros put before it and one after it: of H hops it has H + 1 blocks, and block b, b from 0 to H, covers its hops b - 1
 * and b, those outside it being zeros.
 *
 * The coefficients of a recording lie in one of two orders, B = H + 1 being its blocks. An order is a number:
 *
 *   0  by block: coefficient k of block b lies at b * M + k, so that a block lies together
 *   1  by frequency: it lies at k * B + b, so that coefficient k of all blocks, a band over the whole recording, lies together
 *
 * place(b, k) below is that place in the order that the call is told. From either order every call over a recording gives the same samples, the
 * same page and the same explanation, where the same coefficients lie in it.
 *
 * Two blocks that follow one another meet in a joint, the hop that both cover. Its shape is a number, 0 for long and 1 for short, and says how
 * the later block rises there, by M entries, entry i being:
 *
 *   0  C((216 / N) * (N - 2 * i - 1)): half of the sine window
 *   1  0 for i below R = M/3, then C(216 - (108 / R) * (2 * j + 1)) for i = R + j, j below R, then 67108864: a rise in the middle third alone
 *
 * The earlier block falls by the same entries, mirrored: entry M - 1 - i at place i. So W, the window of a block whose joints have the shapes
 * `left` and `right`, is W(i) = entry i of left's half, i below M, and W(i) = entry N - 1 - i of right's half from M on. A block does not reach
 * into the outer third of a hop whose joint is short: around a click, short joints keep what is done to coefficients nearer to it.
 *
 * A step table says how coarsely coefficients are stored. It is bytes that a customer writes: a line is first coefficient, last coefficient and
 * step, parted by commas and ended by a line feed; the lines ascend and cover 0 to M - 1, each place once. A number is an optional minus and 1 to
 * 5 decimal digits, with no leading zero and no -0. Nothing else stands in a line, no blank, no plus sign and no carriage return, and no zero byte
 * ends the table. At N = 36 this is one:
 *
 *   0,3,16
 *   4,11,333
 *   12,17,2500
 *
 * step(k) is the step of the line that covers coefficient k. Bytes that are no table for M coefficients, however many, are turned away with:
 *
 *    9  a line is not three such numbers and a line feed (an empty line is not, nor is a last line without its line feed), or its step is not 1
 *       to 65536, or its first is below 0 or above its last, or its last is above M - 1
 *   10  a place is not covered: the first line starts above 0, or a line starts more than 1 above the last of the line before it, or the last
 *       line ends below M - 1, or there is no line at all
 *   11  a line starts at or before the last of the line before it
 *
 * All lines are tested for 9 first, so a 9 in the last line goes before an 11 in the second. Then they are gone through from the first on, and
 * the first that starts at a wrong place decides between 10 and 11; where none does, an end that is missing is 10. An empty table, which is 10,
 * is a pointer that is not null, with length 0.
 *
 * Each call returns a number:
 *
 *   0  taken
 *   1  n is not tabled, or is a length at which the short or the double route, where it is asked for, is not offered; or a route is above 2
 *   2  a length differs from the stated one, or hops is not 1 to 4095, or an order is above 1, or a hop is outside its recording, or a place is
 *      outside its hop
 *   3  a coefficient is below -536870912 or above 536870912
 *   4  the state's entry 0 is not tabled, or one of its first M tail entries lies beyond plus or minus M * 2^55
 *   7  a block's number is not the one that the state expects
 *   8  a shape is above 1, or a block's left shape is not the one that the state expects
 *   9, 10, 11  a step table is turned away, as above
 *  12  allowed is above 32
 *
 * Under each call stand its numbers in the order in which they are tested; the first cause that holds is returned. Every check is made before
 * anything is written: where the returned number is not 0, every buffer and the state hold what they held. Where it is 0, the buffer that the
 * call fills holds what is said below, the others hold what they held. No call keeps anything between calls, or reads or writes anything but
 * its arguments, so calls on different buffers may run at the same time.
 *
 * No call allocates, and none copies a recording: by frequency, the coefficients of a few blocks at a time are gathered or put in their places, and a
 * step is tried on a recording block by block. What a call takes of the stack is measured (bench/run stack) and not proved, and doesn't grow with a
 * recording: below 6 KiB for n up to 72, below 7 KiB by the double route and for n = 108, and below 18 KiB for n = 216; of the synthesis of a
 * recording and of the coarsest step 1 KiB more, of a step on levels 1,100 bytes more, of the analysis of a recording 4 KiB more.
 *
 * These are promises for every value of every argument, under what C cannot check: each pointer is not null, also where its length is 0, is
 * aligned, and points to as many entries as the length that follows it says; a buffer that a call writes overlaps no other of the same call,
 * while those that it only reads may be one and the same; nothing else writes to them, or reads what is being written, until the call returns. A
 * size is without a sign: a negative number handed in for one arrives as a huge size, and is refused as such, but for a budget, of which every size is
 * taken. A block's number, a shape, a route, an order and an allowed distance have 32 bits: of a wider one its low 32 bits arrive. The numbers
 * returned, and what each buffer then holds, are the contracts of crates/c_face/src/lib.rt, which are proved; what is said of chains of states, of
 * levels there and back, of the distance of returned sound, of reading a page, of shares, of either order, of the coarsest step and of floats are
 * theorems of crates/demands over the same definitions. Of a NaN that a room for floats held it is proved that a refused call leaves a NaN there; that
 * its bits stay is measured (differential/run).
 */
#ifndef DAPPLESCREE_H
#define DAPPLESCREE_H

#include <stddef.h>
#include <stdint.h>

#ifdef __cplusplus
extern "C" {
#endif

/* The entries of a state: N, the expected number, the expected shape, and then the tail's storage. Write the name and not the number: earlier
 * versions had another. */
#define DAPPLESCREE_STATE 111

/* Which entry holds the number of the block that the state expects. It is 4294967296, which no block has, once the last number is taken. */
#define DAPPLESCREE_EXPECTED 1

/* Which entry holds the left shape that the state expects: the right shape of the block that it took last, 0 when fresh. */
#define DAPPLESCREE_SHAPE 2

/* The bytes of a page of `hops` hops at the tabled length n: a line of 81 for every six coefficients. It reads each argument once. */
#define DAPPLESCREE_PAGE(n, hops) (((size_t)(hops) + 1) * ((size_t)(n) / 12) * 81)

/* One block whose joints have the shapes left and right, analysed directly.
 *   1  n is not tabled
 *   8  left or right is above 1
 *   2  samples_length is not N, or coefficients_length is not M
 *   0  coefficients[k] is X(k) = rnd(S(k) / 2^28), k below M, with S(k) the sum over i of y(i) * K(i,k), y(i) = rnd(W(i) * samples[i] / 2^18)
 */
uint32_t dapplescree_analyse_direct(size_t n, uint32_t left, uint32_t right, const int16_t *samples, size_t samples_length,
                                    int32_t *coefficients, size_t coefficients_length);

/* One block whose joints have the shapes left and right, analysed by the short route.
 *   1  n is not 12, 24, 36 or 72
 *   8  as above
 *   2  as above
 *   0  coefficients[k] is the short route's X(k), k below M: equal to the direct one of the same shapes where k leaves 1 when divided by 3, else
 *      within 16 of it
 */
uint32_t dapplescree_analyse_short(size_t n, uint32_t left, uint32_t right, const int16_t *samples, size_t samples_length,
                                   int32_t *coefficients, size_t coefficients_length);

/* One block whose joints have the shapes left and right, analysed by the double route.
 *   1  n is not 36 or 72
 *   8  as above
 *   2  as above
 *   0  coefficients[k] is the double route's X(k), k below M: within 32 of the direct one of the same shapes
 */
uint32_t dapplescree_analyse_double(size_t n, uint32_t left, uint32_t right, const int16_t *samples, size_t samples_length,
                                    int32_t *coefficients, size_t coefficients_length);

/* Makes a fresh stream.
 *   1  n is not tabled
 *   2  state_length is not DAPPLESCREE_STATE
 *   0  state[0] is N and every other entry is 0: block 0 is expected, with a long left joint
 */
uint32_t dapplescree_stream_fresh(size_t n, int64_t *state, size_t state_length);

/* One synthesis step, for the block that bears this number and whose joints have the shapes left and right. N is state[0], the expected number is
 * state[DAPPLESCREE_EXPECTED], the expected shape is state[DAPPLESCREE_SHAPE], and tail(i) is state[3 + i].
 *   2  state_length is not DAPPLESCREE_STATE
 *   4  state[0] is not tabled (a negative number is not), or a tail entry, i below M, lies beyond plus or minus M * 2^55
 *   7  number is not the expected one; every number, where the expected one is below 0 or above 4294967295
 *   8  left or right is above 1, or left is not the expected shape; every block, where the expected shape is below 0 or above 1
 *   2  coefficients_length is not M, or hop_length is not M
 *   3  a coefficient is beyond its limit
 *   0  hop[i] is rnd((tail(i) + V(i)) / (N * 2^30)), clamped to -32768 .. 32767, i below M, with V(i) = W(i) * U(i) and
 *      U(i) = rnd((the sum over k of coefficients[k] * K(i,k)) / 2^26); the expected number then is one more, the expected shape is `right`, and
 *      tail(i) is V(M + i), i below M; state[0] and the tail's storage from M on are kept
 * A state that was made by dapplescree_stream_fresh and changed by this call and dapplescree_stream_step_levels alone is never refused with 4, and
 * the number that it expects is how many steps it has taken: so blocks are taken as 0, 1, 2 .. without a gap, and one that is early, late or
 * repeated is 7. Block 4294967295 is the last that a stream takes: after it no number is expected, 0 neither, and every block is 7. The shape that
 * it expects is the right shape of the last block taken, 0 before the first: so the two blocks of a joint have the same shape there, and a running
 * stream passes from one shape to the other at any joint.
 *
 * The first hop of a fresh stream is the run-in. Blocks may be offered to a fresh stream in whatever order, and however often. Where each one
 * that is taken under number b is block b of one recording, as analysis with the shapes that it is offered with gave it or with each coefficient
 * changed by at most Q, the step taken under b, b at least 1, returns the recording's hop b - 1, each sample within (Q + 8) / 16 of it, rounded
 * down, so equal up to Q = 7, in any mixture of shapes; where block b - 1 or b was analysed by the double route Q + 32 stands for Q, and else
 * Q + 16 where one of them was analysed by the short route. Nothing is asked of a block that is refused: it changes nothing, and returns no hop. A
 * caller who analyses block by block hands in zeros for the hop before the recording and for the one after it.
 */
uint32_t dapplescree_stream_step(int64_t *state, size_t state_length, uint32_t number, uint32_t left, uint32_t right,
                                 const int32_t *coefficients, size_t coefficients_length, int16_t *hop, size_t hop_length);

/* A whole recording of `hops` hops, every joint of it long, each block analysed directly, into the order that is told.
 *   1  n is not tabled
 *   2  hops is not 1 to 4095, order is above 1, samples_length is not hops * M, or coefficients_length is not (hops + 1) * M
 *   0  coefficients[place(b, k)] is coefficient k that dapplescree_analyse_direct gives, with both shapes 0, for block b, b from 0 to hops: the
 *      samples from samples[(b - 1) * M] to samples[(b + 1) * M - 1], with 0 for each that lies outside
 */
uint32_t dapplescree_analyse_recording_direct(size_t n, size_t hops, uint32_t order, const int16_t *samples, size_t samples_length,
    int32_t *coefficients, size_t coefficients_length);

/* A whole recording, every joint of it long, each block analysed by the short route.
 *   1  n is not 12, 24, 36 or 72
 *   2  as above
 *   0  the same, with dapplescree_analyse_short
 */
uint32_t dapplescree_analyse_recording_short(size_t n, size_t hops, uint32_t order, const int16_t *samples, size_t samples_length,
    int32_t *coefficients, size_t coefficients_length);

/* A whole recording, every joint of it long, each block analysed by the double route.
 *   1  n is not 36 or 72
 *   2  as above
 *   0  the same, with dapplescree_analyse_double
 */
uint32_t dapplescree_analyse_recording_double(size_t n, size_t hops, uint32_t order, const int16_t *samples, size_t samples_length,
    int32_t *coefficients, size_t coefficients_length);

/* Synthesis of a whole recording of `hops` hops, every joint of it long, from the order that is told.
 *   1  n is not tabled
 *   2  hops is not 1 to 4095, order is above 1, coefficients_length is not (hops + 1) * M, or samples_length is not hops * M
 *   3  a coefficient is beyond its limit, in whichever block
 *   0  samples[h * M + i] is hop sample i of step h + 1, h below hops, where step b, b from 0 to hops, is taken under number b and both shapes 0,
 *      from a fresh stream on, with coefficients[place(b, k)] as coefficient k, k below M; the run-in, the hop of step 0, is dropped
 * Where the coefficients are as analysis gave them for the recording's blocks, by these calls or block by block with both shapes 0, each changed
 * by at most Q, every sample is within (Q + 8) / 16 of the recording's at the same place, rounded down, so equal up to Q = 7; where one of the
 * two blocks that cover it was analysed by the double route Q + 32 stands for Q, and else Q + 16 where one of them was by the short route.
 */
uint32_t dapplescree_synthesise_recording(size_t n, size_t hops, uint32_t order, const int32_t *coefficients, size_t coefficients_length,
    int16_t *samples, size_t samples_length);

/* The coefficients of a whole recording of `hops` hops, printed as a page. A line is 80 columns and a line feed: columns 1 to 8 hold the number
 * of a block on its first line and blanks on its other lines, and six coefficients follow in 12 columns each, all right aligned.
 * The page goes block by block, whichever the order in memory.
 *   1  n is not tabled
 *   2  hops is not 1 to 4095, or order is above 1
 *   2  coefficients_length is not (hops + 1) * M, or page_length is not DAPPLESCREE_PAGE(n, hops)
 *   3  a coefficient is beyond its limit, in whichever block
 *   0  page[81 * g + c] is column c + 1 of line g, c below 80, and page[81 * g + 80] a line feed, g below (hops + 1) * M / 6; with
 *      6 * g = b * M + k, k below M, line g holds coefficients k to k + 5 of block b, which are coefficients[place(b, k)] ..
 *      coefficients[place(b, k + 5)], and is the first line of block b where k is 0
 * A number is decimal digits, the first of them 0 in the number 0 alone, behind a minus sign where it is below 0; the columns in front of it are
 * blanks. The page is ASCII, and no zero byte ends it. -536870912 has ten characters, so two blanks at least stand before every coefficient, and
 * each is read back from its 12 columns.
 */
uint32_t dapplescree_page(size_t n, size_t hops, uint32_t order, const int32_t *coefficients, size_t coefficients_length, uint8_t *page,
    size_t page_length);

/* The coefficients of a whole recording of `hops` hops, put in the order `to`: what is taken lies in the order that `to` is not.
 *   1  n is not tabled
 *   2  hops is not 1 to 4095, to is above 1, coefficients_length is not (hops + 1) * M, or reordered_length is not (hops + 1) * M
 *   3  a coefficient is beyond its limit, in whichever block
 *   0  reordered[b * M + k] is coefficients[k * (hops + 1) + b] where to is 0, and reordered[k * (hops + 1) + b] is coefficients[b * M + k] where
 *      it is 1, b from 0 to hops and k below M
 * The two are separate buffers, which do not overlap: nothing is reordered in place. There and back, every coefficient lies where it lay.
 */
uint32_t dapplescree_reorder(size_t n, size_t hops, uint32_t to, const int32_t *coefficients, size_t coefficients_length,
    int32_t *reordered, size_t reordered_length);

/* The coefficients of one block to levels, by a step table.
 *   1  n is not tabled
 *   9, 10, 11  the table is turned away
 *   2  coefficients_length is not M, or levels_length is not M
 *   3  a coefficient is beyond its limit
 *   0  levels[k] is rnd(coefficients[k] / step(k)), k below M: the nearest whole number, a half going away from zero, by odd steps too
 */
uint32_t dapplescree_quantise(size_t n, const uint8_t *table, size_t table_length, const int32_t *coefficients, size_t coefficients_length,
    int32_t *levels, size_t levels_length);

/* The levels of one block back to coefficients. Every int32_t is a level: none is refused.
 *   1  n is not tabled
 *   9, 10, 11  the table is turned away
 *   2  levels_length is not M, or coefficients_length is not M
 *   0  coefficients[k] is levels[k] * step(k), clipped to -536870912 .. 536870912, k below M
 * So what comes back is never refused with 3. Through dapplescree_quantise and this call by the same table, coefficient k moves by at most
 * step(k) / 2, rounded down. By step 3 the limit 536870912 has the level 178956971, and comes back as itself: the clip takes away the 1 that
 * 178956971 * 3 is beyond it.
 */
uint32_t dapplescree_dequantise(size_t n, const uint8_t *table, size_t table_length, const int32_t *levels, size_t levels_length,
    int32_t *coefficients, size_t coefficients_length);

/* The sample distance that follows from a step table: how far returned sound may be from the recording where its coefficients went through levels
 * by this table. route is 0 for blocks analysed directly, 1 for the short route and 2 for the double route. distance is an array of one entry.
 *   1  n is not tabled, or route is above 2, or route is 1 and n is not 12, 24, 36 or 72, or route is 2 and n is not 36 or 72
 *   9, 10, 11  the table is turned away
 *   2  distance_length is not 1
 *   0  distance[0] is (Q + 8) / 16, rounded down, where Q is half the largest step, rounded down, by route 0, 16 more than that by route 1 and 32
 *      more than that by route 2
 * By route 0 it is 0 up to a largest step of 15, and 2048 at 65536; by route 1 it is 1 at least, and 2049 at 65536; by route 2 it is 2 at least,
 * and 2050 at 65536.
 *
 * The told distance is kept. Each block of a recording is brought through dapplescree_quantise and back by one table, its own or a common one.
 * What a fresh stream takes under number b is block b of that recording, so brought; the step that takes it, b at least 1, returns the recording's
 * hop b - 1, each sample within the distance told for the coarser table of blocks b - 1 and b, the one with the larger largest step, by the
 * larger of the numbers of the routes by which the two were analysed. All else is as under dapplescree_stream_step: blocks in whatever order and
 * however often, refused ones in between, any mixture of shapes. By dapplescree_synthesise_recording, at long joints, it holds for every sample
 * and the two blocks that cover it.
 */
uint32_t dapplescree_told_distance(size_t n, uint32_t route, const uint8_t *table, size_t table_length, uint32_t *distance,
    size_t distance_length);

/* One synthesis step from levels, which is what recorders store. M is state[0] / 2, and the table is one for M coefficients.
 *   2  state_length is not DAPPLESCREE_STATE
 *   4, 7, 8  as under dapplescree_stream_step
 *   9, 10, 11  the table is turned away
 *   2  levels_length is not M, or hop_length is not M
 *   0  hop and state are as dapplescree_stream_step leaves them, called with the coefficients that dapplescree_dequantise gives for the levels
 * Every int32_t is a level, so there is no 3. Steps by this call and by dapplescree_stream_step may follow one another on one state: all that is
 * said there of chains of states holds of both. A refused step leaves the state as it was, also where the table is the cause.
 */
uint32_t dapplescree_stream_step_levels(int64_t *state, size_t state_length, uint32_t number, uint32_t left, uint32_t right,
    const uint8_t *table, size_t table_length, const int32_t *levels, size_t levels_length, int16_t *hop, size_t hop_length);

/* Which coefficient moved a returned sample. A sample lies in two blocks. `first` and `second` are the coefficients of the earlier and of the later
 * one as analysis gave them, first_changed and second_changed the ones from which the sample was made, `shape` is the shape of the joint between
 * the two blocks, and `place` says which sample of the hop it is, from 0 to M - 1. named is an array of three entries.
 *   1  n is not tabled
 *   8  shape is above 1
 *   2  first_length, first_changed_length, second_length or second_changed_length is not M, or place is M or more, or named_length is not 3
 *   3  a coefficient is beyond its limit, in whichever of the four
 *   0  named[0] is 1 where a share is not zero, and then the share of coefficient named[2] of block named[1], 0 the earlier and 1 the later, is the
 *      largest; where all shares are zero, the three entries are 0
 * A share is, without its sign, the change of a coefficient times K times W at the sample: coefficient k of the earlier block has K(M + place, k)
 * and its W(M + place), coefficient k of the later one has K(place, k) and its W(place). Shares are compared exactly. No other is larger than the one
 * that is named, and of equal ones the earlier block's is named, then the lower coefficient's. K is never 0. W is 0 for the later block in the first
 * third of a hop whose joint is short, and for the earlier block in the last third. Where all shares are zero, the sample is the same from the
 * original and from the changed coefficients, whatever the stream held before the earlier block.
 */
uint32_t dapplescree_largest_share(size_t n, uint32_t shape, const int32_t *first, size_t first_length, const int32_t *first_changed,
    size_t first_changed_length, const int32_t *second, size_t second_length, const int32_t *second_changed, size_t second_changed_length,
    size_t place, uint32_t *named, size_t named_length);

/* The same of a sample of a whole recording of `hops` hops, every joint of it long. `original` are the coefficients of its blocks as analysis gave
 * them, `changed` the ones from which the sample was made, both in the order that is told. The sample is the one at `place` of hop `hop`, both
 * counted from 0: samples[hop * M + place]. Blocks hop and hop + 1 cover it. named is an array of three entries.
 *   1  n is not tabled
 *   2  hops is not 1 to 4095, order is above 1, original_length or changed_length is not (hops + 1) * M, hop is `hops` or more, place is M or more,
 *      or named_length is not 3
 *   3  a coefficient of either list is beyond its limit, in whichever block
 *   0  named[0] is 1 where a share is not zero, and then the share of coefficient named[2] of block named[1], its number in the recording, so hop
 *      or hop + 1, is the largest; where all shares are zero, the three entries are 0
 * It names what dapplescree_largest_share names with shape 0 for those two blocks, with their numbers in the recording for 0 and 1. Where all
 * shares are zero, dapplescree_synthesise_recording gives the sample alike from the original and from the changed coefficients.
 */
uint32_t dapplescree_largest_share_recording(size_t n, size_t hops, uint32_t order, const int32_t *original, size_t original_length,
    const int32_t *changed, size_t changed_length, size_t hop, size_t place, uint32_t *named, size_t named_length);

/* The coarsest step for a whole recording of `hops` hops, every joint of it long: the largest single step from 1 to 1024 by which its coefficients
 * may be stored so that every sample returns within `allowed` of its own. `budget` says how many steps may be tried: none where it is 0. found is an
 * array of three entries.
 *   1  n is not tabled
 *   2  hops is not 1 to 4095, samples_length is not hops * M, or found_length is not 3
 *  12  allowed is above 32
 *   0  found[0] is the step that the search ends with, found[1] how many steps it tried, and found[2] how many untried steps lie above found[0], up
 *      to 1024
 * A step passes where every sample that these calls return lies within `allowed` of the recording's at the same place:
 * dapplescree_analyse_recording_direct, then for each block dapplescree_quantise and dapplescree_dequantise by a table of one line, which has that
 * step for 0 to M - 1, then dapplescree_synthesise_recording. The sure step is the smaller of 1024 and 32 * allowed + 15: the distance told for it is
 * `allowed`, so it passes for every recording, and it is never tried. Steps are tried from 1024 downward. The search ends with the first that passes,
 * which counts as tried; with the sure step, once all above it have failed; or with the sure step, once `budget` steps were tried and none passed.
 * With allowed 32 found is 1024, 0, 0 by every budget; by budget 0 it is 1007, 0, 17 with allowed 31, and 15, 0, 1009 with allowed 0.
 *
 * The step found passes. Every other one that was tried has a sample beyond `allowed`. Where found[2] is 0, the step found is the largest from 1 to
 * 1024 that passes. found[0], found[2] and how many steps were tried and failed add up to 1024. With allowed below 32 the step 32 * allowed + 16
 * passes for every recording too: so the sure step is returned only where the budget is used up, and a budget of 1009 leaves none untried.
 *
 * No buffer is lent for it, and nothing of a recording's size is kept. A trial ends at the first sample beyond `allowed`; one that passes takes about
 * as long as analysis and synthesis of the recording together, which is measured (bench/run) and not proved.
 */
uint32_t dapplescree_coarsest_step(size_t n, size_t hops, const int16_t *samples, size_t samples_length, uint32_t allowed, size_t budget,
    uint32_t *found, size_t found_length);

/* The coefficients of one block as floats.
 *   1  n is not tabled
 *   2  coefficients_length is not M, or floats_length is not M
 *   3  a coefficient is beyond its limit
 *   0  floats[k] is exactly coefficients[k] / 64, its fraction included, k below M
 * Nothing is rounded: a coefficient has at most 30 bits, and a float holds 53. The float of 0 is +0.0.
 */
uint32_t dapplescree_floats(size_t n, const int32_t *coefficients, size_t coefficients_length, double *floats, size_t floats_length);

/* The highest and the lowest value of one block as floats. pair is an array of two entries.
 *   1  n is not tabled
 *   2  coefficients_length is not M, or pair_length is not 2
 *   3  a coefficient is beyond its limit
 *   0  pair[0] is exactly h / 64 and pair[1] exactly l / 64, their fractions included, where h is the highest of the coefficients and l the lowest,
 *      as whole numbers with their signs
 * Both values occur in the block, and no coefficient lies outside them: of the floats that dapplescree_floats gives for it one is pair[0] and one
 * is pair[1], and no coefficient is above h or below l.
 */
uint32_t dapplescree_highest_lowest(size_t n, const int32_t *coefficients, size_t coefficients_length, double *pair, size_t pair_length);

#ifdef __cplusplus
}
#endif

#endif
