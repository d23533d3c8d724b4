/*
 * Wemsteky: convolution and transposed convolution of whole-number maps, computed exactly. The C interface of a proved library; what is proved
 * and what is not is in docs/ASSURANCE.md.
 *
 * THE LAYER is sixteen numbers: kind field C M H W K S P peak top left h w below beside.
 *
 *   kind          0 is convolution (CONV), 1 is transposed convolution (TCONV)
 *   field         4 or 5; see THE FIELD
 *   C M           channels of the map and of the output, 1 to 64 each
 *   H W           rows and columns of each map channel, 1 to 512
 *   K S P         side of the kernel, 1 to 11; stride, 1 to 4; padding, 0 to K - 1
 *   peak          no map value is above it or below its negative, 1 to 32,767
 *   top left h w  the crop: first row and column kept of the full output, and how many rows and columns
 *   below beside  rows added at the bottom and columns added at the right of a full TCONV output (ONNX: output_padding), each 0 to S - 1; 0 in CONV
 *
 * BUFFERS are rows one after the other, planes one after the other.
 *
 *   map      C planes of H rows of W values:      map[(c * H + i) * W + j]
 *   kernel   planes of K rows of K weights, in the order [outer][inner]:
 *            CONV: outer is the output channel, inner the map channel:  kernel[((m * C + c) * K + a) * K + b]
 *            TCONV: outer is the map channel, inner the output channel: kernel[((c * M + m) * K + a) * K + b]
 *            so one kernel serves a CONV layer and the TCONV layer that leads back
 *   output   M planes of h rows of w values:      output[(m * h + r) * w + s], the full output at row top + r, column left + s
 *
 * THE FULL OUTPUT has E rows and F columns.
 *
 *   CONV:   E = (H + 2P - K) / S rounded down, plus 1;  F the same with W
 *   TCONV:  E = (H - 1) S + K - 2P + below;             F the same with W and beside
 *
 * To learn E and F, ask wemsteky_plan with top = left = 0 and h = w = 1. A TCONV layer leads back to the size of a CONV layer's map where below and
 * beside are what S leaves of that layer's H + 2P - K and W + 2P - K.
 *
 * THE SUMS, where a map value outside the map is 0 and a weight outside its K by K square is 0; as the ONNX operators Conv and ConvTranspose:
 *
 *   CONV at (m, e, f):   sum over c, a, b of weight [m][c][a][b] times map [c][eS + a - P][fS + b - P]
 *   TCONV at (m, i, j):  sum over c, e, f of map [c][e][f] times weight [c][m][i + P - eS][j + P - fS]
 *
 * THE FIELD fixes the size N of a tile, the words of scratch and the greatest sums: field 4 is the numbers below 65,537, with N 32; field 5 is
 * those below 4,294,967,297, with N 64. Each output must read back from its remainder, so check 16 bounds the load of each output channel: the
 * peak times the sum of the sizes of the weights that one output can meet, over all map channels. In CONV an output can meet all K by K weights.
 * In TCONV with stride S it meets only weights whose rows leave the same remainder by S, and whose columns do; of these S by S groups the one with
 * the greatest sum counts. The limit is 32,768 in field 4 and 2,147,483,647 in field 5. Where 16 comes up: use field 5, or smaller weights, or a
 * lower peak where the map's values allow it; in CONV wemsteky_worst_map writes a map that 16 guards against. Where both fields accept a layer,
 * field 4 needs a quarter of the scratch; docs/PERFORMANCE.md says which is quicker.
 *
 * TILES are counted by output channel, then tile row, then tile column; each covers N - K + 1 rows and columns of the stride-1 grid.
 *
 * STRIPS are what wemsteky_strip_plan, wemsteky_strip_run, wemsteky_strip_job and wemsteky_strip_preview work in, and tiles are what wemsteky_plan,
 * wemsteky_run, wemsteky_job and wemsteky_preview work in: two engines for the same sums. A strip is one output row's next 257 - K places of the
 * stride-1 grid; strips are counted by output channel, then row, then place along the row. Strips take field 4 alone and 768 words of scratch. On a
 * layer that both engines accept, all outputs agree. A job has no mark of its engine: the caller keeps it to the one that it began with.
 * docs/PERFORMANCE.md has instruction counts of both.
 *
 * SEQUENCES are one to eight steps, each over the map that the step before it makes. A step is eighteen numbers: a layer, then the shift and the
 * bound with which its outputs become levels, see wemsteky_levels; these are the next map. So a layer's M, h, w and bound are the next one's C, H, W
 * and peak. Each layer may be of either kind and in either field. The kernels stand end to end in the order of the layers. wemsteky_sequence makes
 * every check before the first layer is run, in an order of its own:
 *
 *   21; then layer by layer, all of one before the next, 1 to 9 with 23, 11, 14, 24, 16 and 20; then 22, 10, 12, 13, and 15 or 25
 *
 * There 11 says that fewer weights remain than the layer needs or, at the last layer, that some would be left over; 12 that the final buffer is not
 * M h w of the last layer, or that a work map or the output buffer is shorter than the greatest M h w of all layers, the last one among them; 13 that
 * scratch is below the greatest 3 N N of all layers. 10, 15 and 25 are of the first map. More than eight layers are several sequences, each over the
 * final map of the one before.
 *
 * ANSWERS. Every function takes any numbers, lengths and values. It returns 0, or the number of the first check that fails, in this order, or for a
 * sequence in that of SEQUENCES; a refused call changes no output, scratch, words, levels, joined kernel, work map or map to be written.
 *
 *   1 kind is not 0 or 1                  11 kernel length is not M C K K
 *   2 field is not 4 or 5; by strips,     12 output length is not M h w
 *     not 4                               13 scratch is below 3 N N words; by strips, below 768
 *   3 C or M outside 1 to 64              14 peak outside 1 to 32,767
 *   4 H or W outside 1 to 512             15 the first map value beyond the peak is above it
 *   5 K outside 1 to 11                   25 the first map value beyond the peak is below its negative
 *   6 S outside 1 to 4                    24 some output channel is blank: every weight that reaches it is 0
 *   7 P above K - 1                       16 some output channel's load above the limit
 *  23 below or beside above S - 1, or     17 the index of the next tile or strip above the total
 *     not 0 in CONV                       18 not N words to transform
 *   8 the full output has no row or no    19 a word not below the field
 *     column                              20 the shift outside 0 to 31, the bound outside 1 to 32,767, or not as many levels as outputs; in a
 *   9 the crop is empty or reaches           sequence, a step's shift or bound outside these ranges
 *     beyond the full output              21 the count of steps outside 1 to 8
 *  10 map length is not C H W             22 some layer's M, h, w or bound is not the next one's C, H, W or peak
 *                                         26 a layer to join not CONV with S 1 and P 0, its C, M or K outside the ranges, a kernel length, that of
 *                                            the joined one too, not as the figures say, or the first layer's M not the second's C
 *                                         27 the joined side above 11
 *                                         28 some joined weight not within 16 signed bits
 *                                         29 the layer is TCONV, or no cropped output has its whole window inside the map
 *
 * With 15 and 25, runs, jobs, previews and sequences tell which value it is: the first one beyond the peak in stored order, that is by channel, then
 * row, then column, each counted from 0, and its side, 1 above the peak, 2 below its negative. -32,768 is below the negative of every peak.
 *
 * WHAT THE CALLER KEEPS, which nothing checks: each pointer points to as many elements as its length says, also where that is 0, so no pointer is
 * null; a buffer that a call writes (output, scratch, figures, words, levels, map of wemsteky_noise and of wemsteky_worst_map, joined, first_work,
 * second_work, final) overlaps no other buffer of the call; nobody else writes a buffer of a call while it runs. size_t has 64 bits.
 *
 * The functions allocate nothing, have no globals and hold no locks: any number of calls may run at once on buffers of their own. A sequence used
 * 6,093 bytes of stack when that was measured, a run 5,389, a job call 5,181, the others less (tests/stack.c prints it).
 */
#ifndef WEMSTEKY_H
#define WEMSTEKY_H

#include <stddef.h>
#include <stdint.h>

#define WEMSTEKY_VERSION 0x000800 /* major, minor and patch, a byte each */

/* The words of scratch, 3 N N, in field 4 and in field 5. Scratch may be longer. */
#define WEMSTEKY_SCRATCH_4 3072
#define WEMSTEKY_SCRATCH_5 12288

/* The words of scratch by strips. */
#define WEMSTEKY_STRIP_SCRATCH 768

/* The words of a transform, N, in field 4 and in field 5. */
#define WEMSTEKY_N_4 32
#define WEMSTEKY_N_5 64

/* The least peak that every map of wemsteky_noise keeps. */
#define WEMSTEKY_NOISE_PEAK 128

#if defined(__GNUC__) || defined(__clang__)
#define WEMSTEKY_MUST_USE __attribute__((warn_unused_result))
#else
#define WEMSTEKY_MUST_USE
#endif

#ifdef __cplusplus
extern "C" {
#endif

/* Checks 1 to 9 and 23. figures: E, F, the total of tiles, 3 N N words of scratch; zeros where the layer is refused. */
WEMSTEKY_MUST_USE size_t wemsteky_plan(const size_t layer[16], size_t figures[4]);

/* Checks 1 to 16 and 23 to 25, then every tile: each output becomes its sum. figures: tiles finished, index of the next tile, 1 where done, zeros
 * where the call is refused; then channel, row, column and side of the map value that 15 and 25 speak of, zeros with any other answer. An accepted
 * call leaves the first 3 N N words of scratch zero and later ones as they were; what they held is free. */
WEMSTEKY_MUST_USE size_t wemsteky_run(const size_t layer[16], const int16_t *map, size_t map_len, const int16_t *kernel, size_t kernel_len,
                                      int32_t *output, size_t output_len, uint64_t *scratch, size_t scratch_len, size_t figures[7]);

/* Checks 1 to 17 and 23 to 25, then the lesser of the budget and the tiles left, from tile `next` on; a budget of 0 is accepted. Outputs of the
 * tiles finished become their sums, all others stay. figures: tiles finished, index of the next tile (as given where the call is refused), 1 where
 * no tile is left; the other four as after wemsteky_run, and so is scratch. */
WEMSTEKY_MUST_USE size_t wemsteky_job(const size_t layer[16], size_t next, size_t budget, const int16_t *map, size_t map_len,
                                      const int16_t *kernel, size_t kernel_len, int32_t *output, size_t output_len, uint64_t *scratch,
                                      size_t scratch_len, size_t figures[7]);

/* What wemsteky_job would do with that budget, with nothing done: it makes the same checks and returns the same number, output and scratch are not
 * written, and the first seven figures are those of the call. The last is how many output values the call would store: those of the tiles that it
 * would finish, 0 where it would be refused. It takes as long as the checks take, whatever the budget. Over the calls of a job that reach its total
 * these counts add up to M h w. */
WEMSTEKY_MUST_USE size_t wemsteky_preview(const size_t layer[16], size_t next, size_t budget, const int16_t *map, size_t map_len,
                                          const int16_t *kernel, size_t kernel_len, const int32_t *output, size_t output_len,
                                          const uint64_t *scratch, size_t scratch_len, size_t figures[8]);

/* The same by strips: the figures count strips, the plan's last one is 768, and the first 768 words of scratch are used and left zero. */
WEMSTEKY_MUST_USE size_t wemsteky_strip_plan(const size_t layer[16], size_t figures[4]);
WEMSTEKY_MUST_USE size_t wemsteky_strip_run(const size_t layer[16], const int16_t *map, size_t map_len, const int16_t *kernel, size_t kernel_len,
                                            int32_t *output, size_t output_len, uint64_t *scratch, size_t scratch_len, size_t figures[7]);
WEMSTEKY_MUST_USE size_t wemsteky_strip_job(const size_t layer[16], size_t next, size_t budget, const int16_t *map, size_t map_len,
                                            const int16_t *kernel, size_t kernel_len, int32_t *output, size_t output_len, uint64_t *scratch,
                                            size_t scratch_len, size_t figures[7]);
WEMSTEKY_MUST_USE size_t wemsteky_strip_preview(const size_t layer[16], size_t next, size_t budget, const int16_t *map, size_t map_len,
                                                const int16_t *kernel, size_t kernel_len, const int32_t *output, size_t output_len,
                                                const uint64_t *scratch, size_t scratch_len, size_t figures[8]);

/* Checks 2, 18 and 19, then the transform of N residues at the root 2: entry k is the sum over n of words[n] times 2 to the power nk, modulo the
 * field. The inverse undoes it. */
WEMSTEKY_MUST_USE size_t wemsteky_transform(size_t field, uint64_t *words, size_t words_len);
WEMSTEKY_MUST_USE size_t wemsteky_inverse(size_t field, uint64_t *words, size_t words_len);

/* Check 20, then the level of each output: divided by 2 to the shift, to the nearest whole number, halves going away from zero, then clamped to
 * -bound and bound. */
WEMSTEKY_MUST_USE size_t wemsteky_levels(size_t shift, size_t bound, const int32_t *outputs, size_t outputs_len, int16_t *levels,
                                         size_t levels_len);

/* Fills the map in order, one draw for each value. A draw replaces the seed by 1,664,525 times itself plus 1,013,904,223, modulo 2 to the 32;
 * the value is the new seed divided by 16,777,216, rounded down, less 128: -128 to 127, so a layer over such a map needs a peak of 128 at least.
 * Returns the last seed, or the seed where the map is empty; it has no checks. The generator keeps no secret: a few values of a map are enough to
 * work out the seed and every value after them. */
WEMSTEKY_MUST_USE uint32_t wemsteky_noise(uint32_t seed, int16_t *map, size_t map_len);

/* Checks 26 to 28, then the kernel of one layer that does what the first and then the second do: side K1 + K2 - 1, the first's C, the second's M.
 * Its weight at a place is the sum, over the channels between the two and over the pairs of places that add up to it, of the products. below and
 * beside are not looked at. */
WEMSTEKY_MUST_USE size_t wemsteky_join(const size_t first[16], const int16_t *first_kernel, size_t first_len, const size_t second[16],
                                       const int16_t *second_kernel, size_t second_len, int16_t *joined, size_t joined_len);

/* Checks 1 to 11, 14, 23, 24 and 29, not the load: for a CONV layer, accepted or refused by 16, the map within the peak that makes one output equal
 * the greatest load. That output is the first one, by row, then column of the crop, whose whole K by K window lies inside the map, in the first
 * output channel with that load. In its window the value that meets a weight is the peak where the weight is above 0, the peak's negative where it
 * is below, 0 where it is 0; every other value is 0. */
WEMSTEKY_MUST_USE size_t wemsteky_worst_map(const size_t layer[16], const int16_t *kernel, size_t kernel_len, int16_t *map, size_t map_len);

/* The checks of SEQUENCES, then every layer in turn with its levels, the last ones in the final buffer. steps: eight rows of eighteen numbers, all
 * of them lent; the first `count` rows are the sequence, and what stands in the others counts for nothing. figures: channel, row, column and side of the value of the
 * first map that 15 and 25 speak of, zeros with any other answer. An accepted call leaves both work maps, the output buffer and scratch zero, every
 * word of them, however long they are; what they held is free. Work maps are asked for with one layer too. */
WEMSTEKY_MUST_USE size_t wemsteky_sequence(size_t count, const size_t steps[144], const int16_t *map, size_t map_len, const int16_t *kernels,
                                           size_t kernels_len, int16_t *first_work, size_t first_len, int16_t *second_work, size_t second_len,
                                           int32_t *output, size_t output_len, uint64_t *scratch, size_t scratch_len, int16_t *final,
                                           size_t final_len, size_t figures[4]);

#ifdef __cplusplus
}
#endif

#endif
