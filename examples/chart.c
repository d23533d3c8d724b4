/* A transposed convolution planned, with a row and a column added too, a budget tried, run tile by tile and by strips, its outputs as levels, and a
 * call that is refused with the map value that it is refused for; a transform there and back; noise; two filters joined; a map to show for a range
 * refusal. */
#include <stdio.h>
#include <string.h>

#include "wemsteky.h"

#define CHANNELS 2
#define SIDE 24
#define FULL 50
#define SCRATCH 3072

static int16_t map[SIDE * SIDE];
static int32_t output[CHANNELS * FULL * FULL];
static uint64_t scratch[SCRATCH];
static int16_t levels[CHANNELS * FULL * FULL];

static int failed(const char *what, size_t code)
{
    fprintf(stderr, "%s: %zu\n", what, code);
    return 1;
}

/* Runs the layer in budgets of two tiles and returns the code of the last call. */
static size_t run_in_budgets(const size_t layer[16], const int16_t *kernel, size_t kernel_len, size_t figures[7])
{
    size_t next = 0, code;
    do {
        code = wemsteky_job(layer, next, 2, map, SIDE * SIDE, kernel, kernel_len, output, sizeof output / sizeof *output, scratch,
                            SCRATCH, figures);
        next = figures[1];
    } while (code == 0 && !figures[2]);
    return code;
}

/* Runs the layer by strips and tells whether all outputs are those that the tiles left. */
static size_t run_by_strips(const size_t layer[16], const int16_t *kernel, size_t kernel_len, int *agree)
{
    static int32_t other[CHANNELS * FULL * FULL];
    static uint64_t rows[WEMSTEKY_STRIP_SCRATCH];
    size_t figures[7], code = wemsteky_strip_run(layer, map, SIDE * SIDE, kernel, kernel_len, other, sizeof other / sizeof *other, rows,
                                                 WEMSTEKY_STRIP_SCRATCH, figures);
    *agree = memcmp(output, other, sizeof output) == 0;
    return code;
}

/* Fills one map in two calls, the second given the first's last seed. */
static void show_noise(uint32_t seed)
{
    int16_t noise[6];
    seed = wemsteky_noise(seed, noise, 2);
    seed = wemsteky_noise(seed, noise + 2, 4);
    printf("noise %d %d %d %d %d %d, last seed %lu\n", noise[0], noise[1], noise[2], noise[3], noise[4], noise[5], (unsigned long)seed);
}

/* Joins a filter of 1 by 1 from two channels to one and a filter of 2 by 2, and one whose weights are too large. */
static void show_joined(void)
{
    const size_t first[16] = {0, 4, 2, 1, 8, 8, 1, 1, 0, 100, 0, 0, 8, 8}, second[16] = {0, 4, 1, 1, 8, 8, 2, 1, 0, 100, 0, 0, 7, 7};
    const int16_t mixed[2] = {3, -2}, edge[4] = {1, 0, 0, -1}, large[4] = {1, 0, 0, 20000};
    int16_t joined[8];
    size_t code = wemsteky_join(first, mixed, 2, second, edge, 4, joined, 8);
    printf("joined %zu:", code);
    for (int i = 0; i < 8; i++) printf(" %d", joined[i]);
    printf(", refused %zu\n", wemsteky_join(first, mixed, 2, second, large, 4, joined, 8));
}

/* A sharpening layer whose load is above the limit of F_4, and the map that makes its output equal the load, run in F_5. */
static void show_worst(void)
{
    const size_t small[16] = {0, 4, 1, 1, 4, 4, 3, 1, 0, 2000, 1, 1, 1, 1}, large[16] = {0, 5, 1, 1, 4, 4, 3, 1, 0, 2000, 1, 1, 1, 1};
    const int16_t sharpen[9] = {0, -2, 0, -2, 9, -2, 0, -2, 0};
    int16_t worst[16] = {0};
    int32_t sum[1];
    size_t figures[7], code = wemsteky_run(small, worst, 16, sharpen, 9, sum, 1, scratch, SCRATCH, figures);
    printf("worst map %zu for %zu:", wemsteky_worst_map(small, sharpen, 9, worst, 16), code);
    for (int i = 0; i < 16; i++) printf(" %d", worst[i]);
    static uint64_t more[WEMSTEKY_SCRATCH_5];
    code = wemsteky_run(large, worst, 16, sharpen, 9, sum, 1, more, WEMSTEKY_SCRATCH_5, figures);
    printf(", output %d\n", code == 0 ? sum[0] : -1);
}

int main(void)
{
    /* TCONV in F_4: one map channel of 24 by 24 to two channels of 50 by 50, K 4, S 2, P 0, peak 100, not cropped; then with a row and a column
     * added */
    const size_t layer[16] = {1, 4, 1, CHANNELS, SIDE, SIDE, 4, 2, 0, 100, 0, 0, FULL, FULL};
    const size_t enlarged[16] = {1, 4, 1, CHANNELS, SIDE, SIDE, 4, 2, 0, 100, 0, 0, FULL + 1, FULL + 1, 1, 1};
    const int16_t kernel[CHANNELS * 16] = {1, 2, 3, 4, 5, 6, 7, 8, 9, 10, 11, 12, 13, 14, 15, 16,
                                           -1, 0, 0, 0, 0, -1, 0, 0, 0, 0, -1, 0, 0, 0, 0, -1};
    size_t figures[4], progress[7], code;

    code = wemsteky_plan(layer, figures);
    if (code != 0) return failed("plan", code);
    printf("plan %zu by %zu, %zu tiles, %zu words of scratch\n", figures[0], figures[1], figures[2], figures[3]);

    code = wemsteky_plan(enlarged, figures);
    if (code != 0) return failed("plan", code);
    printf("with a row and a column added %zu by %zu\n", figures[0], figures[1]);

    map[0] = 100;
    map[SIDE * SIDE - 1] = -100;
    size_t tried[8];
    code = wemsteky_preview(layer, 0, 3, map, SIDE * SIDE, kernel, CHANNELS * 16, output, sizeof output / sizeof *output, scratch, SCRATCH, tried);
    if (code != 0) return failed("preview", code);
    printf("a budget of 3 would finish %zu tiles and store %zu values\n", tried[0], tried[7]);
    code = run_in_budgets(layer, kernel, CHANNELS * 16, progress);
    if (code != 0) return failed("job", code);
    printf("next tile %zu, done %zu\n", progress[1], progress[2]);
    printf("first %d, last of channel 0 %d, last %d\n", output[0], output[FULL * FULL - 1], output[CHANNELS * FULL * FULL - 1]);

    code = wemsteky_strip_plan(layer, figures);
    if (code != 0) return failed("strip plan", code);
    int agree;
    code = run_by_strips(layer, kernel, CHANNELS * 16, &agree);
    if (code != 0) return failed("strip run", code);
    printf("%zu strips, %zu words of scratch, the same outputs %s\n", figures[2], figures[3], agree ? "yes" : "no");

    code = wemsteky_levels(3, 127, output, sizeof output / sizeof *output, levels, sizeof levels / sizeof *levels);
    if (code != 0) return failed("levels", code);
    printf("levels %d, %d, %d\n", levels[0], levels[FULL * FULL - 1], levels[CHANNELS * FULL * FULL - 1]);

    map[2 * SIDE + 1] = -101; /* beyond the peak */
    code = run_in_budgets(layer, kernel, CHANNELS * 16, progress);
    printf("refused %zu: channel %zu, row %zu, column %zu, side %zu\n", code, progress[3], progress[4], progress[5], progress[6]);

    uint64_t words[32] = {0, 1}, there[32];
    memcpy(there, words, sizeof words);
    if ((code = wemsteky_transform(4, there, 32)) != 0) return failed("transform", code);
    printf("entry 16 of the transform %llu\n", (unsigned long long)there[16]);
    if ((code = wemsteky_inverse(4, there, 32)) != 0) return failed("inverse", code);
    printf("back %s\n", memcmp(there, words, sizeof words) == 0 ? "yes" : "no");

    show_noise(0);
    show_joined();
    show_worst();
    return 0;
}
