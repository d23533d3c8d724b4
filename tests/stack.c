/* The stack that each function of the library uses, measured: it runs on a thread whose stack was filled with a pattern before, and the lowest
 * byte that no longer holds it tells. What the thread itself needs is measured with a call that does nothing, and taken off; the C library's functions
 * are bound before it starts, so that the work of binding them is not counted.
 *
 *     cc -std=c99 -O2 -Iinclude tests/stack.c crates/wemsteky/out/libwemsteky.a -lpthread -Wl,-z,now -o stack && ./stack
 */
#define _GNU_SOURCE
#include <pthread.h>
#include <stdio.h>
#include <stdlib.h>
#include <string.h>

#include "wemsteky.h"

#define STACK (1 << 20)
#define SIDE 64

static int16_t map[SIDE * SIDE], kernel[2 * 121], joined[2 * 121], work[2][SIDE * SIDE], grown[SIDE * SIDE];
static int32_t output[2 * SIDE * SIDE * 16];
static uint64_t scratch[12288], words[64];
static size_t answer;

static void *nothing(void *with)
{
    return with;
}

static void *plan(void *with)
{
    size_t figures[4];
    answer = wemsteky_plan(with, figures);
    return NULL;
}

static void *run(void *with)
{
    const size_t *layer = with;
    size_t figures[7];
    answer = wemsteky_run(layer, map, layer[4] * layer[5], kernel, layer[3] * layer[6] * layer[6], output, layer[3] * layer[12] * layer[13],
                          scratch, 12288, figures);
    return NULL;
}

static void *strip_run(void *with)
{
    const size_t *layer = with;
    size_t figures[7];
    answer = wemsteky_strip_run(layer, map, layer[4] * layer[5], kernel, layer[3] * layer[6] * layer[6], output,
                                layer[3] * layer[12] * layer[13], scratch, 768, figures);
    return NULL;
}

static void *job(void *with)
{
    const size_t *layer = with;
    size_t figures[7];
    answer = wemsteky_job(layer, 0, 1, map, layer[4] * layer[5], kernel, layer[3] * layer[6] * layer[6], output,
                          layer[3] * layer[12] * layer[13], scratch, 12288, figures);
    return NULL;
}

static void *strip_job(void *with)
{
    const size_t *layer = with;
    size_t figures[7];
    answer = wemsteky_strip_job(layer, 0, 1, map, layer[4] * layer[5], kernel, layer[3] * layer[6] * layer[6], output,
                                layer[3] * layer[12] * layer[13], scratch, 768, figures);
    return NULL;
}

static void *preview(void *with)
{
    const size_t *layer = with;
    size_t figures[8];
    answer = wemsteky_preview(layer, 0, 1, map, layer[4] * layer[5], kernel, layer[3] * layer[6] * layer[6], output,
                              layer[3] * layer[12] * layer[13], scratch, 12288, figures);
    return NULL;
}

static void *strip_preview(void *with)
{
    const size_t *layer = with;
    size_t figures[8];
    answer = wemsteky_strip_preview(layer, 0, 1, map, layer[4] * layer[5], kernel, layer[3] * layer[6] * layer[6], output,
                                    layer[3] * layer[12] * layer[13], scratch, 768, figures);
    return NULL;
}

static void *pair(void *with)
{
    size_t field = *(size_t *)with, n = field == 4 ? 32 : 64;
    memset(words, 0, sizeof words);
    answer = wemsteky_transform(field, words, n) + wemsteky_inverse(field, words, n);
    return NULL;
}

static void *levels(void *with)
{
    answer = wemsteky_levels(1, 127, output, 100, map, 100);
    return with;
}

static void *noise(void *with)
{
    answer = wemsteky_noise(1, map, 100) == 0;
    return with;
}

static void *join(void *with)
{
    const size_t first[16] = {0, 4, 1, 2, 8, 8, 6, 1, 0, 1, 0, 0, 1, 1}, second[16] = {0, 4, 2, 2, 8, 8, 6, 1, 0, 1, 0, 0, 1, 1};
    memset(kernel, 0, sizeof kernel);
    answer = wemsteky_join(first, kernel, 72, second, kernel, 144, joined, 242);
    return with;
}

static void *worst_map(void *with)
{
    const size_t *layer = with;
    for (size_t i = 0; i < sizeof kernel / sizeof *kernel; i++) kernel[i] = -1;
    answer = wemsteky_worst_map(layer, kernel, layer[3] * layer[6] * layer[6], map, layer[4] * layer[5]);
    return NULL;
}

/* Two layers of one channel each, K 11 and then K 4. */
static void *sequence(void *with)
{
    size_t figures[4];
    answer = wemsteky_sequence(2, with, map, SIDE * SIDE, kernel, 121 + 16, work[0], SIDE * SIDE, work[1], SIDE * SIDE, output, SIDE * SIDE, scratch,
                               12288, grown, SIDE * SIDE, figures);
    return NULL;
}

/* The bytes of a painted stack that a routine touches. */
static size_t touched(void *(*routine)(void *), const void *with)
{
    unsigned char *stack = aligned_alloc(4096, STACK);
    pthread_attr_t attributes;
    pthread_t thread;
    size_t low = 0;
    memset(stack, 0xA5, STACK);
    pthread_attr_init(&attributes);
    pthread_attr_setstack(&attributes, stack, STACK);
    if (pthread_create(&thread, &attributes, routine, (void *)with) != 0) exit(1);
    pthread_join(thread, NULL);
    while (low < STACK && stack[low] == 0xA5) low++;
    free(stack);
    return STACK - low;
}

static void show(const char *name, void *(*routine)(void *), const void *with)
{
    size_t bytes = touched(routine, with), none = touched(nothing, NULL);
    printf("%-32s %6zu bytes, answer %zu\n", name, bytes > none ? bytes - none : 0, answer);
}

int main(void)
{
    const size_t four = 4, five = 5;
    const size_t conv[2][16] = {{0, 4, 1, 2, SIDE, SIDE, 11, 1, 5, 1, 0, 0, SIDE, SIDE}, {0, 5, 1, 2, SIDE, SIDE, 11, 1, 5, 1, 0, 0, SIDE, SIDE}};
    const size_t tconv[2][16] = {{1, 4, 1, 2, 16, 16, 4, 4, 0, 1, 0, 0, 64, 64}, {1, 5, 1, 2, 16, 16, 4, 4, 0, 1, 0, 0, 64, 64}};
    const size_t steps[2][144] = {
        {0, 4, 1, 1, SIDE, SIDE, 11, 1, 5, 1, 0, 0, SIDE, SIDE, 0, 0, 0, 1, 1, 4, 1, 1, SIDE, SIDE, 4, 4, 0, 1, 0, 0, SIDE, SIDE, 0, 0, 0, 1},
        {0, 5, 1, 1, SIDE, SIDE, 11, 1, 5, 1, 0, 0, SIDE, SIDE, 0, 0, 0, 1, 1, 5, 1, 1, SIDE, SIDE, 4, 4, 0, 1, 0, 0, SIDE, SIDE, 0, 0, 0, 1}};
    for (size_t i = 0; i < sizeof kernel / sizeof *kernel; i++) kernel[i] = 1; /* no blank channel */
    show("wemsteky_plan", plan, conv[0]);
    show("wemsteky_run, CONV, field 4", run, conv[0]);
    show("wemsteky_run, CONV, field 5", run, conv[1]);
    show("wemsteky_run, TCONV, field 4", run, tconv[0]);
    show("wemsteky_run, TCONV, field 5", run, tconv[1]);
    show("wemsteky_job, CONV, field 5", job, conv[1]);
    show("wemsteky_preview, CONV, field 5", preview, conv[1]);
    show("wemsteky_strip_run, CONV", strip_run, conv[0]);
    show("wemsteky_strip_run, TCONV", strip_run, tconv[0]);
    show("wemsteky_strip_job, CONV", strip_job, conv[0]);
    show("wemsteky_strip_preview, CONV", strip_preview, conv[0]);
    show("wemsteky_sequence, field 4", sequence, steps[0]);
    show("wemsteky_sequence, field 5", sequence, steps[1]);
    show("the transform pair, field 4", pair, &four);
    show("the transform pair, field 5", pair, &five);
    show("wemsteky_levels", levels, NULL);
    show("wemsteky_noise", noise, NULL);
    show("wemsteky_join", join, NULL);
    show("wemsteky_worst_map", worst_map, conv[0]);
    return 0;
}
