/* A sequence of two layers, each followed by its levels, and one that is refused. */
#include <stdio.h>

#include "wemsteky.h"

#define SCRATCH WEMSTEKY_SCRATCH_4
static uint64_t scratch[SCRATCH];

/* A CONV layer from 3 by 3 to 2 by 2 and a TCONV layer on to 4 by 4, each followed by its levels; then the same with a bound that is not the next
 * layer's peak. */
int main(void)
{
    size_t steps[144] = {0, 4, 1, 1, 3, 3, 2, 1, 0, 9,  0, 0, 2, 2, 0, 0, 1, 38,  /* shift 1, bound 38 */
                         1, 4, 1, 1, 2, 2, 2, 2, 0, 38, 0, 0, 4, 4, 0, 0, 2, 30}; /* shift 2, bound 30 */
    const int16_t first[9] = {1, 2, 3, 4, 5, 6, 7, 8, 9}, kernels[8] = {1, 2, 3, 4, 1, 2, 3, 4};
    int16_t one[16], other[16], grown[16];
    int32_t sums[16];
    size_t figures[4], code = wemsteky_sequence(2, steps, first, 9, kernels, 8, one, 16, other, 16, sums, 16, scratch, SCRATCH, grown, 16, figures);
    printf("sequence %zu:", code);
    for (int i = 0; code == 0 && i < 16; i++) printf(" %d", grown[i]);
    steps[17] = 37;
    code = wemsteky_sequence(2, steps, first, 9, kernels, 8, one, 16, other, 16, sums, 16, scratch, SCRATCH, grown, 16, figures);
    printf(", refused %zu\n", code);
    return 0;
}
