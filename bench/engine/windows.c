/* The example of rm_windows in rm.h: the numbers of the four windows of 3 cells along a run of 4, a
 * cell apart, and then of the two that are two cells apart; and the two refusals. */
#include "rm.h"

#include <inttypes.h>
#include <stdio.h>
#include <stdlib.h>

enum { CELLS = 4, WIDTH = 3 };

static const uint16_t levels[CELLS] = {5, 9, 5, 2};

/* Prints the numbers, or the refusal, of windows that are step cells apart, given so many places. */
static void show(size_t step, size_t places)
{
    uint32_t numbers[CELLS];
    uint16_t scratch[CELLS];
    uint8_t refusal = rm_windows(levels, CELLS, WIDTH, step, numbers, places, scratch, CELLS);
    printf("step %zu, %zu places:", step, places);
    if (refusal != 0) {
        printf(" refused %" PRIu8 "\n", refusal);
        return;
    }
    for (size_t k = 0; k < CELLS / step; k++)
        printf(" %" PRIu32, numbers[k]);
    printf("\n");
}

int main(void)
{
    show(1, CELLS); /* 3 0 4 5 */
    show(2, CELLS); /* 3 4 */
    show(3, CELLS); /* 13: 3 does not divide 4 */
    show(1, 3);     /* 15: four windows, three places */
    return EXIT_SUCCESS;
}
