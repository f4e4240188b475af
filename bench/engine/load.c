/* The example of rm_load in rm.h: a load of four symbols of 5 cells in two pieces, the second from the
 * last state of the first; and the two refusals, which leave the list. */
#include "rm.h"

#include <inttypes.h>
#include <stdio.h>
#include <stdlib.h>

enum { SYMBOLS = 4, PIECE = 2 };

static uint32_t list[SYMBOLS];

/* Makes one piece of a load, so many places from the place start on; prints the refusal where there is
 * one, all of the list and the last state, and returns that. */
static uint32_t show(size_t n, uint32_t seed, size_t start, size_t places)
{
    uint32_t last;
    uint8_t refusal = rm_load(n, seed, list + start, places, &last);
    printf("n %zu, seed %" PRIu32 ":", n, seed);
    if (refusal != 0)
        printf(" refused %" PRIu8 ",", refusal);
    printf(" list");
    for (size_t k = 0; k < SYMBOLS; k++)
        printf(" %" PRIu32, list[k]);
    printf(", last state %" PRIu32 "\n", last);
    return last;
}

int main(void)
{
    uint32_t last = show(5, 1, 0, PIECE);       /* 1 3 0 0, 67634689 */
    show(5, last, PIECE, SYMBOLS - PIECE);      /* 1 3 13 11, 307599695 */
    show(13, 1, 0, SYMBOLS);                    /* 1: n is not 3 to 12 */
    show(5, 0, 0, SYMBOLS);                     /* 21: the seed is 0 */
    return EXIT_SUCCESS;
}
