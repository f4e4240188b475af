/* The printed example of the scope document: open 3, store 1, leak cell 3 by 1, scrub, read. */
#include "rm.h"

#include <stdio.h>
#include <stdlib.h>

static const uint8_t calls[] = {
    0, 0, 0, 0, 3, 0, 0, 0, /* open 3 */
    1, 0, 0, 0, 1, 0, 0, 0, /* store 1 */
    3, 3, 0, 0, 1, 0, 0, 0, /* leak cell 3 by 1 */
    2, 0, 0, 0, 0, 0, 0, 0, /* scrub */
    6, 0, 0, 0, 0, 0, 0, 0, /* read */
};

int main(void)
{
    size_t room = rm_room(sizeof calls);
    uint8_t *text = calloc(room, 1);
    if (text == NULL)
        return EXIT_FAILURE;
    size_t size = rm_run(calls, sizeof calls, text, room);
    size_t written = fwrite(text, 1, size, stdout);
    free(text);
    return size != 0 && written == size ? EXIT_SUCCESS : EXIT_FAILURE;
}
