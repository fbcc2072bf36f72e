/* A filter chooses the rows 0, 3, 4, 5 and 7 of eight. A second one ran over these five. Prints the
 * filter that stands for both. */
#include "row_mask.h"

#include <stdio.h>

int main(void) {
    const uint8_t rows[] = {0xB9};
    const uint8_t ranks[] = {0x14};
    uint8_t both[1];
    size_t len = 8, ranks_len = 5, i;

    if (!row_mask_is_within(rows, sizeof rows, 0, len)
        || !row_mask_is_within(ranks, sizeof ranks, 0, ranks_len)
        || row_mask_count(rows, sizeof rows, 0, len) != ranks_len
        || row_mask_room(len) != sizeof both)
        return 1;
    row_mask_intersect_by_rank(
        rows, sizeof rows, 0, len, ranks, sizeof ranks, 0, ranks_len, both, sizeof both);
    for (i = 0; i < len; i++)
        putchar(row_mask_value(both, sizeof both, 0, len, i) ? '1' : '0');
    putchar('\n');
    return 0;
}
