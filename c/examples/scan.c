/* A scan: three tests over the columns of a table, the second and third only where rows are left, and then what the rows that
 * are left cost. Prints how many these are and the sum, and fails where a plain loop finds others. */
#include "row_mask.h"

#include <stdio.h>

enum { ROWS = 10000 };

static uint64_t costs[ROWS], chosen[ROWS];
static int32_t amounts[ROWS];
static double discounts[ROWS];
static uint8_t kept[(ROWS + 7) / 8];

static void make_columns(void) {
    uint64_t state = 1;
    size_t i;

    for (i = 0; i < ROWS; i++) {
        state = state * 6364136223846793005u + 1442695040888963407u;
        costs[i] = (state >> 33) % 1000;
        amounts[i] = (int32_t)((state >> 43) % 100);
        discounts[i] = (double)((state >> 53) % 8) / 8;
    }
}

int main(void) {
    size_t count, i, plain_count = 0;
    uint64_t sum = 0, plain_sum = 0;

    make_columns();
    ROW_MASK_FROM_ROWS(kept, ROWS, row, costs[row] < 400);
    ROW_MASK_RETAIN_ROWS(kept, ROWS, row, amounts[row] > 20);
    ROW_MASK_RETAIN_ROWS(kept, ROWS, row, discounts[row] == 0.25);
    count = row_mask_choose_8(kept, sizeof kept, 0, ROWS, costs, ROWS, chosen, ROWS);
    for (i = 0; i < count; i++)
        sum += chosen[i];

    for (i = 0; i < ROWS; i++)
        if (costs[i] < 400 && amounts[i] > 20 && discounts[i] == 0.25) {
            plain_count++;
            plain_sum += costs[i];
        }
    if (count != plain_count || sum != plain_sum)
        return 1;
    printf("%zu of %d rows cost %llu\n", count, ROWS, (unsigned long long)sum);
    return 0;
}
