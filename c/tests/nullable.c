/* Calls the functions of truth values that may be null beside Kleene's tables, written out for one value. Prints how many
 * pairs of values it tried. */
#define _GNU_SOURCE
#include "lists.h"

enum { FALSE, TRUE, NUL };

static int and_of(int a, int b) {
    return a == FALSE || b == FALSE ? FALSE : a == TRUE && b == TRUE ? TRUE : NUL;
}

static int or_of(int a, int b) {
    return a == TRUE || b == TRUE ? TRUE : a == FALSE && b == FALSE ? FALSE : NUL;
}

static int not_of(int a) {
    return a == NUL ? NUL : a == TRUE ? FALSE : TRUE;
}

/* A list of the three, and its two bitmaps: what the values hold at a null is random. A list that has no null may have
 * no bytes of a validity. */
typedef struct nullable {
    int list[LONGEST];
    bitmap values, validity;
    bool is_without;
} nullable;

/* Packs the list of a bitmap from a bit on, among random bits. */
static void pack(bitmap *made, room where, size_t offset, size_t len) {
    bool list[LONGEST];
    size_t i;

    memcpy(list, made->list, sizeof list);
    fill(made, where, offset, len, 128);
    memcpy(made->list, list, sizeof list);
    for (i = 0; i < len; i++) {
        size_t p = offset + i;
        unsigned others = made->bytes[p / 8] & ~(1u << (p % 8));
        made->bytes[p / 8] = (uint8_t)(others | (unsigned)list[i] << (p % 8));
    }
}

static void hold(nullable *made, room values, room validity, size_t offset, size_t validity_offset, size_t len) {
    bool some = false;
    size_t i;

    for (i = 0; i < len; i++) {
        made->values.list[i] = made->list[i] == NUL ? random_word() % 2 : made->list[i] == TRUE;
        made->validity.list[i] = made->list[i] != NUL;
        some = some || made->list[i] == NUL;
    }
    pack(&made->values, values, offset, len);
    pack(&made->validity, validity, validity_offset, len);
    made->is_without = !some && random_word() % 2;
    if (made->is_without) {
        made->validity.bytes = NULL;
        made->validity.size = 0;
    }
}

static void same_list(const room *where, uint8_t *const *out, size_t len, const int *want, const char *what) {
    bool values[LONGEST], validity[LONGEST];
    size_t i;

    for (i = 0; i < len; i++) {
        values[i] = want[i] == TRUE;
        validity[i] = want[i] != NUL;
    }
    same_written(where[0], out[0], len, values, what);
    same_written(where[1], out[1], len, validity, what);
}

typedef void kleene(
    const uint8_t *, size_t, size_t, const uint8_t *, size_t, size_t, const uint8_t *, size_t, size_t, const uint8_t *,
    size_t, size_t, size_t, uint8_t *, size_t, uint8_t *, size_t);

/* What is written stands in each way in turn, the values in another one than the validity. */
static void combines(const nullable *a, const nullable *b, const room *where, size_t len) {
    static int turn = 0;
    kleene *const calls[] = {row_mask_and_kleene, row_mask_or_kleene};
    int (*const tables[])(int, int) = {and_of, or_of}, want[LONGEST], place = turn++ % PLACES;
    const int other = (place + 1) % PLACES;
    uint8_t *out[2];
    size_t i, call, size = size_at(place, len), validity_size = size_at(other, len);

    for (call = 0; call < 2; call++) {
        for (i = 0; i < len; i++)
            want[i] = tables[call](a->list[i], b->list[i]);
        out[0] = marked(where[0], place, size);
        out[1] = marked(where[1], other, validity_size);
        calls[call](
            BYTES(&a->values), BYTES(&a->validity), BYTES(&b->values), BYTES(&b->validity), len, out[0], size, out[1],
            validity_size);
        same_list(where, out, len, want, call == 0 ? "and_kleene" : "or_kleene");
    }
    if (a->is_without)
        return;
    /* the others, by calls on bitmaps, as the header says */
    for (i = 0; i < len; i++)
        want[i] = not_of(a->list[i]);
    out[0] = marked(where[0], place, size);
    out[1] = marked(where[1], other, validity_size);
    row_mask_and_not(BYTES(&a->validity), BYTES(&a->values), len, out[0], size);
    row_mask_copy(BYTES(&a->validity), len, out[1], validity_size);
    same_list(where, out, len, want, "not");
    row_mask_and(BYTES(&a->values), BYTES(&a->validity), len, out[0], size);
    row_mask_or_not(BYTES(&a->values), BYTES(&a->validity), len, out[1], validity_size);
    for (i = 0; i < len; i++) {
        same(out[0][i / 8] >> (i % 8) & 1, a->list[i] == TRUE, "is true");
        same(out[1][i / 8] >> (i % 8) & 1, a->list[i] != FALSE, "is not false");
    }
}

int main(void) {
    const unsigned shares[] = {0, 3, 128, 256};
    room of_a[2], of_b[2], out[2];
    size_t len, at, i, pairs = 0;
    nullable a, b;

    for (i = 0; i < 2; i++) {
        of_a[i] = new_room();
        of_b[i] = new_room();
        out[i] = new_room();
    }
    /* the nine pairs, at each length and at each offset of the four bitmaps */
    for (len = 0; len <= LONGEST; len++)
        for (at = 0; at < 64; at++) {
            size_t one = at % 8, other = at / 8;
            for (i = 0; i < len; i++) {
                a.list[i] = (int)((i + at) % 3);
                b.list[i] = (int)((i + at) / 3 % 3);
            }
            hold(&a, of_a[0], of_a[1], one, (one + other) % 8, len);
            hold(&b, of_b[0], of_b[1], other, (one + 3 * other) % 8, len);
            combines(&a, &b, out, len);
            pairs += len;
        }
    /* with few nulls or many, or none and then often no validity */
    for (at = 0; at < 1000000; at += len) {
        unsigned nulls[2], trues[2];
        len = random_below(LONGEST + 1);
        for (i = 0; i < 2; i++) {
            nulls[i] = shares[random_below(4)];
            trues[i] = shares[random_below(4)];
        }
        for (i = 0; i < len; i++) {
            a.list[i] = random_word() % 256 < nulls[0] ? NUL : random_word() % 256 < trues[0];
            b.list[i] = random_word() % 256 < nulls[1] ? NUL : random_word() % 256 < trues[1];
        }
        hold(&a, of_a[0], of_a[1], random_below(70), random_below(70), len);
        hold(&b, of_b[0], of_b[1], random_below(70), random_below(70), len);
        combines(&a, &b, out, len);
        pairs += len;
    }
    printf("%zu pairs of values that may be null\n", pairs);
    return 0;
}
