/* Calls each function beside a plain loop, on lists whose bytes, rows and room end at pages that may not be touched.
 * Prints how many answers it compared. */
#define _GNU_SOURCE
#include "lists.h"

static size_t count_to(const bitmap *b, size_t end) {
    size_t i, count = 0;

    for (i = 0; i < end; i++)
        count += b->list[i];
    return count;
}

static size_t next_in(const bitmap *b, size_t from, bool value) {
    while (from < b->len && b->list[from] != value)
        from++;
    return from;
}

#define HOLDS(out, len, list)                                              \
    for (i = 0; i < len; i++)                                              \
        out[i / 8] = (uint8_t)((out[i / 8] & ~(1u << (i % 8))) | (unsigned)list[i] << (i % 8));

#define CHANGES(where, len, list, want, call, ...)                         \
    for (place = 0; place < PLACES; place++) {                             \
        uint8_t *out = marked(where, place, size_at(place, len));          \
        HOLDS(out, len, list)                                              \
        call(out, size_at(place, len), __VA_ARGS__);                       \
        same_written(where, out, len, want, #call);                        \
    }

static void reads(const bitmap *b) {
    size_t from, last = b->len, n = 0;
    row_mask_run past;

    same(row_mask_is_within(WHOLE(b)), true, "is_within");
    same(row_mask_is_within(b->bytes, b->size, b->offset, 8 * b->size - b->offset + 1), false, "is_within");
    same(row_mask_count(WHOLE(b)), count_to(b, b->len), "count");
    same(row_mask_next_index(WHOLE(b), SIZE_MAX), b->len, "next_index");
    same(row_mask_next_index(WHOLE(b), b->len + 1), b->len, "next_index");
    same(row_mask_next_run(WHOLE(b), b->len + 1).start, b->len, "next_run");
    same(row_mask_next_run(WHOLE(b), b->len + 1).end, b->len, "next_run");
    same(row_mask_next_indices(WHOLE(b), b->len + 1, &last, 1), 0, "next_indices");
    same(row_mask_next_runs(WHOLE(b), b->len + 1, &past, 1), 0, "next_runs");
    for (from = 0; from <= b->len; from++) {
        size_t start = next_in(b, from, true);
        row_mask_run run = row_mask_next_run(WHOLE(b), from);
        same(row_mask_next_index(WHOLE(b), from), start, "next_index");
        same(run.start, start, "next_run");
        same(run.end, next_in(b, start, false), "next_run");
        same(row_mask_count_range(WHOLE(b), 0, from), count_to(b, from), "count_range");
        if (from == b->len)
            continue;
        same(row_mask_value(WHOLE(b), from), b->list[from], "value");
        if (b->list[from]) {
            same(row_mask_select(WHOLE(b), n++), from, "select");
            last = from;
        }
    }
    same(row_mask_select(WHOLE(b), n), b->len, "select");
    same(row_mask_last_index(WHOLE(b)), last, "last_index");
}

static void counts(const bitmap *b, room indices_room, room out_room) {
    size_t *indices, *out, i, many = b->len / 3 + 1;
    int place;

    indices = (size_t *)(void *)indices_room.end - many;
    for (i = 0; i < many; i++)
        indices[i] = i + 1 == many ? b->len : 2 * i;
    for (place = FIRST; place <= LAST; place++) {
        out = (size_t *)(void *)marked(out_room, place, many * sizeof *out);
        row_mask_counts_below(WHOLE(b), indices, many, out, many);
        for (i = 0; i < many; i++)
            same(out[i], count_to(b, indices[i]), "counts_below");
    }
}

static void walks(const bitmap *b, room out_room) {
    size_t sizes[] = {0, 1, 9, 64, 300}, i, from, room, found;

    for (i = 0; i < sizeof sizes / sizeof *sizes; i++)
        for (from = 0; from <= b->len; from += 1 + b->len / 3) {
            size_t *out = (size_t *)(void *)marked(out_room, from % 2 ? FIRST : LAST, sizes[i] * sizeof *out);
            size_t at = from;
            found = row_mask_next_indices(WHOLE(b), from, out, sizes[i]);
            for (room = 0; room < found; room++) {
                at = next_in(b, at, true);
                same(out[room], at++, "next_indices");
            }
            same(found == sizes[i] || next_in(b, at, true) == b->len, true, "next_indices");
        }
}

static void walks_4(const bitmap *b, room out_room) {
    size_t sizes[] = {0, 1, 9, 64, 300}, i, from, room, found;

    for (i = 0; i < sizeof sizes / sizeof *sizes; i++)
        for (from = 0; from <= b->len; from += 1 + b->len / 3) {
            uint32_t *out = (uint32_t *)(void *)marked(out_room, from % 2 ? FIRST : LAST, sizes[i] * sizeof *out);
            size_t at = from;
            found = row_mask_next_indices_4(WHOLE(b), from, out, sizes[i]);
            for (room = 0; room < found; room++) {
                at = next_in(b, at, true);
                same(out[room], at++, "next_indices_4");
            }
            same(found == sizes[i] || next_in(b, at, true) == b->len, true, "next_indices_4");
        }
}

static void walks_runs(const bitmap *b, room out_room) {
    size_t sizes[] = {0, 1, 9, 64, 200}, i, from, room, found;

    for (i = 0; i < sizeof sizes / sizeof *sizes; i++)
        for (from = 0; from <= b->len; from += 1 + b->len / 3) {
            row_mask_run *out = (row_mask_run *)(void *)marked(out_room, from % 2 ? FIRST : LAST, sizes[i] * sizeof *out);
            size_t at = from;
            found = row_mask_next_runs(WHOLE(b), from, out, sizes[i]);
            for (room = 0; room < found; room++) {
                at = next_in(b, at, true);
                same(out[room].start, at, "next_runs");
                at = next_in(b, at, false);
                same(out[room].end, at, "next_runs");
            }
            same(found == sizes[i] || next_in(b, at, true) == b->len, true, "next_runs");
        }
}

static void combines(const bitmap *a, const bitmap *b, room where) {
    size_t i, len = a->len;
    bool and[LONGEST], or[LONGEST], and_not[LONGEST], or_not[LONGEST], xor[LONGEST], not[LONGEST],
        equal = true;
    size_t both = 0, first_alone = 0;
    int place;

    for (i = 0; i < len; i++) {
        and[i] = a->list[i] && b->list[i];
        or[i] = a->list[i] || b->list[i];
        and_not[i] = a->list[i] && !b->list[i];
        or_not[i] = a->list[i] || !b->list[i];
        xor[i] = a->list[i] != b->list[i];
        not[i] = !a->list[i];
        equal = equal && a->list[i] == b->list[i];
        both += and[i];
        first_alone += and_not[i];
    }
    WRITES(where, len, and, row_mask_and, BYTES(a), BYTES(b), len)
    WRITES(where, len, or, row_mask_or, BYTES(a), BYTES(b), len)
    WRITES(where, len, and_not, row_mask_and_not, BYTES(a), BYTES(b), len)
    WRITES(where, len, or_not, row_mask_or_not, BYTES(a), BYTES(b), len)
    WRITES(where, len, xor, row_mask_xor, BYTES(a), BYTES(b), len)
    WRITES(where, len, not, row_mask_not, WHOLE(a))
    CHANGES(where, len, a->list, and, row_mask_and_in_place, BYTES(b), len)
    CHANGES(where, len, a->list, or, row_mask_or_in_place, BYTES(b), len)
    CHANGES(where, len, a->list, and_not, row_mask_and_not_in_place, BYTES(b), len)
    CHANGES(where, len, a->list, xor, row_mask_xor_in_place, BYTES(b), len)
    CHANGES(where, len, a->list, not, row_mask_not_in_place, len)
    WRITES(where, len, a->list, row_mask_copy, WHOLE(a))
    same(row_mask_equal(BYTES(a), where.start, row_mask_room(len), 0, len), true, "equal");
    same(row_mask_equal(BYTES(a), BYTES(b), len), equal, "equal");
    same(row_mask_and_count(BYTES(a), BYTES(b), len), both, "and_count");
    same(row_mask_intersects(BYTES(a), BYTES(b), len), both > 0, "intersects");
    same(row_mask_is_subset(BYTES(a), BYTES(b), len), first_alone == 0, "is_subset");
    row_mask_and_not(BYTES(a), BYTES(b), len, where.start, row_mask_room(len));
    same(row_mask_intersects(where.start, row_mask_room(len), 0, BYTES(b), len), false, "intersects");
    same(row_mask_is_subset(where.start, row_mask_room(len), 0, BYTES(a), len), true, "is_subset");
}

/* The values of one bitmap behind those of another. */
static void appends(const bitmap *a, const bitmap *b, room where) {
    size_t i, len = a->len + b->len;
    bool want[2 * LONGEST];
    int place;

    for (i = 0; i < len; i++)
        want[i] = i < a->len ? a->list[i] : b->list[i - a->len];
    for (place = 0; place < PLACES; place++) {
        uint8_t *out = marked(where, place, size_at(place, len));
        for (i = 0; i < a->len; i++)
            out[i / 8] = (uint8_t)((out[i / 8] & ~(1u << (i % 8))) | (unsigned)want[i] << (i % 8));
        row_mask_append(out, size_at(place, len), a->len, WHOLE(b));
        same_written(where, out, len, want, "append");
    }
}

/* The values of a bitmap at a place within marked bytes, and all other bits as they were. */
static void writes_at(const bitmap *b, room where) {
    size_t start, p, size = b->len / 8 + 3;

    for (start = 0; start + b->len <= 8 * size; start += 3) {
        uint8_t *out = marked(where, start % 2 ? FIRST : LAST, size), *it;
        row_mask_write_at(out, size, start, WHOLE(b));
        for (p = 0; p < 8 * size; p++)
            same((size_t)(out[p / 8] >> (p % 8) & 1),
                 p >= start && p < start + b->len ? b->list[p - start] : (size_t)(MARK >> (p % 8) & 1), "write_at");
        for (it = where.start; it < where.end; it++)
            if (*it != MARK && (it < out || it >= out + size))
                same(*it, MARK, "write_at");
    }
}

/* Word i of a bitmap, with zeros past its last value. */
static uint64_t word_in(const bitmap *b, size_t i) {
    uint64_t word = 0;
    size_t j;

    for (j = 0; j < 64 && 64 * i + j < b->len; j++)
        word |= (uint64_t)b->list[64 * i + j] << j;
    return word;
}

/* The words from each one on, into room of several sizes. What is behind them stays. */
static void words(const bitmap *b, room out_room) {
    size_t all = (b->len + 63) / 64, from, room, i;
    uint64_t mark;

    memset(&mark, MARK, sizeof mark);
    for (from = 0; from <= all + 1; from++)
        for (room = 0; room <= all + 1; room++) {
            size_t left = from < all ? all - from : 0, found;
            uint64_t *out = (uint64_t *)(void *)marked(out_room, from % 2 ? FIRST : LAST, room * sizeof *out);
            found = row_mask_words(WHOLE(b), from, out, room);
            same(found, left < room ? left : room, "words");
            for (i = 0; i < room; i++)
                same(out[i], i < found ? word_in(b, from + i) : mark, "words");
        }
}

static void from_bools(const bitmap *b, room bools_room, room where) {
    bool *values = (bool *)(void *)bools_room.end - b->len;
    size_t i;
    int place;

    for (i = 0; i < b->len; i++)
        values[i] = b->list[i];
    WRITES(where, b->len, b->list, row_mask_from_bools, values, b->len)
}

/* The values of one bitmap that are true among those of a list too. */
static void and_bools(const bitmap *a, const bitmap *b, room bools_room, room where) {
    bool *values = (bool *)(void *)bools_room.end - b->len, want[LONGEST];
    size_t i;
    int place;

    for (i = 0; i < b->len; i++) {
        values[i] = b->list[i];
        want[i] = a->list[i] && b->list[i];
    }
    CHANGES(where, b->len, a->list, want, row_mask_and_bools_in_place, values, b->len)
}

/* The rows below a limit, by the loops of the header. Of 64 rows before that none, a few or all are left. */
enum { MOST_ROWS = 1700 };

#define ASKS(name, type, most)                                                      \
    static void name(size_t len, unsigned limit, room rows_room, room where) {      \
        bool below[MOST_ROWS], left[MOST_ROWS], both[MOST_ROWS];                    \
        type *rows;                                                                 \
        size_t i;                                                                   \
        int place;                                                                  \
        if (len > most)                                                             \
            return;                                                                 \
        rows = (type *)(void *)rows_room.end - len;                                 \
        for (i = 0; i < len; i++) {                                                 \
            rows[i] = (type)random_below(100);                                      \
            below[i] = rows[i] < (type)limit;                                       \
            left[i] = random_below(100) < (i / 64 % 3 == 0 ? limit : i / 64 % 3 == 1 ? 0 : 5); \
            both[i] = left[i] && below[i];                                          \
        }                                                                           \
        for (place = 0; place < PLACES; place++) {                                  \
            uint8_t *out = marked(where, place, size_at(place, len));               \
            ROW_MASK_FROM_ROWS(out, len, row, rows[row] < (type)limit);             \
            same_written(where, out, len, below, "FROM_ROWS of " #type);            \
            out = marked(where, place, size_at(place, len));                        \
            HOLDS(out, len, left)                                                   \
            ROW_MASK_RETAIN_ROWS(out, len, row, rows[row] < (type)limit);           \
            same_written(where, out, len, both, "RETAIN_ROWS of " #type);           \
        }                                                                           \
    }

ASKS(asks_1, int8_t, MOST_ROWS)
ASKS(asks_2, uint16_t, MOST_ROWS)
ASKS(asks_4, int32_t, 1000)
ASKS(asks_8, int64_t, 500)
ASKS(asks_floats, float, 1000)
ASKS(asks_doubles, double, 500)

/* Which rows are asked: all in their order, or those of 64 where one is left. What else is passed is computed once. */
typedef struct asked {
    size_t rows[MOST_ROWS], count;
} asked;

static bool ask(asked *it, size_t row) {
    it->rows[it->count++] = row;
    return row % 3 == 0;
}

static void asks_once(size_t len, room where) {
    size_t size = (len + 7) / 8, computed = 0, asked_now, i, word;
    uint8_t *out = marked(where, LAST, size);
    static bool all[MOST_ROWS], third[MOST_ROWS], fifth[MOST_ROWS];
    static asked it;

    for (i = 0; i < len; i++) {
        all[i] = true;
        third[i] = i % 3 == 0;
        fifth[i] = i % 15 == 0 && i / 64 % 2 == 0;
    }
    it.count = 0;
    ROW_MASK_FROM_ROWS((computed++, out), (computed++, len), row, ask(&it, row));
    same(it.count, len, "FROM_ROWS");
    for (i = 0; i < len; i++)
        same(it.rows[i], i, "FROM_ROWS");
    same_written(where, out, len, third, "FROM_ROWS");
    for (word = 1; 64 * word < len; word += 2)
        memset(out + 8 * word, 0, size - 8 * word < 8 ? size - 8 * word : 8);
    for (i = 0; i < len; i++)
        if (i % 5 != 0)
            out[i / 8] &= (uint8_t)~(1u << (i % 8));
    it.count = 0;
    ROW_MASK_RETAIN_ROWS((computed++, out), (computed++, len), row, ask(&it, row));
    for (word = 0, asked_now = 0; 64 * word < len; word++) {
        bool any = false;
        for (i = 64 * word; i < len && i < 64 * word + 64; i++)
            any = any || fifth[i];
        for (i = 64 * word; any && i < len && i < 64 * word + 64; i++)
            same(it.rows[asked_now++], i, "RETAIN_ROWS");
    }
    same(it.count, asked_now, "RETAIN_ROWS");
    same_written(where, out, len, fifth, "RETAIN_ROWS");
    same(computed, 4, "FROM_ROWS and RETAIN_ROWS");
    ROW_MASK_FROM_ROWS(out, len, row, 2);
    same_written(where, out, len, all, "FROM_ROWS");
    ROW_MASK_RETAIN_ROWS(out, len, row, third[row] && !fifth[row]);
    for (i = 0; i < len; i++)
        third[i] = third[i] && !fifth[i];
    same_written(where, out, len, third, "RETAIN_ROWS");
}

/* The bitmap of its own indices, backwards and the first of them twice. */
#define FROM_INDICES(name, index, call)                                             \
    static void name(const bitmap *b, room indices_room, room where) {              \
        size_t i, count = count_to(b, b->len), many = count + (count > 0), at = 0;  \
        index *indices = (index *)(void *)indices_room.end - many;                  \
        int place;                                                                  \
        if (count > 0)                                                              \
            indices[at++] = (index)next_in(b, 0, true);                             \
        for (i = b->len; i-- > 0;)                                                  \
            if (b->list[i])                                                         \
                indices[at++] = (index)i;                                           \
        WRITES(where, b->len, b->list, call, indices, many, b->len)                 \
    }

FROM_INDICES(from_indices, size_t, row_mask_from_indices)
FROM_INDICES(from_indices_4, uint32_t, row_mask_from_indices_4)

/* The values at indices that go back and forth. */
#define TAKES_BITS(name, index, call)                                               \
    static void name(const bitmap *b, room indices_room, room where) {              \
        size_t i, many = b->len ? b->len / 2 + 3 : 0;                               \
        index *indices = (index *)(void *)indices_room.end - many;                  \
        bool want[512];                                                             \
        int place;                                                                  \
        for (i = 0; i < many; i++) {                                                \
            indices[i] = (index)random_below(b->len);                               \
            want[i] = b->list[indices[i]];                                          \
        }                                                                           \
        WRITES(where, many, want, call, WHOLE(b), indices, many)                    \
    }

TAKES_BITS(take_bits, size_t, row_mask_take_bits)
TAKES_BITS(take_bits_by_4, uint32_t, row_mask_take_bits_by_4)

/* A range of bits of one value, and all others as they were. */
static void fills(room where, size_t size) {
    size_t start, end, p;

    for (start = 0; start <= 8 * size; start += 1 + size / 4)
        for (end = start; end <= 8 * size; end += 1 + size / 2) {
            uint8_t *out = marked(where, end % 2 ? FIRST : LAST, size), *it;
            row_mask_fill_range(out, size, start, end, start % 2);
            for (p = 0; p < 8 * size; p++)
                same((size_t)(out[p / 8] >> (p % 8) & 1),
                     p >= start && p < end ? start % 2 : (size_t)(MARK >> (p % 8) & 1), "fill_range");
            for (it = where.start; it < where.end; it++)
                if (*it != MARK && (it < out || it >= out + size))
                    same(*it, MARK, "fill_range");
        }
}

/* The words in blocks, and beside each the bits of the ranks from its place on. */
static void rank_words(const bitmap *a, const bitmap *ranks, room words_room, room sources_room) {
    size_t all = (a->len + 63) / 64, block, i, k;

    for (block = 1; block <= 3; block++) {
        size_t from = 0, at = 0, count;
        for (; from < all; from += count) {
            uint64_t *words, *sources;
            count = all - from < block ? all - from : block;
            words = (uint64_t *)(void *)marked(words_room, block % 2 ? FIRST : LAST, count * sizeof *words);
            sources = (uint64_t *)(void *)marked(sources_room, block % 2 ? LAST : FIRST, count * sizeof *sources);
            at = row_mask_rank_words(WHOLE(a), WHOLE(ranks), from, at, words, count, sources, count);
            for (i = 0; i < count; i++) {
                uint64_t source = 0;
                size_t first = ranks->offset + count_to(a, 64 * (from + i));
                for (k = 0; k < 64 && first + k < 8 * ranks->size; k++)
                    source |= (uint64_t)(ranks->bytes[(first + k) / 8] >> ((first + k) % 8) & 1) << k;
                same(words[i], word_in(a, from + i), "rank_words");
                same(sources[i], source, "rank_words");
            }
            same(at, count_to(a, 64 * (from + count) < a->len ? 64 * (from + count) : a->len), "rank_words");
        }
    }
}

static void narrows(const bitmap *a, room ranks_room, room list_room, room where) {
    size_t i, k = 0, many = 0;
    size_t *list;
    bitmap ranks;
    bool want[LONGEST];
    int place;

    fill(&ranks, ranks_room, random_below(16), count_to(a, a->len), 100);
    list = (size_t *)(void *)list_room.end - count_to(&ranks, ranks.len);
    for (i = 0; i < ranks.len; i++)
        if (ranks.list[i])
            list[many++] = i;
    for (i = 0; i < a->len; i++)
        want[i] = a->list[i] && ranks.list[k++];
    WRITES(where, a->len, want, row_mask_intersect_by_rank, WHOLE(a), WHOLE(&ranks))
    WRITES(where, a->len, want, row_mask_intersect_by_pdep, WHOLE(a), WHOLE(&ranks))
    WRITES(where, a->len, want, row_mask_intersect_at_ranks, WHOLE(a), list, many)
    rank_words(a, &ranks, list_room, where);
}

/* The values of one bitmap at the true values of another. */
static void chooses_bits(const bitmap *a, const bitmap *b, room where) {
    size_t i, count = count_to(a, a->len), k = 0;
    bool want[LONGEST];
    int place;

    for (i = 0; i < a->len; i++)
        if (a->list[i])
            want[k++] = b->list[i];
    for (place = 0; place < PLACES; place++) {
        size_t size = size_at(place, count);
        uint8_t *out = marked(where, place, size);
        same(row_mask_choose_bits(WHOLE(a), BYTES(b), out, size), count, "choose_bits");
        same_written(where, out, count, want, "choose_bits");
        out = marked(where, place, size);
        same(row_mask_choose_bits_by_pext(WHOLE(a), BYTES(b), out, size), count, "choose_bits_by_pext");
        same_written(where, out, count, want, "choose_bits_by_pext");
    }
}

/* Bitmaps of some blocks of words, where the calls by instructions answer as those of the library. */
static void blocks(room first, room second, room where) {
    const size_t lengths[] = {4095, 4096, 4097, 8191, 8192, 8193, 20000};
    const unsigned shares[] = {0, 12, 128, 244, 256};
    size_t i, p, share;

    for (i = 0; i < sizeof lengths / sizeof *lengths; i++)
        for (share = 0; share < sizeof shares / sizeof *shares; share++) {
            size_t len = lengths[i], offset = random_below(16), size = (offset + len + 7) / 8, count;
            uint8_t *bytes = first.end - size, *values = second.end - size, *out, made[2600];
            for (p = 0; p < 8 * size; p++) {
                bytes[p / 8] = (uint8_t)(bytes[p / 8] >> 1 | (random_word() % 256 < shares[share] ? 128 : 0));
                values[p / 8] = (uint8_t)random_word();
            }
            count = row_mask_choose_bits(bytes, size, offset, len, values, size, offset, made, sizeof made);
            out = marked(where, LAST, (count + 7) / 8);
            same(row_mask_choose_bits_by_pext(bytes, size, offset, len, values, size, offset, out, (count + 7) / 8),
                 count, "choose_bits_by_pext");
            same(count > 0 && memcmp(out, made, (count + 7) / 8) != 0, 0, "choose_bits_by_pext");
            row_mask_intersect_by_rank(bytes, size, offset, len, values, size, offset, count, made, sizeof made);
            out = marked(where, LAST, (len + 7) / 8);
            row_mask_intersect_by_pdep(
                bytes, size, offset, len, values, size, offset, count, out, (len + 7) / 8);
            same((size_t)memcmp(out, made, (len + 7) / 8), 0, "intersect_by_pdep");
        }
}

/* Rows whose bytes tell their index, and the same for each size of a row. */
#define CHOOSES(name, type, call)                                                   \
    static void name(const bitmap *b, room rows_room, room out_room) {              \
        size_t i, count = count_to(b, b->len);                                      \
        type *rows = (type *)(void *)rows_room.end - b->len;                        \
        int place;                                                                  \
        for (i = 0; i < b->len; i++)                                                \
            memset(&rows[i], (int)i, sizeof rows[i]);                               \
        for (place = FIRST; place <= LAST; place++) {                               \
            type *out = (type *)(void *)marked(out_room, place, count * sizeof *out); \
            size_t k = 0;                                                           \
            same(call(WHOLE(b), rows, b->len, out, count), count, #call);           \
            for (i = 0; i < b->len; i++)                                            \
                if (b->list[i])                                                     \
                    same((size_t)memcmp(&out[k++], &rows[i], sizeof rows[i]), 0, #call); \
        }                                                                           \
    }

CHOOSES(choose_1, uint8_t, row_mask_choose_1)
CHOOSES(choose_2, uint16_t, row_mask_choose_2)
CHOOSES(choose_4, uint32_t, row_mask_choose_4)
CHOOSES(choose_8, uint64_t, row_mask_choose_8)
CHOOSES(choose_16, row_mask_16, row_mask_choose_16)

/* Rows at indices that go back and forth, and what is behind them as it was. */
#define TAKES(name, type, index, call)                                              \
    static void name(size_t len, room indices_room, room rows_room, room out_room) { \
        size_t i, many = len ? len / 2 + 3 : 0;                                     \
        index *indices = (index *)(void *)indices_room.end - many;                  \
        type *rows = (type *)(void *)rows_room.end - len, mark;                     \
        int place;                                                                  \
        memset(&mark, MARK, sizeof mark);                                           \
        for (i = 0; i < len; i++)                                                   \
            memset(&rows[i], (int)i, sizeof rows[i]);                               \
        for (i = 0; i < many; i++)                                                  \
            indices[i] = (index)random_below(len);                                  \
        for (place = FIRST; place <= LAST; place++) {                               \
            type *out = (type *)(void *)marked(out_room, place, (many + 1) * sizeof *out); \
            call(indices, many, rows, len, out, many + 1);                          \
            for (i = 0; i < many; i++)                                              \
                same((size_t)memcmp(&out[i], &rows[indices[i]], sizeof rows[i]), 0, #call); \
            same((size_t)memcmp(&out[many], &mark, sizeof mark), 0, #call);         \
        }                                                                           \
    }

TAKES(take_1, uint8_t, size_t, row_mask_take_1)
TAKES(take_2, uint16_t, size_t, row_mask_take_2)
TAKES(take_4, uint32_t, size_t, row_mask_take_4)
TAKES(take_8, uint64_t, size_t, row_mask_take_8)
TAKES(take_16, row_mask_16, size_t, row_mask_take_16)
TAKES(take_1_by_4, uint8_t, uint32_t, row_mask_take_1_by_4)
TAKES(take_2_by_4, uint16_t, uint32_t, row_mask_take_2_by_4)
TAKES(take_4_by_4, uint32_t, uint32_t, row_mask_take_4_by_4)
TAKES(take_8_by_4, uint64_t, uint32_t, row_mask_take_8_by_4)
TAKES(take_16_by_4, row_mask_16, uint32_t, row_mask_take_16_by_4)

/* Strings of few bytes that tell their index, at true values and at indices that go back and forth. The longest are of
   1 to 40 bytes, by the call, as far as all fit a page. */
#define STRINGS(name, type, choose_offsets, choose_bytes, take_offsets, take_bytes)  \
    static void name(const bitmap *b, room offsets_room, room bytes_room, room out_room) { \
        type *offsets = (type *)(void *)offsets_room.end - (b->len + 1), mark;      \
        size_t indices[LONGEST], many = 0, i, k, size, at;                          \
        size_t below = 2 + random_below(b->len <= 100 ? 40 : 19);                   \
        uint8_t *string_bytes;                                                      \
        int place, taken;                                                           \
        memset(&mark, MARK, sizeof mark);                                           \
        for (i = 0, offsets[0] = 0; i < b->len; i++)                                \
            offsets[i + 1] = (type)(offsets[i] + random_below(below));              \
        string_bytes = bytes_room.end - offsets[b->len];                            \
        for (i = 0; i < b->len; i++)                                                \
            memset(string_bytes + offsets[i], (int)(i + 1), (size_t)(offsets[i + 1] - offsets[i])); \
        for (taken = 0; taken < 2; taken++) {                                       \
            if (taken)                                                              \
                for (i = 0, many = b->len / 2; i < many; i++)                       \
                    indices[i] = random_below(b->len);                              \
            else                                                                    \
                for (i = 0; i < b->len; i++)                                        \
                    if (b->list[i])                                                 \
                        indices[many++] = i;                                        \
            for (k = 0, size = 0; k < many; k++)                                    \
                size += (size_t)(offsets[indices[k] + 1] - offsets[indices[k]]);    \
            for (place = FIRST; place <= LAST; place++) {                           \
                type *ends = (type *)(void *)marked(out_room, place, (many + 2) * sizeof *ends); \
                uint8_t *out, *it;                                                  \
                same(taken ? take_offsets(indices, many, offsets, b->len + 1, ends, many + 2) \
                           : choose_offsets(WHOLE(b), offsets, b->len + 1, ends, many + 2), \
                     size, #name);                                                  \
                for (k = 0, at = 0; k <= many; k++) {                               \
                    same((size_t)ends[k], at, #choose_offsets);                     \
                    at += k < many ? (size_t)(offsets[indices[k] + 1] - offsets[indices[k]]) : 0; \
                }                                                                   \
                same((size_t)memcmp(&ends[many + 1], &mark, sizeof mark), 0, #choose_offsets); \
                out = marked(out_room, place, size);                                \
                same(taken ? take_bytes(indices, many, offsets, b->len + 1, string_bytes, offsets[b->len], out, size) \
                           : choose_bytes(WHOLE(b), offsets, b->len + 1, string_bytes, offsets[b->len], out, size), \
                     size, #name);                                                  \
                for (k = 0, at = 0; k < many; k++)                                  \
                    for (i = offsets[indices[k]]; i < offsets[indices[k] + 1]; i++) \
                        same(out[at++], string_bytes[i], #choose_bytes);            \
                for (it = out_room.start; it < out_room.end; it++)                  \
                    if (*it != MARK && (it < out || it >= out + size))              \
                        same(*it, MARK, #choose_bytes);                             \
            }                                                                       \
        }                                                                           \
    }

STRINGS(strings_4, uint32_t, row_mask_choose_offsets_4, row_mask_choose_bytes_4, row_mask_take_offsets_4,
        row_mask_take_bytes_4)
STRINGS(strings_8, uint64_t, row_mask_choose_offsets_8, row_mask_choose_bytes_8, row_mask_take_offsets_8,
        row_mask_take_bytes_8)

/* No bytes, by a null pointer, as an empty vector of C++ has it. */
static void nothing(void) {
    row_mask_run run = row_mask_next_run(NULL, 0, 0, 0, 0);
    const uint32_t no_offset_4 = 0;
    const uint64_t no_offset_8 = 0;

    same(row_mask_is_within(NULL, 0, 0, 0), true, "is_within");
    same(row_mask_count(NULL, 0, 0, 0), 0, "count");
    same(row_mask_count_range(NULL, 0, 0, 0, 0, 0), 0, "count_range");
    row_mask_counts_below(NULL, 0, 0, 0, NULL, 0, NULL, 0);
    same(row_mask_select(NULL, 0, 0, 0, 0), 0, "select");
    same(row_mask_next_index(NULL, 0, 0, 0, 0), 0, "next_index");
    same(row_mask_last_index(NULL, 0, 0, 0), 0, "last_index");
    same(row_mask_next_indices(NULL, 0, 0, 0, 0, NULL, 0), 0, "next_indices");
    same(row_mask_next_indices_4(NULL, 0, 0, 0, 0, NULL, 0), 0, "next_indices_4");
    same(row_mask_next_runs(NULL, 0, 0, 0, 0, NULL, 0), 0, "next_runs");
    same(run.start + run.end, 0, "next_run");
    row_mask_and(NULL, 0, 0, NULL, 0, 0, 0, NULL, 0);
    row_mask_or(NULL, 0, 0, NULL, 0, 0, 0, NULL, 0);
    row_mask_and_not(NULL, 0, 0, NULL, 0, 0, 0, NULL, 0);
    row_mask_or_not(NULL, 0, 0, NULL, 0, 0, 0, NULL, 0);
    row_mask_xor(NULL, 0, 0, NULL, 0, 0, 0, NULL, 0);
    row_mask_not(NULL, 0, 0, 0, NULL, 0);
    row_mask_copy(NULL, 0, 0, 0, NULL, 0);
    row_mask_and_kleene(NULL, 0, 0, NULL, 0, 0, NULL, 0, 0, NULL, 0, 0, 0, NULL, 0, NULL, 0);
    row_mask_or_kleene(NULL, 0, 0, NULL, 0, 0, NULL, 0, 0, NULL, 0, 0, 0, NULL, 0, NULL, 0);
    row_mask_and_in_place(NULL, 0, NULL, 0, 0, 0);
    row_mask_or_in_place(NULL, 0, NULL, 0, 0, 0);
    row_mask_and_not_in_place(NULL, 0, NULL, 0, 0, 0);
    row_mask_xor_in_place(NULL, 0, NULL, 0, 0, 0);
    row_mask_not_in_place(NULL, 0, 0);
    row_mask_from_bools(NULL, 0, NULL, 0);
    row_mask_and_bools_in_place(NULL, 0, NULL, 0);
    ROW_MASK_FROM_ROWS(NULL, 0, row, true);
    ROW_MASK_RETAIN_ROWS(NULL, 0, row, true);
    row_mask_from_indices(NULL, 0, 0, NULL, 0);
    row_mask_from_indices_4(NULL, 0, 0, NULL, 0);
    row_mask_take_bits(NULL, 0, 0, 0, NULL, 0, NULL, 0);
    row_mask_take_bits_by_4(NULL, 0, 0, 0, NULL, 0, NULL, 0);
    row_mask_fill_range(NULL, 0, 0, 0, true);
    row_mask_append(NULL, 0, 0, NULL, 0, 0, 0);
    row_mask_write_at(NULL, 0, 0, NULL, 0, 0, 0);
    same(row_mask_equal(NULL, 0, 0, NULL, 0, 0, 0), true, "equal");
    same(row_mask_is_subset(NULL, 0, 0, NULL, 0, 0, 0), true, "is_subset");
    same(row_mask_intersects(NULL, 0, 0, NULL, 0, 0, 0), false, "intersects");
    same(row_mask_and_count(NULL, 0, 0, NULL, 0, 0, 0), 0, "and_count");
    same(row_mask_words(NULL, 0, 0, 0, 0, NULL, 0), 0, "words");
    same(row_mask_rank_words(NULL, 0, 0, 0, NULL, 0, 0, 0, 0, 0, NULL, 0, NULL, 0), 0, "rank_words");
    row_mask_intersect_by_rank(NULL, 0, 0, 0, NULL, 0, 0, 0, NULL, 0);
    row_mask_intersect_by_pdep(NULL, 0, 0, 0, NULL, 0, 0, 0, NULL, 0);
    row_mask_intersect_at_ranks(NULL, 0, 0, 0, NULL, 0, NULL, 0);
    same(row_mask_choose_bits(NULL, 0, 0, 0, NULL, 0, 0, NULL, 0), 0, "choose_bits");
    same(row_mask_choose_bits_by_pext(NULL, 0, 0, 0, NULL, 0, 0, NULL, 0), 0, "choose_bits_by_pext");
    same(row_mask_choose_1(NULL, 0, 0, 0, NULL, 0, NULL, 0), 0, "choose_1");
    same(row_mask_choose_2(NULL, 0, 0, 0, NULL, 0, NULL, 0), 0, "choose_2");
    same(row_mask_choose_4(NULL, 0, 0, 0, NULL, 0, NULL, 0), 0, "choose_4");
    same(row_mask_choose_8(NULL, 0, 0, 0, NULL, 0, NULL, 0), 0, "choose_8");
    same(row_mask_choose_16(NULL, 0, 0, 0, NULL, 0, NULL, 0), 0, "choose_16");
    row_mask_take_1(NULL, 0, NULL, 0, NULL, 0);
    row_mask_take_1_by_4(NULL, 0, NULL, 0, NULL, 0);
    row_mask_take_2(NULL, 0, NULL, 0, NULL, 0);
    row_mask_take_2_by_4(NULL, 0, NULL, 0, NULL, 0);
    row_mask_take_4(NULL, 0, NULL, 0, NULL, 0);
    row_mask_take_4_by_4(NULL, 0, NULL, 0, NULL, 0);
    row_mask_take_8(NULL, 0, NULL, 0, NULL, 0);
    row_mask_take_8_by_4(NULL, 0, NULL, 0, NULL, 0);
    row_mask_take_16(NULL, 0, NULL, 0, NULL, 0);
    row_mask_take_16_by_4(NULL, 0, NULL, 0, NULL, 0);
    same(row_mask_choose_bytes_4(NULL, 0, 0, 0, &no_offset_4, 1, NULL, 0, NULL, 0), 0, "choose_bytes_4");
    same(row_mask_choose_bytes_8(NULL, 0, 0, 0, &no_offset_8, 1, NULL, 0, NULL, 0), 0, "choose_bytes_8");
    same(row_mask_take_bytes_4(NULL, 0, &no_offset_4, 1, NULL, 0, NULL, 0), 0, "take_bytes_4");
    same(row_mask_take_bytes_8(NULL, 0, &no_offset_8, 1, NULL, 0, NULL, 0), 0, "take_bytes_8");
}

int main(void) {
    const unsigned shares[] = {0, 12, 128, 244, 256};
    room first = new_room(), second = new_room(), third = new_room(), fourth = new_room();
    size_t len, offset, share;

    same(row_mask_version(), ROW_MASK_VERSION, "version");
    nothing();
    for (len = 0; len <= LONGEST; len += len < 140 ? 1 : 7)
        for (offset = 0; offset < 16; offset += 3)
            for (share = 0; share < sizeof shares / sizeof *shares; share++) {
                bitmap a, b;
                fill(&a, first, offset, len, shares[share]);
                fill(&b, second, random_below(16), len, 128);
                reads(&a);
                counts(&a, third, fourth);
                walks(&a, third);
                walks_4(&a, third);
                walks_runs(&a, third);
                words(&a, third);
                from_bools(&a, second, third);
                from_indices(&a, second, third);
                from_indices_4(&a, second, third);
                take_bits(&a, second, third);
                take_bits_by_4(&a, second, third);
                fill(&b, second, random_below(16), len, 128);
                and_bools(&a, &b, third, fourth);
                combines(&a, &b, third);
                fill(&b, second, random_below(16), random_below(LONGEST + 1), 128);
                appends(&a, &b, third);
                if (share == 2)
                    writes_at(&a, third);
                fill(&b, second, random_below(16), len, 128);
                chooses_bits(&a, &b, third);
                narrows(&a, second, third, fourth);
                choose_1(&a, third, fourth);
                choose_2(&a, third, fourth);
                choose_4(&a, third, fourth);
                choose_8(&a, third, fourth);
                choose_16(&a, third, fourth);
                if (offset % 2 == 0)
                    strings_4(&a, second, third, fourth);
                else
                    strings_8(&a, second, third, fourth);
            }
    blocks(first, second, third);
    for (len = 0; len <= MOST_ROWS; len += len < LONGEST ? 1 : 1 + len / 8) {
        unsigned limit;
        for (limit = 0; limit <= 100; limit += 25) {
            asks_1(len, limit, first, second);
            asks_2(len, limit, first, second);
            asks_4(len, limit, first, second);
            asks_8(len, limit, first, second);
            asks_floats(len, limit, first, second);
            asks_doubles(len, limit, first, second);
        }
        asks_once(len, second);
    }
    for (len = 0; len <= LONGEST; len += 1 + len / 8) {
        fills(first, len / 8);
        take_1(len, first, second, third);
        take_1_by_4(len, first, second, third);
        take_2(len, first, second, third);
        take_2_by_4(len, first, second, third);
        take_4(len, first, second, third);
        take_4_by_4(len, first, second, third);
        take_8(len, first, second, third);
        take_8_by_4(len, first, second, third);
        take_16(len, first, second, third);
        take_16_by_4(len, first, second, third);
    }
    printf("%zu comparisons\n", compared);
    return 0;
}
