/* Rows of an array of Arrow's C data interface at the true values of a bitmap: row_mask_arrow.h says which. */
#include "row_mask_arrow.h"

#include "row_mask.h"

#include <errno.h>
#include <stdio.h>
#include <stdlib.h>
#include <string.h>

#include "row_mask_arrow_refusals.h"

/* A bitmap over the rows that are asked for, and how many it chooses. */
typedef struct selection {
    const uint8_t *bytes;
    size_t size, offset, len, count;
} selection;

#define WHOLE(s) (s)->bytes, (s)->size, (s)->offset, (s)->len

/* ---- memory ---- */

/* What an array has. Behind it lie the pointers to its buffers. */
typedef struct kept {
    int64_t own_buffers; /* how many of these it releases, from the first on */
    struct ArrowArray **children;
    struct ArrowArray kept_array; /* a dictionary, or whose bytes views are of, if it has a callback */
    struct ArrowArray *moved_from; /* where that goes back to, as long as the call may fail */
} kept;

static void release(struct ArrowArray *array) {
    kept *it = (kept *)array->private_data;
    void **buffers = (void **)(it + 1);
    int64_t i;

    for (i = 0; i < array->n_children; i++) {
        if (it->children[i]->release != NULL)
            it->children[i]->release(it->children[i]);
        free(it->children[i]);
    }
    if (it->moved_from != NULL)
        *it->moved_from = it->kept_array;
    else if (it->kept_array.release != NULL)
        it->kept_array.release(&it->kept_array);
    for (i = 0; i < it->own_buffers; i++)
        free(buffers[i]);
    free(it->children);
    free(it);
    array->release = NULL;
}

/* An array of `count` values that is like another one, with no buffer and no child yet. */
static bool begin(struct ArrowArray *out, const struct ArrowArray *array, size_t count) {
    kept *it = (kept *)calloc(1, sizeof *it + (size_t)array->n_buffers * sizeof(void *));

    memset(out, 0, sizeof *out);
    if (it == NULL)
        return false;
    out->private_data = it;
    out->release = release;
    out->length = (int64_t)count;
    out->n_buffers = it->own_buffers = array->n_buffers;
    out->buffers = (const void **)(it + 1);
    it->children = out->children = (struct ArrowArray **)calloc((size_t)array->n_children + 1, sizeof *out->children);
    return it->children != NULL;
}

/* Room for a buffer, or NULL where there is no memory. */
static void *room(struct ArrowArray *out, int64_t buffer, size_t size) {
    void **buffers = (void **)((kept *)out->private_data + 1);

    return buffers[buffer] = malloc(size > 0 ? size : 1);
}

static bool copy_buffer(struct ArrowArray *out, int64_t buffer, const void *from, size_t size) {
    void *to = room(out, buffer, size);

    if (to != NULL && size > 0)
        memcpy(to, from, size);
    return to != NULL;
}

/* Moves an array to what is made. */
static void move_array(struct ArrowArray *array, struct ArrowArray *out) {
    kept *it = (kept *)out->private_data;

    it->kept_array = *array;
    it->moved_from = array;
    array->release = NULL;
}

/* The call didn't fail, so nothing goes back. */
static void keep_moved(struct ArrowArray *made) {
    int64_t i;

    ((kept *)made->private_data)->moved_from = NULL;
    for (i = 0; i < made->n_children; i++)
        keep_moved(made->children[i]);
}

/* ---- what is made ---- */

static bool choose_validity(
    const struct ArrowArray *array, size_t start, const selection *rows, struct ArrowArray *out) {
    const uint8_t *values = (const uint8_t *)array->buffers[0];
    size_t size = row_mask_room(rows->count);
    uint8_t *made;

    if (array->null_count == 0 || values == NULL || rows->len == 0)
        return true;
    made = (uint8_t *)room(out, 0, size);
    if (made == NULL)
        return false;
    row_mask_choose_bits(WHOLE(rows), values, row_mask_room(start + rows->len), start, made, size);
    out->null_count = (int64_t)(rows->count - row_mask_count(made, size, 0, rows->count));
    return true;
}

static bool choose_bits(const uint8_t *values, size_t start, const selection *rows, struct ArrowArray *out) {
    size_t size = row_mask_room(rows->count);
    uint8_t *made = (uint8_t *)room(out, 1, size);

    if (made != NULL && rows->len > 0)
        row_mask_choose_bits(WHOLE(rows), values, row_mask_room(start + rows->len), start, made, size);
    return made != NULL;
}

/* Rows of any width, by the runs of rows that are chosen. */
static void copy_runs(const selection *rows, const uint8_t *from, size_t width, uint8_t *to) {
    row_mask_run run = {0, 0};

    for (;;) {
        run = row_mask_next_run(WHOLE(rows), run.end);
        if (run.start == run.end)
            return;
        memcpy(to, from + width * run.start, width * (run.end - run.start));
        to += width * (run.end - run.start);
    }
}

#define CHOOSE(size, row)                                                                          \
    if (width == (size) && is_aligned(from, sizeof(row) < 16 ? sizeof(row) : 8)) {                 \
        row_mask_choose_##size(WHOLE(rows), (const row *)from, rows->len, (row *)to, rows->count); \
        return true;                                                                               \
    }

static bool choose_rows(
    const void *items, size_t width, size_t start, const selection *rows, struct ArrowArray *out) {
    void *to = room(out, 1, width * rows->count);
    const uint8_t *from = (const uint8_t *)items;

    if (to == NULL || rows->len == 0)
        return to != NULL;
    from += width * start;
    CHOOSE(1, uint8_t)
    CHOOSE(2, uint16_t)
    CHOOSE(4, uint32_t)
    CHOOSE(8, uint64_t)
    CHOOSE(16, row_mask_16)
    copy_runs(rows, from, width, (uint8_t *)to);
    return true;
}

#define CHOOSE_STRINGS(size, number)                                                                             \
    /* Answers by `end` where the last one that is chosen ends. */                                               \
    static bool choose_offsets_##size(                                                                           \
        const struct ArrowArray *array, size_t start, const selection *rows, struct ArrowArray *out,             \
        size_t *end) {                                                                                           \
        static const number none[] = {0};                                                                        \
        const number *offsets = rows->len > 0 ? (const number *)array->buffers[1] + start : none;                \
        number *made = (number *)room(out, 1, (rows->count + 1) * sizeof *made);                                 \
                                                                                                                 \
        if (made != NULL)                                                                                        \
            *end = row_mask_choose_offsets_##size(                                                               \
                WHOLE(rows), offsets, rows->len + 1, made, rows->count + 1);                                     \
        return made != NULL;                                                                                     \
    }                                                                                                            \
                                                                                                                 \
    static bool choose_strings_##size(                                                                           \
        const struct ArrowArray *array, size_t start, const selection *rows, struct ArrowArray *out) {           \
        const number *offsets = (const number *)array->buffers[1];                                               \
        size_t bytes;                                                                                            \
        uint8_t *to;                                                                                             \
                                                                                                                 \
        if (!choose_offsets_##size(array, start, rows, out, &bytes))                                             \
            return false;                                                                                        \
        to = (uint8_t *)room(out, 2, bytes);                                                                     \
        if (to != NULL && bytes > 0)                                                                             \
            row_mask_choose_bytes_##size(                                                                        \
                WHOLE(rows), offsets + start, rows->len + 1, (const uint8_t *)array->buffers[2],                 \
                offsets[start + rows->len], to, bytes);                                                          \
        return to != NULL;                                                                                       \
    }

CHOOSE_STRINGS(4, uint32_t)
CHOOSE_STRINGS(8, uint64_t)

/* The buffers behind views, and their sizes: those of the array, which is moved, or a copy. */
static bool keep_bytes(struct ArrowArray *array, const call *of, struct ArrowArray *out) {
    int64_t i, last = array->n_buffers - 1;
    const int64_t *sizes = (const int64_t *)array->buffers[last];

    if (of->moves) {
        ((kept *)out->private_data)->own_buffers = 2;
        for (i = 2; i <= last; i++)
            out->buffers[i] = array->buffers[i];
        move_array(array, out);
        return true;
    }
    for (i = 2; i < last; i++)
        if (!copy_buffer(out, i, array->buffers[i], (size_t)sizes[i - 2]))
            return false;
    return copy_buffer(out, last, sizes, (size_t)(last - 2) * sizeof *sizes);
}

/* ---- columns in columns ---- */

static int choose(
    const struct ArrowSchema *schema, struct ArrowArray *array, size_t start, const selection *rows, call *of,
    struct ArrowArray *out);

/* All values of a dictionary. */
static int copy_array(
    const struct ArrowSchema *schema, struct ArrowArray *array, call *of, struct ArrowArray *out) {
    size_t len = (size_t)array->length, size = row_mask_room(len);
    uint8_t *bits = (uint8_t *)malloc(size + 1);
    selection all = {bits, size, 0, len, len};
    int status;

    if (bits == NULL)
        return ENOMEM;
    memset(bits, 0xFF, size);
    status = choose(schema, array, 0, &all, of, out);
    free(bits);
    return status;
}

/* The dictionary of keys: that of the array, which is moved, or a copy. */
static int keep_dictionary(
    const struct ArrowSchema *schema, const struct ArrowArray *array, call *of, struct ArrowArray *out) {
    out->dictionary = &((kept *)out->private_data)->kept_array;
    if (!of->moves)
        return copy_array(schema->dictionary, array->dictionary, of, out->dictionary);
    /* (one of two columns was moved before) */
    if (array->dictionary->release == NULL)
        return refuse(of->error, EINVAL, "a bad dictionary", schema);
    move_array(array->dictionary, out);
    return 0;
}

static int choose_children(
    const struct ArrowSchema *schema, const struct ArrowArray *array, size_t start, const selection *rows, call *of,
    struct ArrowArray *out) {
    int status = 0;
    int64_t i;

    for (i = 0; i < array->n_children && status == 0; i++) {
        /* (a child of two structs was moved before) */
        if (array->children[i]->release == NULL)
            return refuse(of->error, EINVAL, "a bad child", schema);
        out->children[i] = (struct ArrowArray *)calloc(1, sizeof *out);
        if (out->children[i] == NULL)
            return ENOMEM;
        out->n_children++;
        status = choose(schema->children[i], array->children[i], start, rows, of, out->children[i]);
    }
    return status;
}

/* Chooses the rows of a child that lie in the lists which are chosen. */
static void choose_ranges(
    layout it, const struct ArrowArray *array, size_t start, const selection *lists, uint8_t *bits, size_t size) {
    size_t first = offset_at(it, array, start);
    row_mask_run run = {0, 0};

    for (;;) {
        run = row_mask_next_run(WHOLE(lists), run.end);
        if (run.start == run.end)
            return;
        row_mask_fill_range(
            bits, size, offset_at(it, array, start + run.start) - first, offset_at(it, array, start + run.end) - first,
            true);
    }
}

static int choose_lists(
    layout it, const struct ArrowSchema *schema, const struct ArrowArray *array, size_t start, const selection *lists,
    call *of, struct ArrowArray *out) {
    size_t first = lists->len > 0 ? offset_at(it, array, start) : 0;
    selection rows = {NULL, 0, 0, 0, 0};
    uint8_t *bits;
    int status;

    if (it.width == 8 ? !choose_offsets_8(array, start, lists, out, &rows.count)
                      : !choose_offsets_4(array, start, lists, out, &rows.count))
        return ENOMEM;
    rows.len = lists->len > 0 ? offset_at(it, array, start + lists->len) - first : 0;
    rows.size = row_mask_room(rows.len);
    rows.bytes = bits = (uint8_t *)calloc(rows.size + 1, 1);
    if (bits == NULL)
        return ENOMEM;
    if (lists->len > 0)
        choose_ranges(it, array, start, lists, bits, rows.size);
    status = choose_children(schema, array, first, &rows, of, out);
    free(bits);
    return status;
}

/* What is behind the validity of a column without children. Answers whether there was memory. */
static bool choose_flat(
    layout it, struct ArrowArray *array, size_t start, const selection *rows, const call *of, struct ArrowArray *out) {
    switch (it.kind) {
    case BITS:
        return choose_bits((const uint8_t *)array->buffers[1], start, rows, out);
    case STRINGS:
        return choose_strings_4(array, start, rows, out);
    case LARGE_STRINGS:
        return choose_strings_8(array, start, rows, out);
    case VIEWS:
        return choose_rows(array->buffers[1], it.width, start, rows, out) && keep_bytes(array, of, out);
    default:
        return choose_rows(array->buffers[1], it.width, start, rows, out);
    }
}

/* Answers 0, ENOMEM, or what a refusal does. If not 0, `out` is what there was memory for, which is released. */
static int choose(
    const struct ArrowSchema *schema, struct ArrowArray *array, size_t start, const selection *rows, call *of,
    struct ArrowArray *out) {
    layout it = layout_of(schema->format);

    start += (size_t)array->offset;
    if (!begin(out, array, rows->count) || !choose_validity(array, start, rows, out))
        return ENOMEM;
    if (it.kind == STRUCT)
        return choose_children(schema, array, start, rows, of, out);
    if (is_list(it))
        return choose_lists(it, schema, array, start, rows, of, out);
    if (!choose_flat(it, array, start, rows, of, out))
        return ENOMEM;
    return array->dictionary != NULL ? keep_dictionary(schema, array, of, out) : 0;
}

/* ---- the calls ---- */

static int filter(
    const struct ArrowSchema *schema, struct ArrowArray *array, const uint8_t *bytes, size_t bytes_size, size_t offset,
    size_t len, call *of, struct ArrowArray *out) {
    selection rows = {bytes, bytes_size, offset, len, 0};
    struct ArrowArray made;
    int status;

    if (!is_there(schema, array))
        return refuse(of->error, EINVAL, "a released array or schema", NULL);
    if (array->length < 0 || (size_t)array->length != len || !row_mask_is_within(bytes, bytes_size, offset, len))
        return refuse(of->error, EINVAL, "a bitmap of other rows", schema);
    status = check(schema, array, 0, len, 0, of);
    if (status != 0)
        return status;
    rows.count = row_mask_count(bytes, bytes_size, offset, len);
    status = choose(schema, array, 0, &rows, of, &made);
    if (status == 0) {
        *out = made;
        return 0;
    }
    if (made.release != NULL)
        made.release(&made);
    return status == ENOMEM ? refuse(of->error, ENOMEM, "no memory", schema) : status;
}

int row_mask_arrow_filter(
    const struct ArrowSchema *schema, const struct ArrowArray *array, const uint8_t *bytes, size_t bytes_size,
    size_t offset, size_t len, struct ArrowArray *out, row_mask_arrow_error *error) {
    call of = {false, 0, error};

    /* (without a move, nothing is written to it) */
    return filter(schema, (struct ArrowArray *)(uintptr_t)array, bytes, bytes_size, offset, len, &of, out);
}

int row_mask_arrow_filter_moved(
    const struct ArrowSchema *schema, struct ArrowArray *array, const uint8_t *bytes, size_t bytes_size, size_t offset,
    size_t len, struct ArrowArray *out, row_mask_arrow_error *error) {
    call of = {true, 0, error};
    struct ArrowArray made;
    int status = filter(schema, array, bytes, bytes_size, offset, len, &of, &made);

    if (status != 0)
        return status;
    keep_moved(&made);
    if (array->release != NULL)
        array->release(array);
    *out = made;
    return 0;
}
