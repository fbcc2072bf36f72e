/* Filters dictionaries, views and lists, alone and in each other and in structs, beside the texts of their rows: with
 * offsets, nulls and buffers that are absent. A result doesn't need the array that it was made of, or has taken it over,
 * and each array is released once. Prints how many rows it compared.
 *
 * Where row_mask_arrow.c is compiled with -Dmalloc=refusing_malloc -Dcalloc=refusing_calloc, each of its requests for
 * memory is refused in turn, and it prints how many these are. */
#include "row_mask_arrow.h"

#include <errno.h>
#include <stdbool.h>
#include <stdio.h>
#include <stdlib.h>
#include <string.h>

static size_t compared;

static void need(bool holds, const char *what) {
    compared++;
    if (holds)
        return;
    printf("not so: %s\n", what);
    exit(1);
}

static uint64_t state = 1;

static uint64_t random_word(void) {
    state ^= state << 13;
    state ^= state >> 7;
    state ^= state << 17;
    return state;
}

static size_t random_below(size_t end) {
    return (size_t)(random_word() % end);
}

/* ---- memory ---- */

static size_t asked, refused_at = SIZE_MAX;

void *refusing_malloc(size_t size);
void *refusing_calloc(size_t count, size_t size);

void *refusing_malloc(size_t size) {
    return asked++ == refused_at ? NULL : malloc(size);
}

void *refusing_calloc(size_t count, size_t size) {
    return asked++ == refused_at ? NULL : calloc(count, size);
}

static void *random_bytes(size_t size) {
    uint8_t *made = malloc(size);
    size_t i;

    for (i = 0; i < size; i++)
        made[i] = (uint8_t)random_word();
    return made;
}

/* ---- arrays ---- */

/* How many arrays were made and not released. */
static size_t arrays;

static void release_schema(struct ArrowSchema *schema) {
    int64_t i;

    for (i = 0; i < schema->n_children; i++) {
        schema->children[i]->release(schema->children[i]);
        free(schema->children[i]);
    }
    if (schema->dictionary != NULL) {
        schema->dictionary->release(schema->dictionary);
        free(schema->dictionary);
    }
    free(schema->children);
    schema->release = NULL;
}

static void release_array(struct ArrowArray *array) {
    int64_t i;

    for (i = 0; i < array->n_children; i++) {
        if (array->children[i]->release != NULL)
            array->children[i]->release(array->children[i]);
        free(array->children[i]);
    }
    if (array->dictionary != NULL) {
        if (array->dictionary->release != NULL)
            array->dictionary->release(array->dictionary);
        free(array->dictionary);
    }
    for (i = 0; i < array->n_buffers; i++)
        free((void *)(uintptr_t)array->buffers[i]);
    free(array->buffers);
    free(array->children);
    array->release = NULL;
    arrays--;
}

static bool bit(const void *bytes, size_t i) {
    return ((const uint8_t *)bytes)[i / 8] >> (i % 8) & 1;
}

/* Flat ones first, and behind them those that have others. A dictionary is told by its keys. */
static const char *const formats[] = {
    "i", "b", "u", "Z", "w:3", "vu", "vz", "+l", "+L", "+s", "c", "C", "s", "S", "i", "I", "l", "L"};

enum { FLAT = 7, KEYS = 10, FORMATS = sizeof formats / sizeof *formats };

static size_t width_of(const char *format) {
    if (format[0] == 'w')
        return (size_t)atoi(format + 2);
    return strchr("cC", *format) ? 1 : strchr("sS", *format) ? 2 : strchr("lL", *format) ? 8 : 4;
}

static void add_numbers(struct ArrowArray *made, int buffer, const char *format, const uint64_t *numbers, size_t count) {
    size_t width = width_of(format), i;
    uint8_t *to = malloc(width * count);

    for (i = 0; i < count; i++) {
        uint8_t one = (uint8_t)numbers[i];
        uint16_t two = (uint16_t)numbers[i];
        uint32_t four = (uint32_t)numbers[i];
        const void *small = width == 1 ? (const void *)&one : &two, *large = width == 4 ? (const void *)&four : &numbers[i];
        memcpy(to + width * i, width < 4 ? small : large, width);
    }
    made->buffers[buffer] = to;
}

/* Answers where the last one ends. */
static size_t add_offsets(struct ArrowArray *made, const char *format, size_t end, size_t longest) {
    uint64_t *offsets = malloc(8 * (end + 1)), at = random_below(5);
    size_t i;

    for (i = 0; i <= end; i++) {
        offsets[i] = at;
        at += i < end && random_below(3) ? random_below(longest) : 0;
    }
    add_numbers(made, 1, strchr("ZL", format[strlen(format) - 1]) ? "l" : "i", offsets, end + 1);
    free(offsets);
    return (size_t)at;
}

/* Views of up to three buffers, of which some may be empty, and then absent. */
static void add_views(struct ArrowArray *made, size_t end) {
    uint8_t *views = random_bytes(16 * end);
    int64_t sizes[3] = {0, 0, 0};
    size_t buffers = random_below(4), i;

    made->n_buffers = 3 + (int64_t)buffers;
    for (i = 0; i < buffers; i++) {
        sizes[i] = random_below(3) ? 20 + (int64_t)random_below(60) : 0;
        made->buffers[2 + i] = sizes[i] > 0 ? random_bytes((size_t)sizes[i]) : NULL;
    }
    if (buffers > 0)
        memcpy((void *)(uintptr_t)(made->buffers[2 + buffers] = malloc(8 * buffers)), sizes, 8 * buffers);
    for (i = 0; i < end; i++) {
        size_t in = random_below(3);
        int32_t size = (int32_t)random_below(13), place[3];
        if (sizes[in] > 0 && random_below(2)) {
            size = 13 + (int32_t)random_below((size_t)sizes[in] - 12);
            place[1] = (int32_t)in;
            place[2] = (int32_t)random_below((size_t)(sizes[in] - size) + 1);
            memcpy(&place[0], (const uint8_t *)made->buffers[2 + in] + place[2], 4);
            memcpy(views + 16 * i + 4, place, 12);
        }
        memcpy(views + 16 * i, &size, 4);
    }
    made->buffers[1] = views;
}

static void make(struct ArrowSchema *schema, struct ArrowArray *made, size_t format, size_t len, int depth);

/* Another column that lies in this one. Deep ones have no others in them. */
static size_t random_format(int depth) {
    return random_below(depth > 2 ? FLAT : FORMATS);
}

static void add_children(struct ArrowSchema *schema, struct ArrowArray *made, int64_t count, size_t len, int depth) {
    int64_t i;

    schema->n_children = made->n_children = count;
    schema->children = calloc((size_t)count, sizeof *schema->children);
    made->children = calloc((size_t)count, sizeof *made->children);
    for (i = 0; i < count; i++) {
        size_t format = random_format(depth), more = random_below(3);
        schema->children[i] = malloc(sizeof *schema);
        made->children[i] = malloc(sizeof *made);
        make(schema->children[i], made->children[i], format, len + more, depth + 1);
    }
}

static void add_dictionary(struct ArrowSchema *schema, struct ArrowArray *made, size_t end, int depth) {
    size_t len = 1 + random_below(100), i;
    uint64_t *keys = malloc(8 * (end + 1));

    schema->dictionary = malloc(sizeof *schema);
    made->dictionary = malloc(sizeof *made);
    make(schema->dictionary, made->dictionary, random_format(depth), len, depth + 1);
    for (i = 0; i < end; i++)
        keys[i] = made->buffers[0] != NULL && !bit(made->buffers[0], i) ? random_word() : random_below(len);
    add_numbers(made, 1, schema->format, keys, end);
    free(keys);
}

static void make(struct ArrowSchema *schema, struct ArrowArray *made, size_t format, size_t len, int depth) {
    size_t offset = random_below(3) ? random_below(20) : 0, end = offset + len;
    const char *it = formats[format];

    memset(schema, 0, sizeof *schema);
    memset(made, 0, sizeof *made);
    schema->format = it;
    schema->name = "a";
    schema->release = release_schema;
    made->length = (int64_t)len;
    made->offset = (int64_t)offset;
    made->buffers = calloc(6, sizeof *made->buffers);
    made->release = release_array;
    arrays++;
    if (random_below(3)) {
        made->buffers[0] = random_bytes((end + 7) / 8);
        made->null_count = -1;
    }
    made->n_buffers = strcmp(it, "+s") == 0 ? 1 : strchr("uZ", *it) ? 3 : 2;
    if (format >= KEYS)
        add_dictionary(schema, made, end, depth);
    else if (*it == 'v')
        add_views(made, end);
    else if (strcmp(it, "+s") == 0)
        add_children(schema, made, 4, end, depth);
    else if (*it == '+')
        add_children(schema, made, 1, add_offsets(made, it, end, 5), depth);
    else if (made->n_buffers == 3)
        made->buffers[2] = random_bytes(add_offsets(made, it, end, 20));
    else
        made->buffers[1] = random_bytes(*it == 'b' ? (end + 7) / 8 : end * width_of(it));
}

/* ---- texts of rows ---- */

typedef struct text {
    char *bytes;
    size_t size, room;
} text;

static void add(text *to, const void *bytes, size_t size) {
    if (to->size + size > to->room) {
        to->room = 2 * (to->size + size);
        to->bytes = realloc(to->bytes, to->room);
    }
    if (size > 0)
        memcpy(to->bytes + to->size, bytes, size);
    to->size += size;
}

static size_t number_at(const void *numbers, size_t width, size_t i) {
    const uint8_t *at = (const uint8_t *)numbers + width * i;
    uint16_t two;
    uint32_t four;
    uint64_t eight;

    memcpy(&two, at, width == 2 ? 2 : 0);
    memcpy(&four, at, width == 4 ? 4 : 0);
    memcpy(&eight, at, width == 8 ? 8 : 0);
    return width == 1 ? *at : width == 2 ? two : width == 4 ? four : (size_t)eight;
}

static void add_view(text *to, const struct ArrowArray *array, size_t i) {
    const uint8_t *view = (const uint8_t *)array->buffers[1] + 16 * i;
    int32_t it[4];

    memcpy(it, view, 16);
    add(to, it, 4);
    if (it[0] <= 12) {
        add(to, view + 4, (size_t)it[0]);
        return;
    }
    need(2 + it[2] < array->n_buffers - 1, "a buffer of the view");
    need(it[3] + it[0] <= ((const int64_t *)array->buffers[array->n_buffers - 1])[it[2]], "its size");
    add(to, (const uint8_t *)array->buffers[2 + it[2]] + it[3], (size_t)it[0]);
}

/* Adds what is in row `i`. */
static void add_row(text *to, const struct ArrowSchema *schema, const struct ArrowArray *array, size_t i) {
    const char *it = schema->format;
    size_t k, wide = strchr("ZL", it[strlen(it) - 1]) ? 8 : 4, from, end;

    i += (size_t)array->offset;
    if (array->null_count != 0 && array->buffers[0] != NULL && !bit(array->buffers[0], i)) {
        add(to, "N", 1);
    } else if (schema->dictionary != NULL) {
        add_row(to, schema->dictionary, array->dictionary, number_at(array->buffers[1], width_of(it), i));
    } else if (*it == 'v') {
        add_view(to, array, i);
    } else if (strcmp(it, "+s") == 0) {
        for (k = 0; k < (size_t)array->n_children; k++)
            add_row(to, schema->children[k], array->children[k], i);
    } else if (*it == '+' || array->n_buffers == 3) {
        from = number_at(array->buffers[1], wide, i);
        end = number_at(array->buffers[1], wide, i + 1);
        add(to, "(", 1);
        if (*it != '+')
            add(to, (const uint8_t *)array->buffers[2] + from, end - from);
        for (; *it == '+' && from < end; from++)
            add_row(to, schema->children[0], array->children[0], from);
        add(to, ")", 1);
    } else if (*it == 'b') {
        add(to, bit(array->buffers[1], i) ? "1" : "0", 1);
    } else {
        add(to, (const uint8_t *)array->buffers[1] + width_of(it) * i, width_of(it));
    }
}

/* The rows of a list of truth values, or all. */
static text rows_of(const struct ArrowSchema *schema, const struct ArrowArray *array, const bool *list) {
    text made = {NULL, 0, 0};
    size_t i;

    for (i = 0; i < (size_t)array->length; i++)
        if (list == NULL || list[i])
            add_row(&made, schema, array, i);
    return made;
}

/* The array has just these rows. */
static void has_rows(const struct ArrowSchema *schema, const struct ArrowArray *array, const text *want) {
    text got = rows_of(schema, array, NULL);

    need(got.size == want->size, "as many bytes");
    need(got.size == 0 || memcmp(got.bytes, want->bytes, got.size) == 0, schema->format);
    free(got.bytes);
}

/* A made array counts from 0 and says its nulls, as each array in it does that was made too. */
static void is_in_order(const struct ArrowArray *made, const struct ArrowArray *array, bool moved) {
    size_t i, nulls = 0;
    int64_t k;

    for (i = 0; made->buffers[0] != NULL && i < (size_t)made->length; i++)
        nulls += !bit(made->buffers[0], i);
    need(made->offset == 0 && made->null_count == (int64_t)nulls, "offset and nulls");
    need(made->n_buffers == array->n_buffers && made->n_children == array->n_children, "buffers and children");
    need((made->dictionary == NULL) == (array->dictionary == NULL), "a dictionary");
    if (made->dictionary != NULL && !moved)
        is_in_order(made->dictionary, array->dictionary, false);
    for (k = 0; k < made->n_children; k++)
        is_in_order(made->children[k], array->children[k], moved);
}

/* ---- tests ---- */

typedef struct mask {
    bool list[200];
    uint8_t bytes[28];
    size_t offset, len, count;
} mask;

static mask new_mask(size_t len, unsigned share) {
    mask made;
    size_t i;

    memset(&made, 0, sizeof made);
    made.offset = random_below(20);
    made.len = len;
    for (i = 0; i < len; i++) {
        size_t p = made.offset + i;
        made.list[i] = random_word() % 256 < share;
        made.count += made.list[i];
        made.bytes[p / 8] = (uint8_t)(made.bytes[p / 8] | made.list[i] << p % 8);
    }
    return made;
}

static int filter(
    const struct ArrowSchema *schema, struct ArrowArray *array, const mask *by, bool moves, struct ArrowArray *out,
    row_mask_arrow_error *error) {
    if (moves)
        return row_mask_arrow_filter_moved(schema, array, by->bytes, 28, by->offset, by->len, out, error);
    return row_mask_arrow_filter(schema, array, by->bytes, 28, by->offset, by->len, out, error);
}

/* What is in an array may be moved out of it, and outlives it. */
static void outlives(const struct ArrowSchema *schema, struct ArrowArray *made) {
    const struct ArrowSchema *of = schema->dictionary;
    struct ArrowArray *from = made->dictionary, moved;
    text all;

    if (made->n_children > 0) {
        size_t i = random_below((size_t)made->n_children);
        of = schema->children[i];
        from = made->children[i];
    }
    if (from == NULL) {
        made->release(made);
        need(made->release == NULL, "release");
        return;
    }
    all = rows_of(of, from, NULL);
    moved = *from;
    from->release = NULL;
    made->release(made);
    has_rows(of, &moved, &all);
    if (moved.private_data != NULL && (moved.dictionary != NULL || moved.n_children > 0))
        outlives(of, &moved);
    else
        moved.release(&moved);
    free(all.bytes);
}

static void filters(size_t format, size_t len, unsigned share, bool moves) {
    struct ArrowSchema schema;
    struct ArrowArray array, made;
    mask by = new_mask(len, share);
    row_mask_arrow_error error = {""};
    text want;

    make(&schema, &array, format, len, 0);
    want = rows_of(&schema, &array, by.list);
    need(filter(&schema, &array, &by, moves, &made, &error) == 0, error.message);
    need((size_t)made.length == by.count, "the chosen rows");
    need((array.release == NULL) == moves, "moved");
    if (!moves) {
        is_in_order(&made, &array, moves);
        array.release(&array);
        need(arrays == 0, "nothing of it is kept");
    }
    has_rows(&schema, &made, &want);
    outlives(&schema, &made);
    need(arrays == 0, "all is released");
    schema.release(&schema);
    free(want.bytes);
}

/* An array may be moved to itself. */
static void filters_in_place(size_t format) {
    struct ArrowSchema schema;
    struct ArrowArray array;
    mask by = new_mask(50, 128);
    text want;

    make(&schema, &array, format, 50, 0);
    want = rows_of(&schema, &array, by.list);
    need(filter(&schema, &array, &by, true, &array, NULL) == 0, "filtered");
    has_rows(&schema, &array, &want);
    array.release(&array);
    need(arrays == 0, "all is released");
    schema.release(&schema);
    free(want.bytes);
}

/* The buffers of views are the array's own where it is moved, and so is a dictionary. */
static void shares(void) {
    struct ArrowSchema schema;
    struct ArrowArray array, made;
    mask by = new_mask(50, 128);
    const void *buffers[6];
    size_t i, n;

    for (n = 0; n < 20; n++) {
        make(&schema, &array, n % 2 ? 5 : KEYS, 50, 0);
        memcpy(buffers, n % 2 ? array.buffers : array.dictionary->buffers, sizeof buffers);
        need(filter(&schema, &array, &by, true, &made, NULL) == 0, "filtered");
        for (i = n % 2 ? 2 : 0; i < (size_t)(n % 2 ? &made : made.dictionary)->n_buffers; i++)
            need((n % 2 ? &made : made.dictionary)->buffers[i] == buffers[i], "the same buffer");
        made.release(&made);
        schema.release(&schema);
    }
}

/* Whether nothing in it was moved or released. */
static bool is_whole(const struct ArrowArray *array) {
    bool whole = array->release != NULL && (array->dictionary == NULL || is_whole(array->dictionary));
    int64_t i;

    for (i = 0; i < array->n_children; i++)
        whole = whole && is_whole(array->children[i]);
    return whole;
}

/* A call that is refused leaves all as it was. */
static void is_refused(
    const struct ArrowSchema *schema, struct ArrowArray *array, const mask *by, bool moves, int status,
    const char *what) {
    struct ArrowArray out, untouched;
    row_mask_arrow_error error = {""};
    text all = rows_of(schema, array, NULL);

    memset(&out, 0xA5, sizeof out);
    memcpy(&untouched, &out, sizeof out);
    need(filter(schema, array, by, moves, &out, &error) == status, what);
    need(strncmp(error.message, what, strlen(what)) == 0, error.message);
    need(memcmp(&out, &untouched, sizeof out) == 0, "out is left as it was");
    need(is_whole(array), "nothing was moved");
    has_rows(schema, array, &all);
    free(all.bytes);
}

/* Each request for memory is refused in turn. Answers how many there are. */
static size_t refuses_memory(size_t format, bool moves) {
    struct ArrowSchema schema;
    struct ArrowArray array, made;
    mask by = new_mask(50, 128);
    size_t last, kept = state;

    make(&schema, &array, format, 50, 0);
    asked = 0;
    need(filter(&schema, &array, &by, moves, &made, NULL) == 0, "filtered");
    made.release(&made);
    last = asked;
    if (moves) { /* (the same again) */
        schema.release(&schema);
        state = kept;
        make(&schema, &array, format, 50, 0);
    }
    for (refused_at = 0; refused_at < last; refused_at++) {
        asked = 0;
        is_refused(&schema, &array, &by, moves, ENOMEM, "no memory: column 'a'");
    }
    refused_at = SIZE_MAX;
    array.release(&array);
    schema.release(&schema);
    need(arrays == 0, "all is released");
    return last;
}

/* What is in a struct twice, and would be moved twice, and what nothing copies. */
static void refuses(void) {
    struct ArrowSchema schema, *other_schema;
    struct ArrowArray array, made, *other;
    mask by = new_mask(30, 128);
    size_t n;

    for (n = 0; n < 40; n++) {
        do {
            make(&schema, &array, 9, 30, 0);
            if (*schema.children[1]->format == 'v' || schema.children[1]->dictionary != NULL)
                break;
            array.release(&array);
            schema.release(&schema);
        } while (true);
        other_schema = schema.children[3];
        other = array.children[3];
        schema.children[3] = schema.children[1];
        array.children[3] = array.children[1];
        is_refused(
            &schema, &array, &by, true, EINVAL,
            schema.children[1]->dictionary == NULL ? "a bad child: column 'a'" : "a bad dictionary: column 'a'");
        need(filter(&schema, &array, &by, false, &made, NULL) == 0, "but copied twice");
        made.release(&made);
        schema.children[3] = other_schema;
        array.children[3] = other;
        array.release(&array);
        schema.release(&schema);
    }
    make(&schema, &array, KEYS, 30, 0);
    schema.dictionary->format = "+r";
    need(filter(&schema, &array, &by, false, &made, NULL) == ENOTSUP, "no copy of a format that isn't known");
    need(filter(&schema, &array, &by, true, &made, NULL) == 0, "but it may be moved");
    made.release(&made);
    schema.release(&schema);
    need(arrays == 0, "all is released");
}

int main(void) {
    const size_t lens[] = {0, 1, 2, 7, 8, 9, 63, 64, 65, 150};
    const unsigned shares_of[] = {0, 12, 128, 244, 256};
    size_t format, len, share, round, requests = 0;

    for (round = 0; round < 4; round++)
        for (format = FLAT - 2; format < FORMATS; format++)
            for (len = 0; len < sizeof lens / sizeof *lens; len++)
                for (share = 0; share < sizeof shares_of / sizeof *shares_of; share++) {
                    filters(format, lens[len], shares_of[share], false);
                    filters(format, lens[len], shares_of[share], true);
                }
    for (format = 0; format < FORMATS; format++) {
        filters_in_place(format);
        requests += refuses_memory(format, false) + refuses_memory(format, true);
    }
    shares();
    refuses();
    printf("%zu comparisons, %zu requests for memory refused\n", compared, requests);
    return 0;
}
