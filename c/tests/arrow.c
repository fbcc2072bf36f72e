/* Filters arrays of each format beside a plain loop: with offsets, nulls and buffers that are absent, as columns and in
 * structs, each buffer with just the bytes that it needs. Sees that a result is moved and released as Arrow says, and that
 * a refusal changes nothing. Prints how many answers it compared.
 *
 * Where row_mask_arrow.c is compiled with -Dmalloc=refusing_malloc -Dcalloc=refusing_calloc, each of its requests for
 * memory is refused in turn, and it prints how many these are. */
#include "row_mask_arrow.h"

#include <errno.h>
#include <stdbool.h>
#include <stdio.h>
#include <stdlib.h>
#include <string.h>

enum { LONGEST = 150, CHILDREN = 12 };

static size_t compared;

static void same(size_t got, size_t want, const char *what) {
    compared++;
    if (got == want)
        return;
    printf("%s: %zu in place of %zu\n", what, got, want);
    exit(1);
}

static uint64_t state = 1;

static uint64_t random_word(void) {
    state ^= state << 13;
    state ^= state >> 7;
    state ^= state << 17;
    return state;
}

static size_t random_below(size_t end) {
    return (size_t)(random_word() % end);
}

/* ---- memory ---- */

static size_t asked, refused_at = SIZE_MAX;

void *refusing_malloc(size_t size);
void *refusing_calloc(size_t count, size_t size);

void *refusing_malloc(size_t size) {
    return asked++ == refused_at ? NULL : malloc(size);
}

void *refusing_calloc(size_t count, size_t size) {
    return asked++ == refused_at ? NULL : calloc(count, size);
}

/* What a list of bytes has, in memory of just that size. */
static void *random_bytes(size_t size) {
    uint8_t *made = malloc(size);
    size_t i;

    for (i = 0; i < size; i++)
        made[i] = (uint8_t)random_word();
    return made;
}

/* ---- arrays ---- */

/* A width of 0 is a bit, of -4 and -8 strings whose offsets have so many bytes, and of -1 a struct. */
static const struct format {
    const char *format;
    int width;
} formats[] = {
    {"c", 1}, {"C", 1}, {"s", 2}, {"S", 2}, {"i", 4}, {"I", 4}, {"l", 8}, {"L", 8}, {"e", 2}, {"f", 4}, {"g", 8},
    {"b", 0}, {"u", -4}, {"z", -4}, {"U", -8}, {"Z", -8}, {"w:1", 1}, {"w:2", 2}, {"w:3", 3}, {"w:4", 4}, {"w:8", 8},
    {"w:16", 16}, {"w:37", 37}, {"d:9,2,32", 4}, {"d:18,2,64", 8}, {"d:19,10", 16}, {"d:19,10,128", 16},
    {"d:40,-3,256", 32}, {"d:5,0", 16}, {"tdD", 4}, {"tdm", 8}, {"tts", 4}, {"ttm", 4}, {"ttu", 8}, {"ttn", 8},
    {"tss:", 8}, {"tsm:", 8}, {"tsu:", 8}, {"tsn:Europe/Paris", 8}, {"tDs", 8}, {"tDm", 8}, {"tDu", 8}, {"tDn", 8},
    {"tiM", 4}, {"tiD", 8}, {"tin", 16}, {"+s", -1}};

enum { FORMATS = sizeof formats / sizeof *formats };

/* How an array tells of its nulls: by no bitmap, with their number, with a number to be found, or with a bitmap and none. */
enum nulls { ABSENT, COUNTED, UNCOUNTED, NONE, NULLS };

static void release_schema(struct ArrowSchema *schema) {
    int64_t i;

    for (i = 0; i < schema->n_children; i++) {
        schema->children[i]->release(schema->children[i]);
        free(schema->children[i]);
    }
    free(schema->children);
    schema->release = NULL;
}

static void release_array(struct ArrowArray *array) {
    int64_t i;

    for (i = 0; i < array->n_children; i++) {
        array->children[i]->release(array->children[i]);
        free(array->children[i]);
    }
    for (i = 0; i < array->n_buffers; i++)
        free((void *)(uintptr_t)array->buffers[i]);
    free(array->buffers);
    free(array->children);
    array->release = NULL;
}

static bool bit(const void *bytes, size_t i) {
    return ((const uint8_t *)bytes)[i / 8] >> (i % 8) & 1;
}

/* The bitmap of nulls, of `end` values. */
static void add_nulls(struct ArrowArray *made, enum nulls nulls, size_t end) {
    uint8_t *bytes;
    size_t i;

    if (nulls == ABSENT)
        return;
    made->buffers[0] = bytes = random_bytes((end + 7) / 8);
    if (nulls == NONE)
        memset(bytes, 0xFF, (end + 7) / 8);
    made->null_count = nulls == UNCOUNTED ? -1 : 0;
    if (nulls == COUNTED)
        for (i = (size_t)made->offset; i < end; i++)
            made->null_count += !bit(bytes, i);
}

static void add_strings(struct ArrowArray *made, size_t width, size_t end) {
    uint64_t *offsets = calloc(end + 1, 8), at = random_below(9);
    size_t i;

    /* (of 4 bytes each, they are packed below) */
    for (i = 0; i <= end; i++) {
        offsets[i] = at;
        at += random_below(4) ? random_below(20) : 0;
    }
    made->buffers[2] = random_bytes((size_t)offsets[end]);
    made->buffers[1] = malloc(width * (end + 1));
    for (i = 0; i <= end; i++)
        if (width == 4)
            ((uint32_t *)(uintptr_t)made->buffers[1])[i] = (uint32_t)offsets[i];
        else
            ((uint64_t *)(uintptr_t)made->buffers[1])[i] = offsets[i];
    free(offsets);
}

static void make(
    struct ArrowSchema *schema, struct ArrowArray *made, const struct format *format, size_t len, size_t offset,
    enum nulls nulls) {
    size_t end = offset + len, width = (size_t)abs(format->width);
    int64_t i;

    memset(schema, 0, sizeof *schema);
    memset(made, 0, sizeof *made);
    schema->format = format->format;
    schema->name = "a";
    schema->release = release_schema;
    made->length = (int64_t)len;
    made->offset = (int64_t)offset;
    made->n_buffers = format->width == -1 ? 1 : format->width < 0 ? 3 : 2;
    made->buffers = calloc(3, sizeof *made->buffers);
    made->release = release_array;
    add_nulls(made, nulls, end);
    if (format->width >= 0 && end > 0)
        made->buffers[1] = random_bytes(format->width == 0 ? (end + 7) / 8 : end * width);
    else if (format->width < -1 && end > 0)
        add_strings(made, width, end);
    if (format->width != -1)
        return;
    schema->n_children = made->n_children = CHILDREN;
    schema->children = calloc(CHILDREN, sizeof *schema->children);
    made->children = calloc(CHILDREN, sizeof *made->children);
    for (i = 0; i < CHILDREN; i++) {
        /* (a struct within is the last one, and has no struct) */
        const struct format *child = &formats[random_below(FORMATS - 1)];
        schema->children[i] = malloc(sizeof *schema);
        made->children[i] = malloc(sizeof *made);
        make(schema->children[i], made->children[i], child, end + random_below(3), random_below(10), (enum nulls)random_below(NULLS));
    }
}

/* ---- what is wanted ---- */

/* The bytes of a row, and how many they are. */
static const uint8_t *row(const struct ArrowArray *array, int width, size_t i, size_t *size) {
    const uint8_t *bytes = array->buffers[width < 0 ? 2 : 1];
    size_t from = 0;

    if (width >= 0) {
        *size = (size_t)width;
        return bytes + i * *size;
    }
    if (width == -4) {
        const uint32_t *offsets = array->buffers[1];
        from = offsets[i];
        *size = offsets[i + 1] - from;
    } else {
        const uint64_t *offsets = array->buffers[1];
        from = (size_t)offsets[i];
        *size = (size_t)offsets[i + 1] - from;
    }
    return bytes + from;
}

static int width_of_format(const char *format) {
    size_t i = 0;

    while (strcmp(formats[i].format, format) != 0)
        i++;
    return formats[i].width;
}

static bool is_null(const struct ArrowArray *array, size_t i) {
    return array->buffers[0] != NULL && !bit(array->buffers[0], i);
}

/* The made array has the rows of the list, from row `start` of the array on. */
static void same_rows(
    const struct ArrowSchema *schema, const struct ArrowArray *array, size_t start, const bool *list, size_t len,
    const struct ArrowArray *made) {
    int width = width_of_format(schema->format);
    size_t i, n = 0, nulls = 0, got, want;
    int64_t child;

    start += (size_t)array->offset;
    for (i = 0; i < len; i++) {
        if (!list[i])
            continue;
        same(is_null(made, n), is_null(array, start + i), "null");
        nulls += is_null(array, start + i);
        if (width == 0)
            same(bit(made->buffers[1], n), bit(array->buffers[1], start + i), "bit");
        else if (width != -1) {
            const uint8_t *it = row(made, width, n, &got), *wanted = row(array, width, start + i, &want);
            same(got, want, "size of a row");
            same(want == 0 || memcmp(it, wanted, want) == 0, true, schema->format);
        }
        n++;
    }
    same((size_t)made->length, n, "length");
    same((size_t)made->null_count, nulls, "null_count");
    same((size_t)made->offset, 0, "offset");
    same((size_t)made->n_buffers, (size_t)array->n_buffers, "n_buffers");
    same((size_t)made->n_children, (size_t)array->n_children, "n_children");
    same(width == -1 || made->buffers[1] != NULL, true, "buffer");
    same(made->dictionary == NULL, true, "dictionary");
    for (child = 0; child < array->n_children; child++)
        same_rows(schema->children[child], array->children[child], start, list, len, made->children[child]);
}

/* ---- tests ---- */

typedef struct mask {
    bool list[LONGEST];
    uint8_t *bytes;
    size_t size, offset, len;
} mask;

static mask new_mask(size_t len, unsigned share) {
    mask made;
    size_t i;

    made.offset = random_below(20);
    made.len = len;
    made.size = (made.offset + len + 7) / 8;
    made.bytes = random_bytes(made.size);
    for (i = 0; i < len; i++) {
        size_t p = made.offset + i;
        made.list[i] = random_word() % 256 < share;
        made.bytes[p / 8] = (uint8_t)((made.bytes[p / 8] & ~(1u << p % 8)) | (unsigned)made.list[i] << p % 8);
    }
    return made;
}

static int filter(
    const struct ArrowSchema *schema, const struct ArrowArray *array, const mask *by, struct ArrowArray *out,
    row_mask_arrow_error *error) {
    return row_mask_arrow_filter(schema, array, by->bytes, by->size, by->offset, by->len, out, error);
}

/* A child that is moved out of a struct outlives it. */
static void outlives(
    const struct ArrowSchema *schema, const struct ArrowArray *array, const mask *by, struct ArrowArray *made) {
    size_t i = random_below(CHILDREN);
    struct ArrowArray child = *made->children[i];

    made->children[i]->release = NULL;
    made->release(made);
    same(made->release == NULL, true, "release");
    same_rows(schema->children[i], array->children[i], (size_t)array->offset, by->list, by->len, &child);
    child.release(&child);
    same(child.release == NULL, true, "release");
}

static void filters(const struct format *format, size_t len, size_t offset, enum nulls nulls, unsigned share) {
    struct ArrowSchema schema;
    struct ArrowArray array, made;
    mask by = new_mask(len, share);

    make(&schema, &array, format, len, offset, nulls);
    same((size_t)filter(&schema, &array, &by, &made, NULL), 0, format->format);
    same_rows(&schema, &array, 0, by.list, len, &made);
    if (format->width == -1)
        outlives(&schema, &array, &by, &made);
    else
        made.release(&made);
    array.release(&array);
    schema.release(&schema);
    free(by.bytes);
}

/* The call answers `status` and says `what`, and nothing is changed. */
static void refused(
    const struct ArrowSchema *schema, const struct ArrowArray *array, const mask *by, int status, const char *what) {
    struct ArrowSchema same_schema = *schema;
    struct ArrowArray same_array = *array, out, untouched;
    row_mask_arrow_error error = {""};

    memset(&out, 0xA5, sizeof out);
    memcpy(&untouched, &out, sizeof out);
    same((size_t)filter(schema, array, by, &out, &error), (size_t)status, what);
    same(strstr(error.message, what) != NULL, true, error.message);
    same((size_t)filter(schema, array, by, &out, NULL), (size_t)status, what);
    same(memcmp(&out, &untouched, sizeof out) == 0, true, "out is left as it was");
    same(memcmp(schema, &same_schema, sizeof same_schema) == 0, true, "so is the schema");
    same(memcmp(array, &same_array, sizeof same_array) == 0, true, "so is the array");
}

static void refuses_formats(void) {
    static const char *const others[] = {
        "n", "v", "vx", "vuu", "+ll", "+lu", "+vl", "+vL", "+w:3", "+m", "+ud:0,1", "+us:0,1", "+r", "", "x", "cc", "bb", "uu",
        "w", "w:", "w:0", "w:03", "w:-1", "w:3x", "w:4294967296", "w:99999999999999999999", "d", "d:", "d:3", "d:3,1,",
        "d:3,1,7", "d:3,1,129", "d:x,y", "d:,", "d:3,", "d:,1", "d:x,1", "d:3,y", "d:0,1", "d:03,1", "d:-3,1", "d:+3,1",
        "d:3,-", "d:3,--1", "d:3,+1", "d:3, 1", "d:3,1,x", "d:3,1,-32", "d:3,1,032", "d:3,1,32,7", "d:3,1x32",
        "d:3,2147483648", "d:2147483648,1", "t", "td", "tdx", "tt", "ttx", "ts", "tsx:", "tss", "tD", "tDx", "ti", "tix", "+",
        "+S"};
    struct ArrowSchema schema, parent;
    struct ArrowArray array, struct_array;
    mask by = new_mask(9, 128);
    size_t i;

    make(&schema, &array, &formats[4], 9, 3, COUNTED);
    make(&parent, &struct_array, &formats[FORMATS - 1], 9, 3, COUNTED);
    for (i = 0; i < sizeof others / sizeof *others; i++) {
        char what[64];
        snprintf(what, sizeof what, "'a' of format '%.20s'", others[i]);
        schema.format = others[i];
        refused(&schema, &array, &by, ENOTSUP, what);
        parent.children[CHILDREN - 1]->format = others[i];
        refused(&parent, &struct_array, &by, ENOTSUP, what);
    }
    array.release(&array);
    struct_array.release(&struct_array);
    schema.release(&schema);
    parent.release(&parent);
    free(by.bytes);
}

/* The array with one of its numbers changed is refused. */
#define CHANGED(number, value, what)                    \
    do {                                                \
        int64_t kept = (number);                        \
        (number) = (value);                             \
        refused(&schema, &array, &by, EINVAL, what);    \
        (number) = kept;                                \
    } while (0)

static void refuses_arrays(const struct format *format) {
    struct ArrowSchema schema;
    struct ArrowArray array;
    mask by = new_mask(9, 128), longer = new_mask(10, 128), outside = by;
    const void *kept;
    int64_t i;

    make(&schema, &array, format, 9, 3, COUNTED);
    refused(&schema, &array, &longer, EINVAL, "a bitmap of other rows");
    outside.size = (outside.offset + outside.len - 1) / 8;
    refused(&schema, &array, &outside, EINVAL, "a bitmap of other rows");
    CHANGED(array.length, -1, "a bitmap of other rows");
    CHANGED(array.offset, -1, "bad length or offset");
    CHANGED(array.offset, INT64_MAX - 8, "bad length or offset");
    CHANGED(array.n_buffers, array.n_buffers + 1, "bad number of buffers");
    CHANGED(array.n_buffers, array.n_buffers - 1, "bad number of buffers");
    CHANGED(schema.n_children, schema.n_children + 1, "bad number of children");
    CHANGED(array.n_children, array.n_children + 1, "bad number of children");
    i = schema.n_children;
    schema.n_children = -1;
    CHANGED(array.n_children, -1, "bad number of children");
    schema.n_children = i;
    for (i = 1; i < array.n_buffers; i++) {
        kept = array.buffers[i];
        array.buffers[i] = NULL;
        refused(&schema, &array, &by, EINVAL, "a bad buffer");
        array.buffers[i] = kept;
    }
    for (i = 0; i < array.n_children; i++) {
        int64_t length = array.children[i]->length;
        array.children[i]->length = 11;
        refused(&schema, &array, &by, EINVAL, "bad length or offset");
        array.children[i]->length = length;
    }
    array.release(&array);
    schema.release(&schema);
    free(by.bytes);
    free(longer.bytes);
}

/* Offsets of strings that go back, begin below 0 or don't stand where a number may. */
static void refuses_offsets(const struct format *format) {
    struct ArrowSchema schema;
    struct ArrowArray array;
    mask by = new_mask(9, 128);
    size_t i, width = (size_t)-format->width;

    for (i = 0; i <= 9; i++) {
        uint8_t *offset;
        make(&schema, &array, format, 9, 3, COUNTED);
        offset = (uint8_t *)(uintptr_t)array.buffers[1] + width * (3 + i);
        if (i == 0) /* (no string before it is asked for) */
            memset(offset, 0xFF, width);
        else
            memset(offset, 0x80, width);
        refused(&schema, &array, &by, EINVAL, "a bad buffer");
        array.release(&array);
        schema.release(&schema);
    }
    make(&schema, &array, format, 9, 3, COUNTED);
    array.buffers[1] = (const uint8_t *)array.buffers[1] + 1;
    refused(&schema, &array, &by, EINVAL, "a bad buffer");
    array.buffers[1] = (const uint8_t *)array.buffers[1] - 1;
    array.release(&array);
    schema.release(&schema);
    free(by.bytes);
}

/* Rows that stand where a number of their width may not. */
static void unaligned(void) {
    struct ArrowSchema schema;
    struct ArrowArray array, made;
    mask by = new_mask(40, 128);
    size_t i;

    for (i = 0; i < FORMATS; i++) {
        uint8_t *aligned, *moved;
        size_t size = (size_t)formats[i].width * 43;
        if (formats[i].width < 2)
            continue;
        make(&schema, &array, &formats[i], 40, 3, COUNTED);
        aligned = (uint8_t *)(uintptr_t)array.buffers[1];
        moved = malloc(size + 1);
        memcpy(moved + 1, aligned, size);
        array.buffers[1] = moved + 1;
        same((size_t)filter(&schema, &array, &by, &made, NULL), 0, "unaligned");
        array.buffers[1] = aligned;
        same_rows(&schema, &array, 0, by.list, by.len, &made);
        made.release(&made);
        free(moved);
        array.release(&array);
        schema.release(&schema);
    }
    free(by.bytes);
}

/* Each request for memory is refused in turn. Answers how many there are. */
static size_t refuses_memory(void) {
    struct ArrowSchema schema;
    struct ArrowArray array, made;
    mask by = new_mask(50, 128);
    size_t last;

    make(&schema, &array, &formats[FORMATS - 1], 50, 3, COUNTED);
    asked = 0;
    same((size_t)filter(&schema, &array, &by, &made, NULL), 0, "memory");
    made.release(&made);
    last = asked;
    for (refused_at = 0; refused_at < last; refused_at++) {
        struct ArrowArray untouched;
        row_mask_arrow_error error;
        memset(&made, 0xA5, sizeof made);
        memcpy(&untouched, &made, sizeof made);
        asked = 0;
        same((size_t)filter(&schema, &array, &by, &made, &error), ENOMEM, "no memory");
        same(memcmp(&made, &untouched, sizeof made) == 0, true, "out is left as it was");
        same(strcmp(error.message, "no memory: column 'a' of format '+s'") == 0, true, error.message);
    }
    refused_at = SIZE_MAX;
    array.release(&array);
    schema.release(&schema);
    free(by.bytes);
    return last;
}

int main(void) {
    const size_t lens[] = {0, 1, 2, 7, 8, 9, 63, 64, 65, LONGEST}, offsets[] = {0, 1, 8, 13, 64};
    const unsigned shares[] = {0, 12, 128, 244, 256};
    size_t i, len, offset, nulls, share, requests;

    for (i = 0; i < FORMATS; i++)
        for (len = 0; len < sizeof lens / sizeof *lens; len++)
            for (offset = 0; offset < sizeof offsets / sizeof *offsets; offset++)
                for (nulls = 0; nulls < NULLS; nulls++)
                    for (share = 0; share < sizeof shares / sizeof *shares; share++)
                        filters(&formats[i], lens[len], offsets[offset], (enum nulls)nulls, shares[share]);
    unaligned();
    refuses_formats();
    for (i = 0; i < FORMATS; i++) {
        refuses_arrays(&formats[i]);
        if (formats[i].width < -1)
            refuses_offsets(&formats[i]);
    }
    requests = refuses_memory();
    printf("%zu comparisons, %zu requests for memory refused\n", compared, requests);
    return 0;
}
