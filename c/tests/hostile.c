/* Filters arrays that say what can't be: more rows than memory can have, children or formats that aren't there, structs
 * that lie in themselves. Each is refused, and nothing is written. What is just within the limits is filtered. Each is
 * tried by both calls. The Rust package's test of this name tries the same ones, in the same order. Prints how many it
 * tried. */
#include "row_mask_arrow.h"

#include <errno.h>
#include <stdbool.h>
#include <stdio.h>
#include <stdlib.h>
#include <string.h>

enum { ROWS = 4, DEEPEST = 65, WIDEST = 65537 };

static size_t tried;

static void expect(bool is_so, const char *what, const char *got) {
    if (is_so)
        return;
    printf("array %zu: not '%s', but '%s'\n", tried, what, got);
    exit(1);
}

/* ---- arrays ---- */

static const int32_t numbers[ROWS] = {1, 2, 3, 4};
static const void *number_buffers[2] = {NULL, numbers};

/* Bytes that are offsets of empty strings, too, and empty views, and a validity by which each row is null. */
static const uint64_t zeros[2 * ROWS + 1] = {0};

/* By it, rows 0, 2 and 3 are chosen. */
static const uint8_t bits[1] = {0x0D};

static void release_schema(struct ArrowSchema *schema) {
    schema->release = NULL;
}

static void release_array(struct ArrowArray *array) {
    array->release = NULL;
}

static struct ArrowSchema schema_of(const char *format) {
    struct ArrowSchema made;

    memset(&made, 0, sizeof made);
    made.format = format;
    made.name = "a";
    made.release = release_schema;
    return made;
}

static struct ArrowArray array_of(int64_t n_buffers, const void **buffers) {
    struct ArrowArray made;

    memset(&made, 0, sizeof made);
    made.length = ROWS;
    made.n_buffers = n_buffers;
    made.buffers = buffers;
    made.release = release_array;
    return made;
}

static void set_children(
    struct ArrowSchema *schema, struct ArrowArray *array, int64_t count, struct ArrowSchema **schemas,
    struct ArrowArray **arrays) {
    schema->n_children = array->n_children = count;
    schema->children = schemas;
    array->children = arrays;
}

/* ---- answers ---- */

/* A call answers `status` and says `what`. */
static void tries(
    const struct ArrowSchema *schema, const struct ArrowArray *array, bool moves, int status, const char *what) {
    struct ArrowArray out, untouched, own = *array;
    row_mask_arrow_error error = {""};
    size_t len = (size_t)array->length;

    tried++;
    memset(&out, 0xA5, sizeof out);
    untouched = out;
    expect(
        (moves ? row_mask_arrow_filter_moved(schema, &own, bits, 1, 0, len, &out, &error)
               : row_mask_arrow_filter(schema, array, bits, 1, 0, len, &out, &error))
            == status,
        what, error.message);
    expect(strncmp(error.message, what, strlen(what)) == 0, what, error.message);
    if (status != 0) {
        expect(memcmp(&out, &untouched, sizeof out) == 0, "out is left as it was", "written");
        expect(memcmp(&own, array, sizeof own) == 0, "the array is left as it was", "moved");
        return;
    }
    expect(!moves || own.release == NULL, "moved", "not");
    expect(out.length == (array->length == 0 ? 0 : 3), "the chosen rows", "others");
    out.release(&out);
    expect(out.release == NULL, "released", "not");
}

/* So do both calls. */
static void answers(const struct ArrowSchema *schema, const struct ArrowArray *array, int status, const char *what) {
    tries(schema, array, false, status, what);
    tries(schema, array, true, status, what);
}

/* ---- columns ---- */

/* A buffer is there where its letter is '+'. A column is filtered where nothing is said. */
static const struct column {
    const char *format;
    int64_t length, offset, null_count;
    const char *buffers, *what;
} columns[] = {
    {"i", ROWS, 0, 0, "-+", ""},
    /* rows that end past what memory can have */
    {"i", ROWS, INT64_MAX - ROWS, 0, "-+", "bad length or offset"},
    {"s", ROWS, INT64_MAX - ROWS, 0, "-+", "bad length or offset"},
    {"l", ROWS, INT64_MAX - ROWS, 0, "-+", "bad length or offset"},
    {"d:19,10", ROWS, INT64_MAX - ROWS, 0, "-+", "bad length or offset"},
    {"w:3", ROWS, INT64_MAX - ROWS, 0, "-+", "bad length or offset"},
    {"u", ROWS, INT64_MAX - ROWS, 0, "-++", "bad length or offset"},
    {"Z", ROWS, INT64_MAX - ROWS, 0, "-++", "bad length or offset"},
    {"i", ROWS, INT64_MAX - ROWS, 0, "--", "a bad buffer"},
    {"u", ROWS, INT64_MAX - ROWS, 0, "--+", "a bad buffer"},
    {"b", ROWS, INT64_MAX - ROWS, 0, "--", "a bad buffer"},
    {"i", ROWS, INT64_MAX, 0, "-+", "bad length or offset"},
    {"w:1073741824", ROWS, (INT64_C(1) << 34) - ROWS, 0, "-+", "bad length or offset"},
    {"w:1073741824", ROWS, (INT64_C(1) << 34) - ROWS, 0, "--", "a bad buffer"},
    /* no rows, at the last place where one may end, and at the next one */
    {"i", 0, (INT64_C(1) << 61) - 1, 0, "--", ""},
    {"i", 0, INT64_C(1) << 61, 0, "--", "bad length or offset"},
    {"l", 0, (INT64_C(1) << 60) - 1, 0, "--", ""},
    {"l", 0, INT64_C(1) << 60, 0, "--", "bad length or offset"},
    {"w:1073741824", 0, (INT64_C(1) << 33) - 1, 0, "--", ""},
    {"w:1073741824", 0, INT64_C(1) << 33, 0, "--", "bad length or offset"},
    {"u", 0, (INT64_C(1) << 61) - 2, 0, "---", ""},
    {"u", 0, (INT64_C(1) << 61) - 1, 0, "---", "bad length or offset"},
    {"Z", 0, (INT64_C(1) << 60) - 2, 0, "---", ""},
    {"Z", 0, (INT64_C(1) << 60) - 1, 0, "---", "bad length or offset"},
    {"b", 0, INT64_MAX, 0, "--", ""},
    {"C", 0, INT64_MAX, 0, "--", ""},
    {"+s", 0, INT64_MAX, 0, "-", ""},
    /* buffers of views, of which one is there that has no size */
    {"vu", ROWS, 0, 0, "-++", ""},
    {"vu", ROWS, 0, 0, "-+-", ""},
    {"vz", ROWS, 0, 0, "-+++", ""},
    {"vz", ROWS, 0, 0, "-+-+", ""},
    {"vz", ROWS, 0, 0, "-++-", "a bad buffer"},
    {"vz", 0, 0, 0, "-++-", "a bad buffer"},
    {"vu", ROWS, 0, 0, "--+", "a bad buffer"},
    {"vu", ROWS, 0, 0, "-+", "bad number of buffers"},
    {"vu", ROWS, INT64_MAX - ROWS, 0, "-++", "bad length or offset"},
    {"vu", 0, (INT64_C(1) << 59) - 1, 0, "---", ""},
    {"vu", 0, INT64_C(1) << 59, 0, "---", "bad length or offset"},
    /* numbers of nulls */
    {"i", ROWS, 0, -1, "-+", ""},
    {"i", ROWS, 0, 4, "++", ""},
    {"i", ROWS, 0, -2, "++", "bad null count"},
    {"i", ROWS, 0, INT64_MIN, "-+", "bad null count"},
    {"i", ROWS, 0, 1, "-+", "bad null count"},
    {"b", ROWS, 0, 1, "-+", "bad null count"},
    {"u", ROWS, 0, INT64_MAX, "-++", "bad null count"},
    {"+s", ROWS, 0, 1, "-", "bad null count"}};

static void tries_columns(void) {
    size_t i, buffer;

    for (i = 0; i < sizeof columns / sizeof *columns; i++) {
        const void *buffers[4];
        struct ArrowSchema schema = schema_of(columns[i].format);
        struct ArrowArray array = array_of((int64_t)strlen(columns[i].buffers), buffers);

        for (buffer = 0; buffer < strlen(columns[i].buffers); buffer++)
            buffers[buffer] = columns[i].buffers[buffer] == '+' ? zeros : NULL;
        array.length = columns[i].length;
        array.offset = columns[i].offset;
        array.null_count = columns[i].null_count;
        answers(&schema, &array, columns[i].what[0] == 0 ? 0 : EINVAL, columns[i].what);
    }
}

/* 2^34 rows of 2^30 bytes, of which one is chosen: as a number of 64 bits, their product is 0. */
static void tries_rows_whose_bytes_wrap(const void *data, const char *what) {
    const size_t len = (size_t)1 << 34;
    const void *buffers[2] = {NULL, data};
    struct ArrowSchema schema = schema_of("w:1073741824");
    struct ArrowArray array = array_of(2, buffers), out;
    row_mask_arrow_error error = {""};
    uint8_t *many = calloc(len / 8, 1);
    int status;

    if (many == NULL)
        return;
    tried++;
    many[0] = 0x80;
    array.length = (int64_t)len;
    status = row_mask_arrow_filter(&schema, &array, many, len / 8, 0, len, &out, &error);
    expect(status == EINVAL && strncmp(error.message, what, strlen(what)) == 0, what, error.message);
    free(many);
}

static void tries_what_is_missing(void) {
    const struct ArrowSchema schema = schema_of("i");
    const struct ArrowArray array = array_of(2, number_buffers);
    struct ArrowSchema bad_schema = schema;
    struct ArrowArray bad_array = array;

    bad_schema.format = NULL;
    answers(&bad_schema, &array, EINVAL, "bad format");
    bad_array.buffers = NULL;
    answers(&schema, &bad_array, EINVAL, "bad number of buffers");
    bad_array.release = NULL;
    answers(&schema, &bad_array, EINVAL, "a released array or schema");
    bad_schema.release = NULL;
    answers(&bad_schema, &array, EINVAL, "a released array or schema");
}

/* ---- structs ---- */

static void tries_children(void) {
    const void *absent[2] = {NULL, NULL};
    struct ArrowSchema schema = schema_of("+s"), child_schema = schema_of("i"), *schemas[1] = {&child_schema};
    struct ArrowArray array = array_of(1, number_buffers), child = array_of(2, number_buffers), *arrays[1] = {&child};

    set_children(&schema, &array, 1, schemas, arrays);
    answers(&schema, &array, 0, "");
    array.children = NULL;
    answers(&schema, &array, EINVAL, "bad number of children");
    array.children = arrays;
    schema.children = NULL;
    answers(&schema, &array, EINVAL, "bad number of children");
    schema.children = schemas;
    arrays[0] = NULL;
    answers(&schema, &array, EINVAL, "a bad child");
    arrays[0] = &child;
    schemas[0] = NULL;
    answers(&schema, &array, EINVAL, "a bad child");
    schemas[0] = &child_schema;
    child.release = NULL;
    answers(&schema, &array, EINVAL, "a bad child");
    child.release = release_array;
    child_schema.release = NULL;
    answers(&schema, &array, EINVAL, "a bad child");
    child_schema = schema_of(NULL);
    answers(&schema, &array, EINVAL, "bad format");
    child_schema = schema_of("i");
    child.offset = INT64_MAX - ROWS;
    answers(&schema, &array, EINVAL, "bad length or offset");
    child_schema = schema_of("w:1073741824");
    child.offset = 0;
    child.length = INT64_C(1) << 34;
    answers(&schema, &array, EINVAL, "bad length or offset");
    child.buffers = absent;
    answers(&schema, &array, EINVAL, "a bad buffer");
}

static void tries_its_own_child(void) {
    struct ArrowSchema schema = schema_of("+s"), *schemas[2] = {&schema, &schema};
    struct ArrowArray array = array_of(1, number_buffers), *arrays[2] = {&array, &array};

    set_children(&schema, &array, 1, schemas, arrays);
    answers(&schema, &array, ENOTSUP, "nested too deep: column 'a' of format '+s'");
    set_children(&schema, &array, 2, schemas, arrays);
    answers(&schema, &array, ENOTSUP, "nested too deep");
}

/* Structs in structs, the first one first, and numbers in the last of them. Or lists, whose offsets are zeros. */
static struct ArrowSchema schemas_in[DEEPEST + 1], *schema_places[DEEPEST][2];
static struct ArrowArray arrays_in[DEEPEST + 1], *array_places[DEEPEST][2];

/* So many of them, each of which has the next one so many times. */
static void nest(const char *format, size_t structs, int64_t times) {
    static const void *buffers[2] = {NULL, zeros};
    size_t i;

    schemas_in[structs] = schema_of("i");
    arrays_in[structs] = array_of(2, number_buffers);
    for (i = 0; i < structs; i++) {
        schema_places[i][0] = schema_places[i][1] = &schemas_in[i + 1];
        array_places[i][0] = array_places[i][1] = &arrays_in[i + 1];
        schemas_in[i] = schema_of(format);
        arrays_in[i] = array_of(strcmp(format, "+s") == 0 ? 1 : 2, buffers);
        set_children(&schemas_in[i], &arrays_in[i], times, schema_places[i], array_places[i]);
    }
}

static void tries_nested(const char *format, size_t structs, int64_t times, int status, const char *what) {
    nest(format, structs, times);
    answers(&schemas_in[0], &arrays_in[0], status, what);
}

/* The numbers in the last of 64 structs are the chosen ones, and stay where these are released. */
static void tries_the_deepest_child(void) {
    struct ArrowArray made, *deepest = &made, moved;
    const int32_t *got;
    size_t i;

    tried++;
    nest("+s", 64, 1);
    expect(
        row_mask_arrow_filter(&schemas_in[0], &arrays_in[0], bits, 1, 0, ROWS, &made, NULL) == 0, "filtered",
        "refused");
    for (i = 0; i < 64; i++)
        deepest = deepest->children[0];
    moved = *deepest;
    deepest->release = NULL;
    made.release(&made);
    got = (const int32_t *)moved.buffers[1];
    expect(moved.length == 3 && got[0] == 1 && got[1] == 3 && got[2] == 4, "1, 3 and 4", "others");
    moved.release(&moved);
}

/* A struct that has one child so many times. */
static void tries_wide(int64_t times, int status, const char *what) {
    static struct ArrowSchema *schemas[WIDEST];
    static struct ArrowArray *arrays[WIDEST];
    struct ArrowSchema schema = schema_of("+s"), child_schema = schema_of("i");
    struct ArrowArray array = array_of(1, number_buffers), child = array_of(2, number_buffers);
    size_t i;

    for (i = 0; i < WIDEST; i++) {
        schemas[i] = &child_schema;
        arrays[i] = &child;
    }
    set_children(&schema, &array, times, schemas, arrays);
    answers(&schema, &array, status, what);
}

/* ---- views, lists and dictionaries ---- */

static void tries_views(void) {
    int64_t sizes[3] = {0, 8, 0};
    const void *buffers[5] = {NULL, zeros, NULL, zeros, sizes};
    struct ArrowSchema schema = schema_of("vu");
    struct ArrowArray array = array_of(5, buffers);

    answers(&schema, &array, 0, "");
    buffers[3] = NULL;
    answers(&schema, &array, EINVAL, "a bad buffer: column 'a' of format 'vu'");
    buffers[3] = zeros;
    sizes[0] = -1;
    answers(&schema, &array, EINVAL, "a bad buffer");
    buffers[2] = zeros;
    sizes[0] = INT64_MIN;
    answers(&schema, &array, EINVAL, "a bad buffer");
    buffers[4] = (const uint8_t *)zeros + 1;
    answers(&schema, &array, EINVAL, "a bad buffer");
    for (sizes[0] = INT32_MAX; sizes[0] < INT64_MAX / 2; sizes[0] *= 2) {
        array.n_buffers = sizes[0] + 1;
        answers(&schema, &array, EINVAL, "bad number of buffers");
    }
    array.n_buffers = -1;
    answers(&schema, &array, EINVAL, "bad number of buffers");
}

static void tries_lists(const char *format, size_t width) {
    static const int32_t small[ROWS + 1] = {0, 1, 1, 3, 4}, falling[ROWS + 1] = {0, 1, 0, 3, 4}, negative[ROWS + 1] = {-1};
    static const int64_t large[ROWS + 1] = {0, 1, 1, 3, 4}, fallen[ROWS + 1] = {0, 1, 1, 3, 2}, below[ROWS + 1] = {INT64_MIN};
    const void *buffers[2] = {NULL, NULL};
    struct ArrowSchema schema = schema_of(format), child_schema = schema_of("i"), *schemas[2] = {&child_schema, &child_schema};
    struct ArrowArray array = array_of(2, buffers), child = array_of(2, number_buffers), *arrays[2] = {&child, &child};

    set_children(&schema, &array, 1, schemas, arrays);
    answers(&schema, &array, EINVAL, "a bad buffer");
    array.length = 0;
    answers(&schema, &array, 0, "");
    array.length = ROWS;
    buffers[1] = width == 4 ? (const void *)falling : fallen;
    answers(&schema, &array, EINVAL, "a bad buffer");
    buffers[1] = width == 4 ? (const void *)negative : below;
    answers(&schema, &array, EINVAL, "a bad buffer");
    buffers[1] = (const uint8_t *)zeros + 1;
    answers(&schema, &array, EINVAL, "a bad buffer");
    buffers[1] = width == 4 ? (const void *)small : large;
    answers(&schema, &array, 0, "");
    child.length = ROWS - 1;
    answers(&schema, &array, EINVAL, "bad length or offset: column 'a' of format 'i'");
    child.length = ROWS;
    set_children(&schema, &array, 2, schemas, arrays);
    answers(&schema, &array, EINVAL, "bad number of children");
    set_children(&schema, &array, 0, schemas, arrays);
    answers(&schema, &array, EINVAL, "bad number of children");
    set_children(&schema, &array, 1, NULL, arrays);
    answers(&schema, &array, EINVAL, "bad number of children");
}

static void tries_dictionaries(void) {
    static const char *const others[] = {"b", "f", "u", "tdD", "w:4", "vu"};
    struct ArrowSchema schema = schema_of("i"), values_schema = schema_of("l");
    const void *buffers[3] = {NULL, zeros, zeros}, *absent[2] = {NULL, NULL};
    struct ArrowArray array = array_of(2, buffers), values = array_of(2, buffers);
    size_t i;

    schema.dictionary = &values_schema;
    answers(&schema, &array, EINVAL, "a bad dictionary: column 'a' of format 'i'");
    array.dictionary = &values;
    answers(&schema, &array, 0, "");
    values.release = release_array;
    schema.dictionary = NULL;
    answers(&schema, &array, EINVAL, "a bad dictionary");
    schema.dictionary = &values_schema;
    for (i = 0; i < sizeof others / sizeof *others; i++) {
        schema.format = others[i];
        array.n_buffers = strchr("uv", *others[i]) ? 3 : 2;
        answers(&schema, &array, EINVAL, "a bad dictionary");
    }
    schema.format = "i";
    array.n_buffers = 2;
    values.release = NULL;
    answers(&schema, &array, EINVAL, "a bad dictionary");
    values.release = release_array;
    values_schema.release = NULL;
    answers(&schema, &array, EINVAL, "a bad dictionary");
    values_schema = schema_of("+r");
    tries(&schema, &array, false, ENOTSUP, "not supported: column 'a' of format '+r'");
    values_schema = schema_of("l");
    values.length = -1;
    tries(&schema, &array, false, EINVAL, "bad length or offset: column 'a' of format 'l'");
    /* (and no memory is asked for so many) */
    values.length = INT64_C(1) << 58;
    values.buffers = absent;
    tries(&schema, &array, false, EINVAL, "a bad buffer: column 'a' of format 'l'");
    values = array_of(2, buffers);
    array.buffers = absent;
    answers(&schema, &array, EINVAL, "a bad buffer: column 'a' of format 'i'");
    /* a dictionary that is its own */
    array.buffers = buffers;
    schema.dictionary = &schema;
    array.dictionary = &array;
    tries(&schema, &array, false, ENOTSUP, "nested too deep");
}

/* Keys of keys, so many times. */
static void tries_keys(size_t times, int status, const char *what) {
    size_t i;

    nest("i", times, 0);
    for (i = 0; i < times; i++) {
        schemas_in[i].dictionary = &schemas_in[i + 1];
        arrays_in[i].dictionary = &arrays_in[i + 1];
    }
    tries(&schemas_in[0], &arrays_in[0], false, status, what);
    tries(&schemas_in[0], &arrays_in[0], true, 0, "");
}

int main(void) {
    tries_columns();
    tries_rows_whose_bytes_wrap(NULL, "a bad buffer");
    tries_rows_whose_bytes_wrap(zeros, "bad length or offset");
    tries_what_is_missing();
    tries_children();
    tries_its_own_child();
    tries_nested("+s", 64, 1, 0, "");
    tries_nested("+s", 65, 1, ENOTSUP, "nested too deep: column 'a' of format '+s'");
    tries_the_deepest_child();
    tries_nested("+s", 15, 2, 0, ""); /* 65,534 columns in structs */
    tries_nested("+s", 16, 2, ENOTSUP, "too many columns: column 'a' of format '+s'");
    tries_nested("+s", 64, 2, ENOTSUP, "too many columns");
    tries_wide(65536, 0, "");
    tries_wide(65537, ENOTSUP, "too many columns");
    tries_views();
    tries_lists("+l", 4);
    tries_lists("+L", 8);
    tries_nested("+l", 64, 1, 0, "");
    tries_nested("+L", 65, 1, ENOTSUP, "nested too deep: column 'a' of format '+L'");
    tries_dictionaries();
    tries_keys(64, 0, "");
    tries_keys(65, ENOTSUP, "nested too deep: column 'a' of format 'i'");
    printf("%zu hostile arrays\n", tried);
    return 0;
}
