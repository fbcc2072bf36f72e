/* Rows of an array of Arrow's C data interface at the true values of a bitmap.
 *
 * A program compiles row_mask_arrow.c, which is C99 or C++11 and takes row_mask_arrow_refusals.h, beside a library of
 * row_mask.h. It takes memory by `malloc`. The two structs are those of Arrow's page, under its guard: a program that has
 * them of another header defines ARROW_C_DATA_INTERFACE before this one, where that header didn't. */
#ifndef ROW_MASK_ARROW_H
#define ROW_MASK_ARROW_H

#include <stddef.h>
#include <stdint.h>

#ifdef __cplusplus
extern "C" {
#endif

#ifndef ARROW_C_DATA_INTERFACE
#define ARROW_C_DATA_INTERFACE

#define ARROW_FLAG_DICTIONARY_ORDERED 1
#define ARROW_FLAG_NULLABLE 2
#define ARROW_FLAG_MAP_KEYS_SORTED 4

struct ArrowSchema {
    const char *format;
    const char *name;
    const char *metadata;
    int64_t flags;
    int64_t n_children;
    struct ArrowSchema **children;
    struct ArrowSchema *dictionary;
    void (*release)(struct ArrowSchema *);
    void *private_data;
};

struct ArrowArray {
    int64_t length;
    int64_t null_count;
    int64_t offset;
    int64_t n_buffers;
    int64_t n_children;
    const void **buffers;
    struct ArrowArray **children;
    struct ArrowArray *dictionary;
    void (*release)(struct ArrowArray *);
    void *private_data;
};

#endif

/* Why an array is not filtered, in words: a text that a 0 ends. */
typedef struct row_mask_arrow_error {
    char message[128];
} row_mask_arrow_error;

/* Makes an array of the rows of `array` at the true values of the bitmap, in their order, and answers 0. It is of the same
 * `schema`, has an offset of 0 and says its `null_count`. Nothing in it points to the array that it was made of. Its
 * owner releases it by its callback, and may move it or a child of it, as Arrow says.
 *
 * Formats are those whose rows have a fixed width: `c`, `C`, `s`, `S`, `i`, `I`, `l`, `L`, `e`, `f`, `g`, `w:N`, `d:..`,
 * and those that begin with `t`; `b`; `u`, `U`, `z` and `Z`; `vu` and `vz`; `+l`, `+L` and `+s` of these; and keys of a
 * dictionary of these. Buffers may be absent where an array has no values, and the one of validity where it has no null.
 * Columns may lie in up to 64 structs, lists and dictionaries, and up to 65,536 columns of a call do: a child of two
 * structs counts twice.
 *
 * A dictionary is copied whole, and so are all bytes that views are of: row_mask_arrow_filter_moved copies neither. Keys
 * and views are not read, and fit their dictionary or their bytes as they did.
 *
 * Else the answer is a number of <errno.h>, `error` says why unless it is NULL, and nothing else was written:
 *
 * - ENOTSUP: another format, or more columns, or these in more others, than are said above. The message names the
 *   column, with its format.
 * - EINVAL: an array or schema that was released or moved, and so has no callback. A column, which the message names,
 *   whose array doesn't fit its schema: with no format; a negative length or offset, a child of fewer rows than its
 *   struct or lists, or more rows than any memory could have; another number of buffers or children than the format has,
 *   or none; a null count below -1, or above 0 where there is no validity; a child or a dictionary that isn't there, or was
 *   released or moved; a dictionary whose keys are no whole numbers; a buffer that isn't there, or offsets that aren't
 *   aligned, or descend; sizes of the bytes of views that aren't aligned, or are negative. Or a bitmap that has another
 *   length than the array, or whose bits are not all within its bytes.
 * - ENOMEM: no memory.
 *
 * That buffers are as long as the array says can't be seen, and is owed by the caller. `array` and `schema` are only
 * read, and are still their owner's to release. */
int row_mask_arrow_filter(
    const struct ArrowSchema *schema, const struct ArrowArray *array, const uint8_t *bytes, size_t bytes_size,
    size_t offset, size_t len, struct ArrowArray *out, row_mask_arrow_error *error);

/* The same, but where it answers 0 it has taken `array` over, whose callback is NULL then. What it made has all that
 * `array` had for views, and its dictionaries, which may be of any format: these are moved, as Arrow says, not copied or
 * read. All else was released. Else `array` is as it was. So no child or dictionary may be in it twice where it would be
 * moved, which is EINVAL. `out` may be `array`. */
int row_mask_arrow_filter_moved(
    const struct ArrowSchema *schema, struct ArrowArray *array, const uint8_t *bytes, size_t bytes_size, size_t offset,
    size_t len, struct ArrowArray *out, row_mask_arrow_error *error);

#ifdef __cplusplus
}
#endif

#endif
