/* What row_mask_arrow.c takes, and what it refuses. That file alone includes this one, after the headers that it needs. */
/* What is in the buffers of an array, behind its validity. */
enum kind { UNKNOWN, BITS, ROWS, STRINGS, LARGE_STRINGS, VIEWS, LISTS, LARGE_LISTS, STRUCT };

typedef struct layout {
    enum kind kind;
    size_t width; /* of rows, views or offsets, in bytes, and 0 of others */
} layout;

/* How many structs, lists and dictionaries that are copied a column may lie in, and how many columns of a call do. So
 * a struct that lies in itself has an end, and so has one child of many structs. */
enum { MOST_NESTED = 64, MOST_COLUMNS = 65536 };

/* A call: whether it moves arrays into its result where that saves a copy, how many columns it has met that lie in
 * others, and where it says what is wrong. */
typedef struct call {
    bool moves;
    int64_t met;
    row_mask_arrow_error *error;
} call;

/* Says what is wrong, and with which column. A released one has no name any more. */
static int refuse(row_mask_arrow_error *error, int number, const char *what, const struct ArrowSchema *schema) {
    if (error == NULL)
        return number;
    if (schema == NULL)
        snprintf(error->message, sizeof error->message, "%s", what);
    else
        snprintf(
            error->message, sizeof error->message, "%s: column '%.40s' of format '%.20s'", what,
            schema->name ? schema->name : "", schema->format ? schema->format : "");
    return number;
}

/* ---- formats ---- */

/* Where digits end that are a number of 31 bits, and NULL where there are none, or they are a larger one. */
static const char *end_of_number(const char *text, size_t *number) {
    const char *end = text;

    for (*number = 0; *end >= '0' && *end <= '9'; end++) {
        *number = 10 * *number + (size_t)(*end - '0');
        if (*number > INT32_MAX)
            return NULL;
    }
    return end > text ? end : NULL;
}

/* The number that a text is, or 0 where it is none, or begins with a 0. */
static size_t number_of(const char *text) {
    size_t number;
    const char *end = end_of_number(text, &number);

    return end != NULL && *end == 0 && *text != '0' ? number : 0;
}

/* `19,10` has 16 bytes, and `19,10,N` has N bits. The second number may be negative. */
static size_t width_of_decimal(const char *text) {
    size_t precision, scale, bits;
    const char *end = end_of_number(text, &precision);

    if (end == NULL || *text == '0' || *end != ',')
        return 0;
    end = end_of_number(end[1] == '-' ? end + 2 : end + 1, &scale);
    if (end == NULL)
        return 0;
    if (*end == 0)
        return 16;
    bits = *end == ',' ? number_of(end + 1) : 0;
    return bits == 32 || bits == 64 || bits == 128 || bits == 256 ? bits / 8 : 0;
}

/* Formats that say nothing more. */
static const struct {
    const char *format;
    layout is;
} layouts[] = {
    {"b", {BITS, 0}},    {"u", {STRINGS, 4}}, {"z", {STRINGS, 4}}, {"U", {LARGE_STRINGS, 8}}, {"Z", {LARGE_STRINGS, 8}},
    {"+s", {STRUCT, 0}}, {"vu", {VIEWS, 16}}, {"vz", {VIEWS, 16}}, {"+l", {LISTS, 4}},        {"+L", {LARGE_LISTS, 8}},
    {"c", {ROWS, 1}},    {"C", {ROWS, 1}},    {"s", {ROWS, 2}},    {"S", {ROWS, 2}},
    {"e", {ROWS, 2}},    {"i", {ROWS, 4}},    {"I", {ROWS, 4}},    {"f", {ROWS, 4}},          {"l", {ROWS, 8}},
    {"L", {ROWS, 8}},    {"g", {ROWS, 8}},    {"tdD", {ROWS, 4}},  {"tdm", {ROWS, 8}},        {"tts", {ROWS, 4}},
    {"ttm", {ROWS, 4}},  {"ttu", {ROWS, 8}},  {"ttn", {ROWS, 8}},  {"tDs", {ROWS, 8}},        {"tDm", {ROWS, 8}},
    {"tDu", {ROWS, 8}},  {"tDn", {ROWS, 8}},  {"tiM", {ROWS, 4}},  {"tiD", {ROWS, 8}},        {"tin", {ROWS, 16}}};

/* The width of rows whose format says more: times have a zone behind a colon, others numbers. */
static size_t width_of(const char *format) {
    if (strncmp(format, "ts", 2) == 0)
        return format[2] != 0 && strchr("smun", format[2]) && format[3] == ':' ? 8 : 0;
    if (strncmp(format, "w:", 2) == 0)
        return number_of(format + 2);
    return strncmp(format, "d:", 2) == 0 ? width_of_decimal(format + 2) : 0;
}

static layout layout_of(const char *format) {
    layout it = {UNKNOWN, 0};
    size_t i;

    for (i = 0; i < sizeof layouts / sizeof *layouts; i++)
        if (strcmp(format, layouts[i].format) == 0)
            return layouts[i].is;
    it.width = width_of(format);
    if (it.width > 0)
        it.kind = ROWS;
    return it;
}

static bool is_string(layout it) {
    return it.kind == STRINGS || it.kind == LARGE_STRINGS;
}

static bool is_list(layout it) {
    return it.kind == LISTS || it.kind == LARGE_LISTS;
}

/* Whether an array has as many buffers, the one of validity among them. Behind views are any number of buffers with
 * bytes, and one with their sizes. */
static bool has_buffers(layout it, const struct ArrowArray *array) {
    int64_t buffers = it.kind == STRUCT ? 1 : is_string(it) || it.kind == VIEWS ? 3 : 2;

    if (array->buffers == NULL || array->n_buffers < buffers)
        return false;
    return array->n_buffers == buffers || (it.kind == VIEWS && array->n_buffers <= INT32_MAX);
}

/* ---- what is refused ---- */

/* Whether both are there, and neither was released or moved. */
static bool is_there(const struct ArrowSchema *schema, const struct ArrowArray *array) {
    return schema != NULL && schema->release != NULL && array != NULL && array->release != NULL;
}

/* Whether offsets are numbers that don't descend, and all the same where there are no bytes. */
static bool ascends_4(const int32_t *offsets, size_t len, bool has_bytes) {
    bool ascends = offsets[0] >= 0;
    size_t i;

    for (i = 0; i < len; i++)
        ascends &= offsets[i] <= offsets[i + 1];
    return ascends && (has_bytes || offsets[0] == offsets[len]);
}

static bool ascends_8(const int64_t *offsets, size_t len, bool has_bytes) {
    bool ascends = offsets[0] >= 0;
    size_t i;

    for (i = 0; i < len; i++)
        ascends &= offsets[i] <= offsets[i + 1];
    return ascends && (has_bytes || offsets[0] == offsets[len]);
}

static bool is_aligned(const void *items, size_t size) {
    return (uintptr_t)items % size == 0;
}

static bool has_offsets(layout it, const struct ArrowArray *array, size_t start, size_t len) {
    const void *offsets = array->buffers[1];
    bool has_bytes = is_list(it) || array->buffers[2] != NULL;

    if (!is_aligned(offsets, it.width))
        return false;
    if (it.width == 8)
        return ascends_8((const int64_t *)offsets + start, len, has_bytes);
    return ascends_4((const int32_t *)offsets + start, len, has_bytes);
}

/* An offset that was found to be one. */
static size_t offset_at(layout it, const struct ArrowArray *array, size_t i) {
    const void *offsets = array->buffers[1];

    return it.width == 8 ? (size_t)((const int64_t *)offsets)[i] : (size_t)((const int32_t *)offsets)[i];
}

/* Whether memory can have the buffer of so many values, so that no product of a width and some of them is too large. */
static bool fits_memory(layout it, size_t values) {
    return it.width == 0 || values <= PTRDIFF_MAX / it.width - (is_string(it) || is_list(it));
}

static bool has_children(layout it, const struct ArrowSchema *schema, const struct ArrowArray *array) {
    if (array->n_children != schema->n_children || (is_list(it) && array->n_children != 1))
        return false;
    return array->n_children == 0
        || ((is_list(it) || it.kind == STRUCT) && array->n_children > 0 && array->children != NULL
            && schema->children != NULL);
}

/* Whether the buffers that views are of have sizes, and are there. */
static bool has_bytes_of_views(const struct ArrowArray *array) {
    int64_t i, count = array->n_buffers - 3;
    const int64_t *sizes = (const int64_t *)array->buffers[count + 2];

    if (count > 0 && (sizes == NULL || !is_aligned(sizes, 8)))
        return false;
    for (i = 0; i < count; i++)
        if ((uint64_t)sizes[i] > PTRDIFF_MAX || (sizes[i] > 0 && array->buffers[i + 2] == NULL))
            return false;
    return true;
}

/* Whether there is no dictionary, or one with keys that are whole numbers. */
static bool has_good_dictionary(const struct ArrowSchema *schema, const struct ArrowArray *array) {
    if (schema->dictionary == NULL && array->dictionary == NULL)
        return true;
    return is_there(schema->dictionary, array->dictionary) && strchr("cCsSiIlL", *schema->format) != NULL;
}

/* What is wrong with a column but for its children, or NULL. Of it `len` rows from `start` on are asked for. Where none
 * are, buffers may be absent. */
static const char *fault_of(
    layout it, const struct ArrowSchema *schema, const struct ArrowArray *array, size_t start, size_t len) {
    if (array->length < 0 || array->offset < 0 || array->offset > INT64_MAX - array->length
        || start + len > (size_t)array->length)
        return "bad length or offset";
    if (!has_buffers(it, array))
        return "bad number of buffers";
    if (array->null_count < -1 || (array->null_count > 0 && array->buffers[0] == NULL))
        return "bad null count";
    if (!has_children(it, schema, array))
        return "bad number of children";
    if (!has_good_dictionary(schema, array))
        return "a bad dictionary";
    if (it.kind != STRUCT && len > 0 && array->buffers[1] == NULL)
        return "a bad buffer";
    if (!fits_memory(it, (size_t)array->offset + (size_t)array->length))
        return "bad length or offset";
    if ((is_string(it) || is_list(it)) && len > 0 && !has_offsets(it, array, start + (size_t)array->offset, len))
        return "a bad buffer";
    if (it.kind == VIEWS && !has_bytes_of_views(array))
        return "a bad buffer";
    return NULL;
}

static int check(
    const struct ArrowSchema *schema, const struct ArrowArray *array, size_t start, size_t len, int nested, call *of);

/* The same of the columns that lie in one. Its rows are counted from the front of its buffers. */
static int check_children(
    layout it, const struct ArrowSchema *schema, const struct ArrowArray *array, size_t start, size_t len, int nested,
    call *of) {
    int64_t i;
    int status = 0;

    if (is_list(it)) {
        size_t end = len > 0 ? offset_at(it, array, start + len) : 0;
        start = len > 0 ? offset_at(it, array, start) : 0;
        len = end - start;
    }
    for (i = 0; i < array->n_children && status == 0; i++) {
        if (!is_there(schema->children[i], array->children[i]))
            return refuse(of->error, EINVAL, "a bad child", schema);
        status = check(schema->children[i], array->children[i], start, len, nested + 1, of);
    }
    return status;
}

/* Whether the `len` rows from `start` on of a column can be filtered, and so those of its children, and all of
 * a dictionary that is copied. It lies in so many others. */
static int check(
    const struct ArrowSchema *schema, const struct ArrowArray *array, size_t start, size_t len, int nested, call *of) {
    bool copies_dictionary = array->dictionary != NULL && !of->moves;
    layout it;
    const char *fault;
    int64_t within;

    if (schema->format == NULL)
        return refuse(of->error, EINVAL, "bad format", schema);
    it = layout_of(schema->format);
    if (it.kind == UNKNOWN)
        return refuse(of->error, ENOTSUP, "not supported", schema);
    fault = fault_of(it, schema, array, start, len);
    if (fault != NULL)
        return refuse(of->error, EINVAL, fault, schema);
    within = copies_dictionary ? 1 : array->n_children;
    if (within > 0 && nested == MOST_NESTED)
        return refuse(of->error, ENOTSUP, "nested too deep", schema);
    if (within > MOST_COLUMNS - of->met)
        return refuse(of->error, ENOTSUP, "too many columns", schema);
    of->met += within;
    if (copies_dictionary)
        return check(schema->dictionary, array->dictionary, 0, (size_t)array->dictionary->length, nested + 1, of);
    return check_children(it, schema, array, start + (size_t)array->offset, len, nested, of);
}
