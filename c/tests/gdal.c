/* Filters the batches that GDAL reads of files: a CSV, a GeoPackage and a GeoJSON that it wrote before, with nulls, text
 * and points, and of the GeoPackage codes with a dictionary. Every second batch is moved. The rows that are kept have to be
 * those that GDAL's own attribute filter keeps, column by column. Prints how many values it compared. Its argument is
 * a folder for the files.
 *
 * The stream of a GeoPackage has wrong booleans in GDAL 3.6, so that only the GeoJSON has them. It never frees the 80 bytes
 * of the struct of a child or dictionary that was moved. */
#include <ogr_recordbatch.h>
#define ARROW_C_DATA_INTERFACE
#include "row_mask.h"
#include "row_mask_arrow.h"

#include <cpl_conv.h>
#include <cpl_string.h>
#include <gdal.h>
#include <ogr_api.h>
#include <stdio.h>
#include <stdlib.h>
#include <string.h>

enum { ROWS = 10000 };

static size_t compared, batches, rows, codes;

static void need(bool holds, const char *what) {
    if (holds)
        return;
    printf("%s: %s\n", what, CPLGetLastErrorMsg());
    exit(1);
}

/* ---- files ---- */

static const struct field {
    const char *name;
    OGRFieldType type;
    OGRFieldSubType kind;
} fields[] = {
    {"id", OFTInteger, OFSTNone}, {"big", OFTInteger64, OFSTNone}, {"part", OFTReal, OFSTNone},
    {"name", OFTString, OFSTNone}, {"day", OFTDate, OFSTNone}, {"at", OFTDateTime, OFSTNone},
    {"code", OFTInteger, OFSTNone}, {"flag", OFTInteger, OFSTBoolean}};

enum { FIELDS = sizeof fields / sizeof *fields };

static unsigned random_below(unsigned end) {
    static uint64_t state = 1;

    state ^= state << 13;
    state ^= state >> 7;
    state ^= state << 17;
    return (unsigned)(state % end);
}

static void set_field(OGRFeatureH row, int i, int at) {
    static const char *const names[] = {"", "a", "ab \"c\", d", "\xc3\xa9t\xc3\xa9", "a name that is longer than others"};
    char text[80];

    if (i != 0 && random_below(5) == 0) {
        OGR_F_SetFieldNull(row, at);
        return;
    }
    switch (i) {
    case 1: OGR_F_SetFieldInteger64(row, at, (GIntBig)random_below(100) << 40); break;
    case 2: OGR_F_SetFieldDouble(row, at, random_below(1000) / 1000.0); break;
    case 3:
        snprintf(text, sizeof text, "%s%u", names[random_below(5)], random_below(30));
        OGR_F_SetFieldString(row, at, text);
        break;
    case 4: OGR_F_SetFieldDateTime(row, at, 2000 + (int)random_below(30), 3, 1, 0, 0, 0, 0); break;
    case 5: OGR_F_SetFieldDateTime(row, at, 2000, 3, 1, (int)random_below(24), 30, 0, 100); break;
    default: OGR_F_SetFieldInteger(row, at, (int)random_below(2)); break;
    }
}

/* Has the codes 0 and 1 stand for words. */
static void add_dictionary(GDALDatasetH file, OGRFieldDefnH field) {
    char zero[] = "0", one[] = "1", no[] = "no", yes[] = "yes, indeed";
    const OGRCodedValue words[] = {{zero, no}, {one, yes}, {NULL, NULL}};
    OGRFieldDomainH made = OGR_CodedFldDomain_Create("words", "", OFTInteger, OFSTNone, words);

    need(GDALDatasetAddFieldDomain(file, made, NULL), "a dictionary");
    OGR_Fld_SetDomainName(field, "words");
    OGR_FldDomain_Destroy(made);
}

static void write_file(const char *driver, const char *path, int count) {
    GDALDatasetH file = GDALCreate(GDALGetDriverByName(driver), path, 0, 0, 0, GDT_Unknown, NULL);
    OGRLayerH layer = file ? GDALDatasetCreateLayer(file, "rows", NULL, wkbPoint, NULL) : NULL;
    int row, i;

    need(layer != NULL, path);
    for (i = 0; i < count; i++) {
        OGRFieldDefnH field = OGR_Fld_Create(fields[i].name, fields[i].type);
        OGR_Fld_SetSubType(field, fields[i].kind);
        if (strcmp(driver, "GPKG") == 0 && strcmp(fields[i].name, "code") == 0)
            add_dictionary(file, field);
        need(OGR_L_CreateField(layer, field, TRUE) == OGRERR_NONE, fields[i].name);
        OGR_Fld_Destroy(field);
    }
    GDALDatasetStartTransaction(file, FALSE);
    for (row = 0; row < ROWS; row++) {
        OGRFeatureH made = OGR_F_Create(OGR_L_GetLayerDefn(layer));
        OGR_F_SetFieldInteger(made, 0, row);
        for (i = 1; i < count; i++)
            set_field(made, i, i);
        if (random_below(4) != 0) {
            OGRGeometryH point = OGR_G_CreateGeometry(wkbPoint);
            OGR_G_SetPoint_2D(point, 0, random_below(360) - 180.0, random_below(180) - 90.0);
            OGR_F_SetGeometryDirectly(made, point);
        }
        need(OGR_L_CreateFeature(layer, made) == OGRERR_NONE, path);
        OGR_F_Destroy(made);
    }
    GDALDatasetCommitTransaction(file);
    GDALClose(file);
}

/* ---- streams ---- */

/* The rows of a stream, one after another. */
typedef struct reader {
    GDALDatasetH file;
    struct ArrowArrayStream stream;
    struct ArrowSchema schema;
    struct ArrowArray batch;
    size_t at;
} reader;

static OGRLayerH open_layer(const char *path, const char *where, GDALDatasetH *file) {
    const char *const of_csv[] = {"AUTODETECT_TYPE=YES", NULL};
    OGRLayerH layer;

    *file = GDALOpenEx(path, GDAL_OF_VECTOR, NULL, strstr(path, ".csv") ? of_csv : NULL, NULL);
    need(*file != NULL, path);
    layer = GDALDatasetGetLayer(*file, 0);
    need(layer != NULL && OGR_L_SetAttributeFilter(layer, where) == OGRERR_NONE, path);
    return layer;
}

static void next_batch(reader *from) {
    if (from->batch.release != NULL)
        from->batch.release(&from->batch);
    need(from->stream.get_next(&from->stream, &from->batch) == 0, "get_next");
    from->at = 0;
}

static void start(reader *from, const char *path, const char *where, const char *size) {
    char **options = CSLSetNameValue(NULL, "MAX_FEATURES_IN_BATCH", size);
    OGRLayerH layer = open_layer(path, where, &from->file);

    need(OGR_L_GetArrowStream(layer, &from->stream, options), "OGR_L_GetArrowStream");
    need(from->stream.get_schema(&from->stream, &from->schema) == 0, "get_schema");
    from->batch.release = NULL;
    CSLDestroy(options);
    next_batch(from);
}

static void end(reader *from) {
    if (from->batch.release != NULL)
        from->batch.release(&from->batch);
    from->schema.release(&from->schema);
    from->stream.release(&from->stream);
    GDALClose(from->file);
}

/* ---- values ---- */

static bool bit(const void *bytes, size_t i) {
    return ((const uint8_t *)bytes)[i / 8] >> (i % 8) & 1;
}

static size_t width_of(const char *format) {
    return strchr("cC", *format) ? 1 : strchr("sS", *format) ? 2 : strchr("iIf", *format) || strncmp(format, "tdD", 3) == 0 ? 4 : 8;
}

/* The bytes of a value, or NULL where it is null. A key's are those of its word. */
static const uint8_t *value(
    const struct ArrowSchema *schema, const struct ArrowArray *column, size_t i, uint8_t *room, size_t *size) {
    const char *format = schema->format;
    const uint8_t *bytes = column->buffers[1];

    i += (size_t)column->offset;
    if (column->null_count != 0 && column->buffers[0] != NULL && !bit(column->buffers[0], i))
        return NULL;
    if (schema->dictionary != NULL) {
        codes++;
        return value(schema->dictionary, column->dictionary, (size_t)((const int32_t *)column->buffers[1])[i], room, size);
    }
    if (*format == 'u' || *format == 'z') {
        const int32_t *offsets = column->buffers[1];
        *size = (size_t)(offsets[i + 1] - offsets[i]);
        return *size == 0 ? room : (const uint8_t *)column->buffers[2] + offsets[i];
    }
    if (*format == 'b') {
        *room = bit(bytes, i);
        *size = 1;
        return room;
    }
    *size = width_of(format);
    return bytes + i * *size;
}

static void same_row(const struct ArrowSchema *schema, const struct ArrowArray *made, size_t i, reader *want) {
    int64_t k;

    while (want->batch.release != NULL && want->at == (size_t)want->batch.length)
        next_batch(want);
    need(want->batch.release != NULL, "more rows than GDAL keeps");
    for (k = 0; k < schema->n_children; k++) {
        const struct ArrowSchema *of = schema->children[k];
        uint8_t rooms[2];
        size_t got_size = 0, want_size = 0;
        const uint8_t *got = value(of, made->children[k], i, &rooms[0], &got_size);
        const uint8_t *wanted =
            value(of, want->batch.children[k], want->at + (size_t)want->batch.offset, &rooms[1], &want_size);
        bool same = (got == NULL) == (wanted == NULL) && got_size == want_size;
        need(same && (got == NULL || memcmp(got, wanted, got_size) == 0), of->name);
        compared++;
    }
    want->at++;
    rows++;
}

/* ---- the test ---- */

/* A bit for each row of a file: whether GDAL's filter keeps it. */
static uint8_t *kept_rows(const char *path, const char *where) {
    GDALDatasetH all_file, file;
    OGRLayerH all = open_layer(path, NULL, &all_file), layer = open_layer(path, where, &file);
    OGRFeatureH row, next = OGR_L_GetNextFeature(layer);
    uint8_t *bits = calloc(ROWS / 8 + 1, 1);
    size_t i;

    for (i = 0; (row = OGR_L_GetNextFeature(all)) != NULL; i++) {
        if (next != NULL && OGR_F_GetFID(next) == OGR_F_GetFID(row)) {
            bits[i / 8] = (uint8_t)(bits[i / 8] | 1u << i % 8);
            OGR_F_Destroy(next);
            next = OGR_L_GetNextFeature(layer);
        }
        OGR_F_Destroy(row);
    }
    need(i == ROWS && next == NULL, "rows of the file");
    GDALClose(all_file);
    GDALClose(file);
    return bits;
}

static void filters(const char *path, const char *where, const char *size) {
    uint8_t *bits = kept_rows(path, where);
    reader from, want;
    size_t row = 0, i;

    start(&from, path, NULL, size);
    start(&want, path, where, "65536");
    for (; from.batch.release != NULL; next_batch(&from)) {
        size_t len = (size_t)from.batch.length;
        struct ArrowArray made;
        row_mask_arrow_error error = {""};
        int status = batches % 2
            ? row_mask_arrow_filter_moved(&from.schema, &from.batch, bits, ROWS / 8 + 1, row, len, &made, &error)
            : row_mask_arrow_filter(&from.schema, &from.batch, bits, ROWS / 8 + 1, row, len, &made, &error);
        need(status == 0, error.message);
        for (i = 0; i < (size_t)made.length; i++)
            same_row(&from.schema, &made, i, &want);
        made.release(&made);
        row += len;
        batches++;
    }
    need(row == ROWS, "rows of the stream");
    while (want.batch.release != NULL && want.at == (size_t)want.batch.length)
        next_batch(&want);
    need(want.batch.release == NULL, "GDAL keeps more rows");
    end(&from);
    end(&want);
    free(bits);
}

int main(int count, char **words) {
    static const struct file {
        const char *driver, *name;
        int fields;
    } files[] = {{"CSV", "rows.csv", FIELDS - 1}, {"GPKG", "rows.gpkg", FIELDS - 1}, {"GeoJSON", "rows.geojson", FIELDS}};
    static const char *const wheres[] = {
        "id >= 0", "id < 0", "id < 7000", "name IS NULL", "name LIKE 'a%' AND part < 0.25", "part >= 0.5 OR big IS NULL",
        "id IN (0, 63, 64, 65, 8191, 9999)", "day IS NOT NULL AND name IS NOT NULL", "code = 1", "flag = 1"};
    static const char *const sizes[] = {"65536", "1001", "64"};
    size_t file, where;
    char path[1024];

    need(count == 2, "wants a folder");
    GDALAllRegister();
    for (file = 0; file < 3; file++) {
        size_t before = compared;
        snprintf(path, sizeof path, "%s/%s", words[1], files[file].name);
        write_file(files[file].driver, path, files[file].fields);
        for (where = 0; where < sizeof wheres / sizeof *wheres - (files[file].fields < FIELDS); where++)
            filters(path, wheres[where], sizes[(file + where) % 3]);
        printf("%s: %zu values\n", files[file].driver, compared - before);
    }
    need(codes > 0, "codes with a dictionary");
    printf("%zu comparisons in %zu rows, of %zu batches\n", compared, rows, batches);
    return 0;
}
