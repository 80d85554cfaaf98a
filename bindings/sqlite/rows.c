/* rows.c - SELECT key, value, doc, type FROM jdoc_rows(document, path): an item that a JSON path selects a row; and
 * jdoc_each(document): an element or a member a row
 *
 * The path is evaluated at the first row. Then each row reads one item in place.
 */
#include "extension.h"
SQLITE_EXTENSION_INIT3

#include <string.h>

enum { KEY, VALUE, DOC, TYPE, DOCUMENT, PATH };

/* One of the two functions. */
typedef struct shape {
    const char *name, *schema, *too_few;
    int arguments;
} shape;

static const shape ROWS = {"jdoc_rows", "CREATE TABLE x(key, value, doc, type, document HIDDEN, path HIDDEN)",
                           "expected a document and a path", 2};
static const shape EACH = {"jdoc_each", "CREATE TABLE x(key, value, doc, type, document HIDDEN)", "expected a document",
                           1};

typedef struct table {
    sqlite3_vtab base;
    connection *own;
    const shape *is;
} table;

typedef struct cursor {
    sqlite3_vtab_cursor base;
    jdoc_path path;
    bool strict;
    char *path_text; /* that was parsed, or NULL */
    size_t path_len;
    made *document;
    jdoc_items items; /* of the document, without the one of this row */
    jdoc_cursor left; /* children of the document, after that of this row */
    jdoc_span key;    /* of this row's member; an element has none */
    jdoc_event item;  /* of this row, in the document or in `computed` */
    uint8_t kind;     /* of enum jdoc_kind */
    uint8_t *computed;
    size_t size; /* of `computed` */
    sqlite3_int64 row;
    bool is_at_end;
} cursor;

static const table *table_of(const cursor *it) { return (const table *)it->base.pVtab; }
static connection *connection_of(const cursor *it) { return table_of(it)->own; }

static int connect(sqlite3 *db, connection *own, const shape *is, sqlite3_vtab **out) {
    int rc = sqlite3_declare_vtab(db, is->schema);
    if (rc != SQLITE_OK) return rc;
    table *it = sqlite3_malloc(sizeof *it);
    if (!it) return SQLITE_NOMEM;
    memset(it, 0, sizeof *it);
    it->own = own;
    it->is = is;
    *out = &it->base;
    return sqlite3_vtab_config(db, SQLITE_VTAB_INNOCUOUS);
}

static int connect_rows(sqlite3 *db, void *own, int argc, const char *const *argv, sqlite3_vtab **out, char **error) {
    (void)argc, (void)argv, (void)error;
    return connect(db, own, &ROWS, out);
}

static int connect_each(sqlite3 *db, void *own, int argc, const char *const *argv, sqlite3_vtab **out, char **error) {
    (void)argc, (void)argv, (void)error;
    return connect(db, own, &EACH, out);
}

static int disconnect(sqlite3_vtab *it) {
    sqlite3_free(it);
    return SQLITE_OK;
}

static int open(sqlite3_vtab *base, sqlite3_vtab_cursor **out) {
    (void)base;
    cursor *it = sqlite3_malloc(sizeof *it);
    if (!it) return SQLITE_NOMEM;
    memset(it, 0, sizeof *it);
    *out = &it->base;
    return SQLITE_OK;
}

static int close(sqlite3_vtab_cursor *base) {
    cursor *it = (cursor *)base;
    jdoc_items_free(&it->items);
    jdoc_path_free(&it->path);
    sqlite3_free(it->path_text);
    sqlite3_free(it->document);
    sqlite3_free(it->computed);
    sqlite3_free(it);
    return SQLITE_OK;
}

/* Each argument has to be given, and is one of the filter, in this order. */
static int best_index(sqlite3_vtab *base, sqlite3_index_info *info) {
    int at[2] = {-1, -1}, count = ((const table *)base)->is->arguments;
    for (int i = 0; i < info->nConstraint; i++) {
        int column = info->aConstraint[i].iColumn;
        if (column < DOCUMENT || info->aConstraint[i].op != SQLITE_INDEX_CONSTRAINT_EQ) continue;
        if (!info->aConstraint[i].usable) return SQLITE_CONSTRAINT;
        at[column - DOCUMENT] = i;
    }
    info->idxNum = at[0] >= 0 && at[count - 1] >= 0;
    info->estimatedCost = info->idxNum ? 100 : 1e99;
    info->estimatedRows = 10;
    for (int i = 0; info->idxNum && i < count; i++) {
        info->aConstraintUsage[at[i]].argvIndex = i + 1;
        info->aConstraintUsage[at[i]].omit = 1;
    }
    return SQLITE_OK;
}

static int fail(cursor *it, const fault *why) {
    char message[MESSAGE];
    if (why->status == JDOC_OUT_OF_MEMORY) return SQLITE_NOMEM;
    write_fault(table_of(it)->is->name, why, message);
    sqlite3_free(it->base.pVtab->zErrMsg);
    it->base.pVtab->zErrMsg = sqlite3_mprintf("%s", message);
    return SQLITE_ERROR;
}

/* Copy the next item, which is not in the document. */
static enum jdoc_status copy_item(cursor *it, size_t *len) {
    const made *of = it->document;
    for (;;) {
        enum jdoc_status status = jdoc_items_next(&it->items, of->bytes, of->len, it->computed, it->size, len);
        if (status != JDOC_BUFFER_TOO_SMALL) return status;
        size_t size = 64 + *len + *len / 2;
        uint8_t *grown = sqlite3_realloc64(it->computed, size);
        if (!grown) return JDOC_OUT_OF_MEMORY;
        it->computed = grown, it->size = size;
    }
}

static enum jdoc_status take_computed(cursor *it) {
    size_t len;
    uint32_t status = copy_item(it, &len);
    if (status == JDOC_OK) status = jdoc_type(it->computed, len, &it->kind);
    return (enum jdoc_status)(status == JDOC_OK ? jdoc_root(&it->item, it->computed, len) : status);
}

static enum jdoc_status take_item(cursor *it) {
    const made *of = it->document;
    jdoc_span span = {0};
    enum jdoc_status status = jdoc_items_find_next(&it->items, of->bytes, of->len, &span);
    if (status == JDOC_COMPUTED) return take_computed(it);
    it->kind = span.kind;
    return status == JDOC_OK && !jdoc_item_at(&it->item, of->bytes, of->len, &span) ? JDOC_INVALID_JSONB : status;
}

static enum jdoc_status take_child(cursor *it) {
    const made *of = it->document;
    jdoc_span span = {0};
    enum jdoc_status status = jdoc_cursor_next(of->bytes, of->len, &it->left, &it->key, &span);
    it->kind = span.kind;
    return status == JDOC_OK && !jdoc_item_at(&it->item, of->bytes, of->len, &span) ? JDOC_INVALID_JSONB : status;
}

static int next(sqlite3_vtab_cursor *base) {
    cursor *it = (cursor *)base;
    fault why = {.status = table_of(it)->is == &EACH ? take_child(it) : take_item(it)};
    it->row++;
    it->is_at_end = why.status != JDOC_OK;
    return why.status == JDOC_OK || why.status == JDOC_NONE ? SQLITE_OK : fail(it, &why);
}

/* Parse the path, unless it is that of the last call. A join calls once per document. */
static bool read_path(cursor *it, const char *text, size_t len, fault *why) {
    if (it->path_text && it->path_len == len && memcmp(it->path_text, text, len) == 0) return true;
    sqlite3_free(it->path_text);
    it->path_text = sqlite3_malloc64(len + 1);
    why->status = it->path_text ? JDOC_OK : JDOC_OUT_OF_MEMORY;
    if (!it->path_text) return false;
    memcpy(it->path_text, text, len);
    it->path_len = len;
    if (read_json_path(text, len, &it->path, &it->strict, why)) return true;
    sqlite3_free(it->path_text), it->path_text = NULL;
    return false;
}

/* Read the document, and keep it for the rows. A BLOB is copied, since it is SQLite's after the call. */
static bool read_document(cursor *it, sqlite3_value *value, fault *why) {
    document of;
    bool is_read = document_of_value(connection_of(it), value, &of, why);
    sqlite3_free(it->document);
    it->document = of.own;
    if (!is_read || of.own) return is_read;
    it->document = sqlite3_malloc64(sizeof *it->document + of.len);
    why->status = it->document ? JDOC_OK : JDOC_OUT_OF_MEMORY;
    if (!it->document) return false;
    it->document->len = of.len;
    if (of.len) memcpy(it->document->bytes, of.bytes, of.len);
    return true;
}

/* Evaluate the path of jdoc_rows on the document. False: *why is the reason; with JDOC_NONE there is no row. */
static bool begin_items(cursor *it, sqlite3_value **argv, fault *why) {
    if (!has_type(argv[1], SQLITE_TEXT, PATH_EXPECTED, why)) return false;
    const char *path = (const char *)sqlite3_value_text(argv[1]);
    why->status = path ? JDOC_OK : JDOC_OUT_OF_MEMORY;
    if (!path || !read_path(it, path, (size_t)sqlite3_value_bytes(argv[1]), why) || !read_document(it, argv[0], why))
        return false;
    why->status = jdoc_path_items(&it->path, it->document->bytes, it->document->len, it->strict, &it->items);
    return why->status == JDOC_OK;
}

/* Begin the children of the document of jdoc_each. A scalar has none. */
static bool begin_children(cursor *it, sqlite3_value **argv, fault *why) {
    if (!read_document(it, argv[0], why)) return false;
    it->key = (jdoc_span){0};
    why->status = jdoc_cursor_open(it->document->bytes, it->document->len, &it->left);
    return why->status == JDOC_OK;
}

static int filter(sqlite3_vtab_cursor *base, int is_given, const char *text, int argc, sqlite3_value **argv) {
    (void)text, (void)argc;
    cursor *it = (cursor *)base;
    const shape *is = table_of(it)->is;
    fault why = {.status = JDOC_INVALID_ARGUMENT, .what = is->too_few, .at = NOWHERE};
    it->row = -1, it->is_at_end = true;
    if (!is_given) return fail(it, &why);
    if (sqlite3_value_type(argv[0]) == SQLITE_NULL) return SQLITE_OK;
    why = (fault){.status = JDOC_OK};
    if (is == &EACH ? begin_children(it, argv, &why) : begin_items(it, argv, &why)) return next(base);
    return why.status == JDOC_NONE ? SQLITE_OK : fail(it, &why);
}

static int eof(sqlite3_vtab_cursor *it) { return ((cursor *)it)->is_at_end; }

static int rowid(sqlite3_vtab_cursor *it, sqlite3_int64 *out) {
    *out = ((cursor *)it)->row;
    return SQLITE_OK;
}

/* The key of a member, and the number of another row. */
static void return_key(sqlite3_context *to, const cursor *it) {
    if (it->key.kind == JDOC_KIND_STRING)
        sqlite3_result_text64(to, (const char *)it->document->bytes + it->key.at, it->key.len, SQLITE_TRANSIENT,
                              SQLITE_UTF8);
    else
        sqlite3_result_int64(to, it->row);
}

static int column(sqlite3_vtab_cursor *base, sqlite3_context *to, int column) {
    const cursor *it = (cursor *)base;
    if (column == KEY) return_key(to, it);
    if (column == VALUE) return_value(to, table_of(it)->is->name, connection_of(it), &it->item);
    if (column == DOC) return return_item(to, connection_of(it), &it->item) == JDOC_OK ? SQLITE_OK : SQLITE_NOMEM;
    if (column == TYPE) sqlite3_result_text(to, jdoc_kind_text(it->kind), -1, SQLITE_STATIC);
    return SQLITE_OK;
}

#define MODULE(connects)                                                                                               \
    {                                                                                                                  \
        .xConnect = connects, .xBestIndex = best_index, .xDisconnect = disconnect, .xOpen = open, .xClose = close,     \
        .xFilter = filter, .xNext = next, .xEof = eof, .xColumn = column, .xRowid = rowid                              \
    }

int add_rows(sqlite3 *db, connection *own) {
    static const sqlite3_module rows = MODULE(connect_rows), each = MODULE(connect_each);
    own->uses++;
    int rc = sqlite3_create_module_v2(db, ROWS.name, &rows, own, release_connection);
    if (rc != SQLITE_OK) return rc;
    own->uses++;
    return sqlite3_create_module_v2(db, EACH.name, &each, own, release_connection);
}
