/* aggregates.c - jdoc_array_agg(document) and jdoc_object_agg(name, document): one document of many rows */
#include "extension.h"
SQLITE_EXTENSION_INIT3

#include <string.h>

/* Bytes one after the other, and the positions between them. */
typedef struct column {
    uint8_t *bytes;
    uint64_t *offsets;
    size_t len, size, rows, rows_size;
} column;

/* What one group has seen. */
typedef struct group {
    column names, documents;
    fault why;
} group;

static void release_column(column *it) { sqlite3_free(it->bytes), sqlite3_free(it->offsets); }

static bool push(column *it, const void *bytes, size_t len) {
    if (it->rows + 2 > it->rows_size) {
        size_t size = 2 * it->rows_size + 16;
        uint64_t *grown = sqlite3_realloc64(it->offsets, size * sizeof *grown);
        if (!grown) return false;
        it->offsets = grown, it->rows_size = size;
        it->offsets[0] = 0;
    }
    if (it->len + len > it->size || !it->bytes) {
        size_t size = 2 * (it->len + len) + 64;
        uint8_t *grown = sqlite3_realloc64(it->bytes, size);
        if (!grown) return false;
        it->bytes = grown, it->size = size;
    }
    if (len) memcpy(it->bytes + it->len, bytes, len);
    it->len += len;
    it->offsets[++it->rows] = it->len;
    return true;
}

/* NULL is the document null. */
static void push_document(connection *own, group *it, sqlite3_value *value) {
    static const uint8_t null[] = {0x20, 0, 0, 0, 0, 0, 0, 0};
    document read = {null, sizeof null, NULL};
    bool is_null = sqlite3_value_type(value) == SQLITE_NULL;
    if ((is_null || document_of_value(own, value, &read, &it->why)) && !push(&it->documents, read.bytes, read.len))
        it->why.status = JDOC_OUT_OF_MEMORY;
    sqlite3_free(read.own);
}

static void array_step(sqlite3_context *to, int count, sqlite3_value **values) {
    (void)count;
    group *it = sqlite3_aggregate_context(to, sizeof *it);
    if (!it)
        sqlite3_result_error_nomem(to);
    else if (it->why.status == JDOC_OK)
        push_document(sqlite3_user_data(to), it, values[0]);
}

static void object_step(sqlite3_context *to, int count, sqlite3_value **values) {
    (void)count;
    group *it = sqlite3_aggregate_context(to, sizeof *it);
    if (!it) {
        sqlite3_result_error_nomem(to);
        return;
    }
    if (it->why.status != JDOC_OK) return;
    if (!has_type(values[0], SQLITE_TEXT, NAME_EXPECTED, &it->why)) {
        if (it->why.status == JDOC_NONE)
            it->why = (fault){.status = JDOC_INVALID_ARGUMENT, .what = NAME_EXPECTED, .at = NOWHERE, .detail = "NULL"};
        return;
    }
    const void *name = sqlite3_value_text(values[0]);
    if (!name || !push(&it->names, name, (size_t)sqlite3_value_bytes(values[0])))
        it->why.status = JDOC_OUT_OF_MEMORY;
    else
        push_document(sqlite3_user_data(to), it, values[1]);
}

static enum jdoc_status make(const group *it, bool is_object, uint8_t *out, size_t size, size_t *len) {
    static const uint64_t none[1] = {0};
    const column *names = &it->names, *documents = &it->documents;
    const uint64_t *offsets = documents->offsets ? documents->offsets : none;
    const uint64_t *name_offsets = names->offsets ? names->offsets : none;
    if (!is_object)
        return jdoc_array_from_column(documents->bytes, documents->len, offsets, documents->rows + 1, out, size, len);
    return jdoc_object_from_columns((const char *)names->bytes, names->len, name_offsets, names->rows + 1,
                                    documents->bytes, documents->len, offsets, documents->rows + 1, out, size, len);
}

/* Copy a name to connection->bytes, with a null byte after it. NULL: an allocation fails. */
static const char *copied(connection *own, const char *name, size_t len) {
    if (!reserve(own, len + 1)) return NULL;
    if (len) memcpy(own->bytes, name, len);
    own->bytes[len] = 0;
    return (const char *)own->bytes;
}

/* Add the name that occurs twice to a fault: the first that a builder of an object rejects. */
static void explain(connection *own, const column *names, fault *why) {
    jdoc_builder builder = {0};
    enum jdoc_status status = jdoc_builder_begin_object(&builder);
    for (size_t row = 0; status == JDOC_OK && row < names->rows; row++) {
        const char *name = (const char *)names->bytes + names->offsets[row];
        size_t len = names->offsets[row + 1] - names->offsets[row];
        status = jdoc_builder_key(&builder, name, len);
        if (status == JDOC_OK) status = jdoc_builder_null(&builder);
        if (status == JDOC_OBJECT_DUPLICATE_KEY) why->key = copied(own, name, len);
    }
    jdoc_builder_free(&builder);
    if (why->key) why->what = "two rows have the key", why->at = NOWHERE;
}

static void finish(sqlite3_context *to, const char *function, bool is_object) {
    static const group empty;
    connection *own = sqlite3_user_data(to);
    group *seen = sqlite3_aggregate_context(to, 0);
    const group *it = seen ? seen : &empty;
    fault why = it->why;
    size_t len = 0;
    if (why.status == JDOC_OK) why.status = make(it, is_object, NULL, 0, &len);
    if (why.status == JDOC_BUFFER_TOO_SMALL)
        why.status = reserve(own, len) ? make(it, is_object, own->bytes, own->size, &len) : JDOC_OUT_OF_MEMORY;
    if (why.status == JDOC_OBJECT_DUPLICATE_KEY && it->why.status == JDOC_OK) explain(own, &it->names, &why);
    if (why.status == JDOC_OK)
        sqlite3_result_blob64(to, own->bytes, len, SQLITE_TRANSIENT);
    else
        return_fault(to, function, &why);
    if (seen) release_column(&seen->names), release_column(&seen->documents);
}

static void array_final(sqlite3_context *to) { finish(to, "jdoc_array_agg", false); }
static void object_final(sqlite3_context *to) { finish(to, "jdoc_object_agg", true); }

int add_aggregates(sqlite3 *db, connection *own) {
    const int flags = SQLITE_UTF8 | SQLITE_DETERMINISTIC | SQLITE_INNOCUOUS;
    own->uses++;
    int rc = sqlite3_create_function_v2(db, "jdoc_array_agg", 1, flags, own, NULL, array_step, array_final,
                                        release_connection);
    if (rc != SQLITE_OK) return rc;
    own->uses++;
    return sqlite3_create_function_v2(db, "jdoc_object_agg", 2, flags, own, NULL, object_step, object_final,
                                      release_connection);
}
