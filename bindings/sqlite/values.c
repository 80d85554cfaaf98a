/* values.c - SQL values as documents, and documents as SQL values */
#define _GNU_SOURCE /* strtod_l */
#include "extension.h"
SQLITE_EXTENSION_INIT3

#include <errno.h>
#include <stdlib.h>
#include <string.h>

static void *resize(void *piece, size_t size) { return sqlite3_realloc64(piece, size); }
static void release(void *piece) { sqlite3_free(piece); }

const jdoc_heap sqlite_heap = {resize, release};

bool reserve(connection *own, size_t size) {
    if (size <= own->size) return true;
    uint8_t *grown = sqlite3_realloc64(own->bytes, size + size / 2);
    if (!grown) return false;
    own->bytes = grown, own->size = size + size / 2;
    return true;
}

/* FAULTS */

static bool fail(fault *why, uint32_t status, const char *what, size_t at) {
    *why = (fault){.status = status, .what = what, .at = at};
    return false;
}

static bool is_of_path(const fault *why) {
    return why->status == JDOC_INVALID_JSON_PATH || why->status == JDOC_INVALID_KEY_PATH;
}

/* Write the name of a status, and return its length. */
static int name_of(uint32_t status, char name[40]) {
    size_t len = 0;
    const char *own = status == JDOC_INVALID_JSON       ? "JDOC_INVALID_JSON"
                      : status == JDOC_INVALID_ARGUMENT ? "JDOC_INVALID_ARGUMENT"
                                                        : NULL;
    if (own) return (int)strlen(strcpy(name, own));
    return jdoc_status_name(status, name, 40, &len) == JDOC_OK ? (int)len : 0;
}

void write_fault(const char *function, const fault *why, char out[MESSAGE]) {
    char name[40];
    int len = name_of(why->status, name);
    const char *what = why->what ? why->what : jdoc_status_text(why->status);
    if (why->what && why->at != NOWHERE)
        sqlite3_snprintf(MESSAGE, out, "%s: byte %lld of the %s: %s (%.*s)", function, (sqlite3_int64)why->at,
                         is_of_path(why) ? "path" : "JSON text", what, len, name);
    else if (why->key)
        sqlite3_snprintf(MESSAGE, out, "%s: %s \"%!.60w\" (%.*s)", function, what, why->key, len, name);
    else
        sqlite3_snprintf(MESSAGE, out, "%s: %s%s%s (%.*s)", function, what, why->detail ? " " : "",
                         why->detail ? why->detail : "", len, name);
}

void return_fault(sqlite3_context *to, const char *function, const fault *why) {
    char message[MESSAGE];
    if (why->status == JDOC_NONE) return; /* NULL */
    if (why->status == JDOC_OUT_OF_MEMORY) {
        sqlite3_result_error_nomem(to);
        return;
    }
    write_fault(function, why, message);
    sqlite3_result_error(to, message, -1);
}

/* ARGUMENTS */

bool has_type(sqlite3_value *value, int type, const char *expected, fault *why) {
    static const char *const names[] = {"", "INTEGER", "REAL", "TEXT", "BLOB", "NULL"};
    int found = sqlite3_value_type(value);
    if (found == type) return true;
    if (found == SQLITE_NULL) return fail(why, JDOC_NONE, NULL, 0);
    *why = (fault){.status = JDOC_INVALID_ARGUMENT, .what = expected, .at = NOWHERE, .detail = names[found]};
    return false;
}

/* PATHS */

bool read_json_path(const char *text, size_t len, jdoc_path *path, bool *strict, fault *why) {
    size_t at = 0;
    sql_path of = sql_path_of(text, len);
    *strict = of.strict;
    if (of.len == 0) return fail(why, JDOC_INVALID_JSON_PATH, "the path is empty, and the root is $", NOWHERE);
    *why = (fault){.status = jdoc_path_read(of.text, of.len, path)};
    if (why->status == JDOC_INVALID_JSON_PATH && jdoc_path_error_position(of.text, of.len, &at) == JDOC_OK)
        return fail(why, JDOC_INVALID_JSON_PATH, sql_path_fault(&of, at), at + (size_t)(of.text - text));
    return why->status == JDOC_OK;
}

bool read_key_path(const char *text, size_t len, jdoc_keypath *path, fault *why) {
    size_t at = 0;
    *why = (fault){.status = jdoc_keypath_read(text, len, path)};
    if (why->status == JDOC_INVALID_KEY_PATH && jdoc_keypath_error_position(text, len, &at) == JDOC_OK)
        return fail(why, JDOC_INVALID_KEY_PATH, sql_key_path_fault(text, len, at), at);
    return why->status == JDOC_OK;
}

/* DOCUMENTS OF VALUES */

static bool document_of_text(connection *own, const char *text, size_t len, document *it, fault *why) {
    jdoc_tape *tape = &own->tape;
    uint32_t status = jdoc_read_text(tape, text, len);
    if (status == JDOC_OK) {
        size_t size = jdoc_tape_size(tape);
        it->own = sqlite3_malloc64(sizeof *it->own + size);
        if (!it->own) return fail(why, JDOC_OUT_OF_MEMORY, NULL, 0);
        it->own->len = it->len = size;
        it->bytes = it->own->bytes;
        status = jdoc_write_read(tape, text, len, it->own->bytes);
        if (status == JDOC_OK) return true;
    }
    sqlite3_free(it->own), it->own = NULL;
    return fail(why, status, tape->what ? tape->what : jdoc_status_text(status), tape->at);
}

static bool document_of_integer(sqlite3_int64 number, document *it, fault *why) {
    enum { NUMBER_SIZE = 24 };
    it->own = sqlite3_malloc(sizeof *it->own + NUMBER_SIZE);
    if (!it->own) return fail(why, JDOC_OUT_OF_MEMORY, NULL, 0);
    uint32_t status = jdoc_from_i64(number, it->own->bytes, NUMBER_SIZE, &it->own->len);
    it->bytes = it->own->bytes, it->len = it->own->len;
    return status == JDOC_OK || fail(why, status, NULL, 0);
}

bool document_of_value(connection *own, sqlite3_value *value, document *it, fault *why) {
    *it = (document){NULL, 0, NULL};
    switch (sqlite3_value_type(value)) {
    case SQLITE_BLOB:
        it->bytes = sqlite3_value_blob(value), it->len = (size_t)sqlite3_value_bytes(value);
        return true;
    case SQLITE_TEXT: {
        const char *text = (const char *)sqlite3_value_text(value);
        if (!text) return fail(why, JDOC_OUT_OF_MEMORY, NULL, 0);
        return document_of_text(own, text, (size_t)sqlite3_value_bytes(value), it, why);
    }
    case SQLITE_INTEGER:
        return document_of_integer(sqlite3_value_int64(value), it, why);
    case SQLITE_FLOAT:
        return fail(why, JDOC_UNSUPPORTED_NUMBER, "a REAL is not exact: pass its text, such as '1.5'", NOWHERE);
    default:
        return fail(why, JDOC_NONE, NULL, 0);
    }
}

/* VALUES OF DOCUMENTS */

/* An integer if it is one of 64 bits with a sign, otherwise the nearest REAL, as SQLite has numbers of JSON text. */
static void return_number(sqlite3_context *to, connection *own, const jdoc_event *item) {
    char text[JDOC_NUMBER_TEXT + 1], *end;
    int64_t whole;
    if (jdoc_number_i64(item->bytes, item->len, &whole)) {
        sqlite3_result_int64(to, whole);
        return;
    }
    text[jdoc_number_text(item->bytes, item->len, text)] = 0;
    errno = 0;
    whole = strtoll(text, &end, 10); /* a decimal may have no fraction */
    if (*end == 0 && errno == 0)
        sqlite3_result_int64(to, whole);
    else
        sqlite3_result_double(to, strtod_l(text, &end, own->numbers));
}

fault fault_of_text(uint32_t status) {
    const char *what = "an extension value, such as a date, has no JSON text";
    return (fault){.status = status, .what = status == JDOC_INVALID_JSON_TYPE ? what : NULL, .at = NOWHERE};
}

/* SQLite copies a short text to memory that it has from row to row, and takes over a longer one. */
uint32_t return_text(sqlite3_context *to, connection *own, const uint8_t *bytes, size_t len) {
    enum { SHORT = 16384 };
    jdoc_buffer *text = &own->text;
    text->len = 0;
    uint32_t status = jdoc_write_text(text, bytes, len, 0);
    if (status != JDOC_OK) return status;
    if (text->len <= SHORT) {
        sqlite3_result_text64(to, text->bytes, text->len, SQLITE_TRANSIENT, SQLITE_UTF8);
    } else {
        sqlite3_result_text64(to, text->bytes, text->len, sqlite3_free, SQLITE_UTF8);
        *text = (jdoc_buffer){.heap = sqlite_heap};
    }
    return status;
}

/* An array or an object as JSON text. */
static void return_container(sqlite3_context *to, const char *function, connection *own, const jdoc_event *item) {
    uint32_t status = item->kind == JDOC_EVENT_BEGIN ? return_text(to, own, item->bytes, item->len)
                                                     : JDOC_INVALID_JSON_TYPE; /* a date or another extension value */
    fault why = fault_of_text(status);
    if (status != JDOC_OK) return_fault(to, function, &why);
}

void return_value(sqlite3_context *to, const char *function, connection *own, const jdoc_event *item) {
    switch (item->kind) {
    case JDOC_EVENT_NULL:
        return;
    case JDOC_EVENT_TRUE:
    case JDOC_EVENT_FALSE:
        sqlite3_result_int(to, item->kind == JDOC_EVENT_TRUE);
        return;
    case JDOC_EVENT_NUMBER:
        return_number(to, own, item);
        return;
    case JDOC_EVENT_STRING:
        sqlite3_result_text64(to, (const char *)item->bytes, item->len, SQLITE_TRANSIENT, SQLITE_UTF8);
        return;
    default:
        return_container(to, function, own, item);
    }
}

enum jdoc_status return_item(sqlite3_context *to, connection *own, const jdoc_event *item) {
    if (item->kind == JDOC_EVENT_BEGIN) {
        sqlite3_result_blob64(to, item->bytes, item->len, SQLITE_TRANSIENT);
        return JDOC_OK;
    }
    if (!reserve(own, jdoc_item_size(item))) return JDOC_OUT_OF_MEMORY;
    jdoc_item_write(item, own->bytes);
    sqlite3_result_blob64(to, own->bytes, jdoc_item_size(item), SQLITE_TRANSIENT);
    return JDOC_OK;
}
