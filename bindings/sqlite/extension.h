/* extension.h - what the files of the SQLite extension share */
#ifndef JDOC_SQLITE_EXTENSION_H
#define JDOC_SQLITE_EXTENSION_H

#include <sqlite3ext.h>

#include "jdoc.h"
#include "jdoc_text.h"
#include "sql_path.h"

#include <locale.h>
#include <stdbool.h>
#include <stddef.h>
#include <stdint.h>

extern const sqlite3_api_routines *sqlite3_api;

/* What all functions of one connection share. SQLite calls one function of a connection at a time. */
typedef struct connection {
    jdoc_tape tape; /* for reading JSON text */
    uint8_t *bytes; /* for results: it grows to the largest one */
    size_t size;
    jdoc_buffer text; /* for JSON text (return_text) */
    locale_t numbers; /* the locale "C" */
    int uses;         /* functions that hold it */
} connection;

/* A status of this extension alone: an argument of an SQL type that the function does not take. */
enum { JDOC_INVALID_ARGUMENT = 128 };

/* Why there is no result. */
typedef struct fault {
    uint32_t status;
    const char *what;   /* a sentence in place of that of the status, or NULL */
    size_t at;          /* the position in JSON text or a path, or NOWHERE; read only if there is a sentence */
    const char *detail; /* a word at the end of the sentence, or NULL */
    const char *key;    /* a key in place of the word, or NULL; its first 60 characters are shown, in quotes */
} fault;
#define NOWHERE SIZE_MAX

/* A document that was built from an argument. */
typedef struct made {
    size_t len;
    uint8_t bytes[];
} made;

/* A document argument. */
typedef struct document {
    const uint8_t *bytes;
    size_t len;
    made *own; /* the allocation of the bytes, if they were built */
} document;

extern const jdoc_heap sqlite_heap;

/* Grow connection->bytes to at least this size. False: the allocation fails. */
bool reserve(connection *own, size_t size);

/* Whether a value has an SQL type, which SQLite does not check: it would convert the value. False: *why is the reason,
 * with a sentence that ends before the value's type; JDOC_NONE is NULL. */
bool has_type(sqlite3_value *value, int type, const char *expected, fault *why);
#define PATH_EXPECTED "expected TEXT as the path, found"
#define NAME_EXPECTED "expected TEXT as the name, found"

/* Read a value as a document: BLOB as it is, TEXT as JSON text, an integer as a number. The caller frees it->own by
 * sqlite3_free. False: *why is the reason; JDOC_NONE is NULL. */
bool document_of_value(connection *own, sqlite3_value *value, document *it, fault *why);

/* Parse a JSON path with its mode, or a key path. False: *why is the reason, with the position in the text. */
bool read_json_path(const char *text, size_t len, jdoc_path *path, bool *strict, fault *why);
bool read_key_path(const char *text, size_t len, jdoc_keypath *path, fault *why);

/* Write a fault as a message of at most MESSAGE bytes. */
enum { MESSAGE = 400 };
void write_fault(const char *function, const fault *why, char out[MESSAGE]);

/* Return a fault as an error of a function, and JDOC_NONE as NULL. */
void return_fault(sqlite3_context *to, const char *function, const fault *why);

/* The reason why a document, or an item of it, has no JSON text. */
fault fault_of_text(uint32_t status);

/* Write the JSON text of a document to connection->text, and return it. */
uint32_t return_text(sqlite3_context *to, connection *own, const uint8_t *bytes, size_t len);

/* Return a document as an SQL value: a scalar as itself, an array or an object as JSON text, a null as NULL. An error
 * is that of the function. */
void return_value(sqlite3_context *to, const char *function, connection *own, const jdoc_event *item);

/* Return an item as a document. JDOC_OUT_OF_MEMORY, or JDOC_OK. */
enum jdoc_status return_item(sqlite3_context *to, connection *own, const jdoc_event *item);

/* Add the functions, the aggregates or the tables to a connection. Each of them holds the connection and
 * releases it by release_connection, also if it cannot be added. */
int add_functions(sqlite3 *db, connection *own);
int add_aggregates(sqlite3 *db, connection *own);
int add_rows(sqlite3 *db, connection *own);
void release_connection(void *own);

#endif
