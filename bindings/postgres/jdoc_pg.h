/* jdoc_pg.h - what the files of the PostgreSQL extension share
 *
 * A jdoc is a document's bytes in a varlena. Those of JSON text, jsonb and bytea are checked by jdoc_check; all
 * others are results of the library.
 */
#ifndef JDOC_PG_H
#define JDOC_PG_H

#include "postgres.h"

#include "fmgr.h"
#include "utils/memutils.h"
#include "utils/numeric.h"
#if PG_VERSION_NUM >= 160000
#include "varatt.h"
#endif

#include "jdoc.h"
#include "jdoc_text.h"
#include "sql_path.h"

/* A varlena as the library takes it. */
#define BYTES(it) (const uint8_t *)VARDATA_ANY(it), (size_t)VARSIZE_ANY_EXHDR(it)
#define TEXT(it)  (const char *)VARDATA_ANY(it), (size_t)VARSIZE_ANY_EXHDR(it)

/* MEMORY (heap.c) */

/* For the tape, the walk and the writer of text: the current memory context. It raises an error if there is none left,
 * or if the query is cancelled. */
extern const jdoc_heap pg_heap;

/* Whether a call of the library that found no memory must be repeated. The library's allocations fail while an
 * interrupt is pending, so that a cancelled query ends there; other interrupts are handled here, and the call is
 * repeated. */
bool interrupted(void);

#define RUN(status, call)                                                                                              \
    do {                                                                                                               \
        (status) = (call);                                                                                             \
    } while ((status) == JDOC_OUT_OF_MEMORY && interrupted())

/* Small pieces, such as those of one call. */
typedef struct arena {
    char *bytes;
    size_t size, used, pieces;
} arena;

/* The arena that takes its pieces in these bytes. */
arena arena_in(void *bytes, size_t size);
extern arena arena_of_calls;

/* That of the call which runs. NULL: its pieces are of the current memory context. */
extern arena *heap_arena;

/* RUN for a call that keeps pieces: in an arena, and what does not fit there in the current memory context. */
#define RUN_IN(where, status, call)                                                                                    \
    do {                                                                                                               \
        heap_arena = (where);                                                                                          \
        (status) = (call);                                                                                             \
        heap_arena = &arena_of_calls;                                                                                  \
    } while ((status) == JDOC_OUT_OF_MEMORY && interrupted())
#define RUN_KEPT(status, call) RUN_IN(NULL, status, call)

/* ERRORS AND RESULTS (calls.c) */

/* Raise the error of a status. */
void fail(uint32_t status) pg_attribute_noreturn();

/* The setting jdoc.path_limit: a limit of the items of paths, or 0. */
extern int path_limit_setting;

/* The name of a document's type, as jdoc_typeof returns it. */
const char *type_of(const uint8_t *document, size_t len);

/* How SQL writes a call that fails for documents of other types, and the types that it takes. */
typedef struct edit {
    const char *name, *types;
} edit;

/* Raise the error of such a call, with the status of the document's type. */
void fail_type(const edit *of, uint32_t status, const bytea *document) pg_attribute_noreturn();

/* The text[] of names as a column of strings, without its nulls. */
typedef struct names {
    char *bytes;
    uint64_t *offsets;
    size_t count, len;
    bool has_null;
} names;

names names_of(Datum array);

/* What a function was called with, a letter an argument: d a document, p a jdocpath (P: of a function
 * that returns rows), n `text`, N `text[]`, i an int4, f a
 * bool. v, a document of variables, has to be empty: paths have none. */
typedef struct given {
    bytea *documents[2];
    int documents_len;
    jdoc_path *path;
    bool strict;
    jdoc_items *items; /* that the path selects, of a function that returns rows */
    text *name;
    names names;
    int32 index;
    bool flag;
    const edit *edit; /* the call, if it fails for documents of some types, or NULL */
} given;

void given_of(FunctionCallInfo fcinfo, const char *letters, given *it);

typedef enum jdoc_status maker(const given *it, uint8_t *out, size_t size, size_t *len);
typedef enum jdoc_status asker(const given *it, uint8_t *truth);

/* The result of a call as a varlena, NULL if it is JDOC_NONE. With `silent`, or if the call is an operator of paths, an
 * error that depends on the document is JDOC_NONE. */
bytea *made_by(const given *it, maker *makes, bool silent);

/* Return what makes or asks writes, as the result of an SQL function. */
Datum return_made(FunctionCallInfo fcinfo, const char *letters, maker *makes);
Datum return_edited(FunctionCallInfo fcinfo, const edit *of, const char *letters, maker *makes);
Datum return_truth(FunctionCallInfo fcinfo, const char *letters, asker *asks, bool silent);
bool is_hidden(uint32_t status, bool silent);

#define D(i)  BYTES(it->documents[i])
#define NAME  TEXT(it->name)
#define NAMES it->names.bytes, it->names.len, it->names.offsets, it->names.count + 1
#define OUT   out, size, len

/* SQL functions that consist of one call. */
#define MAKER(name, call)                                                                                              \
    static enum jdoc_status name(const given *it, uint8_t *out, size_t size, size_t *len) { return call; }
#define ASKER(name, call)                                                                                              \
    static enum jdoc_status name(const given *it, uint8_t *truth) { return call; }
#define MAKES(name, letters, call)                                                                                     \
    MAKER(name##_call, call)                                                                                           \
    PG_FUNCTION_INFO_V1(name);                                                                                         \
    Datum name(PG_FUNCTION_ARGS) { return return_made(fcinfo, letters, name##_call); }
#define EDITS(name, in_sql, types, letters, call)                                                                      \
    MAKER(name##_call, call)                                                                                           \
    PG_FUNCTION_INFO_V1(name);                                                                                         \
    Datum name(PG_FUNCTION_ARGS) {                                                                                     \
        static const edit of = {in_sql, types};                                                                        \
        return return_edited(fcinfo, &of, letters, name##_call);                                                       \
    }
#define ASKS(name, letters, call)                                                                                      \
    ASKER(name##_call, call)                                                                                           \
    PG_FUNCTION_INFO_V1(name);                                                                                         \
    Datum name(PG_FUNCTION_ARGS) { return return_truth(fcinfo, letters, name##_call, false); }

/* ITEMS of documents that were checked (items.c) */

jdoc_event root_of(const uint8_t *document, size_t len);
bytea *document_of_item(const jdoc_event *item);

/* Make the value of a span that a call of the library stored, with JDOC_OK, an item. False: JDOC_NONE. */
bool take_item(uint32_t status, const uint8_t *document, size_t len, const jdoc_span *span, jdoc_event *item);

/* Find an element of an array, counted from its end if the index is negative, or the value of a key of an object.
 * False: there is none, or the document has another type. */
bool element_of(const uint8_t *array, size_t len, int64 index, jdoc_event *child);
bool member_of(const uint8_t *object, size_t len, const char *name, size_t name_len, jdoc_event *child);

/* The children of an array or an object one by one. */
typedef struct children {
    const uint8_t *bytes; /* the container */
    size_t len, left;     /* children that are left */
    jdoc_cursor at;
} children;

void open_children(children *it, const uint8_t *container, size_t len);
bool next_child(children *it, jdoc_event *child);

/* The value of an item that is a number (casts.c). */
Numeric numeric_of(const jdoc_event *number);

/* An item as text: a string without quotes, others as JSON text. NULL: it is null. */
text *text_of_item(const jdoc_event *item);

/* DOCUMENTS (large.c, order.c) */

/* As jdoc_compare and jdoc_contains, except that queries can be cancelled in them. */
int order_of_documents(const uint8_t *a, size_t a_len, const uint8_t *b, size_t b_len);
bool document_contains(const uint8_t *a, size_t a_len, const uint8_t *b, size_t b_len);

/* The equality key of a document. */
bytea *equality_key_of(bytea *document);

#endif
