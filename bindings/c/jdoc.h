/* jdoc.h - query and edit JSON values as bytes, without decoding them
 *
 * A document is a JSON value as bytes (docs/FORMAT.md). Functions take one document, or a column of many.
 *
 *   cc program.c $(pkg-config --cflags --libs jdoc)
 *
 * CONVENTIONS
 *
 * Status. Functions return an enum jdoc_status, except jdoc_version and .._free. JDOC_OK is 0. JDOC_NONE means that
 * there is no result, such as a child that does not exist. All others are errors. jdoc_status_name returns their names,
 * jdoc_status_text their meaning. Of a document of the wrong type, jdoc_type and jdoc_kind_text say which it has.
 *
 * Input is a pointer and a length: documents are uint8_t, paths, names and other strings char. It needs no null byte at
 * its end and no alignment. NULL with length 0 is empty. Input is only read, must not change during the call, and may
 * overlap other input. No function keeps a pointer.
 *
 * Output is written to the caller's buffer: `out`, of `out_size` bytes.
 *   JDOC_OK                 the result is in out[0 .. *out_len]; the bytes after it are unchanged
 *   JDOC_BUFFER_TOO_SMALL   nothing was written; *out_len is the size of the result
 *   any other status        nothing was written; *out_len is 0
 * So a caller may pass NULL and out_size 0 first, and then a buffer of that size. Nothing has to be freed.
 *
 * A Boolean, a number or a span is written through a pointer, only with JDOC_OK. `out_len`, `key_len`, `value_len`, `done`,
 * `sizes` and `progress` are written with every status. None of these pointers may be NULL.
 *
 * Output must not overlap anything else of the same call.
 *
 * Threads. Functions share nothing: any number of threads may call at the same time. Signal handlers may not call, nor
 * may the child of a fork in a process with other threads, until it calls exec.
 *
 * Memory. A function frees what it allocates before it returns, except a prepared path, its items and a builder. It
 * calls malloc, realloc and free of the C library, whose blocks have to be aligned to 16 bytes. These do not allocate:
 * jdoc_version, jdoc_status_name, jdoc_check, jdoc_type, jdoc_len, jdoc_as_.., jdoc_find_str, jdoc_find_by_index,
 * jdoc_find_by_name, jdoc_span_document, jdoc_cursor_.., jdoc_path_limit, jdoc_items_find_next, jdoc_to_bool,
 * jdoc_to_i64, jdoc_to_u64, jdoc_compare, jdoc_column_check, jdoc_column_to_i64. Most functions use little stack at any
 * depth; docs/STACK.md lists those that use more.
 *
 * Errors of any function, which are not listed with each:
 *   JDOC_INVALID_JSONB       the bytes are not a document
 *   JDOC_UNSUPPORTED_NUMBER  the bytes contain a float or a 256-bit decimal
 *   JDOC_OUT_OF_MEMORY       an allocation fails. Nothing was written
 *   JDOC_TOO_LARGE           of functions that build documents: the result exceeds the limits of the format
 * Functions return on any bytes, but only jdoc_check and jdoc_column_check decide whether they are documents: check
 * untrusted documents first, since the results of other functions on invalid documents are unspecified.
 *
 * Paths. A key path is a list of keys and indexes such as {phones,0,"a b"}; a JSON path is an expression such as
 * $.phones[*]?(@.type == "home") (docs/PATHS.md). Both are UTF-8. JDOC_INVALID_KEY_PATH, JDOC_INVALID_JSON_PATH: the
 * text is not in the grammar or not UTF-8, of any document. JDOC_PATH_FAILED: a JSON path has no value on this document,
 * such as $.a + 1 if .a is not a number; arithmetic has four errors of its own. With `strict`, JDOC_STRICT_PATH is the
 * error of a key that the value does not have, of .* after a value that is not an object, and of [..] after one that is
 * not an array. Otherwise these select nothing, except that [*] after a value that is not an array selects the value.
 * An index past the end selects nothing in either mode.
 *
 * Columns. `bytes` contains documents one after the other, and `offsets` the n + 1 offsets between them, so that row i
 * is bytes[offsets[i] .. offsets[i + 1]], as in Arrow's large binary arrays. Offsets have 64 bits, in the byte order
 * and alignment of the machine. Names are a column of strings.
 *
 * docs/C.md says what is proved of each function, and docs/DECISIONS.md the reasons for the interface.
 */
#ifndef JDOC_H
#define JDOC_H

#include <stdbool.h>
#include <stddef.h>
#include <stdint.h>

/* If a status is ignored, a buffer may be read that nothing was written to. */
#if defined(__cplusplus) && __cplusplus >= 201703L
#define JDOC_NODISCARD [[nodiscard]]
#elif defined(__GNUC__)
#define JDOC_NODISCARD __attribute__((warn_unused_result))
#else
#define JDOC_NODISCARD
#endif

#ifdef __cplusplus
extern "C" {
#endif

/* VERSION. It is not the version of the Rust crate `jsonb`. A program runs with each library that has the same major
 * and minor version, whose file is libjdoc.so.0. */

#define JDOC_VERSION_MAJOR  0
#define JDOC_VERSION_MINOR  1
#define JDOC_VERSION_PATCH  0
#define JDOC_VERSION        "0.1.0"
#define JDOC_VERSION_NUMBER (JDOC_VERSION_MAJOR * 1000000 + JDOC_VERSION_MINOR * 1000 + JDOC_VERSION_PATCH)

/* Return the JDOC_VERSION_NUMBER of the library, which may differ from that of the header. */
uint32_t jdoc_version(void);

/* STATUSES */

/* jdoc_status_text says what each means. */
enum jdoc_status {
    JDOC_OK = 0,
    JDOC_NONE = 1,
    JDOC_BUFFER_TOO_SMALL = 2,
    JDOC_BAD_OFFSETS = 3,
    JDOC_NOT_UTF8 = 4,
    JDOC_NO_PATH = 5,
    JDOC_COMPUTED = 6,
    JDOC_OUT_OF_ORDER = 7,
    JDOC_INVALID_JSONB = 16,
    JDOC_UNSUPPORTED_NUMBER = 17,
    JDOC_INVALID_JSON_PATH = 18,
    JDOC_INVALID_KEY_PATH = 19,
    JDOC_INVALID_CAST = 20,
    JDOC_INVALID_OBJECT = 21,
    JDOC_INVALID_JSON_TYPE = 22,
    JDOC_OBJECT_DUPLICATE_KEY = 23,
    JDOC_TOO_LARGE = 24,
    JDOC_TOO_DEEP = 25,
    JDOC_OUT_OF_MEMORY = 26,
    JDOC_STRICT_PATH = 27,
    JDOC_PATH_FAILED = 28,
    JDOC_LIMIT_EXCEEDED = 29,
    JDOC_OVERFLOW = 48,
    JDOC_ZERO_DIVISOR = 49,
    JDOC_INEXACT = 50,
    JDOC_DECIMAL_OPERAND = 51
};

/* Write the name of a status, such as "JDOC_TOO_DEEP", without a null byte after it. JDOC_NONE: no status has this
 * number. */
enum jdoc_status jdoc_status_name(uint32_t status, char *out, size_t out_size, size_t *out_len);

/* Return what a status means, or "not a status" if no status has this number. */
static inline const char *jdoc_status_text(uint32_t status) {
    switch (status) {
    case JDOC_OK:
        return "success";
    case JDOC_NONE:
        return "no result: no such child, or a value of another type";
    case JDOC_BUFFER_TOO_SMALL:
        return "a buffer is too small; the size is returned";
    case JDOC_BAD_OFFSETS:
        return "offsets of a column decrease or exceed its bytes";
    case JDOC_NOT_UTF8:
        return "a name or another string is not UTF-8";
    case JDOC_NO_PATH:
        return "the struct contains no such path, items or events";
    case JDOC_COMPUTED:
        return "the item is computed, and is not in the document";
    case JDOC_OUT_OF_ORDER:
        return "the event cannot come next";
    case JDOC_INVALID_JSONB:
        return "the bytes are not a document (JSON text is not one)";
    case JDOC_UNSUPPORTED_NUMBER:
        return "a float, or another number that is neither a 64-bit integer nor a 128-bit decimal";
    case JDOC_INVALID_JSON_PATH:
        return "not a JSON path such as $.a[0]";
    case JDOC_INVALID_KEY_PATH:
        return "not a key path such as {a,0}";
    case JDOC_INVALID_CAST:
        return "the value cannot be cast to this type";
    case JDOC_INVALID_OBJECT:
        return "the value is not an object";
    case JDOC_INVALID_JSON_TYPE:
        return "the value has the wrong type";
    case JDOC_OBJECT_DUPLICATE_KEY:
        return "the object has the key already";
    case JDOC_TOO_LARGE:
        return "a count or a length exceeds the limits of the format";
    case JDOC_TOO_DEEP:
        return "an item is nested too deeply for a sortable key";
    case JDOC_OUT_OF_MEMORY:
        return "an allocation fails";
    case JDOC_STRICT_PATH:
        return "a step of the strict path does not apply: no such key, or a value of another type";
    case JDOC_PATH_FAILED:
        return "the path cannot be evaluated: an operand of arithmetic is not one number";
    case JDOC_LIMIT_EXCEEDED:
        return "the path may list or compare more items of the document than its limit";
    case JDOC_OVERFLOW:
        return "arithmetic: below -2^63 or above 2^64 - 1";
    case JDOC_ZERO_DIVISOR:
        return "arithmetic: division by zero";
    case JDOC_INEXACT:
        return "arithmetic: the quotient is not an integer";
    case JDOC_DECIMAL_OPERAND:
        return "arithmetic: an operand is a decimal, not an integer";
    default:
        return "not a status";
    }
}

/* ONE DOCUMENT */

/* JDOC_OK if and only if the bytes are a document. JDOC_UNSUPPORTED_NUMBER: they would be one if floats and 256-bit
 * decimals were numbers. Otherwise JDOC_INVALID_JSONB. */
JDOC_NODISCARD enum jdoc_status jdoc_check(const uint8_t *document, size_t document_len);

enum jdoc_kind {
    JDOC_KIND_NULL = 0,
    JDOC_KIND_BOOLEAN = 1,
    JDOC_KIND_INTEGER = 2,
    JDOC_KIND_DECIMAL = 3,
    JDOC_KIND_STRING = 4,
    JDOC_KIND_BINARY = 5,
    JDOC_KIND_DATE = 6,
    JDOC_KIND_TIMESTAMP = 7,
    JDOC_KIND_TIMESTAMP_TZ = 8,
    JDOC_KIND_INTERVAL = 9,
    JDOC_KIND_ARRAY = 10,
    JDOC_KIND_OBJECT = 11
};

/* Return the name of a type, such as "array", or "not a type" if no type has this number. */
static inline const char *jdoc_kind_text(uint32_t kind) {
    static const char *const texts[] = {"null",      "boolean",      "integer",  "decimal", "string", "binary", "date",
                                        "timestamp", "timestamp_tz", "interval", "array",   "object"};
    return kind < sizeof texts / sizeof *texts ? texts[kind] : "not a type";
}

/* *kind: the type of the document, of enum jdoc_kind. */
JDOC_NODISCARD enum jdoc_status jdoc_type(const uint8_t *document, size_t document_len, uint8_t *kind);

/* The child at a key path, as a document. JDOC_NONE: there is none. The path {} is the document itself. */
JDOC_NODISCARD enum jdoc_status jdoc_get_by_keypath(const uint8_t *document, size_t document_len, const char *path,
                                                    size_t path_len, uint8_t *out, size_t out_size, size_t *out_len);

/* The span of a value in a document: its content is document[at .. at + len]. The content of an array or object is that
 * value as a document, of a string its UTF-8; `entry` is the type of an entry word (docs/FORMAT.md): 0 null, 1 string,
 * 2 number, 3 false, 4 true, 5 array or object, 6 extension value. A span that a function stores is within its document,
 * even if the bytes are not one. */
typedef struct jdoc_span {
    size_t at;
    size_t len;
    uint8_t kind; /* of enum jdoc_kind */
    uint8_t entry;
} jdoc_span;

/* *span: the span of the child at a key path, which jdoc_get_by_keypath copies; unchanged if the status is not JDOC_OK.
 * JDOC_NONE: there is none. */
JDOC_NODISCARD enum jdoc_status jdoc_find_by_keypath(const uint8_t *document, size_t document_len, const char *path,
                                                     size_t path_len, jdoc_span *span);

/* The value at a span, as a document: its content as it is stored, after 8 bytes if it is a scalar. `kind` is not read.
 * JDOC_INVALID_JSONB: the span is not within the document, or `entry` is none of these types. JDOC_TOO_LARGE: only of a
 * span that no function stored. */
JDOC_NODISCARD enum jdoc_status jdoc_span_document(const uint8_t *document, size_t document_len, const jdoc_span *span,
                                                   uint8_t *out, size_t out_size, size_t *out_len);

/* An element of an array. JDOC_NONE: there is none, or this is not an array. */
JDOC_NODISCARD enum jdoc_status jdoc_get_by_index(const uint8_t *document, size_t document_len, size_t index,
                                                  uint8_t *out, size_t out_size, size_t *out_len);

/* The value of a key of an object. With ignore_case, if there is no such key, the value of the first key that is
 * equal if the case of ASCII letters is ignored. JDOC_NONE: there is none, or this is not an object. JDOC_NOT_UTF8:
 * the name. */
JDOC_NODISCARD enum jdoc_status jdoc_get_by_name(const uint8_t *document, size_t document_len, const char *name,
                                                 size_t name_len, bool ignore_case, uint8_t *out, size_t out_size,
                                                 size_t *out_len);

/* *span: the span of the child that jdoc_get_by_index or jdoc_get_by_name copies, as with jdoc_find_by_keypath. */
JDOC_NODISCARD enum jdoc_status jdoc_find_by_index(const uint8_t *document, size_t document_len, size_t index,
                                                   jdoc_span *span);
JDOC_NODISCARD enum jdoc_status jdoc_find_by_name(const uint8_t *document, size_t document_len, const char *name,
                                                  size_t name_len, bool ignore_case, jdoc_span *span);

/* A position among the children of an array or object, to visit them one by one in stored order:
 *
 *   jdoc_cursor cursor;
 *   jdoc_span key, value;
 *   status = jdoc_cursor_open(document, len, &cursor);
 *   while (status == JDOC_OK) {
 *       status = jdoc_cursor_next(document, len, &cursor, &key, &value);
 *       if (status == JDOC_OK) ... document[value.at .. value.at + value.len] ...
 *   }
 *
 * Nothing has to be freed, and the struct may be copied. Its fields belong to the library. Pass the same document to
 * each call: with other bytes, or if a field was changed, the results are unspecified; the calls return, and read only
 * those bytes. */
struct jdoc_entries {
    size_t word;
    size_t content;
    size_t end;
};

typedef struct jdoc_cursor {
    size_t left;
    struct jdoc_entries keys;
    struct jdoc_entries values;
} jdoc_cursor;

/* *cursor: before the first child. JDOC_NONE: neither an array nor an object. Adds up the lengths of all keys. */
JDOC_NODISCARD enum jdoc_status jdoc_cursor_open(const uint8_t *document, size_t document_len, jdoc_cursor *cursor);

/* *value: the span of the next child; *key: that of its key, which is unchanged for an element. The cursor moves past
 * it, in constant time, only with JDOC_OK. JDOC_NONE: there is none. */
JDOC_NODISCARD enum jdoc_status jdoc_cursor_next(const uint8_t *document, size_t document_len, jdoc_cursor *cursor,
                                                 jdoc_span *key, jdoc_span *value);

/* The items that a JSON path selects: the only one, or an array of several. JDOC_NONE: it selects none. */
JDOC_NODISCARD enum jdoc_status jdoc_select_value(const uint8_t *document, size_t document_len, const char *path,
                                                  size_t path_len, bool strict, uint8_t *out, size_t out_size,
                                                  size_t *out_len);

/* The first item that a JSON path selects. JDOC_NONE: it selects none. */
JDOC_NODISCARD enum jdoc_status jdoc_select_first(const uint8_t *document, size_t document_len, const char *path,
                                                  size_t path_len, bool strict, uint8_t *out, size_t out_size,
                                                  size_t *out_len);

/* *span: the span of the item that jdoc_select_first copies. JDOC_NONE: the path selects none. JDOC_COMPUTED: it selects
 * an item, and is an expression such as $.a + 1 or $.a == 1, whose result is not in the document. */
JDOC_NODISCARD enum jdoc_status jdoc_find_first(const uint8_t *document, size_t document_len, const char *path,
                                                size_t path_len, bool strict, jdoc_span *span);

/* An array of all items that a JSON path selects, in order, with repeats. */
JDOC_NODISCARD enum jdoc_status jdoc_select_array(const uint8_t *document, size_t document_len, const char *path,
                                                  size_t path_len, bool strict, uint8_t *out, size_t out_size,
                                                  size_t *out_len);

/* *truth: whether a JSON path selects an item, 1 or 0. A predicate selects its result: for that call jdoc_match. */
JDOC_NODISCARD enum jdoc_status jdoc_exists(const uint8_t *document, size_t document_len, const char *path,
                                            size_t path_len, bool strict, uint8_t *truth);

/* *truth: the value of a JSON path that is a predicate: 1, 0, or 2 for unknown. 2 if the path is not a predicate. */
JDOC_NODISCARD enum jdoc_status jdoc_match(const uint8_t *document, size_t document_len, const char *path,
                                           size_t path_len, bool strict, uint8_t *truth);

/* The document without the child at a key path; unchanged if there is none. JDOC_INVALID_JSON_TYPE: the document is
 * a null, a Boolean, a number or a string. */
JDOC_NODISCARD enum jdoc_status jdoc_delete_by_keypath(const uint8_t *document, size_t document_len, const char *path,
                                                       size_t path_len, uint8_t *out, size_t out_size, size_t *out_len);

/* An array without an element, counted from the end if the index is negative; unchanged if there is none.
 * JDOC_INVALID_JSON_TYPE: not an array. */
JDOC_NODISCARD enum jdoc_status jdoc_delete_by_index(const uint8_t *document, size_t document_len, int32_t index,
                                                     uint8_t *out, size_t out_size, size_t *out_len);

/* An object without a key, or an array without the strings that are equal to the name. JDOC_INVALID_JSON_TYPE:
 * neither. JDOC_NOT_UTF8: the name. */
JDOC_NODISCARD enum jdoc_status jdoc_delete_by_name(const uint8_t *document, size_t document_len, const char *name,
                                                    size_t name_len, uint8_t *out, size_t out_size, size_t *out_len);

/* An array with a value before a position, which counts from the end if it is negative and is clamped to the array.
 * A document that is not an array counts as an array of one element. */
JDOC_NODISCARD enum jdoc_status jdoc_array_insert(const uint8_t *document, size_t document_len, const uint8_t *value,
                                                  size_t value_len, int32_t position, uint8_t *out, size_t out_size,
                                                  size_t *out_len);

/* An object with a member added, or replaced if `update`. JDOC_INVALID_OBJECT: not an object.
 * JDOC_OBJECT_DUPLICATE_KEY: the key exists and `update` is false. JDOC_NOT_UTF8: the name. */
JDOC_NODISCARD enum jdoc_status jdoc_object_insert(const uint8_t *document, size_t document_len, const uint8_t *value,
                                                   size_t value_len, const char *name, size_t name_len, bool update,
                                                   uint8_t *out, size_t out_size, size_t *out_len);

/* Of two objects: all members, with the other's value if both have a key. Otherwise both arrays joined; a document
 * that is not an array counts as an array of one element. */
JDOC_NODISCARD enum jdoc_status jdoc_concat(const uint8_t *document, size_t document_len, const uint8_t *other,
                                            size_t other_len, uint8_t *out, size_t out_size, size_t *out_len);

/* The document without the members of objects whose value is null, at every depth. */
JDOC_NODISCARD enum jdoc_status jdoc_strip_nulls(const uint8_t *document, size_t document_len, uint8_t *out,
                                                 size_t out_size, size_t *out_len);

/* The first of each group of elements that are equal by value (1 and 1.0 are equal). */
JDOC_NODISCARD enum jdoc_status jdoc_array_distinct(const uint8_t *document, size_t document_len, uint8_t *out,
                                                    size_t out_size, size_t *out_len);

/* The elements that both arrays have, each as often as both have it. */
JDOC_NODISCARD enum jdoc_status jdoc_array_intersection(const uint8_t *document, size_t document_len,
                                                        const uint8_t *other, size_t other_len, uint8_t *out,
                                                        size_t out_size, size_t *out_len);

/* The elements that are not in the intersection. */
JDOC_NODISCARD enum jdoc_status jdoc_array_except(const uint8_t *document, size_t document_len, const uint8_t *other,
                                                  size_t other_len, uint8_t *out, size_t out_size, size_t *out_len);

/* *truth: whether the intersection has an element. Takes more time if an allocation fails, and returns the same. */
JDOC_NODISCARD enum jdoc_status jdoc_array_overlap(const uint8_t *document, size_t document_len, const uint8_t *other,
                                                   size_t other_len, uint8_t *truth);

/* The members of an object whose keys are among the names. JDOC_INVALID_OBJECT: not an object. JDOC_BAD_OFFSETS,
 * JDOC_NOT_UTF8: of the first invalid name. */
JDOC_NODISCARD enum jdoc_status jdoc_object_pick(const uint8_t *document, size_t document_len, const char *names,
                                                 size_t names_len, const uint64_t *offsets, size_t offsets_len,
                                                 uint8_t *out, size_t out_size, size_t *out_len);

/* The members of an object whose keys are not among the names. Errors: as jdoc_object_pick. */
JDOC_NODISCARD enum jdoc_status jdoc_object_delete(const uint8_t *document, size_t document_len, const char *names,
                                                   size_t names_len, const uint64_t *offsets, size_t offsets_len,
                                                   uint8_t *out, size_t out_size, size_t *out_len);

/* *truth: whether the document contains the other, as PostgreSQL's @>. */
JDOC_NODISCARD enum jdoc_status jdoc_contains(const uint8_t *document, size_t document_len, const uint8_t *other,
                                              size_t other_len, uint8_t *truth);

/* *order: -1, 0 or 1, if the document is below, equal to or above the other: for documents without extension values in
 * the order of their sortable keys, at any depth. */
JDOC_NODISCARD enum jdoc_status jdoc_compare(const uint8_t *document, size_t document_len, const uint8_t *other,
                                             size_t other_len, int32_t *order);

/* *truth: whether each name is a key of an object, a string in an array, or equal to a string. JDOC_BAD_OFFSETS,
 * JDOC_NOT_UTF8: of the first invalid name. */
JDOC_NODISCARD enum jdoc_status jdoc_exists_all_keys(const uint8_t *document, size_t document_len, const char *names,
                                                     size_t names_len, const uint64_t *offsets, size_t offsets_len,
                                                     uint8_t *truth);

/* *truth: whether one of the names is. Errors: as jdoc_exists_all_keys. */
JDOC_NODISCARD enum jdoc_status jdoc_exists_any_keys(const uint8_t *document, size_t document_len, const char *names,
                                                     size_t names_len, const uint64_t *offsets, size_t offsets_len,
                                                     uint8_t *truth);

/* The value of a scalar. JDOC_NONE: it has another type, or is a number that is not an integer or does not fit. */
JDOC_NODISCARD enum jdoc_status jdoc_as_bool(const uint8_t *document, size_t document_len, uint8_t *truth);
JDOC_NODISCARD enum jdoc_status jdoc_as_i64(const uint8_t *document, size_t document_len, int64_t *number);
JDOC_NODISCARD enum jdoc_status jdoc_as_u64(const uint8_t *document, size_t document_len, uint64_t *number);
JDOC_NODISCARD enum jdoc_status jdoc_as_str(const uint8_t *document, size_t document_len, char *out, size_t out_size,
                                            size_t *out_len);

/* *span: the span of the string that jdoc_as_str copies. JDOC_NONE: not a string. */
JDOC_NODISCARD enum jdoc_status jdoc_find_str(const uint8_t *document, size_t document_len, jdoc_span *span);

/* The parts of a number: it is (*high * 2^64 + *low) / 10^*scale. An integer and zero have the scale 0.
 * jdoc_from_decimal of the parts builds a decimal that is equal by value; if jdoc_type returns JDOC_KIND_INTEGER,
 * jdoc_from_i64 or jdoc_from_u64 builds the integer. JDOC_NONE: not a number. */
JDOC_NODISCARD enum jdoc_status jdoc_as_decimal(const uint8_t *document, size_t document_len, int64_t *high,
                                                uint64_t *low, uint8_t *scale);

/* The value cast. JDOC_INVALID_CAST: it cannot be. Booleans: Booleans, and the strings true, yes, false, no in any
 * case. Numbers: Booleans as 1 and 0, numbers rounded half away from zero, strings of digits, after a sign if there
 * is one (jdoc_to_u64: only a plus). Strings: Booleans, numbers and strings. */
JDOC_NODISCARD enum jdoc_status jdoc_to_bool(const uint8_t *document, size_t document_len, uint8_t *truth);
JDOC_NODISCARD enum jdoc_status jdoc_to_i64(const uint8_t *document, size_t document_len, int64_t *number);
JDOC_NODISCARD enum jdoc_status jdoc_to_u64(const uint8_t *document, size_t document_len, uint64_t *number);
JDOC_NODISCARD enum jdoc_status jdoc_to_str(const uint8_t *document, size_t document_len, char *out, size_t out_size,
                                            size_t *out_len);

/* The sortable key: memcmp over the shorter length, and then the lengths, order keys as their documents, if no
 * extension value occurs. JDOC_TOO_DEEP: an item is nested deeper than 255, with `wide` deeper than 65,535. Do not
 * compare narrow keys with wide ones. */
JDOC_NODISCARD enum jdoc_status jdoc_sort_key(const uint8_t *document, size_t document_len, bool wide, uint8_t *out,
                                              size_t out_size, size_t *out_len);

/* The equality key: two documents have the same key if and only if they are equal by value. */
JDOC_NODISCARD enum jdoc_status jdoc_equality_key(const uint8_t *document, size_t document_len, uint8_t *out,
                                                  size_t out_size, size_t *out_len);

/* The composite key of the columns of one row, such as that of an index: a row without bytes is a missing value, which
 * sorts before every other. Composite keys order as the lists of the values, as jdoc_sort_key does and with its limits.
 * JDOC_BAD_OFFSETS: of the column. */
JDOC_NODISCARD enum jdoc_status jdoc_composite_key(const uint8_t *bytes, size_t bytes_len, const uint64_t *offsets,
                                                   size_t offsets_len, bool wide, uint8_t *out, size_t out_size,
                                                   size_t *out_len);

/* BUILDING DOCUMENTS: scalars, arrays of a column, and objects of two columns */

/* jdoc_from_i64 and jdoc_from_u64 of one number except 0 build documents equal by value that differ in bytes. */
JDOC_NODISCARD enum jdoc_status jdoc_from_null(uint8_t *out, size_t out_size, size_t *out_len);
JDOC_NODISCARD enum jdoc_status jdoc_from_bool(bool value, uint8_t *out, size_t out_size, size_t *out_len);
JDOC_NODISCARD enum jdoc_status jdoc_from_i64(int64_t value, uint8_t *out, size_t out_size, size_t *out_len);
JDOC_NODISCARD enum jdoc_status jdoc_from_u64(uint64_t value, uint8_t *out, size_t out_size, size_t *out_len);

/* The number (high * 2^64 + low) / 10^scale, of the parts that jdoc_as_decimal returns. */
JDOC_NODISCARD enum jdoc_status jdoc_from_decimal(int64_t high, uint64_t low, uint8_t scale, uint8_t *out,
                                                  size_t out_size, size_t *out_len);

/* JDOC_NOT_UTF8: the string. */
JDOC_NODISCARD enum jdoc_status jdoc_from_str(const char *text, size_t text_len, uint8_t *out, size_t out_size,
                                              size_t *out_len);

/* The array of a column of documents. JDOC_BAD_OFFSETS: of the column. */
JDOC_NODISCARD enum jdoc_status jdoc_array_from_column(const uint8_t *bytes, size_t bytes_len, const uint64_t *offsets,
                                                       size_t offsets_len, uint8_t *out, size_t out_size,
                                                       size_t *out_len);

/* The object of a column of names and a column of documents, row by row, in any order. JDOC_BAD_OFFSETS: of either
 * column, or they have different numbers of rows. JDOC_NOT_UTF8: of the first invalid name.
 * JDOC_OBJECT_DUPLICATE_KEY: a name occurs twice. */
JDOC_NODISCARD enum jdoc_status jdoc_object_from_columns(const char *names, size_t names_len,
                                                         const uint64_t *name_offsets, size_t name_offsets_len,
                                                         const uint8_t *bytes, size_t bytes_len,
                                                         const uint64_t *offsets, size_t offsets_len, uint8_t *out,
                                                         size_t out_size, size_t *out_len);

/* TAKING DOCUMENTS APART: jdoc_type, then the casts, or jdoc_len with jdoc_get_by_index or jdoc_pair. These two count
 * from the front, so that all children of a container take time that grows with the square of their number.
 * jdoc_leaves returns all leaves at once. */

/* The number of elements or members. JDOC_NONE: neither an array nor an object. */
JDOC_NODISCARD enum jdoc_status jdoc_len(const uint8_t *document, size_t document_len, size_t *len);

/* The member of an object at a position in the order of keys: the key, and the value as a document. JDOC_NONE:
 * there is none, or this is not an object. JDOC_BUFFER_TOO_SMALL: one of the buffers is too small; neither is
 * written, and both lengths are returned. */
JDOC_NODISCARD enum jdoc_status jdoc_pair(const uint8_t *document, size_t document_len, size_t index, char *key,
                                          size_t key_size, size_t *key_len, uint8_t *value, size_t value_size,
                                          size_t *value_len);

typedef struct jdoc_leaf_sizes {
    size_t rows;           /* number of leaves */
    size_t path_bytes;     /* bytes of their key paths */
    size_t document_bytes; /* bytes of their documents */
} jdoc_leaf_sizes;

/* The leaves of a document in stored order, as two columns: key paths such as {phones,0,"a b"}, and documents. A leaf
 * is a scalar, an empty array or an empty object; a document that is a leaf itself has none. An empty key is written as
 * "", which no key path that can be read contains. Each of the two `.._positions` gets sizes->rows + 1 offsets.
 * JDOC_BUFFER_TOO_SMALL: one of the four buffers is too small; nothing was written, and *sizes is what they need. With
 * any other error *sizes is 0 throughout.
 *
 *   jdoc_leaf_sizes need;
 *   status = jdoc_leaves(document, len, NULL, 0, NULL, 0, NULL, 0, NULL, 0, &need);
 *   ... with JDOC_BUFFER_TOO_SMALL: buffers of need.path_bytes and need.document_bytes bytes, and two of need.rows + 1
 *   offsets ... */
JDOC_NODISCARD enum jdoc_status jdoc_leaves(const uint8_t *document, size_t document_len, char *paths,
                                            size_t paths_size, uint64_t *path_positions, size_t path_positions_len,
                                            uint8_t *documents, size_t documents_size, uint64_t *document_positions,
                                            size_t document_positions_len, jdoc_leaf_sizes *sizes);

/* COLUMNS
 *
 * The path is parsed once per call; if that fails, it is the status of the call and no row is read. Each row that is
 * done has its own status in `statuses`, JDOC_OK, JDOC_NONE or an error: an invalid row affects no other. A row whose
 * offsets decrease or exceed the bytes is JDOC_BAD_OFFSETS, and nothing outside of the bytes is read. A column without
 * offsets has no rows.
 *
 * Results of fixed size: `truths`, `numbers` and `statuses` each limit how many rows are done. *done rows are done and
 * their results written; a Boolean is 2 and a number 0 unless the status of the row is JDOC_OK. JDOC_BUFFER_TOO_SMALL:
 * there are more rows; continue with offsets + *done.
 *
 * Results of bytes are written to `out`, one after the other, and progress->rows + 1 offsets to `positions`, the first
 * of them 0: a column again. A row without a result is empty. JDOC_BUFFER_TOO_SMALL: there are more rows, and the next
 * one does not fit: into `out`, which needs progress->next bytes for it, or into `positions` or `statuses`, and then
 * progress->next is 0. The rows that are done stay; continue with offsets + progress->rows and other buffers. A
 * `positions` of length 0 is too small even for no rows.
 *
 * The comments list statuses of the call or of a row in addition to these and to the errors of any function.
 *
 *   for (size_t first = 0; first < rows; first += progress.rows) {
 *       status = jdoc_column_get(bytes, bytes_len, offsets + first, rows + 1 - first, path, path_len, out, out_size,
 *                                positions, rows + 1, statuses, rows, &progress);
 *       if (status != JDOC_OK && (status != JDOC_BUFFER_TOO_SMALL || progress.rows == 0)) return status;
 *       ... row i of progress.rows: statuses[i], and out[positions[i] .. positions[i + 1]] ...
 *   } */

typedef struct jdoc_progress {
    size_t rows;  /* rows that are done */
    size_t bytes; /* bytes written to `out` */
    size_t next;  /* size of the next row's result if it does not fit into `out`, otherwise 0 */
} jdoc_progress;

/* The status of each row is that of jdoc_check. */
JDOC_NODISCARD enum jdoc_status jdoc_column_check(const uint8_t *bytes, size_t bytes_len, const uint64_t *offsets,
                                                  size_t offsets_len, uint8_t *statuses, size_t statuses_len,
                                                  size_t *done);

/* A Boolean for each row: whether a JSON path selects an item. JDOC_INVALID_JSON_PATH: of the call, the path. A row may
 * have JDOC_PATH_FAILED, an error of arithmetic, or with `strict` JDOC_STRICT_PATH. */
JDOC_NODISCARD enum jdoc_status jdoc_column_exists(const uint8_t *bytes, size_t bytes_len, const uint64_t *offsets,
                                                   size_t offsets_len, const char *path, size_t path_len, bool strict,
                                                   uint8_t *truths, size_t truths_len, uint8_t *statuses,
                                                   size_t statuses_len, size_t *done);

/* A Boolean for each row: the value of a JSON path that is a predicate, as jdoc_match. With JDOC_OK 2 is unknown.
 * Statuses: as jdoc_column_exists. */
JDOC_NODISCARD enum jdoc_status jdoc_column_match(const uint8_t *bytes, size_t bytes_len, const uint64_t *offsets,
                                                  size_t offsets_len, const char *path, size_t path_len, bool strict,
                                                  uint8_t *truths, size_t truths_len, uint8_t *statuses,
                                                  size_t statuses_len, size_t *done);

/* A Boolean for each row: whether it contains the other document. */
JDOC_NODISCARD enum jdoc_status jdoc_column_contains(const uint8_t *bytes, size_t bytes_len, const uint64_t *offsets,
                                                     size_t offsets_len, const uint8_t *other, size_t other_len,
                                                     uint8_t *truths, size_t truths_len, uint8_t *statuses,
                                                     size_t statuses_len, size_t *done);

/* A number for each row, cast as jdoc_to_i64. JDOC_INVALID_CAST: a row that cannot be cast. */
JDOC_NODISCARD enum jdoc_status jdoc_column_to_i64(const uint8_t *bytes, size_t bytes_len, const uint64_t *offsets,
                                                   size_t offsets_len, int64_t *numbers, size_t numbers_len,
                                                   uint8_t *statuses, size_t statuses_len, size_t *done);

/* The child of each row at a key path. JDOC_INVALID_KEY_PATH: the path. JDOC_NONE: a row that has none. */
JDOC_NODISCARD enum jdoc_status jdoc_column_get(const uint8_t *bytes, size_t bytes_len, const uint64_t *offsets,
                                                size_t offsets_len, const char *path, size_t path_len, uint8_t *out,
                                                size_t out_size, uint64_t *positions, size_t positions_len,
                                                uint8_t *statuses, size_t statuses_len, jdoc_progress *progress);

/* The first item of each row that a JSON path selects. JDOC_NONE: a row of which it selects none. Others: as
 * jdoc_column_exists. */
JDOC_NODISCARD enum jdoc_status jdoc_column_select_first(const uint8_t *bytes, size_t bytes_len,
                                                         const uint64_t *offsets, size_t offsets_len, const char *path,
                                                         size_t path_len, bool strict, uint8_t *out, size_t out_size,
                                                         uint64_t *positions, size_t positions_len, uint8_t *statuses,
                                                         size_t statuses_len, jdoc_progress *progress);

/* The only item of each row that a JSON path selects, or an array of several. Statuses: as
 * jdoc_column_select_first. */
JDOC_NODISCARD enum jdoc_status jdoc_column_select_value(const uint8_t *bytes, size_t bytes_len,
                                                         const uint64_t *offsets, size_t offsets_len, const char *path,
                                                         size_t path_len, bool strict, uint8_t *out, size_t out_size,
                                                         uint64_t *positions, size_t positions_len, uint8_t *statuses,
                                                         size_t statuses_len, jdoc_progress *progress);

/* An array of all items of each row that a JSON path selects, in order, with repeats. Statuses: as
 * jdoc_column_exists. */
JDOC_NODISCARD enum jdoc_status jdoc_column_select_array(const uint8_t *bytes, size_t bytes_len,
                                                         const uint64_t *offsets, size_t offsets_len, const char *path,
                                                         size_t path_len, bool strict, uint8_t *out, size_t out_size,
                                                         uint64_t *positions, size_t positions_len, uint8_t *statuses,
                                                         size_t statuses_len, jdoc_progress *progress);

/* The sortable key of each row, as jdoc_sort_key. JDOC_TOO_DEEP: a row with an item that is nested too deeply. */
JDOC_NODISCARD enum jdoc_status jdoc_column_key(const uint8_t *bytes, size_t bytes_len, const uint64_t *offsets,
                                                size_t offsets_len, bool wide, uint8_t *out, size_t out_size,
                                                uint64_t *positions, size_t positions_len, uint8_t *statuses,
                                                size_t statuses_len, jdoc_progress *progress);

/* The equality key of each row, as jdoc_equality_key. */
JDOC_NODISCARD enum jdoc_status jdoc_column_equality_key(const uint8_t *bytes, size_t bytes_len,
                                                         const uint64_t *offsets, size_t offsets_len, uint8_t *out,
                                                         size_t out_size, uint64_t *positions, size_t positions_len,
                                                         uint8_t *statuses, size_t statuses_len,
                                                         jdoc_progress *progress);

/* Each row as a string, cast as jdoc_to_str. JDOC_INVALID_CAST: a row that cannot be cast. */
JDOC_NODISCARD enum jdoc_status jdoc_column_to_str(const uint8_t *bytes, size_t bytes_len, const uint64_t *offsets,
                                                   size_t offsets_len, char *out, size_t out_size, uint64_t *positions,
                                                   size_t positions_len, uint8_t *statuses, size_t statuses_len,
                                                   jdoc_progress *progress);

/* Each row without the child at a key path. JDOC_INVALID_KEY_PATH: the path. JDOC_INVALID_JSON_TYPE: a row that is
 * a null, a Boolean, a number or a string. */
JDOC_NODISCARD enum jdoc_status jdoc_column_delete_by_keypath(const uint8_t *bytes, size_t bytes_len,
                                                              const uint64_t *offsets, size_t offsets_len,
                                                              const char *path, size_t path_len, uint8_t *out,
                                                              size_t out_size, uint64_t *positions,
                                                              size_t positions_len, uint8_t *statuses,
                                                              size_t statuses_len, jdoc_progress *progress);

/* PREPARED PATHS
 *
 * A path for many documents: parsed once, and kept in a struct of the caller.
 *
 *   jdoc_path path = {0};
 *   status = jdoc_path_read("$.age > 40", 10, &path);
 *   ... for each document: status = jdoc_path_match(&path, document, document_len, false, &truth); ...
 *   jdoc_path_free(&path);
 *
 * Set the struct to zeros before its first use: then it contains no path. `.._read` parses the text and keeps a copy,
 * in place of the path that was there; if it fails, the struct contains no path. `.._free` frees the path; it does
 * nothing if there is none. The fields belong to the library. The struct may be copied (memcpy), as long as only one
 * copy is used from then on: a call on another copy after `.._read` or `.._free` is a use after free.
 *
 * Threads. Calls on one struct must not overlap. A struct may be used and freed on another thread than the one that
 * read its path, after a join, a lock or another ordering; this is tested, and not proved.
 *
 * Memory. The path is allocated by `.._read` and freed by `.._free`. All else that a call allocates it frees itself.
 *
 * Statuses. `.._read` returns JDOC_OK, JDOC_OUT_OF_MEMORY, or JDOC_INVALID_JSON_PATH (JDOC_INVALID_KEY_PATH) if and
 * only if the text is not such a path. Calls on documents return JDOC_NO_PATH if the struct contains no path of their
 * kind; nothing is written then, except 0 to *out_len. Otherwise they return what the calls that parse the path return,
 * unless the path has a limit (jdoc_path_limit).
 */

typedef struct jdoc_path {
    void *at;
    bool is_there;
} jdoc_path;

typedef struct jdoc_keypath {
    void *at;
    bool is_there;
} jdoc_keypath;

/* Parse a JSON path. */
JDOC_NODISCARD enum jdoc_status jdoc_path_read(const char *text, size_t text_len, jdoc_path *path);

/* Find the error in text that is not a JSON path: *position is the byte at which it is, at most text_len (docs/PATHS.md).
 * JDOC_NONE: the text is a JSON path. */
JDOC_NODISCARD enum jdoc_status jdoc_path_error_position(const char *text, size_t text_len, size_t *position);

/* Free the path. */
void jdoc_path_free(jdoc_path *path);

/* Limit the items of a path from an untrusted source: a short path, such as $.**.**.**.**, can select more items than
 * memory holds. Then calls with the path fail with JDOC_LIMIT_EXCEEDED if and only if its bound on the document
 * (jdoc_path_most_items) is above the limit; otherwise they return what they return without a limit. A limit has no
 * effect on jdoc_path_match of a path that is not a predicate. UINT64_MAX limits nothing, as after jdoc_path_read. With a
 * limit each call first visits the whole document to find its depth. JDOC_NO_PATH: the struct contains no JSON path. */
JDOC_NODISCARD enum jdoc_status jdoc_path_limit(jdoc_path *path, uint64_t limit);

/* *bound: at most how many items the path lists on the document and how many values its filters compare, or UINT64_MAX
 * if that is less (docs/PATHS.md). It is computed from the path, the length of the document and its depth, without an
 * evaluation, in linear time. */
JDOC_NODISCARD enum jdoc_status jdoc_path_most_items(jdoc_path *path, const uint8_t *document, size_t document_len,
                                                     uint64_t *bound);

/* As jdoc_select_value. */
JDOC_NODISCARD enum jdoc_status jdoc_path_select_value(jdoc_path *path, const uint8_t *document, size_t document_len,
                                                       bool strict, uint8_t *out, size_t out_size, size_t *out_len);

/* As jdoc_select_first. */
JDOC_NODISCARD enum jdoc_status jdoc_path_select_first(jdoc_path *path, const uint8_t *document, size_t document_len,
                                                       bool strict, uint8_t *out, size_t out_size, size_t *out_len);

/* As jdoc_find_first. */
JDOC_NODISCARD enum jdoc_status jdoc_path_find_first(jdoc_path *path, const uint8_t *document, size_t document_len,
                                                     bool strict, jdoc_span *span);

/* As jdoc_select_array. */
JDOC_NODISCARD enum jdoc_status jdoc_path_select_array(jdoc_path *path, const uint8_t *document, size_t document_len,
                                                       bool strict, uint8_t *out, size_t out_size, size_t *out_len);

/* As jdoc_exists. */
JDOC_NODISCARD enum jdoc_status jdoc_path_exists(jdoc_path *path, const uint8_t *document, size_t document_len,
                                                 bool strict, uint8_t *truth);

/* As jdoc_match. */
JDOC_NODISCARD enum jdoc_status jdoc_path_match(jdoc_path *path, const uint8_t *document, size_t document_len,
                                                bool strict, uint8_t *truth);

/* Parse a key path. */
JDOC_NODISCARD enum jdoc_status jdoc_keypath_read(const char *text, size_t text_len, jdoc_keypath *path);

/* Find the error in text that is not a key path: *position is the byte at which it is, at most text_len.
 * JDOC_NONE: the text is a key path. */
JDOC_NODISCARD enum jdoc_status jdoc_keypath_error_position(const char *text, size_t text_len, size_t *position);

/* Free the path. */
void jdoc_keypath_free(jdoc_keypath *path);

/* As jdoc_get_by_keypath. */
JDOC_NODISCARD enum jdoc_status jdoc_keypath_get(jdoc_keypath *path, const uint8_t *document, size_t document_len,
                                                 uint8_t *out, size_t out_size, size_t *out_len);

/* As jdoc_find_by_keypath. */
JDOC_NODISCARD enum jdoc_status jdoc_keypath_find(jdoc_keypath *path, const uint8_t *document, size_t document_len,
                                                  jdoc_span *span);

/* As jdoc_delete_by_keypath. */
JDOC_NODISCARD enum jdoc_status jdoc_keypath_delete(jdoc_keypath *path, const uint8_t *document, size_t document_len,
                                                    uint8_t *out, size_t out_size, size_t *out_len);

/* ITEMS ONE AT A TIME
 *
 * What a prepared path selects of one document, kept as positions in that document, without a copy.
 *
 *   jdoc_items items = {0};
 *   status = jdoc_path_items(&path, document, document_len, false, &items);
 *   while (status == JDOC_OK) status = jdoc_items_next(&items, document, document_len, out, out_size, &out_len);
 *   jdoc_items_free(&items);
 *
 * At the end status is JDOC_NONE, or an error. The rules of the struct are those of prepared paths: zeros contain no
 * items, and calls on one struct must not overlap. The path may be used and freed before the items are. */

typedef struct jdoc_items {
    void *at;
    bool is_there;
} jdoc_items;

/* Evaluate the path on a document, and keep what it selects in `items`, in place of what that contains. JDOC_OK even if
 * it selects nothing. If the call fails, `items` contains no items. JDOC_NO_PATH, JDOC_PATH_FAILED and others: as
 * jdoc_path_select_array, but JDOC_TOO_LARGE only if one computed item exceeds the limits. */
JDOC_NODISCARD enum jdoc_status jdoc_path_items(jdoc_path *path, const uint8_t *document, size_t document_len,
                                                bool strict, jdoc_items *items);

/* Write the next item as a document. The document has to be that of jdoc_path_items, unchanged; with other bytes the
 * result is unspecified. JDOC_NONE: no item is left. JDOC_NO_PATH: the struct contains no items. With a status other than
 * JDOC_OK, such as JDOC_BUFFER_TOO_SMALL, the same item is next. */
JDOC_NODISCARD enum jdoc_status jdoc_items_next(jdoc_items *items, const uint8_t *document, size_t document_len,
                                                uint8_t *out, size_t out_size, size_t *out_len);

/* *span: the span of the item that jdoc_items_next copies, likewise. JDOC_COMPUTED: the next item is computed, and is not
 * in the document. It stays the next, for jdoc_items_next. */
JDOC_NODISCARD enum jdoc_status jdoc_items_find_next(jdoc_items *items, const uint8_t *document, size_t document_len,
                                                     jdoc_span *span);

/* Free the items. */
void jdoc_items_free(jdoc_items *items);

/* DOCUMENTS FROM EVENTS
 *
 * A document that a program builds part by part, as it reads another format. The builder is in a struct of the caller.
 *
 *   jdoc_builder builder = {0};
 *   status = jdoc_builder_begin_object(&builder);
 *   if (status == JDOC_OK) status = jdoc_builder_key(&builder, "tags", 4);
 *   if (status == JDOC_OK) status = jdoc_builder_begin_array(&builder);
 *   if (status == JDOC_OK) status = jdoc_builder_str(&builder, "new", 3);
 *   if (status == JDOC_OK) status = jdoc_builder_end(&builder);
 *   if (status == JDOC_OK) status = jdoc_builder_end(&builder);
 *   if (status == JDOC_OK) status = jdoc_builder_finish(&builder, out, out_size, &out_len);
 *   jdoc_builder_free(&builder);
 *
 * One value is the root. In an object each value comes after its key; members are sorted by key. Containers may be
 * nested to any depth. The rules of the struct are those of prepared paths: zeros are a builder before its first event,
 * and calls on one struct must not overlap.
 *
 * Statuses. With a status other than JDOC_OK the builder is as before the call, so the program may pass another event.
 * JDOC_OUT_OF_ORDER: the event cannot come next, such as a value without a key in an object, a second value after the
 * root, or the end of no container. JDOC_NO_PATH: the struct contains a path or items. JDOC_TOO_LARGE: a container or a
 * value in one exceeds the limits of the format.
 *
 * Memory. Each event copies its bytes, and jdoc_builder_finish copies them into the document. jdoc_builder_free frees
 * them. */

typedef struct jdoc_builder {
    void *at;
    bool is_there;
} jdoc_builder;

/* Begin an array. The next values are its elements. Amortized constant time. */
JDOC_NODISCARD enum jdoc_status jdoc_builder_begin_array(jdoc_builder *builder);

/* Begin an object. The next values are those of its members, each after its key. Amortized constant time. */
JDOC_NODISCARD enum jdoc_status jdoc_builder_begin_object(jdoc_builder *builder);

/* End the innermost array or object, in linear time in its elements or its members with their keys. */
JDOC_NODISCARD enum jdoc_status jdoc_builder_end(jdoc_builder *builder);

/* Name the next value of an object. JDOC_OBJECT_DUPLICATE_KEY: the object has the key. JDOC_NOT_UTF8: the key is not
 * UTF-8. Compares the key with a logarithmic number of those that the object has. */
JDOC_NODISCARD enum jdoc_status jdoc_builder_key(jdoc_builder *builder, const char *key, size_t key_len);

/* Add a value, in linear time in its bytes. A decimal is that of jdoc_from_decimal. JDOC_NOT_UTF8: the string is not
 * UTF-8. */
JDOC_NODISCARD enum jdoc_status jdoc_builder_null(jdoc_builder *builder);
JDOC_NODISCARD enum jdoc_status jdoc_builder_bool(jdoc_builder *builder, bool value);
JDOC_NODISCARD enum jdoc_status jdoc_builder_i64(jdoc_builder *builder, int64_t value);
JDOC_NODISCARD enum jdoc_status jdoc_builder_u64(jdoc_builder *builder, uint64_t value);
JDOC_NODISCARD enum jdoc_status jdoc_builder_decimal(jdoc_builder *builder, int64_t high, uint64_t low, uint8_t scale);
JDOC_NODISCARD enum jdoc_status jdoc_builder_str(jdoc_builder *builder, const char *text, size_t text_len);

/* Add a document as a value, in linear time in its bytes. Only its root is read, so damage in a container is copied. */
JDOC_NODISCARD enum jdoc_status jdoc_builder_document(jdoc_builder *builder, const uint8_t *document,
                                                      size_t document_len);

/* Write the document, in linear time. The builder keeps it, so a call with more room may follow. JDOC_OUT_OF_ORDER: the
 * root is not complete. */
JDOC_NODISCARD enum jdoc_status jdoc_builder_finish(jdoc_builder *builder, uint8_t *out, size_t out_size,
                                                    size_t *out_len);

/* Free the builder. The struct is then as before the first event. */
void jdoc_builder_free(jdoc_builder *builder);

/* EVENTS IN AN ARRAY
 *
 * For programs that store all events before the call, such as a parser: it takes less time than a builder. */

/* What an event is. */
enum jdoc_text_kind {
    JDOC_TEXT_NULL = 0,
    JDOC_TEXT_FALSE = 1,
    JDOC_TEXT_TRUE = 2,
    JDOC_TEXT_INT64 = 3,      /* high */
    JDOC_TEXT_UINT64 = 4,     /* low */
    JDOC_TEXT_DECIMAL64 = 5,  /* high, and the scale */
    JDOC_TEXT_DECIMAL128 = 6, /* high * 2^64 + low, and the scale */
    JDOC_TEXT_STRING = 7,     /* low: its length */
    JDOC_TEXT_KEY = 8,        /* low: its length. The value that comes next is its value */
    JDOC_TEXT_ARRAY = 9,      /* begins */
    JDOC_TEXT_OBJECT = 10,    /* begins */
    JDOC_TEXT_END = 11        /* of the innermost array or object */
};

/* An event. The members that its kind does not name are ignored. */
typedef struct jdoc_text_event {
    uint64_t low;
    int64_t high;
    uint8_t kind, scale;
} jdoc_text_event;

/* Write the document of some events. The bytes of keys and strings are in `text`, one after the other; more may follow.
 * JDOC_OBJECT_DUPLICATE_KEY: two members have the same key. With `keep_last` the last one is kept. JDOC_NOT_UTF8: the
 * text is not UTF-8. JDOC_OUT_OF_ORDER: an event cannot come next or has another kind, its length ends past the text or
 * within a character, or a container does not end. The first of these errors is returned. Keys are compared when their
 * object ends. */
JDOC_NODISCARD enum jdoc_status jdoc_from_events(const char *text, size_t text_len, const jdoc_text_event *events,
                                                 size_t events_len, bool keep_last, uint8_t *out, size_t out_size,
                                                 size_t *out_len);

#ifdef __cplusplus
}
#endif

#endif
