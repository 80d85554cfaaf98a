/* functions.c - the scalar functions: the arguments of each, and the call that builds its result */
#include "extension.h"
SQLITE_EXTENSION_INIT3

#include <string.h>

#ifndef SQLITE_RESULT_SUBTYPE
#define SQLITE_RESULT_SUBTYPE 0x001000000 /* of SQLite 3.45; earlier versions ignore it */
#endif

enum { MOST_DOCUMENTS = 2, PATH_AT = 1 };

/* A path, one of the two. It is parsed once per statement if it is constant. */
typedef struct prepared {
    jdoc_path json;
    jdoc_keypath key;
    bool strict;
} prepared;

/* The arguments of a call. */
typedef struct arguments {
    connection *own;
    int count;
    document documents[MOST_DOCUMENTS];
    int places[MOST_DOCUMENTS]; /* of the documents among the arguments */
    int documents_len;
    prepared *path;       /* p, k */
    bool is_path_new;     /* it was parsed by this call */
    const char *text;     /* n */
    size_t text_len;
    bool is_index; /* k was an integer */
    int32_t index; /* k, i */
} arguments;

typedef struct function function;
typedef enum jdoc_status maker(const arguments *it, uint8_t *out, size_t size, size_t *len);
typedef enum jdoc_status asker(const arguments *it, uint8_t *truth);

/* `takes` has a letter for each argument: d a document, p a JSON path, k a key path or the index of an element, n a
 * name, i an index, l a limit of the items of the path before it. The result is a BLOB that `makes` writes, a Boolean
 * that `asks` writes, or what `does` sets. If it fails for documents of some types, `expects` is how the sentence about
 * a type begins. */
struct function {
    const char *name, *takes;
    maker *makes;
    asker *asks;
    enum jdoc_status (*does)(sqlite3_context *to, arguments *it);
    const char *expects;
    int flags; /* of SQLite, in addition to FLAGS */
};

/* A function of a connection, as SQLite keeps it. */
typedef struct bound {
    connection *own;
    const function *is;
} bound;

#define D(i) it->documents[i].bytes, it->documents[i].len

/* RESULTS */

static enum jdoc_status return_made(sqlite3_context *to, const arguments *it, maker *makes) {
    connection *own = it->own;
    size_t len = 0, most = 64 + it->text_len;
    for (int i = 0; i < it->documents_len; i++) most += 2 * it->documents[i].len;
    if (!reserve(own, most)) return JDOC_OUT_OF_MEMORY;
    enum jdoc_status status = makes(it, own->bytes, own->size, &len);
    if (status == JDOC_BUFFER_TOO_SMALL)
        status = reserve(own, len) ? makes(it, own->bytes, own->size, &len) : JDOC_OUT_OF_MEMORY;
    if (status == JDOC_OK) sqlite3_result_blob64(to, own->bytes, len, SQLITE_TRANSIENT);
    return status;
}

static enum jdoc_status return_truth(sqlite3_context *to, const arguments *it, asker *asks) {
    uint8_t truth = 2;
    enum jdoc_status status = asks(it, &truth);
    if (status == JDOC_OK && truth < 2) sqlite3_result_int(to, truth);
    return status;
}

/* ARGUMENTS */

static int32_t index_of(sqlite3_value *value) {
    sqlite3_int64 index = sqlite3_value_int64(value);
    return index < INT32_MIN ? INT32_MIN : index > INT32_MAX ? INT32_MAX : (int32_t)index;
}

/* Read a document. One that was built from constant JSON text is cached with the statement (keep). */
static bool take_document(sqlite3_context *to, sqlite3_value *value, int at, arguments *it, fault *why) {
    document *taken = &it->documents[it->documents_len];
    made *kept = sqlite3_value_type(value) == SQLITE_TEXT ? sqlite3_get_auxdata(to, at) : NULL;
    if (kept) {
        *taken = (document){kept->bytes, kept->len, NULL};
    } else if (!document_of_value(it->own, value, taken, why)) {
        sqlite3_free(taken->own);
        return false;
    }
    it->places[it->documents_len++] = at;
    return true;
}

static bool take_text(sqlite3_value *value, const char *expected, const char **text, size_t *len, fault *why) {
    if (!has_type(value, SQLITE_TEXT, expected, why)) return false;
    why->status = JDOC_OUT_OF_MEMORY;
    *text = (const char *)sqlite3_value_text(value);
    *len = (size_t)sqlite3_value_bytes(value);
    return *text != NULL;
}

static const char KEY_PATH_EXPECTED[] = "expected a key path, which is TEXT, or an INTEGER, found";

static void release_path(void *it) {
    jdoc_path_free(&((prepared *)it)->json);
    jdoc_keypath_free(&((prepared *)it)->key);
    sqlite3_free(it);
}

/* Read a JSON path or a key path. A constant one is cached with the statement (keep). */
static bool take_path(sqlite3_context *to, sqlite3_value *value, bool is_key, arguments *it, fault *why) {
    const char *text;
    size_t len;
    it->path = sqlite3_get_auxdata(to, PATH_AT);
    if (it->path) return true;
    if (!take_text(value, is_key ? KEY_PATH_EXPECTED : PATH_EXPECTED, &text, &len, why)) return false;
    prepared *path = it->path = sqlite3_malloc(sizeof *path);
    if (!path) return false; /* *why is JDOC_OUT_OF_MEMORY */
    memset(path, 0, sizeof *path);
    it->is_path_new = true;
    return is_key ? read_key_path(text, len, &path->key, why)
                  : read_json_path(text, len, &path->json, &path->strict, why);
}

/* As after LIMIT of a SELECT, a negative number limits nothing. */
static bool take_limit(sqlite3_value *value, const arguments *it, fault *why) {
    sqlite3_int64 limit = sqlite3_value_int64(value);
    if (!has_type(value, SQLITE_INTEGER, "expected an INTEGER as the limit, found", why)) return false;
    why->status = jdoc_path_limit(&it->path->json, limit < 0 ? UINT64_MAX : (uint64_t)limit);
    return why->status == JDOC_OK;
}

static bool take(sqlite3_context *to, sqlite3_value *value, char letter, int at, arguments *it, fault *why) {
    switch (letter) {
    case 'd':
        return take_document(to, value, at, it, why);
    case 'p':
        return take_path(to, value, false, it, why);
    case 'k':
        it->is_index = sqlite3_value_type(value) == SQLITE_INTEGER;
        it->index = it->is_index ? index_of(value) : 0;
        return it->is_index || take_path(to, value, true, it, why);
    case 'n':
        return take_text(value, NAME_EXPECTED, &it->text, &it->text_len, why);
    case 'l':
        return take_limit(value, it, why);
    default:
        it->index = index_of(value);
        return has_type(value, SQLITE_INTEGER, "expected an INTEGER as the index, found", why);
    }
}

/* Add to a fault of a call what its status does not say: the types that are expected and the one that the document has,
 * the key that the object has, or what has no JSON text. */
static void explain(const function *is, const arguments *it, fault *why) {
    uint8_t kind = 0;
    bool is_of_type = why->status == JDOC_INVALID_JSON_TYPE || why->status == JDOC_INVALID_OBJECT;
    const char *expects = it->is_index ? "expected an array, found" : is->expects;
    if (is_of_type && !is->expects) *why = fault_of_text(why->status);
    if (is_of_type && is->expects && jdoc_type(D(0), &kind) == JDOC_OK)
        *why = (fault){.status = why->status, .what = expects, .at = NOWHERE, .detail = jdoc_kind_text(kind)};
    if (why->status == JDOC_OBJECT_DUPLICATE_KEY)
        *why = (fault){
            .status = why->status, .what = "the object already has the key", .at = NOWHERE, .key = it->text};
}

/* Pass what was built from TEXT arguments to the statement, which caches that of constants and frees the rest. */
static void keep(sqlite3_context *to, sqlite3_value **values, const arguments *it) {
    for (int i = 0; i < it->documents_len; i++) {
        if (!it->documents[i].own) continue;
        if (sqlite3_value_type(values[it->places[i]]) == SQLITE_TEXT)
            sqlite3_set_auxdata(to, it->places[i], it->documents[i].own, sqlite3_free);
        else
            sqlite3_free(it->documents[i].own);
    }
    if (it->is_path_new) sqlite3_set_auxdata(to, PATH_AT, it->path, release_path);
}

static void call(sqlite3_context *to, int count, sqlite3_value **values) {
    const bound *bound = sqlite3_user_data(to);
    const function *is = bound->is;
    arguments it = {.own = bound->own, .count = count};
    fault why = {0};
    bool taken = true;
    for (int i = 0; taken && i < count; i++) taken = take(to, values[i], is->takes[i], i, &it, &why);
    if (taken)
        why.status = is->makes  ? return_made(to, &it, is->makes)
                     : is->asks ? return_truth(to, &it, is->asks)
                                : is->does(to, &it);
    if (taken && why.status != JDOC_OK) explain(is, &it, &why);
    if (why.status != JDOC_OK) return_fault(to, is->name, &why);
    keep(to, values, &it);
}

/* THE CALLS */

#define TEXT it->text, it->text_len
#define OUT  out, size, len
#define MAKER(name, call)                                                                                              \
    static enum jdoc_status name(const arguments *it, uint8_t *out, size_t size, size_t *len) { return call; }
#define ASKER(name, call)                                                                                              \
    static enum jdoc_status name(const arguments *it, uint8_t *truth) { return call; }

MAKER(first, jdoc_path_select_first(&it->path->json, D(0), it->path->strict, OUT))
MAKER(array, jdoc_path_select_array(&it->path->json, D(0), it->path->strict, OUT))
MAKER(chosen, jdoc_path_select_value(&it->path->json, D(0), it->path->strict, OUT))
MAKER(concat, jdoc_concat(D(0), D(1), OUT))
MAKER(intersection, jdoc_array_intersection(D(0), D(1), OUT))
MAKER(except, jdoc_array_except(D(0), D(1), OUT))
MAKER(distinct, jdoc_array_distinct(D(0), OUT))
MAKER(strip_nulls, jdoc_strip_nulls(D(0), OUT))
MAKER(delete, it->is_index ? jdoc_delete_by_index(D(0), it->index, OUT) : jdoc_keypath_delete(&it->path->key, D(0), OUT))
MAKER(insert, jdoc_object_insert(D(0), D(1), TEXT, false, OUT))
MAKER(set, jdoc_object_insert(D(0), D(1), TEXT, true, OUT))
MAKER(array_insert, jdoc_array_insert(D(0), D(1), it->index, OUT))
MAKER(equality_key, jdoc_equality_key(D(0), OUT))
ASKER(exists, jdoc_path_exists(&it->path->json, D(0), it->path->strict, truth))
ASKER(match, jdoc_path_match(&it->path->json, D(0), it->path->strict, truth))
ASKER(contains, jdoc_contains(D(0), D(1), truth))
ASKER(overlap, jdoc_array_overlap(D(0), D(1), truth))

static void release_made(void *bytes) { sqlite3_free((char *)bytes - offsetof(made, bytes)); }

/* A document as a BLOB. One that came as a BLOB is checked; others were when they were built, and move to the result. */
static enum jdoc_status return_document(sqlite3_context *to, arguments *it) {
    document *of = &it->documents[0];
    enum jdoc_status status = of->own ? JDOC_OK : jdoc_check(of->bytes, of->len);
    if (of->own)
        sqlite3_result_blob64(to, of->bytes, of->len, release_made);
    else if (status == JDOC_OK)
        sqlite3_result_blob64(to, of->bytes, of->len, SQLITE_TRANSIENT);
    of->own = NULL;
    return status;
}

/* The JSON text of a document. By its subtype SQLite's own functions take it as JSON, and not as a string. */
static enum jdoc_status return_json(sqlite3_context *to, arguments *it) {
    uint32_t status = return_text(to, it->own, D(0));
    if (status == JDOC_OK) sqlite3_result_subtype(to, 'J');
    return (enum jdoc_status)status;
}

/* Find the child at the key path or the index of a call, in the document. */
static enum jdoc_status find(const arguments *it, jdoc_event *child) {
    jdoc_span span = {0};
    enum jdoc_status status = !it->is_index   ? jdoc_keypath_find(&it->path->key, D(0), &span)
                              : it->index < 0 ? JDOC_NONE
                                              : jdoc_find_by_index(D(0), (size_t)it->index, &span);
    return status == JDOC_OK && !jdoc_item_at(child, D(0), &span) ? JDOC_INVALID_JSONB : status;
}

/* jdoc_get(document, key path), jdoc_get(document, index): a child as a document. */
static enum jdoc_status return_got(sqlite3_context *to, arguments *it) {
    jdoc_event child;
    enum jdoc_status status = find(it, &child);
    return status == JDOC_OK ? return_item(to, it->own, &child) : status;
}

static enum jdoc_status return_value_of(sqlite3_context *to, connection *own, const uint8_t *bytes, size_t len) {
    jdoc_event root;
    uint8_t kind;
    uint32_t status = jdoc_type(bytes, len, &kind); /* fails if a scalar is not one */
    if (status == JDOC_OK) status = jdoc_root(&root, bytes, len);
    if (status == JDOC_OK) return_value(to, "jdoc_value", own, &root);
    return (enum jdoc_status)status;
}

/* jdoc_value(document), jdoc_value(document, key path): the document, or a child of it, as an SQL value. */
static enum jdoc_status return_child(sqlite3_context *to, arguments *it) {
    jdoc_event child;
    if (it->count == 1) return return_value_of(to, it->own, D(0));
    enum jdoc_status status = find(it, &child);
    if (status == JDOC_OK) return_value(to, "jdoc_value", it->own, &child);
    return status;
}

static enum jdoc_status return_type(sqlite3_context *to, arguments *it) {
    uint8_t kind = 0;
    enum jdoc_status status = jdoc_type(D(0), &kind);
    if (status == JDOC_OK) sqlite3_result_text(to, jdoc_kind_text(kind), -1, SQLITE_STATIC);
    return status;
}

static enum jdoc_status return_length(sqlite3_context *to, arguments *it) {
    size_t count = 0;
    enum jdoc_status status = jdoc_len(D(0), &count);
    if (status == JDOC_OK) sqlite3_result_int64(to, (sqlite3_int64)count);
    return status;
}

static const function functions[] = {
    {"jdoc", "d", .does = return_document},
    {"jdoc_json", "d", .does = return_json, .flags = SQLITE_RESULT_SUBTYPE},
    {"jdoc_value", "d", .does = return_child},
    {"jdoc_value", "dk", .does = return_child},
    {"jdoc_type", "d", .does = return_type},
    {"jdoc_length", "d", .does = return_length},
    {"jdoc_get", "dk", .does = return_got},
    {"jdoc_first", "dp", .makes = first},
    {"jdoc_array", "dp", .makes = array},
    {"jdoc_select", "dp", .makes = chosen},
    {"jdoc_exists", "dp", .asks = exists},
    {"jdoc_match", "dp", .asks = match},
    {"jdoc_first", "dpl", .makes = first},
    {"jdoc_array", "dpl", .makes = array},
    {"jdoc_select", "dpl", .makes = chosen},
    {"jdoc_exists", "dpl", .asks = exists},
    {"jdoc_match", "dpl", .asks = match},
    {"jdoc_contains", "dd", .asks = contains},
    {"jdoc_overlap", "dd", .asks = overlap},
    {"jdoc_concat", "dd", .makes = concat},
    {"jdoc_intersection", "dd", .makes = intersection},
    {"jdoc_except", "dd", .makes = except},
    {"jdoc_distinct", "d", .makes = distinct},
    {"jdoc_strip_nulls", "d", .makes = strip_nulls},
    {"jdoc_delete", "dk", .makes = delete, .expects = "expected an array or an object, found"},
    {"jdoc_insert", "dnd", .makes = insert, .expects = "expected an object, found"},
    {"jdoc_set", "dnd", .makes = set, .expects = "expected an object, found"},
    {"jdoc_array_insert", "did", .makes = array_insert},
    {"jdoc_equality_key", "d", .makes = equality_key},
};

/* FUNCTIONS WHOSE ARGUMENTS ARE NOT DOCUMENTS ALONE */

/* jdoc_check(x): 1 if x is a BLOB that is a document, otherwise 0. NULL is NULL. */
static void check(sqlite3_context *to, int count, sqlite3_value **values) {
    (void)count;
    int type = sqlite3_value_type(values[0]);
    if (type == SQLITE_NULL) return;
    const uint8_t *bytes = type == SQLITE_BLOB ? sqlite3_value_blob(values[0]) : NULL;
    size_t len = type == SQLITE_BLOB ? (size_t)sqlite3_value_bytes(values[0]) : 0;
    sqlite3_result_int(to, type == SQLITE_BLOB && jdoc_check(bytes, len) == JDOC_OK);
}

/* jdoc_path_is_predicate(path): 1 if the result of the path is a Boolean or unknown, otherwise 0. */
static void is_predicate(sqlite3_context *to, int count, sqlite3_value **values) {
    (void)count;
    connection *own = sqlite3_user_data(to);
    prepared path = {0};
    const char *text;
    size_t len;
    bool truth = false;
    fault why = {0};
    if (take_text(values[0], PATH_EXPECTED, &text, &len, &why) &&
        read_json_path(text, len, &path.json, &path.strict, &why)) {
        sql_path of = sql_path_of(text, len);
        why.status = reserve(own, of.len + 2) ? path_is_predicate(of.text, of.len, (char *)own->bytes, &truth)
                                              : JDOC_OUT_OF_MEMORY;
    }
    jdoc_path_free(&path.json);
    if (why.status == JDOC_OK)
        sqlite3_result_int(to, truth);
    else
        return_fault(to, "jdoc_path_is_predicate", &why);
}

/* jdoc_quote(x): the document of an SQL value; TEXT is a string, NULL is null, a BLOB is a document already. */
static void quote(sqlite3_context *to, int count, sqlite3_value **values) {
    (void)count;
    connection *own = sqlite3_user_data(to);
    document it = {NULL, 0, NULL};
    fault why = {0};
    size_t len = (size_t)sqlite3_value_bytes(values[0]);
    int type = sqlite3_value_type(values[0]);
    if (type == SQLITE_TEXT || type == SQLITE_NULL) {
        const char *text = (const char *)sqlite3_value_text(values[0]);
        why.status = !reserve(own, len + 16)  ? JDOC_OUT_OF_MEMORY
                     : type == SQLITE_TEXT ? jdoc_from_str(text, len, own->bytes, own->size, &it.len)
                                           : jdoc_from_null(own->bytes, own->size, &it.len);
        it.bytes = own->bytes;
    } else if (document_of_value(own, values[0], &it, &why) && !it.own) {
        why.status = jdoc_check(it.bytes, it.len);
    }
    if (why.status == JDOC_OK)
        sqlite3_result_blob64(to, it.bytes, it.len, SQLITE_TRANSIENT);
    else
        return_fault(to, "jdoc_quote", &why);
    sqlite3_free(it.own);
}

/* Append the sortable key of a value to the `used` bytes in connection->bytes. */
static uint32_t add_key(connection *own, sqlite3_value *value, size_t *used, fault *why) {
    document it;
    size_t len = 0;
    if (sqlite3_value_type(value) == SQLITE_NULL) {
        if (!reserve(own, *used + 2)) return JDOC_OUT_OF_MEMORY;
        memcpy(own->bytes + *used, "\0\0", 2);
        *used += 2;
        return JDOC_OK;
    }
    if (document_of_value(own, value, &it, why)) {
        why->status = !reserve(own, *used + 2 * it.len + 64)
                          ? JDOC_OUT_OF_MEMORY
                          : jdoc_sort_key(it.bytes, it.len, false, own->bytes + *used, own->size - *used, &len);
        if (why->status == JDOC_BUFFER_TOO_SMALL)
            why->status = !reserve(own, *used + len)
                              ? JDOC_OUT_OF_MEMORY
                              : jdoc_sort_key(it.bytes, it.len, false, own->bytes + *used, own->size - *used, &len);
        *used += len;
    }
    sqlite3_free(it.own);
    return why->status;
}

/* jdoc_key(x, ..): the sortable key of the documents, one after the other. NULL alone has none; among several it has one
 * that is less than all others. */
static void key(sqlite3_context *to, int count, sqlite3_value **values) {
    connection *own = sqlite3_user_data(to);
    fault why = {0};
    size_t used = 0;
    if (count == 0) why = (fault){.status = JDOC_INVALID_ARGUMENT, .what = "expected a document", .at = NOWHERE};
    if (count == 1 && sqlite3_value_type(values[0]) == SQLITE_NULL) return;
    for (int i = 0; why.status == JDOC_OK && i < count; i++) why.status = add_key(own, values[i], &used, &why);
    if (why.status == JDOC_OK)
        sqlite3_result_blob64(to, own->bytes, used, SQLITE_TRANSIENT);
    else
        return_fault(to, "jdoc_key", &why);
}

/* REGISTRATION */

enum { COUNT = sizeof functions / sizeof *functions };

static const int FLAGS = SQLITE_UTF8 | SQLITE_DETERMINISTIC | SQLITE_INNOCUOUS;

static void release_bound(void *it) {
    release_connection(((bound *)it)->own);
    sqlite3_free(it);
}

static int add_one(sqlite3 *db, connection *own, const function *is) {
    bound *it = sqlite3_malloc(sizeof *it);
    if (!it) return SQLITE_NOMEM;
    *it = (bound){own, is};
    own->uses++;
    return sqlite3_create_function_v2(db, is->name, (int)strlen(is->takes), FLAGS | is->flags, it, call, NULL, NULL,
                                      release_bound);
}

static int add_plain(sqlite3 *db, connection *own, const char *name, int count,
                     void (*function)(sqlite3_context *, int, sqlite3_value **)) {
    own->uses++;
    return sqlite3_create_function_v2(db, name, count, FLAGS, own, function, NULL, NULL, release_connection);
}

int add_functions(sqlite3 *db, connection *own) {
    int rc = add_plain(db, own, "jdoc_check", 1, check);
    if (rc == SQLITE_OK) rc = add_plain(db, own, "jdoc_path_is_predicate", 1, is_predicate);
    if (rc == SQLITE_OK) rc = add_plain(db, own, "jdoc_quote", 1, quote);
    if (rc == SQLITE_OK) rc = add_plain(db, own, "jdoc_key", -1, key);
    for (int i = 0; rc == SQLITE_OK && i < COUNT; i++) rc = add_one(db, own, &functions[i]);
    return rc;
}
