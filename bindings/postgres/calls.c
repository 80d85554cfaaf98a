/* calls.c - the arguments, the results and the errors of SQL functions that call the library */
#include "jdoc_pg.h"

#include "catalog/pg_type.h"
#include "mb/pg_wchar.h"
#include "utils/array.h"
#include "utils/builtins.h"

#include <string.h>

/* ERRORS */

static int sqlstate_of(uint32_t status) {
    switch (status) {
    case JDOC_INVALID_JSONB:
        return ERRCODE_INVALID_BINARY_REPRESENTATION;
    case JDOC_UNSUPPORTED_NUMBER:
    case JDOC_OVERFLOW:
    case JDOC_INEXACT:
        return ERRCODE_NUMERIC_VALUE_OUT_OF_RANGE;
    case JDOC_INVALID_JSON_PATH:
        return ERRCODE_SYNTAX_ERROR;
    case JDOC_PATH_FAILED:
        return ERRCODE_SINGLETON_SQL_JSON_ITEM_REQUIRED;
    case JDOC_INVALID_KEY_PATH:
    case JDOC_NOT_UTF8:
        return ERRCODE_INVALID_TEXT_REPRESENTATION;
    case JDOC_INVALID_CAST:
        return ERRCODE_INVALID_CHARACTER_VALUE_FOR_CAST;
    case JDOC_INVALID_OBJECT:
        return ERRCODE_SQL_JSON_OBJECT_NOT_FOUND;
    case JDOC_INVALID_JSON_TYPE:
        return ERRCODE_INVALID_PARAMETER_VALUE;
    case JDOC_OBJECT_DUPLICATE_KEY:
        return ERRCODE_DUPLICATE_JSON_OBJECT_KEY_VALUE;
    case JDOC_TOO_LARGE:
    case JDOC_TOO_DEEP:
    case JDOC_LIMIT_EXCEEDED:
        return ERRCODE_PROGRAM_LIMIT_EXCEEDED;
    case JDOC_OUT_OF_MEMORY:
        return ERRCODE_OUT_OF_MEMORY;
    case JDOC_STRICT_PATH:
        return ERRCODE_SQL_JSON_MEMBER_NOT_FOUND;
    case JDOC_ZERO_DIVISOR:
        return ERRCODE_DIVISION_BY_ZERO;
    case JDOC_DECIMAL_OPERAND:
        return ERRCODE_FEATURE_NOT_SUPPORTED;
    default:
        return ERRCODE_INTERNAL_ERROR;
    }
}

/* Only of an extension value is JDOC_INVALID_JSON_TYPE raised here: fail_type raises it of a document. */
void fail(uint32_t status) {
    const char *what = status == JDOC_INVALID_JSON_TYPE ? "an extension value, such as a date, has no JSON text"
                                                        : jdoc_status_text(status);
    ereport(ERROR, (errcode(sqlstate_of(status)), errmsg("jdoc: %s", what)));
    pg_unreachable();
}

const char *type_of(const uint8_t *document, size_t len) {
    uint8_t kind = 0;
    uint32_t status = jdoc_type(document, len, &kind);
    if (status != JDOC_OK) fail(status);
    return kind == JDOC_KIND_INTEGER || kind == JDOC_KIND_DECIMAL ? "number" : jdoc_kind_text(kind);
}

void fail_type(const edit *of, uint32_t status, const bytea *document) {
    ereport(ERROR, (errcode(sqlstate_of(status)),
                    errmsg("%s: expected %s, found %s", of->name, of->types, type_of(BYTES(document)))));
    pg_unreachable();
}

enum { SHOWN_OF_KEY = 200 }; /* bytes */

/* Raise the error of a call, with what its status does not say: the type of the document, or the key that it has. */
static void fail_call(const given *it, uint32_t status) pg_attribute_noreturn();
static void fail_call(const given *it, uint32_t status) {
    if (it->edit && (status == JDOC_INVALID_JSON_TYPE || status == JDOC_INVALID_OBJECT))
        fail_type(it->edit, status, it->documents[0]);
    if (it->edit && status == JDOC_OBJECT_DUPLICATE_KEY) {
        int shown = pg_mbcliplen(TEXT(it->name), SHOWN_OF_KEY);
        ereport(ERROR, (errcode(sqlstate_of(status)), errmsg("%s: the object already has the key \"%.*s\"",
                                                             it->edit->name, shown, VARDATA_ANY(it->name))));
    }
    fail(status);
}

bool is_hidden(uint32_t status, bool silent) {
    return silent && (status == JDOC_PATH_FAILED || status == JDOC_STRICT_PATH || status == JDOC_OVERFLOW ||
                      status == JDOC_ZERO_DIVISOR || status == JDOC_INEXACT || status == JDOC_DECIMAL_OPERAND);
}

/* ARGUMENTS */

names names_of(Datum array) {
    names it = {0};
    Datum *elements;
    bool *nulls;
    int count;
    ArrayType *read = DatumGetArrayTypeP(array);
    if (ARR_NDIM(read) > 1)
        ereport(ERROR, (errcode(ERRCODE_ARRAY_SUBSCRIPT_ERROR), errmsg("wrong number of array subscripts")));
    deconstruct_array(read, TEXTOID, -1, false, TYPALIGN_INT, &elements, &nulls, &count);
    it.offsets = palloc0((count + 1) * sizeof *it.offsets);
    for (int i = 0; i < count; i++) {
        text *name;
        size_t len;
        it.has_null = it.has_null || nulls[i];
        if (nulls[i]) continue;
        name = (text *)DatumGetPointer(elements[i]);
        len = VARSIZE_ANY_EXHDR(name);
        it.bytes = it.bytes ? repalloc_huge(it.bytes, it.len + len + 1) : palloc(len + 1);
        memcpy(it.bytes + it.len, VARDATA_ANY(name), len);
        it.len += len;
        it.offsets[++it.count] = it.len;
    }
    return it;
}

static void refuse_variables(const bytea *variables) {
    size_t count = 1;
    if (jdoc_len(BYTES(variables), &count) != JDOC_OK || count != 0)
        ereport(ERROR, (errcode(ERRCODE_FEATURE_NOT_SUPPORTED), errmsg("jdoc: paths have no variables")));
}

/* A path that a function was called with, cached in its FmgrInfo. */
typedef struct prepared {
    jdoc_path path;
    bool strict;
    uint64_t limit;
    char *text;
    size_t len, size;
} prepared;

static void keep_text(prepared *it, const char *text, size_t len) {
    if (len > it->size) {
        it->text = it->text ? repalloc(it->text, len) : palloc(len);
        it->size = len;
    }
    it->len = len;
    memcpy(it->text, text, len);
}

/* The limit of items of the session. */
static void limit_path(prepared *it) {
    uint64_t limit = path_limit_setting ? (uint64_t)path_limit_setting : UINT64_MAX;
    if (limit == it->limit) return;
    uint32_t status = jdoc_path_limit(&it->path, limit);
    if (status != JDOC_OK) fail(status);
    it->limit = limit;
}

static void read_path(prepared *it, const char *text, size_t len) {
    sql_path of = sql_path_of(text, len);
    uint32_t status;
    it->len = SIZE_MAX;
    RUN_KEPT(status, jdoc_path_read(of.text, of.len, &it->path));
    if (status != JDOC_OK) fail(status);
    it->strict = of.strict;
    it->limit = UINT64_MAX;
    keep_text(it, text, len);
}

/* Read the JSON path of a call. A path is parsed again only if its text differs from that of the last call. With
 * `keeps` it is cached with the function. Functions that return rows have no state between calls, and use the last path
 * of the session. */
static void take_path(FunctionCallInfo fcinfo, int at, bool keeps, given *it) {
    static prepared last;
    text *path = PG_GETARG_TEXT_PP(at);
    size_t len = VARSIZE_ANY_EXHDR(path);
    prepared *kept = keeps ? fcinfo->flinfo->fn_extra : &last;
    if (!kept || kept->len != len || memcmp(kept->text, VARDATA_ANY(path), len) != 0) {
        MemoryContext before = MemoryContextSwitchTo(keeps ? fcinfo->flinfo->fn_mcxt : TopMemoryContext);
        if (!kept) kept = fcinfo->flinfo->fn_extra = palloc0(sizeof *kept);
        read_path(kept, VARDATA_ANY(path), len);
        MemoryContextSwitchTo(before);
    }
    limit_path(kept);
    it->path = &kept->path;
    it->strict = kept->strict;
}

void given_of(FunctionCallInfo fcinfo, const char *letters, given *it) {
    memset(it, 0, sizeof *it);
    for (int i = 0; letters[i]; i++) {
        switch (letters[i]) {
        case 'd':
            it->documents[it->documents_len++] = PG_GETARG_BYTEA_PP(i);
            break;
        case 'p':
        case 'P':
            take_path(fcinfo, i, letters[i] == 'p', it);
            break;
        case 'n':
            it->name = PG_GETARG_TEXT_PP(i);
            break;
        case 'N':
            it->names = names_of(PG_GETARG_DATUM(i));
            break;
        case 'i':
            it->index = PG_GETARG_INT32(i);
            break;
        case 'v':
            refuse_variables(PG_GETARG_BYTEA_PP(i));
            break;
        default:
            it->flag = PG_GETARG_BOOL(i);
        }
    }
}

/* RESULTS: on the stack first, so that a small one takes no more memory than it has */

enum { SMALL = 4096 };

typedef struct result {
    bytea *large; /* NULL: it is in `small` */
    size_t len;
    uint8_t small[SMALL];
} result;

/* The result of a call, or false if it is JDOC_NONE. */
static bool result_of(const given *it, maker *makes, bool silent, result *found) {
    uint32_t status;
    found->large = NULL;
    RUN(status, makes(it, found->small, SMALL, &found->len));
    if (status == JDOC_BUFFER_TOO_SMALL) {
        if (found->len > MaxAllocSize - VARHDRSZ) fail(JDOC_TOO_LARGE);
        found->large = palloc(VARHDRSZ + found->len);
        RUN(status, makes(it, (uint8_t *)VARDATA(found->large), found->len, &found->len));
    }
    if (status == JDOC_NONE || is_hidden(status, silent)) return false;
    if (status != JDOC_OK) fail_call(it, status);
    return true;
}

bytea *made_by(const given *it, maker *makes, bool silent) {
    result found;
    bytea *made;
    if (!result_of(it, makes, silent, &found)) return NULL;
    made = found.large ? found.large : palloc(VARHDRSZ + found.len);
    SET_VARSIZE(made, VARHDRSZ + found.len);
    if (!found.large) memcpy(VARDATA(made), found.small, found.len);
    return made;
}

Datum return_made(FunctionCallInfo fcinfo, const char *letters, maker *makes) {
    return return_edited(fcinfo, NULL, letters, makes);
}

Datum return_edited(FunctionCallInfo fcinfo, const edit *of, const char *letters, maker *makes) {
    given it;
    bytea *made;
    given_of(fcinfo, letters, &it);
    it.edit = of;
    made = made_by(&it, makes, false);
    if (!made) PG_RETURN_NULL();
    PG_RETURN_BYTEA_P(made);
}

Datum return_truth(FunctionCallInfo fcinfo, const char *letters, asker *asks, bool silent) {
    given it;
    uint8_t truth = 2;
    uint32_t status;
    given_of(fcinfo, letters, &it);
    RUN(status, asks(&it, &truth));
    if (is_hidden(status, silent) || (status == JDOC_OK && truth == 2)) PG_RETURN_NULL();
    if (status != JDOC_OK) fail(status);
    PG_RETURN_BOOL(truth != 0);
}
