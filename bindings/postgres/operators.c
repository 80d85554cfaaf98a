/* operators.c - children of documents, edits, and questions */
#include "jdoc_pg.h"

#include "lib/stringinfo.h"
#include "utils/array.h"
#include "utils/builtins.h"

#include <string.h>

/* STEPS OF PATHS */

/* Whether a step is an integer of 32 bits. */
static bool integer_of(const char *text, size_t len, int32 *number) {
    size_t i = len && text[0] == '-';
    int64 value = 0;
    if (i == len || len > 11) return false;
    for (; i < len; i++) {
        if (text[i] < '0' || text[i] > '9') return false;
        value = value * 10 + (text[i] - '0');
    }
    value = text[0] == '-' ? -value : value;
    *number = (int32)value;
    return value >= PG_INT32_MIN && value <= PG_INT32_MAX;
}

/* The steps of #> and #>>, cached with the function. */
typedef struct steps {
    MemoryContext context; /* of all that follows */
    ArrayType *array;
    names names;
} steps;

static void read_steps(steps *it, const ArrayType *array) {
    MemoryContext before = MemoryContextSwitchTo(it->context);
    ArrayType *copy;
    MemoryContextReset(it->context);
    *it = (steps){.context = it->context};
    copy = palloc(VARSIZE(array));
    memcpy(copy, array, VARSIZE(array));
    it->names = names_of(PointerGetDatum(copy));
    it->array = copy; /* the last, in case of an error */
    MemoryContextSwitchTo(before);
}

static steps *take_steps(FunctionCallInfo fcinfo, int at) {
    const ArrayType *array = PG_GETARG_ARRAYTYPE_P(at);
    steps *kept = fcinfo->flinfo->fn_extra;
    if (!kept) {
        kept = MemoryContextAllocZero(fcinfo->flinfo->fn_mcxt, sizeof *kept);
        kept->context = AllocSetContextCreate(fcinfo->flinfo->fn_mcxt, "jdoc steps", ALLOCSET_SMALL_SIZES);
        fcinfo->flinfo->fn_extra = kept;
    }
    if (!kept->array || VARSIZE(kept->array) != VARSIZE(array) || memcmp(kept->array, array, VARSIZE(array)) != 0)
        read_steps(kept, array);
    return kept;
}

/* CHILDREN, in place: a child is copied once, into the result */

/* What a step means in PostgreSQL: a key of an object, an index of an array. */
static bool child_of(const jdoc_event *of, const char *name, size_t len, jdoc_event *child) {
    int32 index;
    if (of->kind != JDOC_EVENT_BEGIN) return false;
    if (of->object) return member_of(of->bytes, of->len, name, len, child);
    return integer_of(name, len, &index) && element_of(of->bytes, of->len, index, child);
}

static bool the_descendant(FunctionCallInfo fcinfo, jdoc_event *item) {
    const steps *of = take_steps(fcinfo, 1);
    const bytea *it = PG_GETARG_BYTEA_PP(0);
    *item = root_of(BYTES(it));
    if (of->names.has_null) return false;
    for (size_t i = 0; i < of->names.count; i++) {
        const jdoc_event container = *item;
        const uint64_t *ends = of->names.offsets + i;
        if (!child_of(&container, of->names.bytes + ends[0], ends[1] - ends[0], item)) return false;
    }
    return true;
}

static bool the_field(FunctionCallInfo fcinfo, jdoc_event *child) {
    const bytea *it = PG_GETARG_BYTEA_PP(0);
    const text *name = PG_GETARG_TEXT_PP(1);
    return member_of(BYTES(it), TEXT(name), child);
}

static bool the_element(FunctionCallInfo fcinfo, jdoc_event *child) {
    const bytea *it = PG_GETARG_BYTEA_PP(0);
    return element_of(BYTES(it), PG_GETARG_INT32(1), child);
}

#define CHILD(sql_name, found)                                                                                         \
    PG_FUNCTION_INFO_V1(sql_name);                                                                                     \
    Datum sql_name(PG_FUNCTION_ARGS) {                                                                                 \
        jdoc_event child;                                                                                              \
        if (!found(fcinfo, &child)) PG_RETURN_NULL();                                                                  \
        PG_RETURN_BYTEA_P(document_of_item(&child));                                                                   \
    }                                                                                                                  \
    PG_FUNCTION_INFO_V1(sql_name##_text);                                                                              \
    Datum sql_name##_text(PG_FUNCTION_ARGS) {                                                                          \
        jdoc_event child;                                                                                              \
        text *made = found(fcinfo, &child) ? text_of_item(&child) : NULL;                                              \
        if (!made) PG_RETURN_NULL();                                                                                   \
        PG_RETURN_TEXT_P(made);                                                                                        \
    }
CHILD(jdoc_sql_field, the_field)
CHILD(jdoc_sql_element, the_element)
CHILD(jdoc_sql_descendant, the_descendant)

/* EDITS */

EDITS(jdoc_sql_delete_name, "jdoc - text", "an array or an object", "dn", jdoc_delete_by_name(D(0), NAME, OUT))
EDITS(jdoc_sql_delete_index, "jdoc - integer", "an array", "di", jdoc_delete_by_index(D(0), it->index, OUT))
EDITS(jdoc_sql_set, "jdoc_set", "an object", "dndf", jdoc_object_insert(D(0), D(1), NAME, it->flag, OUT))
MAKES(jdoc_sql_concat, "dd", jdoc_concat(D(0), D(1), OUT))
MAKES(jdoc_sql_array_insert, "did", jdoc_array_insert(D(0), D(1), it->index, OUT))
MAKES(jdoc_sql_strip_nulls, "d", jdoc_strip_nulls(D(0), OUT))
MAKES(jdoc_sql_sort_key, "d", jdoc_sort_key(D(0), false, OUT))
MAKES(jdoc_sql_equality_key, "d", jdoc_equality_key(D(0), OUT))

static void append_quoted(StringInfo out, const char *name, size_t len) {
    appendStringInfoChar(out, '"');
    for (size_t i = 0; i < len; i++) {
        if (name[i] == '"' || name[i] == '\\') appendStringInfoChar(out, '\\');
        appendStringInfoChar(out, name[i]);
    }
    appendStringInfoChar(out, '"');
}

/* A step of a key path: an index if it is written as key paths write one, otherwise a quoted key. */
static void append_step(StringInfo out, const char *name, size_t len) {
    int32 index;
    bool is_plain = len > 0 && name[name[0] == '-'] != '0';
    if (len == 0) /* a key path has no text for the empty key */
        ereport(ERROR, (errcode(ERRCODE_FEATURE_NOT_SUPPORTED), errmsg("jdoc: a step of the path is the empty text")));
    if (integer_of(name, len, &index) && (is_plain || (len == 1 && name[0] == '0')))
        appendBinaryStringInfo(out, name, (int)len);
    else
        append_quoted(out, name, len);
}

MAKER(delete_by_keypath, jdoc_delete_by_keypath(D(0), NAME, OUT))

PG_FUNCTION_INFO_V1(jdoc_sql_delete_descendant);
Datum jdoc_sql_delete_descendant(PG_FUNCTION_ARGS) {
    static const edit of = {"jdoc #- text[]", "an array or an object"};
    given it;
    StringInfoData path;
    given_of(fcinfo, "dN", &it);
    it.edit = &of;
    if (it.names.has_null) ereport(ERROR, (errcode(ERRCODE_NULL_VALUE_NOT_ALLOWED), errmsg("path element is null")));
    initStringInfo(&path);
    appendStringInfoChar(&path, '{');
    for (size_t i = 0; i < it.names.count; i++) {
        if (i) appendStringInfoChar(&path, ',');
        append_step(&path, it.names.bytes + it.names.offsets[i], it.names.offsets[i + 1] - it.names.offsets[i]);
    }
    appendStringInfoChar(&path, '}');
    it.name = cstring_to_text_with_len(path.data, path.len);
    PG_RETURN_BYTEA_P(made_by(&it, delete_by_keypath, false));
}

MAKER(delete_keys, jdoc_object_delete(D(0), NAMES, OUT))
MAKER(delete_strings, jdoc_delete_by_name(D(0), NAME, OUT))

/* The object without the keys, or the array without the strings, name by name. */
PG_FUNCTION_INFO_V1(jdoc_sql_delete_names);
Datum jdoc_sql_delete_names(PG_FUNCTION_ARGS) {
    static const edit of = {"jdoc - text[]", "an array or an object"};
    given it;
    uint8_t kind = 0;
    uint32_t status;
    given_of(fcinfo, "dN", &it);
    it.edit = &of;
    status = jdoc_type(BYTES(it.documents[0]), &kind);
    if (status != JDOC_OK) fail(status);
    if (kind == JDOC_KIND_OBJECT) PG_RETURN_BYTEA_P(made_by(&it, delete_keys, false));
    if (kind != JDOC_KIND_ARRAY) fail_type(&of, JDOC_INVALID_JSON_TYPE, it.documents[0]);
    for (size_t i = 0; i < it.names.count; i++) {
        const char *name = it.names.bytes + it.names.offsets[i];
        bytea *before = it.documents[0];
        text *deleted = cstring_to_text_with_len(name, (int)(it.names.offsets[i + 1] - it.names.offsets[i]));
        it.name = deleted;
        it.documents[0] = made_by(&it, delete_strings, false);
        pfree(deleted);
        if (i > 0) pfree(before);
    }
    PG_RETURN_BYTEA_P(it.documents[0]);
}

/* QUESTIONS */

static enum jdoc_status has_name(const given *it, uint8_t *truth) {
    const uint64_t offsets[] = {0, VARSIZE_ANY_EXHDR(it->name)};
    return jdoc_exists_any_keys(D(0), NAME, offsets, 2, truth);
}

PG_FUNCTION_INFO_V1(jdoc_sql_has);
Datum jdoc_sql_has(PG_FUNCTION_ARGS) { return return_truth(fcinfo, "dn", has_name, false); }

PG_FUNCTION_INFO_V1(jdoc_sql_contains);
Datum jdoc_sql_contains(PG_FUNCTION_ARGS) {
    const bytea *a = PG_GETARG_BYTEA_PP(0), *b = PG_GETARG_BYTEA_PP(1);
    PG_RETURN_BOOL(document_contains(BYTES(a), BYTES(b)));
}

PG_FUNCTION_INFO_V1(jdoc_sql_contained);
Datum jdoc_sql_contained(PG_FUNCTION_ARGS) {
    const bytea *a = PG_GETARG_BYTEA_PP(0), *b = PG_GETARG_BYTEA_PP(1);
    PG_RETURN_BOOL(document_contains(BYTES(b), BYTES(a)));
}

ASKS(jdoc_sql_has_any, "dN", jdoc_exists_any_keys(D(0), NAMES, truth))
ASKS(jdoc_sql_has_all, "dN", jdoc_exists_all_keys(D(0), NAMES, truth))

PG_FUNCTION_INFO_V1(jdoc_sql_typeof);
Datum jdoc_sql_typeof(PG_FUNCTION_ARGS) {
    const bytea *it = PG_GETARG_BYTEA_PP(0);
    PG_RETURN_TEXT_P(cstring_to_text(type_of(BYTES(it))));
}

PG_FUNCTION_INFO_V1(jdoc_sql_length);
Datum jdoc_sql_length(PG_FUNCTION_ARGS) {
    bytea *it = PG_GETARG_BYTEA_PP(0);
    size_t count = 0;
    uint32_t status = jdoc_len(BYTES(it), &count);
    if (status == JDOC_NONE) PG_RETURN_NULL();
    if (status != JDOC_OK) fail(status);
    PG_RETURN_INT32((int32)count);
}
