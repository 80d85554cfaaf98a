/* paths.c - the type jdocpath, its operators @? and @@, and the path functions */
#include "jdoc_pg.h"

#include "utils/builtins.h"

#include <string.h>

/* Raise the error of text that is not a path, with its position. */
static void fail_path(const char *text, const sql_path *path) pg_attribute_noreturn();
static void fail_path(const char *text, const sql_path *path) {
    size_t at = 0;
    uint32_t status;
    RUN(status, jdoc_path_error_position(path->text, path->len, &at));
    if (status != JDOC_OK && status != JDOC_NONE) fail(status);
    ereport(ERROR, (errcode(ERRCODE_SYNTAX_ERROR), errmsg("invalid input syntax for type %s: \"%s\"", "jdocpath", text),
                    status == JDOC_NONE
                        ? errdetail("The path is empty. The root is $.")
                        : errdetail("Byte %zu: %s.", at + (size_t)(path->text - text), sql_path_fault(path, at))));
    pg_unreachable();
}

/* A jdocpath is its text. It is parsed on input, so that an invalid path is a syntax error of the query. */
PG_FUNCTION_INFO_V1(jdocpath_in);
Datum jdocpath_in(PG_FUNCTION_ARGS) {
    char *text = PG_GETARG_CSTRING(0);
    sql_path it = sql_path_of(text, strlen(text));
    jdoc_path path = {0};
    uint32_t status = JDOC_INVALID_JSON_PATH; /* the empty path selects the root, and is more likely a mistake */
    if (it.len != 0) RUN_KEPT(status, jdoc_path_read(it.text, it.len, &path));
    jdoc_path_free(&path);
    if (status == JDOC_INVALID_JSON_PATH) fail_path(text, &it);
    if (status != JDOC_OK) fail(status);
    PG_RETURN_TEXT_P(cstring_to_text(text));
}

PG_FUNCTION_INFO_V1(jdoc_sql_path_is_predicate);
Datum jdoc_sql_path_is_predicate(PG_FUNCTION_ARGS) {
    const text *path = PG_GETARG_TEXT_PP(0);
    sql_path it = sql_path_of(TEXT(path));
    char *room = palloc(it.len + 2);
    bool is_predicate;
    uint32_t status;
    RUN(status, path_is_predicate(it.text, it.len, room, &is_predicate));
    if (status != JDOC_OK) fail(status);
    PG_RETURN_BOOL(is_predicate);
}

ASKER(exists, jdoc_path_exists(it->path, D(0), it->strict, truth))
ASKER(match, jdoc_path_match(it->path, D(0), it->strict, truth))
MAKER(first, jdoc_path_select_first(it->path, D(0), it->strict, OUT))
MAKER(array, jdoc_path_select_array(it->path, D(0), it->strict, OUT))

PG_FUNCTION_INFO_V1(jdoc_sql_path_exists_op);
Datum jdoc_sql_path_exists_op(PG_FUNCTION_ARGS) { return return_truth(fcinfo, "dp", exists, true); }

PG_FUNCTION_INFO_V1(jdoc_sql_path_match_op);
Datum jdoc_sql_path_match_op(PG_FUNCTION_ARGS) { return return_truth(fcinfo, "dp", match, true); }

/* The functions have the arguments of jsonb's: document, path, variables, silent. */
PG_FUNCTION_INFO_V1(jdoc_sql_path_exists);
Datum jdoc_sql_path_exists(PG_FUNCTION_ARGS) { return return_truth(fcinfo, "dpvf", exists, PG_GETARG_BOOL(3)); }

PG_FUNCTION_INFO_V1(jdoc_sql_path_match);
Datum jdoc_sql_path_match(PG_FUNCTION_ARGS) { return return_truth(fcinfo, "dpvf", match, PG_GETARG_BOOL(3)); }

static bytea *selected(FunctionCallInfo fcinfo, maker *makes) {
    given it;
    given_of(fcinfo, "dpvf", &it);
    return made_by(&it, makes, it.flag);
}

PG_FUNCTION_INFO_V1(jdoc_sql_path_query_first);
Datum jdoc_sql_path_query_first(PG_FUNCTION_ARGS) {
    bytea *made = selected(fcinfo, first);
    if (!made) PG_RETURN_NULL();
    PG_RETURN_BYTEA_P(made);
}

/* An array of all items. If an error is silent, the array is empty, even if items were found before the error. */
PG_FUNCTION_INFO_V1(jdoc_sql_path_query_array);
Datum jdoc_sql_path_query_array(PG_FUNCTION_ARGS) {
    static const uint8_t empty[] = {0x80, 0, 0, 0};
    bytea *made = selected(fcinfo, array);
    if (!made) {
        made = palloc(VARHDRSZ + sizeof empty);
        SET_VARSIZE(made, VARHDRSZ + sizeof empty);
        memcpy(VARDATA(made), empty, sizeof empty);
    }
    PG_RETURN_BYTEA_P(made);
}
