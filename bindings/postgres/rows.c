/* rows.c - functions that return rows: the items of a path, the elements of an array, the members and keys of an object
 *
 * Each call copies one item, so that LIMIT ends the copies. The document is the argument, which the server keeps until
 * the last row, or its detoasted copy.
 */
#include "jdoc_pg.h"

#include "funcapi.h"
#include "utils/builtins.h"

/* Return a row for each value that `next` makes, until it makes none (NULL). `begin` makes the state of all rows. */
static Datum return_rows(FunctionCallInfo fcinfo, void *(*begin)(FunctionCallInfo), void *(*next)(void *)) {
    FuncCallContext *context;
    void *row;
    if (SRF_IS_FIRSTCALL()) {
        MemoryContext before;
        context = SRF_FIRSTCALL_INIT();
        before = MemoryContextSwitchTo(context->multi_call_memory_ctx);
        context->user_fctx = begin(fcinfo);
        MemoryContextSwitchTo(before);
    }
    context = SRF_PERCALL_SETUP();
    row = next(context->user_fctx);
    if (row) SRF_RETURN_NEXT(context, PointerGetDatum(row));
    SRF_RETURN_DONE(context);
}

/* THE ITEMS OF A PATH, with the arguments of jsonb's function: document, path, variables, silent */

enum { SMALL = 768 }; /* for the positions of a few items */

typedef struct selection {
    given of;
    jdoc_items left;
    arena memory;
    char bytes[SMALL];
} selection;

static void *begin_items(FunctionCallInfo fcinfo) {
    selection *made = palloc(sizeof *made);
    given *it = &made->of;
    uint32_t status;
    given_of(fcinfo, "dPvf", it);
    made->left = (jdoc_items){0};
    made->memory = arena_in(made->bytes, SMALL);
    it->items = &made->left;
    RUN_IN(&made->memory, status, jdoc_path_items(it->path, D(0), it->strict, it->items));
    if (is_hidden(status, it->flag)) return NULL;
    if (status != JDOC_OK) fail(status);
    return it;
}

MAKER(computed_item, jdoc_items_next(it->items, D(0), OUT))

static void *next_item(void *state) {
    const given *it = state;
    jdoc_span span = {0};
    jdoc_event item;
    uint32_t status;
    if (!it) return NULL;
    status = jdoc_items_find_next(it->items, D(0), &span);
    if (status == JDOC_COMPUTED) return made_by(it, computed_item, false);
    return take_item(status, D(0), &span, &item) ? document_of_item(&item) : NULL;
}

PG_FUNCTION_INFO_V1(jdoc_sql_path_query);
Datum jdoc_sql_path_query(PG_FUNCTION_ARGS) { return return_rows(fcinfo, begin_items, next_item); }

/* CHILDREN */

/* The children of a document that has to be of this kind. */
static void open_kind(children *it, const edit *expected, enum jdoc_kind kind, const bytea *document) {
    uint8_t found = 0;
    uint32_t status = jdoc_type(BYTES(document), &found);
    if (status != JDOC_OK) fail(status);
    if (found != kind)
        fail_type(expected, kind == JDOC_KIND_OBJECT ? JDOC_INVALID_OBJECT : JDOC_INVALID_JSON_TYPE, document);
    open_children(it, BYTES(document));
}

static void *begin_elements(FunctionCallInfo fcinfo) {
    static const edit expected = {"jdoc_array_elements", "an array"};
    children *of = palloc0(sizeof *of);
    open_kind(of, &expected, JDOC_KIND_ARRAY, PG_GETARG_BYTEA_PP(0));
    return of;
}

static void *next_element(void *of) {
    jdoc_event item;
    return next_child(of, &item) ? document_of_item(&item) : NULL;
}

PG_FUNCTION_INFO_V1(jdoc_sql_array_elements);
Datum jdoc_sql_array_elements(PG_FUNCTION_ARGS) { return return_rows(fcinfo, begin_elements, next_element); }

static text *key_of(const jdoc_event *member) {
    return cstring_to_text_with_len((const char *)member->key, (int)member->key_len);
}

static void *begin_keys(FunctionCallInfo fcinfo) {
    static const edit expected = {"jdoc_object_keys", "an object"};
    children *of = palloc0(sizeof *of);
    open_kind(of, &expected, JDOC_KIND_OBJECT, PG_GETARG_BYTEA_PP(0));
    return of;
}

static void *next_key(void *of) {
    jdoc_event member;
    return next_child(of, &member) ? key_of(&member) : NULL;
}

PG_FUNCTION_INFO_V1(jdoc_sql_object_keys);
Datum jdoc_sql_object_keys(PG_FUNCTION_ARGS) { return return_rows(fcinfo, begin_keys, next_key); }

typedef struct members {
    children left;
    TupleDesc row; /* key, value */
} members;

static void *begin_members(FunctionCallInfo fcinfo) {
    static const edit expected = {"jdoc_each", "an object"};
    members *of = palloc0(sizeof *of);
    TupleDesc row;
    if (get_call_result_type(fcinfo, NULL, &row) != TYPEFUNC_COMPOSITE) elog(ERROR, "jdoc_each returns two columns");
    of->row = BlessTupleDesc(row);
    open_kind(&of->left, &expected, JDOC_KIND_OBJECT, PG_GETARG_BYTEA_PP(0));
    return of;
}

static void *next_member(void *state) {
    members *of = state;
    jdoc_event member;
    bool nulls[2] = {false, false};
    Datum values[2];
    if (!next_child(&of->left, &member)) return NULL;
    values[0] = PointerGetDatum(key_of(&member));
    values[1] = PointerGetDatum(document_of_item(&member));
    return DatumGetPointer(HeapTupleGetDatum(heap_form_tuple(of->row, values, nulls)));
}

PG_FUNCTION_INFO_V1(jdoc_sql_each);
Datum jdoc_sql_each(PG_FUNCTION_ARGS) { return return_rows(fcinfo, begin_members, next_member); }
