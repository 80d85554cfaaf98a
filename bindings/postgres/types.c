/* types.c - jdoc in and out: JSON text, bytes, jsonb */
#include "jdoc_pg.h"

#include "lib/stringinfo.h"
#include "libpq/pqformat.h"
#include "mb/pg_wchar.h"
#include "utils/builtins.h"
#include "utils/fmgrprotos.h"
#include "utils/jsonb.h"
#include "utils/numeric.h"

#include <string.h>

/* DOCUMENTS OF EVENTS: of members with the same key the last is kept, as in jsonb */

static void begin(jdoc_tape *tape) {
    if (GetDatabaseEncoding() != PG_UTF8)
        ereport(ERROR,
                (errcode(ERRCODE_FEATURE_NOT_SUPPORTED), errmsg("jdoc: the encoding of the database is not UTF8")));
    jdoc_tape_init(tape, pg_heap, JDOC_KEEP_LAST);
}

static bytea *varlena_for(size_t len) {
    bytea *made;
    if (len > MaxAllocSize - VARHDRSZ) fail(JDOC_TOO_LARGE);
    made = palloc(VARHDRSZ + len);
    SET_VARSIZE(made, VARHDRSZ + len);
    return made;
}

/* The size of the document, which is made again after an interrupt, as RUN does. */
static size_t made_size(jdoc_tape *tape) {
    size_t size;
    while (!(size = jdoc_tape_size(tape)) && tape->status == JDOC_OUT_OF_MEMORY && interrupted())
        tape->status = JDOC_OK;
    return size;
}

/* STRINGS WITHOUT U+0000, which the type text cannot hold */

static void refuse_zeros(const bytea *document) {
    jdoc_walk walk;
    jdoc_event event;
    uint32_t status = jdoc_walk_init(&walk, pg_heap, BYTES(document));
    while (status == JDOC_OK && (status = jdoc_walk_next(&walk, &event)) == JDOC_OK) {
        bool is_string = event.kind == JDOC_EVENT_STRING;
        if ((is_string && memchr(event.bytes, 0, event.len)) || (event.has_key && memchr(event.key, 0, event.key_len)))
            ereport(ERROR, (errcode(ERRCODE_UNTRANSLATABLE_CHARACTER),
                            errmsg("jdoc: a string contains U+0000, which a text cannot hold")));
    }
    jdoc_walk_free(&walk);
    if (status != JDOC_NONE) fail(status);
}

/* JSON TEXT */

static void fail_text(uint32_t status, const jdoc_tape *tape) pg_attribute_noreturn();
static void fail_text(uint32_t status, const jdoc_tape *tape) {
    int code = status == JDOC_UNSUPPORTED_NUMBER ? ERRCODE_NUMERIC_VALUE_OUT_OF_RANGE
               : status == JDOC_TOO_LARGE        ? ERRCODE_PROGRAM_LIMIT_EXCEEDED
                                                 : ERRCODE_INVALID_TEXT_REPRESENTATION;
    const char *what = tape->what ? tape->what : jdoc_status_text(status);
    if (status == JDOC_OUT_OF_MEMORY) fail(status);
    ereport(ERROR, (errcode(code), errmsg("invalid input syntax for type %s", "jdoc"),
                    errdetail("Byte %zu: %s.", tape->at, what)));
    pg_unreachable();
}

static bytea *document_of_text(const char *text, size_t len) {
    jdoc_tape tape;
    bytea *made;
    uint32_t status;
    begin(&tape);
    RUN(status, jdoc_read_text(&tape, text, len));
    if (status != JDOC_OK) fail_text(status, &tape);
    made = varlena_for(jdoc_tape_size(&tape));
    status = jdoc_write_read(&tape, text, len, (uint8_t *)VARDATA(made));
    if (status != JDOC_OK) fail_text(status, &tape);
    jdoc_tape_free(&tape);
    if (strstr(text, "\\u0000")) refuse_zeros(made);
    return made;
}

/* The JSON text of a document, with the spaces of jsonb. */
static char *text_of_document(const uint8_t *document, size_t document_len, size_t *len) {
    jdoc_buffer out = {.heap = pg_heap};
    uint32_t status = jdoc_write_text(&out, document, document_len, JDOC_SPACES);
    if (status != JDOC_OK) fail(status);
    *len = out.len;
    return out.bytes;
}

PG_FUNCTION_INFO_V1(jdoc_sql_in);
Datum jdoc_sql_in(PG_FUNCTION_ARGS) {
    const char *text = PG_GETARG_CSTRING(0);
    PG_RETURN_BYTEA_P(document_of_text(text, strlen(text)));
}

PG_FUNCTION_INFO_V1(jdoc_sql_out);
Datum jdoc_sql_out(PG_FUNCTION_ARGS) {
    size_t len;
    const bytea *it = PG_GETARG_BYTEA_PP(0);
    char *text = text_of_document(BYTES(it), &len);
    text = repalloc_huge(text, len + 1);
    text[len] = 0;
    PG_RETURN_CSTRING(text);
}

PG_FUNCTION_INFO_V1(jdoc_sql_to_json);
Datum jdoc_sql_to_json(PG_FUNCTION_ARGS) {
    size_t len;
    const bytea *it = PG_GETARG_BYTEA_PP(0);
    char *text = text_of_document(BYTES(it), &len);
    if (len > MaxAllocSize - VARHDRSZ) fail(JDOC_TOO_LARGE);
    PG_RETURN_TEXT_P(cstring_to_text_with_len(text, (int)len));
}

/* BYTES */

static void check(const bytea *document) {
    uint32_t status = jdoc_check(BYTES(document));
    if (status != JDOC_OK) fail(status);
    refuse_zeros(document);
}

PG_FUNCTION_INFO_V1(jdoc_sql_recv);
Datum jdoc_sql_recv(PG_FUNCTION_ARGS) {
    StringInfo message = (StringInfo)PG_GETARG_POINTER(0);
    int len = message->len - message->cursor;
    bytea *made = varlena_for((size_t)len);
    pq_copymsgbytes(message, VARDATA(made), len);
    check(made);
    PG_RETURN_BYTEA_P(made);
}

PG_FUNCTION_INFO_V1(jdoc_sql_from_bytes);
Datum jdoc_sql_from_bytes(PG_FUNCTION_ARGS) {
    bytea *it = PG_GETARG_BYTEA_P_COPY(0);
    check(it);
    PG_RETURN_BYTEA_P(it);
}

/* FROM JSONB */

static void add_scalar(jdoc_tape *tape, const JsonbValue *value) {
    switch (value->type) {
    case jbvNull:
        jdoc_tape_null(tape);
        break;
    case jbvBool:
        jdoc_tape_bool(tape, value->val.boolean);
        break;
    case jbvString:
        jdoc_tape_string(tape, value->val.string.val, value->val.string.len);
        break;
    case jbvNumeric: {
        char *text = DatumGetCString(DirectFunctionCall1(numeric_out, NumericGetDatum(value->val.numeric)));
        jdoc_tape_number(tape, text, strlen(text));
        pfree(text);
        break;
    }
    default:
        elog(ERROR, "unknown jsonb value");
    }
}

/* Add an event of jsonb to the tape. jsonb stores a scalar document as a marked array of one element. */
static void add_token(jdoc_tape *tape, JsonbIteratorToken token, const JsonbValue *value, bool *is_scalar) {
    switch (token) {
    case WJB_BEGIN_ARRAY:
        *is_scalar = value->val.array.rawScalar;
        if (!*is_scalar) jdoc_tape_begin(tape, false);
        break;
    case WJB_BEGIN_OBJECT:
        jdoc_tape_begin(tape, true);
        break;
    case WJB_END_ARRAY:
    case WJB_END_OBJECT:
        if (!*is_scalar) jdoc_tape_end(tape);
        break;
    case WJB_KEY:
        jdoc_tape_key(tape, value->val.string.val, value->val.string.len);
        break;
    default:
        add_scalar(tape, value);
    }
}

PG_FUNCTION_INFO_V1(jdoc_sql_from_jsonb);
Datum jdoc_sql_from_jsonb(PG_FUNCTION_ARGS) {
    JsonbIterator *walk = JsonbIteratorInit(&PG_GETARG_JSONB_P(0)->root);
    JsonbIteratorToken token;
    JsonbValue value;
    bool is_scalar = false;
    jdoc_tape tape;
    bytea *made;
    uint32_t status;
    begin(&tape);
    while ((token = JsonbIteratorNext(&walk, &value, false)) != WJB_DONE && tape.status == JDOC_OK)
        add_token(&tape, token, &value, &is_scalar);
    if (tape.status != JDOC_OK) fail(tape.status);
    made = varlena_for(made_size(&tape));
    status = jdoc_tape_write(&tape, (uint8_t *)VARDATA(made));
    if (status != JDOC_OK) fail(status);
    jdoc_tape_free(&tape);
    PG_RETURN_BYTEA_P(made);
}

/* TO JSONB */

static JsonbValue string_value(const uint8_t *bytes, size_t len) {
    JsonbValue value = {.type = jbvString};
    value.val.string.val = (char *)unconstify(uint8_t *, bytes);
    value.val.string.len = (int)len;
    return value;
}

static JsonbValue scalar_value(const jdoc_event *event) {
    JsonbValue value = {.type = jbvNull};
    switch (event->kind) {
    case JDOC_EVENT_NULL:
        return value;
    case JDOC_EVENT_TRUE:
    case JDOC_EVENT_FALSE:
        value.type = jbvBool;
        value.val.boolean = event->kind == JDOC_EVENT_TRUE;
        return value;
    case JDOC_EVENT_STRING:
        return string_value(event->bytes, event->len);
    case JDOC_EVENT_NUMBER:
        value.type = jbvNumeric;
        value.val.numeric = numeric_of(event);
        return value;
    default: /* a date or another extension value */
        fail(JDOC_INVALID_JSON_TYPE);
    }
}

/* jsonb stores a scalar document as a marked array of one element. */
static JsonbValue *scalar_document(const jdoc_event *event) {
    JsonbParseState *state = NULL;
    JsonbValue array = {.type = jbvArray}, value = scalar_value(event);
    array.val.array.rawScalar = true;
    array.val.array.nElems = 1;
    pushJsonbValue(&state, WJB_BEGIN_ARRAY, &array);
    pushJsonbValue(&state, WJB_ELEM, &value);
    return pushJsonbValue(&state, WJB_END_ARRAY, NULL);
}

static JsonbValue *push(JsonbParseState **state, const jdoc_event *event) {
    JsonbValue value;
    if (event->has_key) {
        value = string_value(event->key, event->key_len);
        pushJsonbValue(state, WJB_KEY, &value);
    }
    if (event->kind == JDOC_EVENT_BEGIN)
        return pushJsonbValue(state, event->object ? WJB_BEGIN_OBJECT : WJB_BEGIN_ARRAY, NULL);
    if (event->kind == JDOC_EVENT_END)
        return pushJsonbValue(state, event->object ? WJB_END_OBJECT : WJB_END_ARRAY, NULL);
    value = scalar_value(event);
    return pushJsonbValue(state, event->has_key ? WJB_VALUE : WJB_ELEM, &value);
}

PG_FUNCTION_INFO_V1(jdoc_sql_to_jsonb);
Datum jdoc_sql_to_jsonb(PG_FUNCTION_ARGS) {
    bytea *it = PG_GETARG_BYTEA_PP(0);
    JsonbParseState *state = NULL;
    JsonbValue *made = NULL;
    jdoc_walk walk;
    jdoc_event event;
    uint32_t status = jdoc_walk_init(&walk, pg_heap, BYTES(it));
    while (status == JDOC_OK && (status = jdoc_walk_next(&walk, &event)) == JDOC_OK)
        made = state || event.kind == JDOC_EVENT_BEGIN ? push(&state, &event) : scalar_document(&event);
    if (status != JDOC_NONE) fail(status);
    jdoc_walk_free(&walk);
    PG_RETURN_JSONB_P(JsonbValueToJsonb(made));
}
