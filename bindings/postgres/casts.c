/* casts.c - numbers, Booleans and strings of documents as SQL values */
#include "jdoc_pg.h"

#include "utils/builtins.h"
#include "utils/fmgrprotos.h"
#include "utils/numeric.h"

static void fail_cast(const bytea *document, const char *type, const char *expected) pg_attribute_noreturn();
static void fail_cast(const bytea *document, const char *type, const char *expected) {
    ereport(ERROR, (errcode(ERRCODE_INVALID_CHARACTER_VALUE_FOR_CAST),
                    errmsg("cannot cast jdoc %s to type %s", type_of(BYTES(document)), type),
                    errdetail("Expected %s.", expected)));
    pg_unreachable();
}

PG_FUNCTION_INFO_V1(jdoc_sql_to_int8);
Datum jdoc_sql_to_int8(PG_FUNCTION_ARGS) {
    const bytea *it = PG_GETARG_BYTEA_PP(0);
    int64_t number = 0;
    uint32_t status = jdoc_to_i64(BYTES(it), &number);
    if (status == JDOC_INVALID_CAST)
        fail_cast(it, "bigint", "a number from -2^63 to 2^63 - 1, a boolean or a string of digits");
    if (status != JDOC_OK) fail(status);
    PG_RETURN_INT64(number);
}

PG_FUNCTION_INFO_V1(jdoc_sql_to_int4);
Datum jdoc_sql_to_int4(PG_FUNCTION_ARGS) {
    const bytea *it = PG_GETARG_BYTEA_PP(0);
    int64_t number = 0;
    uint32_t status = jdoc_to_i64(BYTES(it), &number);
    if (status == JDOC_INVALID_CAST || (status == JDOC_OK && (number < PG_INT32_MIN || number > PG_INT32_MAX)))
        fail_cast(it, "integer", "a number from -2^31 to 2^31 - 1, a boolean or a string of digits");
    if (status != JDOC_OK) fail(status);
    PG_RETURN_INT32((int32)number);
}

PG_FUNCTION_INFO_V1(jdoc_sql_to_bool);
Datum jdoc_sql_to_bool(PG_FUNCTION_ARGS) {
    const bytea *it = PG_GETARG_BYTEA_PP(0);
    uint8_t truth = 0;
    uint32_t status = jdoc_to_bool(BYTES(it), &truth);
    if (status == JDOC_INVALID_CAST) fail_cast(it, "boolean", "a boolean, or the string true, false, yes or no");
    if (status != JDOC_OK) fail(status);
    PG_RETURN_BOOL(truth != 0);
}

Numeric numeric_of(const jdoc_event *number) {
    char text[JDOC_NUMBER_TEXT + 1];
    text[jdoc_number_text(number->bytes, number->len, text)] = 0;
    return DatumGetNumeric(
        DirectFunctionCall3(numeric_in, CStringGetDatum(text), ObjectIdGetDatum(InvalidOid), Int32GetDatum(-1)));
}

static Numeric numeric_of_document(const bytea *document, const char *type) {
    jdoc_event root = root_of(BYTES(document));
    if (root.kind != JDOC_EVENT_NUMBER) fail_cast(document, type, "a number");
    return numeric_of(&root);
}

PG_FUNCTION_INFO_V1(jdoc_sql_to_numeric);
Datum jdoc_sql_to_numeric(PG_FUNCTION_ARGS) {
    PG_RETURN_NUMERIC(numeric_of_document(PG_GETARG_BYTEA_PP(0), "numeric"));
}

PG_FUNCTION_INFO_V1(jdoc_sql_to_float8);
Datum jdoc_sql_to_float8(PG_FUNCTION_ARGS) {
    Numeric number = numeric_of_document(PG_GETARG_BYTEA_PP(0), "double precision");
    return DirectFunctionCall1(numeric_float8, NumericGetDatum(number));
}
