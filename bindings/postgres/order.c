/* order.c - the order of documents for btree, and their hashes, of equality keys
 *
 * The order is that of sortable keys: Booleans, numbers, strings, objects, arrays, null.
 */
#include "jdoc_pg.h"

#include "common/hashfn.h"
#include "port/pg_bswap.h"
#include "utils/sortsupport.h"

#include <string.h>

enum { SMALL = 1024, DEPTH = 2 };

/* KEYS of scalars: wide ones, whose DEPTH precedes the type */

typedef struct key {
    uint8_t small[SMALL], *bytes;
    size_t len;
} key;

static void key_of(const uint8_t *document, size_t len, key *made) {
    uint32_t status;
    RUN(status, jdoc_sort_key(document, len, true, made->small, SMALL, &made->len));
    made->bytes = made->small;
    if (status == JDOC_BUFFER_TOO_SMALL) {
        made->bytes = MemoryContextAllocHuge(CurrentMemoryContext, made->len);
        RUN(status, jdoc_sort_key(document, len, true, made->bytes, made->len, &made->len));
    }
    if (status != JDOC_OK) fail(status);
}

static void release(key *made) {
    if (made->bytes != made->small) pfree(made->bytes);
}

/* DOCUMENTS */

static int compare(const bytea *a, const bytea *b) {
    if (VARSIZE_ANY_EXHDR(a) == VARSIZE_ANY_EXHDR(b) &&
        memcmp(VARDATA_ANY(a), VARDATA_ANY(b), VARSIZE_ANY_EXHDR(a)) == 0)
        return 0;
    return order_of_documents(BYTES(a), BYTES(b));
}

static int compare_data(Datum a, Datum b) {
    bytea *x = DatumGetByteaPP(a), *y = DatumGetByteaPP(b);
    int order = compare(x, y);
    if ((Pointer)x != DatumGetPointer(a)) pfree(x);
    if ((Pointer)y != DatumGetPointer(b)) pfree(y);
    return order;
}

#define ORDER(name, sign)                                                                                              \
    PG_FUNCTION_INFO_V1(name);                                                                                         \
    Datum name(PG_FUNCTION_ARGS) { PG_RETURN_BOOL(compare_data(PG_GETARG_DATUM(0), PG_GETARG_DATUM(1)) sign 0); }
ORDER(jdoc_sql_eq, ==)
ORDER(jdoc_sql_ne, !=)
ORDER(jdoc_sql_lt, <)
ORDER(jdoc_sql_le, <=)
ORDER(jdoc_sql_gt, >)
ORDER(jdoc_sql_ge, >=)

PG_FUNCTION_INFO_V1(jdoc_sql_cmp);
Datum jdoc_sql_cmp(PG_FUNCTION_ARGS) { PG_RETURN_INT32(compare_data(PG_GETARG_DATUM(0), PG_GETARG_DATUM(1))); }

/* What sortable keys have for the type of an item. */
static int rank_of(const jdoc_event *item) {
    static const uint8_t ranks[] = {
        [JDOC_EVENT_EXTENSION] = 1, [JDOC_EVENT_FALSE] = 2, [JDOC_EVENT_TRUE] = 3, [JDOC_EVENT_NUMBER] = 4,
        [JDOC_EVENT_STRING] = 5,    [JDOC_EVENT_BEGIN] = 7, [JDOC_EVENT_NULL] = 8,
    };
    return ranks[item->kind] - (item->kind == JDOC_EVENT_BEGIN && item->object);
}

/* SORTING: eight bytes of a scalar's key after the depth of the root, which is always 0, decide between most scalars.
 * An array or an object has only its type there, so that these bytes are given up if most documents are such. */

typedef struct counts {
    int64 scalars, containers;
} counts;

static int sort_compare(Datum a, Datum b, SortSupport sort) { return compare_data(a, b); }

static Datum abbreviate(Datum original, SortSupport sort) {
    bytea *it = DatumGetByteaPP(original);
    counts *seen = sort->ssup_extra;
    uint8_t front[sizeof(Datum)] = {0};
    jdoc_event root;
    Datum made;
    uint32_t status = jdoc_root(&root, BYTES(it));
    if (status != JDOC_OK) fail(status);
    front[0] = (uint8_t)rank_of(&root);
    if (root.kind == JDOC_EVENT_BEGIN) {
        seen->containers++;
    } else {
        key whole;
        seen->scalars++;
        key_of(BYTES(it), &whole);
        memcpy(front, whole.bytes + DEPTH, Min(whole.len - DEPTH, sizeof front));
        release(&whole);
    }
    if ((Pointer)it != DatumGetPointer(original)) pfree(it);
    memcpy(&made, front, sizeof made);
    return DatumBigEndianToNative(made);
}

static bool gives_up(int count, SortSupport sort) {
    const counts *seen = sort->ssup_extra;
    return seen->containers > Max(seen->scalars, 100);
}

PG_FUNCTION_INFO_V1(jdoc_sql_sortsupport);
Datum jdoc_sql_sortsupport(PG_FUNCTION_ARGS) {
    SortSupport sort = (SortSupport)PG_GETARG_POINTER(0);
    sort->comparator = sort_compare;
    if (sort->abbreviate) {
        sort->comparator = ssup_datum_unsigned_cmp;
        sort->abbrev_converter = abbreviate;
        sort->abbrev_abort = gives_up;
        sort->abbrev_full_comparator = sort_compare;
        sort->ssup_extra = MemoryContextAllocZero(sort->ssup_cxt, sizeof(counts));
    }
    PG_RETURN_VOID();
}

/* HASHES */

MAKER(equality_key, jdoc_equality_key(D(0), OUT))

/* Documents of these lengths get room for twice their length, in which most keys fit. The room that made_by has before
 * the length of a key is known is too small for them, and the key would be computed twice. */
enum { LONG = 2048, LONGEST = 1 << 24 };

bytea *equality_key_of(bytea *document) {
    const given it = {.documents = {document}};
    size_t len = VARSIZE_ANY_EXHDR(document), size = 2 * len;
    uint32_t status;
    bytea *made;
    if (len < LONG || len > LONGEST) return made_by(&it, equality_key, false);
    made = palloc(VARHDRSZ + size);
    RUN(status, equality_key(&it, (uint8_t *)VARDATA(made), size, &len));
    if (status == JDOC_OK) {
        SET_VARSIZE(made, VARHDRSZ + len);
        return made;
    }
    pfree(made);
    return made_by(&it, equality_key, false);
}

PG_FUNCTION_INFO_V1(jdoc_sql_hash);
Datum jdoc_sql_hash(PG_FUNCTION_ARGS) {
    bytea *made = equality_key_of(PG_GETARG_BYTEA_PP(0));
    Datum hash = hash_any((unsigned char *)VARDATA(made), (int)VARSIZE_ANY_EXHDR(made));
    pfree(made);
    return hash;
}

PG_FUNCTION_INFO_V1(jdoc_sql_hash_extended);
Datum jdoc_sql_hash_extended(PG_FUNCTION_ARGS) {
    bytea *made = equality_key_of(PG_GETARG_BYTEA_PP(0));
    uint64 seed = (uint64)PG_GETARG_INT64(1);
    Datum hash = hash_any_extended((unsigned char *)VARDATA(made), (int)VARSIZE_ANY_EXHDR(made), seed);
    pfree(made);
    return hash;
}
