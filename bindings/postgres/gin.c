/* gin.c - an inverted index for @>, ?, ?| and ?&
 *
 * A document has an entry for each of its leaves, and for each name that ? finds in it. An entry is a hash of 64 bits:
 * of the keys that lead to the leaf, without the arrays between them, and of the leaf's value; or of the name. So the
 * entries of a document that is contained are entries of the one that contains it. Every row that is found is compared
 * again.
 */
#include "jdoc_pg.h"

#include "access/gin.h"
#include "access/stratnum.h"
#include "common/hashfn.h"

#include <string.h>

enum { CONTAINS = 7, HAS = 9, HAS_ANY = 10, HAS_ALL = 11 }; /* the numbers that jsonb's operator classes have */
enum { OF_NAMES = 1, OF_LEAVES = 2 };

/* A container whose children are read, and the hash of the keys that lead to it. */
typedef struct level {
    children of;
    uint64 hash;
} level;

typedef struct entries {
    Datum *made;
    int32 count, size;
    level *open;
    int32 depth, open_size;
} entries;

static uint64 hash_of(const void *bytes, size_t len, uint64 seed) {
    return DatumGetUInt64(hash_any_extended(bytes, (int)len, seed));
}

static void add(entries *it, uint64 entry) {
    if (it->count == it->size) {
        it->size = 2 * it->size + 16;
        it->made = it->made ? repalloc(it->made, it->size * sizeof(Datum)) : palloc(it->size * sizeof(Datum));
    }
    it->made[it->count++] = UInt64GetDatum(entry);
}

static void open_container(entries *it, const jdoc_event *container, uint64 hash) {
    if (it->depth == it->open_size) {
        it->open_size = 2 * it->open_size + 16;
        it->open = pg_heap.resize(it->open, it->open_size * sizeof(level));
    }
    open_children(&it->open[it->depth].of, container->bytes, container->len);
    it->open[it->depth++].hash = hash;
}

/* Equal values have equal hashes: a number's is that of its equality key, in which 1 and 1.0 are the same. */
static uint64 hash_of_leaf(const jdoc_event *leaf, uint64 seed) {
    bytea *document, *key;
    if (leaf->kind != JDOC_EVENT_NUMBER && leaf->kind != JDOC_EVENT_EXTENSION)
        return hash_of(leaf->bytes, leaf->len, hash_combine64(seed, leaf->kind));
    document = document_of_item(leaf);
    key = equality_key_of(document);
    seed = hash_of(VARDATA(key), VARSIZE_ANY_EXHDR(key), seed);
    pfree(key);
    pfree(document);
    return seed;
}

static uint64 hash_of_name(const void *name, size_t len) { return hash_of(name, len, OF_NAMES); }

/* Add the entries of an item, which is within a container of this hash. */
static void add_item(entries *it, const jdoc_event *item, uint64 within, bool with_names) {
    if (item->has_key) {
        if (with_names) add(it, hash_of_name(item->key, item->key_len));
        within = hash_of(item->key, item->key_len, within);
    } else if (with_names && item->kind == JDOC_EVENT_STRING) {
        add(it, hash_of_name(item->bytes, item->len));
    }
    if (item->kind == JDOC_EVENT_BEGIN)
        open_container(it, item, within);
    else
        add(it, hash_of_leaf(item, within));
}

static void add_document(entries *it, const bytea *document, bool with_names) {
    jdoc_event item = root_of(BYTES(document));
    add_item(it, &item, OF_LEAVES, with_names);
    while (it->depth) {
        level *last = &it->open[it->depth - 1];
        if (next_child(&last->of, &item))
            add_item(it, &item, last->hash, with_names && it->depth == 1);
        else
            it->depth--;
    }
}

PG_FUNCTION_INFO_V1(jdoc_gin_extract_value);
Datum jdoc_gin_extract_value(PG_FUNCTION_ARGS) {
    entries it = {0};
    add_document(&it, PG_GETARG_BYTEA_PP(0), true);
    *(int32 *)PG_GETARG_POINTER(1) = it.count;
    PG_RETURN_POINTER(it.made);
}

/* The names of ? (one), ?| and ?&. */
static void add_names(entries *it, Datum query, StrategyNumber strategy) {
    names of;
    if (strategy == HAS) {
        text *name = DatumGetTextPP(query);
        add(it, hash_of_name(VARDATA_ANY(name), VARSIZE_ANY_EXHDR(name)));
        return;
    }
    of = names_of(query);
    for (size_t i = 0; i < of.count; i++)
        add(it, hash_of_name(of.bytes + of.offsets[i], of.offsets[i + 1] - of.offsets[i]));
}

/* A query without entries finds all rows, but ?| of no names none. */
PG_FUNCTION_INFO_V1(jdoc_gin_extract_query);
Datum jdoc_gin_extract_query(PG_FUNCTION_ARGS) {
    StrategyNumber strategy = PG_GETARG_UINT16(2);
    int32 *mode = (int32 *)PG_GETARG_POINTER(6);
    entries it = {0};
    if (strategy == CONTAINS)
        add_document(&it, PG_GETARG_BYTEA_PP(0), false);
    else
        add_names(&it, PG_GETARG_DATUM(0), strategy);
    *(int32 *)PG_GETARG_POINTER(1) = it.count;
    if (it.count == 0 && strategy != HAS_ANY) *mode = GIN_SEARCH_MODE_ALL;
    PG_RETURN_POINTER(it.made);
}

/* Each row is compared again. One of the entries is enough for ?|, the others need all. */
PG_FUNCTION_INFO_V1(jdoc_gin_consistent);
Datum jdoc_gin_consistent(PG_FUNCTION_ARGS) {
    const bool *found = (bool *)PG_GETARG_POINTER(0);
    bool is_any = PG_GETARG_UINT16(1) == HAS_ANY;
    int32 count = PG_GETARG_INT32(3);
    *(bool *)PG_GETARG_POINTER(5) = true;
    for (int32 i = 0; i < count; i++)
        if (found[i] == is_any) PG_RETURN_BOOL(is_any);
    PG_RETURN_BOOL(!is_any);
}

PG_FUNCTION_INFO_V1(jdoc_gin_triconsistent);
Datum jdoc_gin_triconsistent(PG_FUNCTION_ARGS) {
    const GinTernaryValue *found = (GinTernaryValue *)PG_GETARG_POINTER(0);
    bool is_any = PG_GETARG_UINT16(1) == HAS_ANY;
    int32 count = PG_GETARG_INT32(3);
    for (int32 i = 0; i < count; i++)
        if ((found[i] != GIN_FALSE) == is_any) PG_RETURN_GIN_TERNARY_VALUE(is_any ? GIN_MAYBE : GIN_FALSE);
    PG_RETURN_GIN_TERNARY_VALUE(is_any ? GIN_FALSE : GIN_MAYBE);
}
