/* large.c - the order of documents, and whether one contains another: of large documents by pieces
 *
 * Neither call of the library allocates, so neither can be interrupted. Calls on pieces take some milliseconds each,
 * and a query that is cancelled ends between them.
 */
#include "jdoc_pg.h"

#include "miscadmin.h"

#include <string.h>

/* ITEMS */

/* An item as a document: a container in its document, a scalar in `small` or in `large`. */
typedef struct piece {
    const uint8_t *bytes;
    size_t len;
    uint8_t small[64], *large;
} piece;

static void make_piece(piece *it, const jdoc_event *item) {
    it->bytes = item->bytes;
    it->len = jdoc_item_size(item);
    it->large = NULL;
    if (item->kind == JDOC_EVENT_BEGIN) return;
    if (it->len > sizeof it->small) it->large = MemoryContextAllocHuge(CurrentMemoryContext, it->len);
    jdoc_item_write(item, it->large ? it->large : it->small);
    it->bytes = it->large ? it->large : it->small;
}

static void release(piece *it) {
    if (it->large) pfree(it->large);
}

static int order_of_bytes(const uint8_t *a, size_t a_len, const uint8_t *b, size_t b_len) {
    int order = memcmp(a, b, Min(a_len, b_len));
    return order ? order : (a_len > b_len) - (a_len < b_len);
}

/* Whether these are two arrays or two objects. */
static bool are_containers(const jdoc_event *a, const jdoc_event *b) {
    return a->kind == JDOC_EVENT_BEGIN && b->kind == JDOC_EVENT_BEGIN && a->object == b->object;
}

/* THE ORDER */

enum { LARGE = 1 << 20 };

/* Two containers, of which some children are not compared yet. */
typedef struct pair {
    children a, b;
} pair;

typedef struct pairs {
    pair *open;
    size_t depth, size;
} pairs;

static void open_pair(pairs *it, const jdoc_event *a, const jdoc_event *b) {
    if (it->depth == it->size) {
        it->size = 2 * it->size + 16;
        it->open = pg_heap.resize(it->open, it->size * sizeof(pair));
    }
    open_children(&it->open[it->depth].a, a->bytes, a->len);
    open_children(&it->open[it->depth].b, b->bytes, b->len);
    it->depth++;
}

static int call_compare(const uint8_t *a, size_t a_len, const uint8_t *b, size_t b_len) {
    int32_t order;
    uint32_t status = jdoc_compare(a, a_len, b, b_len, &order);
    if (status != JDOC_OK) fail(status);
    return order;
}

static int order_of_pieces(const jdoc_event *a, const jdoc_event *b) {
    piece x, y;
    int order;
    make_piece(&x, a);
    make_piece(&y, b);
    order = call_compare(x.bytes, x.len, y.bytes, y.len);
    release(&x);
    release(&y);
    return order;
}

/* The order of two items. Of two large containers it opens the pair, and returns 0 until their children are compared.
 */
static int order_of_items(pairs *it, const jdoc_event *a, const jdoc_event *b) {
    if (are_containers(a, b) && Max(a->len, b->len) > LARGE) {
        open_pair(it, a, b);
        return 0;
    }
    if (a->kind == JDOC_EVENT_STRING && b->kind == JDOC_EVENT_STRING)
        return order_of_bytes(a->bytes, a->len, b->bytes, b->len);
    if (a->kind == b->kind && a->len == b->len && memcmp(a->bytes, b->bytes, a->len) == 0) return 0;
    return order_of_pieces(a, b);
}

/* The order of the next children of the innermost pair. It is closed before its last children are opened, so that
 * nested arrays of one element need one pair. */
static int order_of_children(pairs *it) {
    pair *of = &it->open[it->depth - 1];
    jdoc_event a, b;
    bool has_a = next_child(&of->a, &a), has_b = next_child(&of->b, &b);
    int order = 0;
    if (of->a.left == 0 && of->b.left == 0) it->depth--;
    if (!has_a || !has_b) return has_a - has_b; /* a container that begins another one is below it */
    if (a.has_key) order = order_of_bytes(a.key, a.key_len, b.key, b.key_len);
    return order ? order : order_of_items(it, &a, &b);
}

int order_of_documents(const uint8_t *a, size_t a_len, const uint8_t *b, size_t b_len) {
    pairs it = {0};
    jdoc_event x, y;
    int order;
    if (Max(a_len, b_len) <= LARGE) return call_compare(a, a_len, b, b_len);
    x = root_of(a, a_len), y = root_of(b, b_len);
    order = order_of_items(&it, &x, &y);
    while (order == 0 && it.depth > 0) {
        CHECK_FOR_INTERRUPTS();
        order = order_of_children(&it);
    }
    if (it.open) pfree(it.open);
    return order;
}

/* CONTAINMENT: of arrays it may take the product of their lengths */

static const double LARGE_PRODUCT = 2e9;

static bool call_contains(const uint8_t *a, size_t a_len, const uint8_t *b, size_t b_len) {
    uint8_t truth = 0;
    uint32_t status = jdoc_contains(a, a_len, b, b_len, &truth);
    if (status != JDOC_OK) fail(status);
    return truth != 0;
}

static bool contains_child(const jdoc_event *a, const jdoc_event *b);

/* A scalar as an array of it, since the library has other rules for a root that is a scalar. */
static void make_array(piece *it, const jdoc_event *scalar) {
    static const uint8_t header[] = {0x80, 0, 0, 1};
    make_piece(it, scalar);
    memcpy(it->large ? it->large : it->small, header, sizeof header);
}

/* Whether an array contains an element. */
static bool has_element(const jdoc_event *array, const jdoc_event *element) {
    children elements;
    jdoc_event child;
    piece it;
    bool found = false;
    if (element->kind == JDOC_EVENT_BEGIN) {
        open_children(&elements, array->bytes, array->len);
        while (!found && next_child(&elements, &child)) found = contains_child(&child, element);
        return found;
    }
    make_array(&it, element);
    found = call_contains(array->bytes, array->len, it.bytes, it.len);
    release(&it);
    return found;
}

static bool has_elements(const jdoc_event *array, children *elements) {
    jdoc_event element;
    while (next_child(elements, &element)) {
        CHECK_FOR_INTERRUPTS();
        if (!has_element(array, &element)) return false;
    }
    return true;
}

/* Whether an object contains members. Both have their keys in order. */
static bool has_members(children *object, children *members) {
    jdoc_event child, member;
    bool has_child = next_child(object, &child);
    while (next_child(members, &member)) {
        CHECK_FOR_INTERRUPTS();
        while (has_child && order_of_bytes(child.key, child.key_len, member.key, member.key_len) < 0)
            has_child = next_child(object, &child);
        if (!has_child || child.key_len != member.key_len || memcmp(child.key, member.key, member.key_len) != 0 ||
            !contains_child(&child, &member))
            return false;
    }
    return true;
}

static bool contains_container(const jdoc_event *a, const jdoc_event *b) {
    children of_a, of_b;
    if ((double)a->len * b->len <= LARGE_PRODUCT || stack_is_too_deep())
        return call_contains(a->bytes, a->len, b->bytes, b->len);
    open_children(&of_a, a->bytes, a->len);
    open_children(&of_b, b->bytes, b->len);
    return a->object ? has_members(&of_a, &of_b) : has_elements(a, &of_b);
}

static bool contains_child(const jdoc_event *a, const jdoc_event *b) {
    piece x, y;
    bool truth;
    CHECK_FOR_INTERRUPTS();
    if (are_containers(a, b)) return contains_container(a, b);
    if (a->kind == JDOC_EVENT_BEGIN || b->kind == JDOC_EVENT_BEGIN) return false;
    make_array(&x, a);
    make_array(&y, b);
    truth = call_contains(x.bytes, x.len, y.bytes, y.len);
    release(&x);
    release(&y);
    return truth;
}

bool document_contains(const uint8_t *a, size_t a_len, const uint8_t *b, size_t b_len) {
    jdoc_event x, y;
    if ((double)a_len * b_len <= LARGE_PRODUCT) return call_contains(a, a_len, b, b_len);
    x = root_of(a, a_len), y = root_of(b, b_len);
    return are_containers(&x, &y) ? contains_container(&x, &y) : call_contains(a, a_len, b, b_len);
}
