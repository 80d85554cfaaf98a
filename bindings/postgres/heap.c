/* heap.c - memory for the library (libjdoc_heap.a) and for JSON text
 *
 * Small pieces lie in an arena, which costs less than palloc: those that a call frees before it returns in that of all
 * calls, those that live as long as the rows of a function in one of these rows. All others are the server's, which
 * counts them and frees them with their context. The library's functions are never left by longjmp: an allocation that
 * fails returns NULL, and the call returns JDOC_OUT_OF_MEMORY.
 */
#include "jdoc_pg.h"

#include "miscadmin.h"

#include <string.h>

void *jdoc_heap_malloc(size_t size);
void *jdoc_heap_realloc(void *piece, size_t size);
void jdoc_heap_free(void *piece);

static bool is_refused_for_interrupt;

/* The prefix of each piece. palloc aligns to 8 bytes, and the library may need 16, as malloc provides. */
typedef struct front {
    void *chunk; /* of the server, or the arena */
    size_t size : 63, is_in_arena : 1;
} front;

enum { ALIGNMENT = 16, OF_CALLS = 32768 };

static front *front_of(void *piece) { return (front *)piece - 1; }

/* ARENAS: pieces one after the other, of which only the last may grow or leave room; empty if there is none */

arena arena_in(void *bytes, size_t size) {
    char *begin = (char *)TYPEALIGN(ALIGNMENT, bytes);
    return (arena){.bytes = begin, .size = size - (begin - (char *)bytes)};
}

static _Alignas(ALIGNMENT) char bytes_of_calls[OF_CALLS];
arena arena_of_calls = {bytes_of_calls, OF_CALLS, 0, 0};
arena *heap_arena = &arena_of_calls;

/* What a piece takes there. */
static size_t room_of(size_t size) { return sizeof(front) + TYPEALIGN(ALIGNMENT, size); }

static void *take(arena *of, size_t size) {
    front *it = (front *)(of->bytes + of->used);
    if (size > of->size || room_of(size) > of->size - of->used) return NULL;
    *it = (front){.chunk = of, .size = size, .is_in_arena = true};
    of->used += room_of(size);
    of->pieces++;
    return it + 1;
}

static bool is_last(const arena *of, const front *it) {
    return (const char *)it + room_of(it->size) == of->bytes + of->used;
}

static void give_back(arena *of, front *it) {
    if (is_last(of, it)) of->used -= room_of(it->size);
    if (--of->pieces == 0) of->used = 0;
}

static bool grow(arena *of, front *it, size_t size) {
    size_t before = of->used - room_of(it->size);
    if (!is_last(of, it) || size > of->size || room_of(size) > of->size - before) return false;
    of->used = before + room_of(size);
    it->size = size;
    return true;
}

/* THE SERVER'S MEMORY */

static void *allocate(size_t size) {
    char *chunk, *piece;
    if (size > MaxAllocHugeSize - sizeof(front) - ALIGNMENT) return NULL;
    chunk = MemoryContextAllocExtended(CurrentMemoryContext, size + sizeof(front) + ALIGNMENT,
                                       MCXT_ALLOC_HUGE | MCXT_ALLOC_NO_OOM);
    if (!chunk) return NULL;
    piece = (char *)TYPEALIGN(ALIGNMENT, chunk + sizeof(front));
    *front_of(piece) = (front){.chunk = chunk, .size = size};
    return piece;
}

/* WHAT THE LIBRARY CALLS */

static bool refuses(void) {
    is_refused_for_interrupt = INTERRUPTS_PENDING_CONDITION() && INTERRUPTS_CAN_BE_PROCESSED();
    return is_refused_for_interrupt;
}

void *jdoc_heap_malloc(size_t size) {
    void *piece = NULL;
    if (refuses()) return NULL;
    if (heap_arena) piece = take(heap_arena, size);
    return piece ? piece : allocate(size);
}

void jdoc_heap_free(void *piece) {
    front *it;
    if (!piece) return;
    it = front_of(piece);
    if (it->is_in_arena)
        give_back(it->chunk, it);
    else
        pfree(it->chunk);
}

void *jdoc_heap_realloc(void *piece, size_t size) {
    void *grown;
    if (piece && front_of(piece)->is_in_arena && !refuses() && grow(front_of(piece)->chunk, front_of(piece), size))
        return piece;
    grown = jdoc_heap_malloc(size);
    if (!grown || !piece) return grown;
    memcpy(grown, piece, Min(size, front_of(piece)->size));
    jdoc_heap_free(piece);
    return grown;
}

bool interrupted(void) {
    if (!is_refused_for_interrupt) return false;
    is_refused_for_interrupt = false;
    CHECK_FOR_INTERRUPTS();
    return true;
}

static void *resize(void *piece, size_t size) {
    CHECK_FOR_INTERRUPTS();
    return piece ? repalloc_huge(piece, size) : MemoryContextAllocHuge(CurrentMemoryContext, size);
}

static void release(void *piece) {
    if (piece) pfree(piece);
}

const jdoc_heap pg_heap = {resize, release};
