/* Counts and fails the allocations of the library. Without -DREFUSING nothing is counted and nothing can fail. */
#ifndef GROWTHS_H
#define GROWTHS_H

#include <stdbool.h>
#include <stddef.h>

#ifdef REFUSING
static long growths_seen, growth_refused, growths_refused, blocks_live;
static bool is_counting;

void *__real_malloc(size_t size);
void *__real_realloc(void *block, size_t size);
void __real_free(void *block);
void *__wrap_malloc(size_t size);
void *__wrap_realloc(void *block, size_t size);
void __wrap_free(void *block);

static bool is_refused(void) {
    bool refused = is_counting && growths_seen++ == growth_refused;
    growths_refused += refused;
    return refused;
}

void *__wrap_malloc(size_t size) {
    void *block = is_refused() ? NULL : __real_malloc(size);
    blocks_live += is_counting && block;
    return block;
}

void *__wrap_realloc(void *block, size_t size) {
    void *grown = is_refused() ? NULL : __real_realloc(block, size);
    blocks_live += is_counting && grown && !block;
    return grown;
}

void __wrap_free(void *block) {
    blocks_live -= is_counting && block;
    __real_free(block);
}

/* Count allocations. The one with this number fails, from 0. */
static void start_counting(long growth) {
    growths_seen = 0, blocks_live = 0, growth_refused = growth;
    is_counting = true;
}
static long stop_counting(void) { return is_counting = false, growths_seen; }
static long live_blocks(void) { return blocks_live; }
static bool can_refuse(void) { return true; }
static bool has_refused(void) { return growths_refused > 0; }
#else
static void start_counting(long growth) { (void)growth; }
static long stop_counting(void) { return 0; }
static long live_blocks(void) { return 0; }
static bool can_refuse(void) { return false; }
static bool has_refused(void) { return true; }
#endif

#endif
