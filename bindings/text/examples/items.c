/* JSON text to a document, and an item of it back: cc items.c $(pkg-config --cflags --libs jdoc_text) */
#include <jdoc_text.h>

#include <stdio.h>
#include <stdlib.h>
#include <string.h>

#define TEXT(text) text, strlen(text)

/* Prints the items of a document that a path selects. */
static uint32_t print_items(jdoc_heap heap, const uint8_t *document, size_t len, const char *path) {
    uint8_t items[256];
    size_t items_len;
    jdoc_buffer out = {.heap = heap};
    uint32_t status = jdoc_select_array(document, len, TEXT(path), false, items, sizeof items, &items_len);
    if (status == JDOC_OK) status = jdoc_write_text(&out, items, items_len, 0);
    if (status == JDOC_OK) printf("%.*s\n", (int)out.len, out.bytes);
    heap.release(out.bytes);
    return status;
}

int main(void) {
    jdoc_heap heap = {realloc, free};
    jdoc_tape tape;
    uint8_t *document = NULL;
    size_t len;
    jdoc_tape_init(&tape, heap, 0);
    uint32_t status = jdoc_from_text(&tape, TEXT("{\"name\":\"Fred\",\"prices\":[12.50,8,99]}"), &document, &len);
    if (status == JDOC_OK) status = print_items(heap, document, len, "$.prices[*]?(@ > 10)");
    if (status != JDOC_OK) fprintf(stderr, "%s\n", tape.what ? tape.what : jdoc_status_text(status));
    free(document);
    jdoc_tape_free(&tape);
    return status != JDOC_OK;
}
