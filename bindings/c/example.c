/* One document and a column: cc example.c $(pkg-config --cflags --libs jdoc) */
#include <jdoc.h>

#include <stdio.h>
#include <string.h>

/* {"age":31,"name":"Ann"} and {"age":47,"name":"Bob"}, one after the other (docs/FORMAT.md). */
static const uint8_t people[] = "\x40\0\0\x02\x10\0\0\x03\x10\0\0\x04\x20\0\0\x02\x10\0\0\x03"
                                "agename\x50\x1f"
                                "Ann"
                                "\x40\0\0\x02\x10\0\0\x03\x10\0\0\x04\x20\0\0\x02\x10\0\0\x03"
                                "agename\x50\x2f"
                                "Bob";
static const uint64_t offsets[] = {0, 32, 64};

#define TEXT(text) text, strlen(text)

static int fail(enum jdoc_status status) {
    fprintf(stderr, "%s\n", jdoc_status_text(status));
    return 1;
}

int main(void) {
    /* One document: the item that a path selects, and its text. */
    uint8_t item[64];
    char text[64];
    size_t item_len, text_len;
    enum jdoc_status status = jdoc_select_first(people, 32, TEXT("$.name"), false, item, sizeof item, &item_len);
    if (status == JDOC_OK) status = jdoc_to_str(item, item_len, text, sizeof text, &text_len);
    if (status != JDOC_OK) return fail(status);
    printf("%.*s\n", (int)text_len, text);

    /* A column: which rows meet a condition. */
    uint8_t truths[2], statuses[2];
    size_t done;
    status = jdoc_column_match(people, 64, offsets, 3, TEXT("$.age > 40"), false, truths, 2, statuses, 2, &done);
    if (status != JDOC_OK) return fail(status);
    for (size_t row = 0; row < done; row++)
        printf("row %zu: %s\n", row, statuses[row] != JDOC_OK ? "refused" : truths[row] == 1 ? "true" : "not true");
    return 0;
}
