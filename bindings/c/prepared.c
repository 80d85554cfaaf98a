/* A path for many documents: cc prepared.c $(pkg-config --cflags --libs jdoc) */
#include <jdoc.h>

#include <stdio.h>
#include <string.h>

/* {"age":31,"name":"Ann"} and {"age":47,"name":"Bob"}, one after the other (docs/FORMAT.md). */
static const uint8_t people[] = "\x40\0\0\x02\x10\0\0\x03\x10\0\0\x04\x20\0\0\x02\x10\0\0\x03"
                                "agename\x50\x1f"
                                "Ann"
                                "\x40\0\0\x02\x10\0\0\x03\x10\0\0\x04\x20\0\0\x02\x10\0\0\x03"
                                "agename\x50\x2f"
                                "Bob";

static enum jdoc_status print_ages(jdoc_path *path, jdoc_keypath *age) {
    for (const uint8_t *person = people; person < people + 64; person += 32) {
        uint8_t truth, item[16];
        size_t len;
        uint64_t years;
        enum jdoc_status status = jdoc_path_match(path, person, 32, false, &truth);
        if (status == JDOC_OK) status = jdoc_keypath_get(age, person, 32, item, sizeof item, &len);
        if (status == JDOC_OK) status = jdoc_as_u64(item, len, &years);
        if (status != JDOC_OK) return status;
        printf("%d: %s\n", (int)years, truth == 1 ? "true" : "not true");
    }
    return JDOC_OK;
}

int main(void) {
    jdoc_path path = {0};
    jdoc_keypath age = {0};
    const char *text = "$.age > 40";
    enum jdoc_status status = jdoc_path_read(text, strlen(text), &path);
    if (status == JDOC_OK) status = jdoc_keypath_read("{age}", 5, &age);
    if (status == JDOC_OK) status = print_ages(&path, &age);
    if (status != JDOC_OK) fprintf(stderr, "%s\n", jdoc_status_text(status));
    jdoc_path_free(&path);
    jdoc_keypath_free(&age);
    return status != JDOC_OK;
}
