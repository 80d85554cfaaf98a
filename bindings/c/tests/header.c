/* The header alone, as C and as C++: a program that includes it twice, makes a call, and compares the names and
 * the meanings of all statuses, and the names of types with documents of these types. */
#include "jdoc.h"
#include "jdoc.h"

#include <stdio.h>
#include <string.h>

/* Whether both know the number, or neither does. */
static bool is_told(uint32_t status) {
    char name[40];
    size_t len;
    bool has_name = jdoc_status_name(status, name, sizeof name, &len) == JDOC_OK;
    return has_name == (strcmp(jdoc_status_text(status), "not a status") != 0);
}

/* Whether the type of the bytes has this name. */
static bool is_of_type(const uint8_t *bytes, size_t len, const char *name) {
    uint8_t kind = 255;
    return jdoc_type(bytes, len, &kind) == JDOC_OK && strcmp(jdoc_kind_text(kind), name) == 0;
}

int main(void) {
    const uint8_t empty_array[] = {0x80, 0, 0, 0}, empty_object[] = {0x40, 0, 0, 0};
    const uint8_t null[] = {0x20, 0, 0, 0, 0, 0, 0, 0}, zero[] = {0x20, 0, 0, 0, 0x20, 0, 0, 1, 0};
    int passed = 0, failed = 0;
    for (uint32_t status = 0; status <= 256; status++) is_told(status) ? passed++ : failed++;
    jdoc_version() == JDOC_VERSION_NUMBER ? passed++ : failed++;
    jdoc_check(empty_array, sizeof empty_array) == JDOC_OK ? passed++ : failed++;
    is_of_type(empty_array, sizeof empty_array, "array") ? passed++ : failed++;
    is_of_type(empty_object, sizeof empty_object, "object") ? passed++ : failed++;
    is_of_type(null, sizeof null, "null") ? passed++ : failed++;
    is_of_type(zero, sizeof zero, "integer") ? passed++ : failed++;
    strcmp(jdoc_kind_text(12), "not a type") == 0 ? passed++ : failed++;
    printf("%d passed, %d failed\n", passed, failed);
    return failed != 0;
}
