/* A document from events: cc events.c $(pkg-config --cflags --libs jdoc) */
#include <jdoc.h>

#include <stdio.h>
#include <string.h>

static enum jdoc_status add_person(jdoc_builder *builder, const char *name, uint64_t age) {
    enum jdoc_status status = jdoc_builder_begin_object(builder);
    if (status == JDOC_OK) status = jdoc_builder_key(builder, "name", 4);
    if (status == JDOC_OK) status = jdoc_builder_str(builder, name, strlen(name));
    if (status == JDOC_OK) status = jdoc_builder_key(builder, "age", 3);
    if (status == JDOC_OK) status = jdoc_builder_u64(builder, age);
    return status == JDOC_OK ? jdoc_builder_end(builder) : status;
}

int main(void) {
    jdoc_builder builder = {0};
    uint8_t people[128];
    size_t len = 0, count = 0;
    enum jdoc_status status = jdoc_builder_begin_array(&builder);
    if (status == JDOC_OK) status = add_person(&builder, "Ann", 31);
    if (status == JDOC_OK) status = add_person(&builder, "Bob", 47);
    if (status == JDOC_OK) status = jdoc_builder_end(&builder);
    if (status == JDOC_OK) status = jdoc_builder_finish(&builder, people, sizeof people, &len);
    jdoc_builder_free(&builder);
    if (status == JDOC_OK) status = jdoc_len(people, len, &count);
    if (status != JDOC_OK) return fprintf(stderr, "%s\n", jdoc_status_text(status)), 1;
    printf("%zu people in %zu bytes\n", count, len);
    return 0;
}
