/* JSON lines to documents by a reader: that of bindings/text, yajl or RapidJSON. Those pass their events to a tape of
 * bindings/text, numbers as text, so that all write the document in the same way and none rounds. yajl passes them to a
 * jdoc_builder too. Two more read as bindings/text does and then visit each item of the document: by a walk of
 * bindings/text, and by jdoc_check and jdoc_cursor_next.
 *
 *   readers READER ROWS FILE [OUT]     READER is text, yajl, rapidjson, builder, walk or cursor; OUT gets the documents
 *                                      one after the other, or the numbers of their items
 *
 * bindings/bench/readers.py counts their instructions. */
#include "jdoc_text.h"

#include <rapidjson/reader.h>
#include <yajl/yajl_parse.h>

#include <charconv>
#include <cstdio>
#include <cstdlib>
#include <fstream>
#include <string>
#include <vector>

namespace {

const jdoc_heap HEAP = {std::realloc, std::free};

jdoc_tape *tape_of(void *context) { return static_cast<jdoc_tape *>(context); }
const char *chars(const unsigned char *text) { return reinterpret_cast<const char *>(text); }

const yajl_callbacks CALLBACKS = {
    [](void *it) -> int { return jdoc_tape_null(tape_of(it)); },
    [](void *it, int value) -> int { return jdoc_tape_bool(tape_of(it), value != 0); },
    nullptr,
    nullptr,
    [](void *it, const char *text, size_t len) -> int { return jdoc_tape_number(tape_of(it), text, len); },
    [](void *it, const unsigned char *text, size_t len) -> int {
        return jdoc_tape_string(tape_of(it), chars(text), len);
    },
    [](void *it) -> int { return jdoc_tape_begin(tape_of(it), true); },
    [](void *it, const unsigned char *text, size_t len) -> int { return jdoc_tape_key(tape_of(it), chars(text), len); },
    [](void *it) -> int { return jdoc_tape_end(tape_of(it)); },
    [](void *it) -> int { return jdoc_tape_begin(tape_of(it), false); },
    [](void *it) -> int { return jdoc_tape_end(tape_of(it)); },
};

bool parse(const yajl_callbacks *calls, void *context, const std::string &line) {
    yajl_handle reader = yajl_alloc(calls, nullptr, context);
    const bool fine =
        yajl_parse(reader, reinterpret_cast<const unsigned char *>(line.data()), line.size()) == yajl_status_ok &&
        yajl_complete_parse(reader) == yajl_status_ok;
    yajl_free(reader);
    return fine;
}

bool read_yajl(jdoc_tape *tape, const std::string &line) {
    jdoc_tape_clear(tape);
    return parse(&CALLBACKS, tape, line);
}

struct Handler : rapidjson::BaseReaderHandler<rapidjson::UTF8<>, Handler> {
    jdoc_tape *tape;
    explicit Handler(jdoc_tape *to) : tape(to) {}
    bool Null() { return jdoc_tape_null(tape); }
    bool Bool(bool value) { return jdoc_tape_bool(tape, value); }
    bool RawNumber(const char *text, rapidjson::SizeType len, bool) { return jdoc_tape_number(tape, text, len); }
    bool String(const char *text, rapidjson::SizeType len, bool) { return jdoc_tape_string(tape, text, len); }
    bool Key(const char *text, rapidjson::SizeType len, bool) { return jdoc_tape_key(tape, text, len); }
    bool StartObject() { return jdoc_tape_begin(tape, true); }
    bool EndObject(rapidjson::SizeType) { return jdoc_tape_end(tape); }
    bool StartArray() { return jdoc_tape_begin(tape, false); }
    bool EndArray(rapidjson::SizeType) { return jdoc_tape_end(tape); }
};

bool read_rapidjson(jdoc_tape *tape, const std::string &line) {
    static rapidjson::Reader reader;
    rapidjson::StringStream text(line.c_str());
    Handler handler(tape);
    jdoc_tape_clear(tape);
    return bool(reader.Parse<rapidjson::kParseIterativeFlag | rapidjson::kParseNumbersAsStringsFlag>(text, handler));
}

bool read_text(jdoc_tape *tape, const std::string &line) {
    return jdoc_read_text(tape, line.data(), line.size()) == JDOC_OK;
}

using bytes = std::vector<std::uint8_t>;

/* The document of a tape that one of these fills. */
template <bool (*read)(jdoc_tape *, const std::string &)>
bool by_tape(jdoc_tape *tape, const std::string &line, bytes &document) {
    if (!read(tape, line)) return false;
    document.resize(jdoc_tape_size(tape));
    return jdoc_tape_write(tape, document.data()) == JDOC_OK;
}

/* EVENTS TO A BUILDER */

jdoc_builder *builder_of(void *context) { return static_cast<jdoc_builder *>(context); }

/* Of a number of the measured documents, which are integers from 0 to 2^64 - 1. */
int add_integer(void *it, const char *text, size_t len) {
    std::uint64_t value = 0;
    const auto [end, error] = std::from_chars(text, text + len, value);
    return error == std::errc() && end == text + len && jdoc_builder_u64(builder_of(it), value) == JDOC_OK;
}

const yajl_callbacks TO_BUILDER = {
    [](void *it) -> int { return jdoc_builder_null(builder_of(it)) == JDOC_OK; },
    [](void *it, int value) -> int { return jdoc_builder_bool(builder_of(it), value != 0) == JDOC_OK; },
    nullptr,
    nullptr,
    add_integer,
    [](void *it, const unsigned char *text, size_t len) -> int {
        return jdoc_builder_str(builder_of(it), chars(text), len) == JDOC_OK;
    },
    [](void *it) -> int { return jdoc_builder_begin_object(builder_of(it)) == JDOC_OK; },
    [](void *it, const unsigned char *text, size_t len) -> int {
        return jdoc_builder_key(builder_of(it), chars(text), len) == JDOC_OK;
    },
    [](void *it) -> int { return jdoc_builder_end(builder_of(it)) == JDOC_OK; },
    [](void *it) -> int { return jdoc_builder_begin_array(builder_of(it)) == JDOC_OK; },
    [](void *it) -> int { return jdoc_builder_end(builder_of(it)) == JDOC_OK; },
};

bool by_builder(jdoc_tape *, const std::string &line, bytes &document) {
    jdoc_builder builder{};
    bool fine = parse(&TO_BUILDER, &builder, line);
    std::size_t len = 0;
    document.resize(2 * line.size() + 16); // enough for these documents
    fine = fine && jdoc_builder_finish(&builder, document.data(), document.size(), &len) == JDOC_OK;
    jdoc_builder_free(&builder);
    document.resize(len);
    return fine;
}

/* EACH ITEM OF A DOCUMENT */

void put_count(std::uint64_t count, bytes &out) {
    const std::string text = std::to_string(count) + "\n";
    out.assign(text.begin(), text.end());
}

bool by_walk(jdoc_tape *tape, const std::string &line, bytes &document) {
    jdoc_walk walk;
    jdoc_event event;
    std::uint64_t count = 0;
    std::uint32_t status = JDOC_OK;
    if (!by_tape<read_text>(tape, line, document)) return false;
    status = jdoc_walk_init(&walk, HEAP, document.data(), document.size());
    while (status == JDOC_OK && (status = jdoc_walk_next(&walk, &event)) == JDOC_OK)
        count += event.kind != JDOC_EVENT_END;
    jdoc_walk_free(&walk);
    put_count(count, document);
    return status == JDOC_NONE;
}

/* The items of a container, with itself, or 0. */
std::uint64_t items_of(const std::uint8_t *container, std::size_t len) {
    jdoc_cursor cursor;
    jdoc_event item;
    std::uint64_t count = 1;
    std::uint32_t status = jdoc_cursor_open(container, len, &cursor);
    while (status == JDOC_OK && (status = jdoc_next_item(container, len, &cursor, &item)) == JDOC_OK)
        count += item.kind == JDOC_EVENT_BEGIN ? items_of(item.bytes, item.len) : 1;
    return status == JDOC_NONE ? count : 0;
}

bool by_cursor(jdoc_tape *tape, const std::string &line, bytes &document) {
    if (!by_tape<read_text>(tape, line, document)) return false;
    if (jdoc_check(document.data(), document.size()) != JDOC_OK) return false;
    put_count(items_of(document.data(), document.size()), document);
    return true;
}

const struct {
    const char *name;
    bool (*read)(jdoc_tape *, const std::string &, bytes &);
} READERS[] = {
    {"text", by_tape<read_text>}, {"yajl", by_tape<read_yajl>}, {"rapidjson", by_tape<read_rapidjson>},
    {"builder", by_builder},      {"walk", by_walk},            {"cursor", by_cursor},
};

} // namespace

int main(int argc, char **argv) {
    if (argc < 4) return 2;
    bool (*read)(jdoc_tape *, const std::string &, bytes &) = nullptr;
    for (const auto &it : READERS)
        if (it.name == std::string(argv[1])) read = it.read;
    if (!read) return 2;
    std::ifstream file(argv[3]);
    bytes document;
    std::string line;
    jdoc_tape tape;
    jdoc_tape_init(&tape, HEAP, 0);
    std::FILE *out = argc > 4 ? std::fopen(argv[4], "wb") : nullptr;
    for (long rows = std::atol(argv[2]); rows > 0 && std::getline(file, line); rows--) {
        if (!read(&tape, line, document)) return 1;
        if (out) std::fwrite(document.data(), 1, document.size(), out);
    }
    jdoc_tape_free(&tape);
    return out && std::fclose(out) ? 1 : 0;
}
