// JSON text: one document, and lines as a column.
#pragma once

#include "memory.hpp"
#include "results.hpp"

#include <vector>

// A JSON text: a str, or the bytes of its UTF-8.
struct Json : Memory {
    Text text;
    bool take(PyObject *it) {
        if (!PyUnicode_Check(it)) return Memory::take(it, "a JSON text is a str, or");
        if (!text.take(it)) return false;
        at = reinterpret_cast<const uint8_t *>(text.at), length = text.length;
        return true;
    }
    const char *start() const { return reinterpret_cast<const char *>(at); }
};

// The words floats="error" or "decimal", and duplicates="error" or "last", as options of a tape.
inline bool take_option(unsigned &options, PyObject *name, PyObject *value) {
    static const struct {
        const char *name, *value;
        unsigned option;
    } known[] = {{"floats", "error", 0},
                 {"floats", "decimal", JDOC_ROUND_NUMBERS},
                 {"duplicates", "error", 0},
                 {"duplicates", "last", JDOC_KEEP_LAST}};
    if (PyUnicode_Check(value))
        for (auto &it : known)
            if (!PyUnicode_CompareWithASCIIString(name, it.name) && !PyUnicode_CompareWithASCIIString(value, it.value))
                return options |= it.option, true;
    return PyErr_Format(PyExc_TypeError, "floats is 'error' or 'decimal', and duplicates 'error' or 'last', not %U=%.60A",
                        name, value),
           false;
}

inline bool take_options(unsigned &options, PyObject *const *values, PyObject *names) {
    options = 0;
    for (Py_ssize_t at = 0; names && at < PyTuple_Size(names); at++)
        if (!take_option(options, PyTuple_GetItem(names, at), values[at])) return false;
    return true;
}

inline std::string said(const jdoc_tape &tape, const char *text, size_t length) {
    if (tape.what) return tape.what;
    if (tape.status != JDOC_UNSUPPORTED_NUMBER || tape.at > length) return "";
    const char *from = text + tape.at, *most = from + std::min<size_t>(length - tape.at, 60);
    return std::string(from, std::find_if(from, most, [](char it) { return !strchr("+-0123456789.eE", it) || !it; }));
}

inline PyObject *fail_text(State *state, const jdoc_tape &tape, const char *text, size_t length) {
    bool has_place = tape.status != JDOC_OUT_OF_MEMORY && tape.status != JDOC_TOO_LARGE;
    Ref place(has_place ? PyLong_FromSize_t(tape.at) : Py_NewRef(Py_None));
    return place.it ? fail(state, tape.status, said(tape, text, length), Py_None, place.it) : nullptr;
}

// (text, *, floats, duplicates): the document of a JSON text.
inline PyObject *from_json(PyObject *module, PyObject *const *arguments, Py_ssize_t count, PyObject *names) {
    State *state = state_of(module);
    Json text;
    unsigned options;
    if (count != 1) return wrong_count(1, count), nullptr;
    if (!text.take(arguments[0]) || !take_options(options, arguments + 1, names)) return nullptr;
    Lease<Tape> tape(state->tape);
    tape->options = options;
    uint32_t status =
        without_lock(text.length > LARGE, [&] { return jdoc_read_text(&*tape, text.start(), text.length); });
    if (status != JDOC_OK) return fail_text(state, *tape, text.start(), text.length);
    Ref made(PyBytes_FromStringAndSize(nullptr, Py_ssize_t(jdoc_tape_size(&*tape))));
    if (!made.it) return nullptr;
    uint8_t *out = reinterpret_cast<uint8_t *>(PyBytes_AsString(made.it));
    status = without_lock(text.length > LARGE, [&] { return jdoc_write_read(&*tape, text.start(), text.length, out); });
    return status == JDOC_OK ? made.release() : fail_text(state, *tape, text.start(), text.length);
}

inline PyObject *to_json(PyObject *module, PyObject *argument) {
    State *state = state_of(module);
    Document document;
    if (!document.take(argument)) return nullptr;
    Lease<Buffer> out(state->buffer);
    out->len = 0;
    bool large = document.length > LARGE && !document.held; // only bytes do not change meanwhile
    uint32_t status = without_lock(large, [&] { return jdoc_write_text(&*out, document.at, document.length, 0); });
    if (status == JDOC_OK) return PyUnicode_DecodeUTF8(out->bytes, Py_ssize_t(out->len), nullptr);
    return fail(state, status,
                status == JDOC_INVALID_JSON_TYPE ? "an extension value, such as a date, has no JSON text" : "");
}

// LINES

// A line that is not a document: its row, and its error.
struct WrongLine {
    size_t row;
    uint32_t status;
    size_t at;
    std::string what;
};

struct Lines {
    Block documents;
    std::vector<uint64_t> positions = {0}, spans; // of each text: its first byte, and its length
    std::vector<WrongLine> wrong;
    Tape tape;

    // Adds the row of a text that was read with this status. False: no memory.
    bool add(const char *start, const char *from, size_t length, uint32_t status) {
        size_t size = jdoc_tape_size(&tape);
        if (status == JDOC_OK) {
            if (documents.size - documents.length < size &&
                !documents.resize(documents.size + documents.size / 2 + size))
                return false;
            status = jdoc_write_read(&tape, from, length, documents.at + documents.length);
        }
        if (status == JDOC_OUT_OF_MEMORY) return false;
        if (status == JDOC_OK)
            documents.length += size;
        else
            wrong.push_back({positions.size() - 1, status, tape.at, said(tape, from, length)});
        positions.push_back(documents.length);
        spans.push_back(uint64_t(from - start)), spans.push_back(length);
        return true;
    }

    // Reads each line that is not blank.
    bool read_lines(const char *start, size_t length) {
        const char *end = start + length;
        for (const char *at = start; at < end;) {
            const char *stop = static_cast<const char *>(memchr(at, '\n', size_t(end - at)));
            if (!stop) stop = end;
            const char *from = std::find_if(at, stop, [](char it) { return it != ' ' && it != '\t' && it != '\r'; });
            size_t size = size_t(stop - from);
            if (size && !add(start, from, size, jdoc_read_text(&tape, from, size))) return false;
            at = stop + 1;
        }
        return true;
    }

    // Reads JSON values in any layout, one after the other, up to the first error.
    bool read_texts(const char *start, size_t length) {
        size_t at = 0, used = 0;
        uint32_t status = JDOC_OK;
        while (status == JDOC_OK) {
            status = jdoc_read_next(&tape, start + at, length - at, &used);
            if (status == JDOC_NONE) return true;
            size_t size = status == JDOC_OK ? used : length - at;
            if (!add(start, start + at, size, status)) return false;
            at += used;
        }
        return true;
    }
};

inline PyObject *view_of_words(State *state, const std::vector<uint64_t> &words) {
    Block block(8 * words.size());
    if (!block.at) return PyErr_NoMemory();
    if (!words.empty()) memcpy(block.at, words.data(), 8 * words.size());
    return block.view(state, 8 * words.size());
}

inline PyObject *wrong_lines(const std::vector<WrongLine> &wrong) {
    Ref list(PyList_New(0));
    for (auto &it : wrong) {
        Ref what(PyUnicode_DecodeUTF8(it.what.data(), Py_ssize_t(it.what.size()), "replace"));
        Ref row(what.it && list.it
                    ? Py_BuildValue("nIKO", Py_ssize_t(it.row), it.status, (unsigned long long)it.at, what.it)
                    : nullptr);
        if (!row.it || PyList_Append(list.it, row.it)) return nullptr;
    }
    return list.release();
}

// (text, *, floats, duplicates): JSON texts as a column: bytes, positions, where each text is, and the texts that have
// no document, whose rows are empty. With LINES each is a line; blank lines are not rows.
template <bool LINES>
PyObject *texts_in(PyObject *module, PyObject *const *arguments, Py_ssize_t count, PyObject *names) {
    State *state = state_of(module);
    Memory text;
    Lines lines;
    unsigned options;
    if (count != 1) return wrong_count(1, count), nullptr;
    if (!text.take(arguments[0], "JSON lines") || !take_options(options, arguments + 1, names)) return nullptr;
    lines.tape.options = options;
    bool fine = without_lock(true, [&] {
        const char *start = reinterpret_cast<const char *>(text.at);
        if (!lines.documents.resize(text.length + text.length / 2 + 64)) return false;
        return LINES ? lines.read_lines(start, text.length) : lines.read_texts(start, text.length);
    });
    if (!fine) return PyErr_NoMemory();
    Ref wrong(wrong_lines(lines.wrong)), positions(view_of_words(state, lines.positions)),
        spans(view_of_words(state, lines.spans));
    Ref bytes(lines.documents.view(state, lines.documents.length));
    return wrong.it && positions.it && spans.it && bytes.it
               ? PyTuple_Pack(4, bytes.it, positions.it, spans.it, wrong.it)
               : nullptr;
}

// How rows become lines.
enum : long { EACH_ELEMENT = 1, RAW_STRINGS = 2 };

struct LineWriter {
    const Column &column;
    const uint8_t *statuses;
    long how;
    Buffer out;
    std::string copy;
    size_t lines = 0, row = 0;

    uint32_t write(const jdoc_event &item) {
        uint32_t status = JDOC_OK;
        if ((how & RAW_STRINGS) && item.kind == JDOC_EVENT_STRING)
            status =
                jdoc_append(&out, reinterpret_cast<const char *>(item.bytes), item.len) ? JDOC_OK : JDOC_OUT_OF_MEMORY;
        else
            status = jdoc_write_item(&out, &item, 0);
        if (status == JDOC_OK && !jdoc_append(&out, "\n", 1)) status = JDOC_OUT_OF_MEMORY;
        lines++;
        return status;
    }

    uint32_t write_elements(const uint8_t *document, size_t length) {
        jdoc_cursor cursor;
        jdoc_event item;
        uint32_t status = jdoc_cursor_open(document, length, &cursor);
        while (status == JDOC_OK && (status = jdoc_next_item(document, length, &cursor, &item)) == JDOC_OK)
            if ((status = write(item)) != JDOC_OK) return status;
        return status == JDOC_NONE ? uint32_t(JDOC_OK) : status;
    }

    // A row is copied, so that another thread can't change it after it was checked.
    uint32_t write_row() {
        uint64_t first = column.offsets[row], end = column.offsets[row + 1];
        jdoc_event root;
        if (!column.holds(first, end)) return JDOC_BAD_OFFSETS;
        copy.assign(reinterpret_cast<const char *>(column.bytes.at + first), end - first);
        const uint8_t *document = reinterpret_cast<const uint8_t *>(copy.data());
        uint32_t status = jdoc_check(document, copy.size());
        if (status == JDOC_OK) status = jdoc_root(&root, document, copy.size());
        if (status != JDOC_OK) return status;
        bool elements = (how & EACH_ELEMENT) && root.kind == JDOC_EVENT_BEGIN && !root.object;
        return elements ? write_elements(document, copy.size()) : write(root);
    }

    uint32_t write_rows() {
        for (row = 0; row < column.rows(); row++) {
            uint32_t status = statuses && statuses[row] ? uint32_t(JDOC_OK) : write_row();
            if (status != JDOC_OK) return status;
        }
        return JDOC_OK;
    }
};

// (bytes, positions, statuses or None, how): the rows whose status is 0 as JSON lines, and how many lines they are.
inline PyObject *lines_out(PyObject *module, PyObject *const *arguments, Py_ssize_t count, PyObject *) {
    State *state = state_of(module);
    Column column;
    Memory statuses;
    if (count != 4) return wrong_count(4, count), nullptr;
    if (!column.take(arguments[0], arguments[1])) return nullptr;
    if (arguments[2] != Py_None && !statuses.take(arguments[2], "statuses")) return nullptr;
    if (arguments[2] != Py_None && statuses.length != column.rows())
        return PyErr_SetString(PyExc_ValueError, "statuses have a byte for each row"), nullptr;
    LineWriter writer{column, arguments[2] == Py_None ? nullptr : statuses.at, PyLong_AsLong(arguments[3]), {}, {}, 0,
                      0};
    if (PyErr_Occurred()) return nullptr;
    uint32_t status = without_lock(true, [&] { return writer.write_rows(); });
    if (status == JDOC_OK)
        return Py_BuildValue("y#n", writer.out.bytes ? writer.out.bytes : "", Py_ssize_t(writer.out.len),
                             Py_ssize_t(writer.lines));
    Ref row(PyLong_FromSize_t(writer.row));
    return row.it ? fail(state, status, "", row.it) : nullptr;
}
