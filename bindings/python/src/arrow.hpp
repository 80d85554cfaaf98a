// The structs of the Arrow C data and stream interfaces, as their specification has them, in capsules.
#pragma once

#include "memory.hpp"
#include "results.hpp"

struct ArrowSchema {
    const char *format, *name, *metadata;
    int64_t flags, n_children;
    ArrowSchema **children, *dictionary;
    void (*release)(ArrowSchema *);
    void *private_data;
};

struct ArrowArray {
    int64_t length, null_count, offset, n_buffers, n_children;
    const void **buffers;
    ArrowArray **children, *dictionary;
    void (*release)(ArrowArray *);
    void *private_data;
};

struct ArrowArrayStream {
    int (*get_schema)(ArrowArrayStream *, ArrowSchema *);
    int (*get_next)(ArrowArrayStream *, ArrowArray *);
    const char *(*get_last_error)(ArrowArrayStream *);
    void (*release)(ArrowArrayStream *);
    void *private_data;
};

constexpr int64_t ARROW_NULLABLE = 2;

inline void schema_release(ArrowSchema *schema) {
    free(schema->private_data);
    schema->release = nullptr;
}

// What releases may be Python, in which an exception that was raised before would get lost.
template <typename It> void capsule_end(PyObject *capsule) {
    PyObject *type, *value, *trace;
    PyErr_Fetch(&type, &value, &trace);
    It *it = static_cast<It *>(PyCapsule_GetPointer(capsule, PyCapsule_GetName(capsule)));
    if (it && it->release) it->release(it);
    free(it);
    PyErr_Restore(type, value, trace);
}

// ARRAYS THAT GO OUT

// The views of the Python objects whose memory an array is.
struct Lent {
    Py_buffer views[3];
    const void *buffers[3];
    int count = 0;
};

inline void array_release(ArrowArray *array) {
    Lent *lent = static_cast<Lent *>(array->private_data);
    PyGILState_STATE held = PyGILState_Ensure(); // any thread may release an array
    for (int at = 0; at < lent->count; at++)
        if (lent->views[at].obj) PyBuffer_Release(&lent->views[at]);
    PyGILState_Release(held);
    delete lent;
    array->release = nullptr;
}

inline PyObject *arrow_schema(PyObject *, PyObject *format) {
    const char *text = PyUnicode_AsUTF8AndSize(format, nullptr);
    if (!text) return nullptr;
    ArrowSchema *schema = static_cast<ArrowSchema *>(calloc(1, sizeof *schema));
    char *copy = strdup(text);
    if (!schema || !copy) return free(schema), free(copy), PyErr_NoMemory();
    schema->format = copy, schema->private_data = copy, schema->name = "";
    schema->flags = ARROW_NULLABLE, schema->release = schema_release;
    PyObject *capsule = PyCapsule_New(schema, "arrow_schema", capsule_end<ArrowSchema>);
    if (!capsule) schema->release(schema), free(schema);
    return capsule;
}

// Holds the memory of an object. None is a missing buffer.
inline bool lend(Lent &lent, PyObject *object) {
    Py_buffer &view = lent.views[lent.count];
    view.obj = nullptr;
    if (object != Py_None && PyObject_GetBuffer(object, &view, PyBUF_SIMPLE)) return false;
    lent.buffers[lent.count++] = object == Py_None ? nullptr : view.buf;
    return true;
}

// (rows, null count, buffers..): an array as a capsule.
inline PyObject *arrow_out(PyObject *, PyObject *const *arguments, Py_ssize_t count, PyObject *) {
    if (count < 3 || count > 5) return wrong_count(4, count), nullptr;
    long long rows = PyLong_AsLongLong(arguments[0]), nulls = PyLong_AsLongLong(arguments[1]);
    if (PyErr_Occurred()) return nullptr;
    ArrowArray *array = static_cast<ArrowArray *>(calloc(1, sizeof *array));
    Lent *lent = new (std::nothrow) Lent();
    if (!array || !lent) return free(array), delete lent, PyErr_NoMemory();
    array->length = rows, array->null_count = nulls, array->n_buffers = count - 2, array->buffers = lent->buffers;
    array->private_data = lent, array->release = array_release;
    bool fine = std::all_of(arguments + 2, arguments + count, [&](PyObject *it) { return lend(*lent, it); });
    PyObject *capsule = fine ? PyCapsule_New(array, "arrow_array", capsule_end<ArrowArray>) : nullptr;
    if (!capsule) array_release(array), free(array);
    return capsule;
}

// ARRAYS THAT COME IN

// Whether positions have 64 bits. Another format than bytes or texts is an error.
inline bool take_format(const ArrowSchema *schema, bool &wide) {
    std::string format(schema->format ? schema->format : "");
    wide = format == "Z" || format == "U";
    if (wide || format == "z" || format == "u") return true;
    PyErr_Format(PyExc_TypeError, "Arrow's binary, large binary, utf8 or large utf8 is expected, not format \"%s\"",
                 format.c_str());
    return false;
}

inline bool is_array_of_bytes(const ArrowArray *array) {
    bool sizes = array->n_buffers == 3 && array->length >= 0 && array->offset >= 0 &&
                 array->offset <= INT64_MAX - 1 - array->length;
    return sizes && (array->offset + array->length == 0 || array->buffers[1]);
}

// Positions of 64 bits from those of 32, or one 0 where an array without rows has none.
inline bool widen(const ArrowArray *array, Block &positions) {
    size_t all = size_t(array->offset + array->length);
    const int32_t *narrow = static_cast<const int32_t *>(array->buffers[1]);
    if (!positions.resize(8 * (all + 1))) return PyErr_NoMemory(), false;
    positions.words()[0] = 0;
    if (all)
        std::transform(narrow, narrow + all + 1, positions.words(), [](int32_t it) { return uint64_t(int64_t(it)); });
    return true;
}

// Moves an array, as the interface requires, into a capsule that the owners of its buffers keep alive.
inline PyObject *move_array(ArrowArray *array) {
    ArrowArray *moved = static_cast<ArrowArray *>(malloc(sizeof *moved));
    if (!moved) return PyErr_NoMemory();
    *moved = *array;
    array->release = nullptr;
    PyObject *owner = PyCapsule_New(moved, "moved", capsule_end<ArrowArray>);
    if (!owner) moved->release(moved), free(moved);
    return owner;
}

// (schema, array): the format, rows, first row, null count, validity or None, positions of 64 bits and bytes of an
// array.
inline PyObject *arrow_in(PyObject *module, PyObject *const *arguments, Py_ssize_t count, PyObject *) {
    State *state = state_of(module);
    Block positions;
    bool wide;
    if (count != 2) return wrong_count(2, count), nullptr;
    ArrowSchema *schema = static_cast<ArrowSchema *>(PyCapsule_GetPointer(arguments[0], "arrow_schema"));
    ArrowArray *array = schema ? static_cast<ArrowArray *>(PyCapsule_GetPointer(arguments[1], "arrow_array")) : nullptr;
    if (!array) return nullptr;
    if (!schema->release || !array->release)
        return PyErr_SetString(PyExc_ValueError, "the Arrow array was moved before"), nullptr;
    if (!take_format(schema, wide)) return nullptr;
    if (!is_array_of_bytes(array)) return PyErr_SetString(PyExc_ValueError, "not an Arrow array of bytes"), nullptr;
    size_t all = size_t(array->offset + array->length);
    bool widened = !wide || !all;
    if (widened && !widen(array, positions)) return nullptr;
    int64_t last = int64_t(widened ? positions.words()[all] : static_cast<const uint64_t *>(array->buffers[1])[all]);
    if (last < 0) return fail(state, JDOC_BAD_OFFSETS);
    ArrowArray was = *array;
    Ref owner(move_array(array));
    if (!owner.it) return nullptr;
    auto view = [&](const void *at, size_t length) { return view_of(state, const_cast<void *>(at), length, owner.it); };
    Ref validity(was.buffers[0] && was.null_count ? view(was.buffers[0], (all + 7) / 8) : Py_NewRef(Py_None));
    Ref bytes(view(was.buffers[2], size_t(last)));
    Ref places(widened ? positions.view(state, 8 * (all + 1)) : view(was.buffers[1], 8 * (all + 1)));
    if (!validity.it || !bytes.it || !places.it) return nullptr;
    return Py_BuildValue("sLLLOOO", schema->format, was.length, was.offset, was.null_count, validity.it, places.it,
                         bytes.it);
}

// STREAMS THAT COME IN

// A capsule with a struct that a function of the stream fills.
template <typename It>
PyObject *next_of(ArrowArrayStream *stream, int (*call)(ArrowArrayStream *, It *), const char *name) {
    It *it = static_cast<It *>(calloc(1, sizeof *it));
    if (!it) return PyErr_NoMemory();
    if (int code = call(stream, it)) {
        const char *what = stream->get_last_error(stream);
        free(it);
        return PyErr_Format(PyExc_OSError, "the Arrow stream failed: %s", what ? what : strerror(code));
    }
    PyObject *capsule = PyCapsule_New(it, name, capsule_end<It>);
    if (!capsule && it->release) it->release(it);
    if (!capsule) free(it);
    return capsule;
}

// The schema of a stream, and a list of its arrays. The capsule of the stream releases it.
inline PyObject *arrow_stream(PyObject *, PyObject *capsule) {
    void *found = PyCapsule_GetPointer(capsule, "arrow_array_stream");
    ArrowArrayStream *stream = static_cast<ArrowArrayStream *>(found);
    if (!stream) return nullptr;
    if (!stream->release) return PyErr_SetString(PyExc_ValueError, "the Arrow stream was moved before"), nullptr;
    Ref schema(next_of(stream, stream->get_schema, "arrow_schema")), arrays(PyList_New(0));
    while (schema.it && arrays.it) {
        Ref array(next_of(stream, stream->get_next, "arrow_array"));
        if (!array.it) return nullptr;
        // An array that is released is the end.
        bool is_end = !static_cast<ArrowArray *>(PyCapsule_GetPointer(array.it, "arrow_array"))->release;
        if (is_end) return Py_BuildValue("OO", schema.it, arrays.it);
        if (PyList_Append(arrays.it, array.it)) return nullptr;
    }
    return nullptr;
}
