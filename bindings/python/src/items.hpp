// The items of a document as separate documents: elements, members, leaves, and what a path selects.
#pragma once

#include "limits.hpp"
#include "values.hpp"

inline PyObject *document_of(const jdoc_event &item) {
    PyObject *made = PyBytes_FromStringAndSize(nullptr, Py_ssize_t(jdoc_item_size(&item)));
    if (made) jdoc_item_write(&item, reinterpret_cast<uint8_t *>(PyBytes_AsString(made)));
    return made;
}

inline PyObject *pair_of(State *state, const jdoc_event &item) {
    Ref key(key_of(state, item.key, item.key_len)), value(key.it ? document_of(item) : nullptr);
    return value.it ? PyTuple_Pack(2, key.it, value.it) : nullptr;
}

// A list of the elements of an array, or of the pairs of an object.
inline PyObject *children_of(State *state, const uint8_t *document, size_t length, bool object) {
    jdoc_cursor cursor;
    jdoc_event root, item;
    uint32_t status = jdoc_check(document, length);
    if (status == JDOC_OK) status = jdoc_root(&root, document, length);
    if (status == JDOC_OK && (root.kind != JDOC_EVENT_BEGIN || root.object != object))
        return object ? fail(state, JDOC_INVALID_OBJECT, mistyped({"pairs", "an object"}, document, length))
                      : fail(state, JDOC_INVALID_JSON_TYPE, mistyped({"elements", "an array"}, document, length));
    if (status == JDOC_OK) status = jdoc_cursor_open(document, length, &cursor);
    Ref list(status == JDOC_OK ? PyList_New(root.count) : fail(state, status));
    for (Py_ssize_t at = 0; list.it && (status = jdoc_next_item(document, length, &cursor, &item)) == JDOC_OK; at++) {
        PyObject *made = object ? pair_of(state, item) : document_of(item);
        if (!made || PyList_SetItem(list.it, at, made)) return nullptr;
    }
    return !list.it || status == JDOC_NONE ? list.release() : fail(state, status);
}

template <bool OBJECT> PyObject *children(PyObject *module, PyObject *argument) {
    Document document;
    return document.take(argument) ? children_of(state_of(module), document.at, document.length, OBJECT) : nullptr;
}

// A list of the elements of the array that `select` writes; the path is for an exception.
template <typename Select> PyObject *selected(State *state, PyObject *const *path, Select select) {
    uint8_t small[1024];
    Block large;
    size_t length;
    uint32_t status = select(small, sizeof small, &length);
    if (status == JDOC_OK) return children_of(state, small, length, false);
    if (status == JDOC_BUFFER_TOO_SMALL) {
        if (!large.resize(length)) return PyErr_NoMemory();
        status = select(large.at, large.size, &length);
    }
    return status == JDOC_OK ? children_of(state, large.at, length, false) : fail(state, status, Shown{path, 1});
}

inline PyObject *select_items(PyObject *module, PyObject *const *arguments, Py_ssize_t count, PyObject *names) {
    Evaluated<jdoc_select_array, jdoc_path_select_array> it;
    if (!it.take(arguments, count, names)) return nullptr;
    return selected(state_of(module), arguments + 1, [&](uint8_t *out, size_t size, size_t *length) {
        return it.call(std::make_tuple(out, size, length));
    });
}

inline PyObject *leaf_pair(const Block &paths, const uint64_t *path, const Block &documents, const uint64_t *document) {
    return Py_BuildValue("s#y#", paths.at + path[0], Py_ssize_t(path[1] - path[0]), documents.at + document[0],
                         Py_ssize_t(document[1] - document[0]));
}

// A list of key paths with documents.
inline PyObject *leaves(PyObject *module, PyObject *argument) {
    State *state = state_of(module);
    Document document;
    if (!document.take(argument)) return nullptr;
    jdoc_leaf_sizes need;
    uint32_t status = jdoc_leaves(document.at, document.length, nullptr, 0, nullptr, 0, nullptr, 0, nullptr, 0, &need);
    if (status != JDOC_BUFFER_TOO_SMALL) return status == JDOC_OK ? PyList_New(0) : fail(state, status);
    size_t places = need.rows + 1;
    Block paths(need.path_bytes), path_ends(8 * places), documents(need.document_bytes), ends(8 * places);
    if (!paths.at || !path_ends.at || !documents.at || !ends.at) return PyErr_NoMemory();
    status = jdoc_leaves(document.at, document.length, reinterpret_cast<char *>(paths.at), paths.size,
                         path_ends.words(), places, documents.at, documents.size, ends.words(), places, &need);
    if (status != JDOC_OK) return fail(state, status);
    Ref list(PyList_New(Py_ssize_t(need.rows)));
    for (size_t row = 0; list.it && row < need.rows; row++) {
        PyObject *pair = leaf_pair(paths, path_ends.words() + row, documents, ends.words() + row);
        if (!pair || PyList_SetItem(list.it, Py_ssize_t(row), pair)) return nullptr;
    }
    return list.release();
}
