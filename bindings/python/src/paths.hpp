// The types Path and KeyPath: prepared paths of the library, each with its text. Calls on one must not overlap: each is
// made with the interpreter's lock, which the stable ABI always has.
#pragma once

#include "items.hpp"
#include "path_predicate.h"

struct PathObject {
    PyObject_HEAD PyObject *text;
    bool strict;
    uint64_t limit;    // of a Path, and UINT64_MAX if it has none
    jdoc_path json;    // of a Path
    jdoc_keypath keys; // of a KeyPath
};

inline PathObject *path_of(PyObject *self) { return reinterpret_cast<PathObject *>(self); }

inline void path_free(PyObject *self) {
    PyTypeObject *type = Py_TYPE(self);
    jdoc_path_free(&path_of(self)->json);
    jdoc_keypath_free(&path_of(self)->keys);
    Py_XDECREF(path_of(self)->text);
    reinterpret_cast<freefunc>(PyType_GetSlot(type, Py_tp_free))(self);
    Py_DECREF(type);
}

template <bool KEY> PyObject *path_new(PyTypeObject *type, PyObject *arguments, PyObject *names) {
    static const char *words[] = {"text", KEY ? nullptr : "strict", KEY ? nullptr : "limit", nullptr};
    PyObject *text, *most = Py_None, *module = PyType_GetModule(type);
    int strict = 0;
    Limit limit;
    Text utf8;
    if (!PyArg_ParseTupleAndKeywords(arguments, names, KEY ? "U" : "U|$pO", const_cast<char **>(words), &text, &strict,
                                     &most))
        return nullptr;
    if (!module || !utf8.take(text) || !limit.take(most)) return nullptr;
    Ref self(reinterpret_cast<allocfunc>(PyType_GetSlot(type, Py_tp_alloc))(type, 0)); // of zeros
    if (!self.it) return nullptr;
    PathObject *it = path_of(self.it);
    it->text = Py_NewRef(text), it->strict = strict, it->limit = limit.value;
    uint32_t status =
        KEY ? jdoc_keypath_read(utf8.at, utf8.length, &it->keys) : jdoc_path_read(utf8.at, utf8.length, &it->json);
    if (!KEY && status == JDOC_OK) status = jdoc_path_limit(&it->json, it->limit);
    return status == JDOC_OK ? self.release() : fail(state_of(module), status, Shown{&text, 1});
}

inline PyObject *key_path_repr(PyObject *self) { return PyUnicode_FromFormat("KeyPath(%R)", path_of(self)->text); }
inline PyObject *path_repr(PyObject *self) {
    const PathObject *it = path_of(self);
    std::string words = it->strict ? ", strict=True" : "";
    if (it->limit != UINT64_MAX) words += ", limit=" + std::to_string(it->limit);
    return PyUnicode_FromFormat("Path(%R%s)", it->text, words.c_str());
}

inline PyObject *path_text(PyObject *self, void *) { return Py_NewRef(path_of(self)->text); }
inline PyObject *path_str(PyObject *self) { return path_text(self, nullptr); }
inline PyObject *path_strict(PyObject *self, void *) { return PyBool_FromLong(path_of(self)->strict); }
inline PyObject *path_limit(PyObject *self, void *) {
    uint64_t limit = path_of(self)->limit;
    return limit == UINT64_MAX ? Py_NewRef(Py_None) : PyLong_FromUnsignedLongLong(limit);
}
inline PyObject *path_predicate(PyObject *self, void *) {
    PyObject *module = PyType_GetModule(Py_TYPE(self));
    Text text;
    if (!module || !text.take(path_of(self)->text)) return nullptr;
    Block room(text.length + 2);
    bool truth = false;
    uint32_t status = room.at ? path_is_predicate(text.at, text.length, reinterpret_cast<char *>(room.at), &truth)
                              : JDOC_OUT_OF_MEMORY;
    return status == JDOC_OK ? PyBool_FromLong(truth) : fail(state_of(module), status);
}
inline Py_hash_t path_hash(PyObject *self) { return PyObject_Hash(path_of(self)->text); }

inline PyObject *path_compare(PyObject *self, PyObject *other, int how) {
    if ((how != Py_EQ && how != Py_NE) || Py_TYPE(self) != Py_TYPE(other)) return Py_NewRef(Py_NotImplemented);
    int same = PyObject_RichCompareBool(path_of(self)->text, path_of(other)->text, Py_EQ);
    if (same < 0) return nullptr;
    bool alike = path_of(self)->strict == path_of(other)->strict && path_of(self)->limit == path_of(other)->limit;
    return PyBool_FromLong((same && alike) == (how == Py_EQ));
}

// For pickle: a function of jsonb_paths.paths that parses the path again.
template <bool KEY> PyObject *path_reduce(PyObject *self, PyObject *) {
    Ref module(PyImport_ImportModule("jsonb_paths.paths"));
    Ref make(module.it ? PyObject_GetAttrString(module.it, KEY ? "_key_path" : "_path") : nullptr);
    const PathObject *it = path_of(self);
    return make.it ? Py_BuildValue("O(OiK)", make.it, it->text, it->strict, (unsigned long long)it->limit) : nullptr;
}

// A call on one document with this path.
template <auto CALL, typename Result> PyObject *by_path(PyObject *self, PyObject *argument) {
    PyObject *module = PyType_GetModule(Py_TYPE(self));
    PathObject *it = path_of(self);
    Document document;
    if (!module || !document.take(argument)) return nullptr;
    auto call = [&](auto out) {
        if constexpr (std::is_invocable_v<decltype(CALL), jdoc_keypath *, const uint8_t *, size_t, Out, size_t,
                                          size_t *>)
            return std::apply(CALL, std::tuple_cat(std::make_tuple(&it->keys), document.words(), out));
        else
            return std::apply(
                CALL, std::tuple_cat(std::make_tuple(&it->json), document.words(), std::make_tuple(it->strict), out));
    };
    return Result::of(state_of(module), call, [=] { return Shown{&it->text, 1, argument, EXPECTED<CALL>}; });
}

inline PyObject *path_select(PyObject *self, PyObject *argument) {
    PyObject *module = PyType_GetModule(Py_TYPE(self));
    PathObject *it = path_of(self);
    Document document;
    if (!module || !document.take(argument)) return nullptr;
    return selected(state_of(module), &it->text, [&](uint8_t *out, size_t size, size_t *length) {
        return jdoc_path_select_array(&it->json, document.at, document.length, it->strict, out, size, length);
    });
}

inline PyObject *path_most_items(PyObject *self, PyObject *argument) {
    PyObject *module = PyType_GetModule(Py_TYPE(self));
    Document document;
    uint64_t bound = 0;
    if (!module || !document.take(argument)) return nullptr;
    uint32_t status = jdoc_path_most_items(&path_of(self)->json, document.at, document.length, &bound);
    return status == JDOC_OK ? PyLong_FromUnsignedLongLong(bound) : fail(state_of(module), status);
}

inline PyGetSetDef PATH_GETS[] = {
    {"text", path_text, nullptr, "The text of the path.", nullptr},
    {"strict", path_strict, nullptr, "Whether the path is strict.", nullptr},
    {"limit", path_limit, nullptr, "The limit of items, or None.", nullptr},
    {"is_predicate", path_predicate, nullptr,
     "Whether the path is a predicate: a comparison, &&, || or exists(..). Other paths have no Boolean result.",
     nullptr},
    {nullptr, nullptr, nullptr, nullptr, nullptr},
};
inline PyGetSetDef KEY_PATH_GETS[] = {
    {"text", path_text, nullptr, "The text of the path.", nullptr},
    {nullptr, nullptr, nullptr, nullptr, nullptr},
};
inline PyMethodDef PATH_CALLS[] = {
    {"exists", by_path<jdoc_path_exists, Ternary>, METH_O,
     "exists($self, document, /)\n--\n\nReturns whether the path selects an item."},
    {"match", by_path<jdoc_path_match, Ternary>, METH_O,
     "match($self, document, /)\n--\n\nReturns the value of the predicate. None: unknown, or the path is not a "
     "predicate."},
    {"select", path_select, METH_O, "select($self, document, /)\n--\n\nReturns each item that the path selects."},
    {"most_items", path_most_items, METH_O,
     "most_items($self, document, /)\n--\n\nReturns the bound of the path on the document, with which a limit is "
     "compared."},
    {"select_first", by_path<jdoc_path_select_first, Bytes>, METH_O,
     "select_first($self, document, /)\n--\n\nReturns the first item that the path selects, or None."},
    {"select_value", by_path<jdoc_path_select_value, Bytes>, METH_O,
     "select_value($self, document, /)\n--\n\nReturns None, the only item, or an array of several."},
    {"select_array", by_path<jdoc_path_select_array, Bytes>, METH_O,
     "select_array($self, document, /)\n--\n\nReturns an array of all items."},
    {"__reduce__", path_reduce<false>, METH_NOARGS, nullptr},
    {nullptr, nullptr, 0, nullptr},
};
inline PyMethodDef KEY_PATH_CALLS[] = {
    {"get", by_path<jdoc_keypath_get, Bytes>, METH_O,
     "get($self, document, /)\n--\n\nReturns the item at the path, or None."},
    {"delete", by_path<jdoc_keypath_delete, Bytes>, METH_O,
     "delete($self, document, /)\n--\n\nReturns the document without the item at the path."},
    {"__reduce__", path_reduce<true>, METH_NOARGS, nullptr},
    {nullptr, nullptr, 0, nullptr},
};

template <typename It> void *slot(It it) { return const_cast<void *>(reinterpret_cast<const void *>(it)); }

inline PyType_Slot PATH_SLOTS[] = {
    {Py_tp_new, slot(path_new<false>)},
    {Py_tp_dealloc, slot(path_free)},
    {Py_tp_repr, slot(path_repr)},
    {Py_tp_str, slot(path_str)},
    {Py_tp_hash, slot(path_hash)},
    {Py_tp_richcompare, slot(path_compare)},
    {Py_tp_getset, PATH_GETS},
    {Py_tp_methods, PATH_CALLS},
    {Py_tp_doc, slot("Path(text, *, strict=False, limit=None)\n--\n\nA JSON path such as $.phones[*].type.")},
    {0, nullptr},
};
inline PyType_Slot KEY_PATH_SLOTS[] = {
    {Py_tp_new, slot(path_new<true>)},
    {Py_tp_dealloc, slot(path_free)},
    {Py_tp_repr, slot(key_path_repr)},
    {Py_tp_str, slot(path_str)},
    {Py_tp_hash, slot(path_hash)},
    {Py_tp_richcompare, slot(path_compare)},
    {Py_tp_getset, KEY_PATH_GETS},
    {Py_tp_methods, KEY_PATH_CALLS},
    {Py_tp_doc, slot("KeyPath(text)\n--\n\nA key path such as {phones,0}.")},
    {0, nullptr},
};
inline PyType_Spec PATH = {"jsonb_paths._core.Path", sizeof(PathObject), 0,
                           Py_TPFLAGS_DEFAULT | Py_TPFLAGS_IMMUTABLETYPE, PATH_SLOTS};
inline PyType_Spec KEY_PATH = {"jsonb_paths._core.KeyPath", sizeof(PathObject), 0,
                               Py_TPFLAGS_DEFAULT | Py_TPFLAGS_IMMUTABLETYPE, KEY_PATH_SLOTS};
