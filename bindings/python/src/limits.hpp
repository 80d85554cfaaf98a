// Calls that evaluate the text of a JSON path, with a limit of items or without.
#pragma once

#include "results.hpp"

// A limit of items; None is no limit, as is the greatest number.
struct Limit {
    uint64_t value = UINT64_MAX;
    bool take(PyObject *it) {
        Whole<uint64_t, 0, UINT64_MAX> whole;
        if (it == Py_None) return true;
        return whole.take(it) && (value = whole.number, true);
    }
    bool is_none() const { return value == UINT64_MAX; }
};

// The keyword arguments of these calls.
struct Evaluation {
    Flag strict;
    Limit limit;
    bool take(PyObject *names, PyObject *const *values) {
        Py_ssize_t named = names ? PyTuple_Size(names) : 0;
        for (Py_ssize_t at = 0; at < named; at++)
            if (!take_one(PyTuple_GetItem(names, at), values[at])) return false;
        return true;
    }

  private:
    bool take_one(PyObject *name, PyObject *value) {
        if (!PyUnicode_CompareWithASCIIString(name, "strict")) return strict.take(value);
        if (!PyUnicode_CompareWithASCIIString(name, "limit")) return limit.take(value);
        return PyErr_Format(PyExc_TypeError, "the keyword arguments are strict and limit, not %R", name), false;
    }
};

// A call with a document and the path's text. With a limit the path is prepared, and its call made.
template <auto TEXT_CALL, auto PATH_CALL> struct Evaluated {
    Document document;
    Text text;
    Evaluation how;
    jdoc_path path = {};
    uint32_t read = JDOC_OK;

    Evaluated() = default;
    Evaluated(const Evaluated &) = delete;
    ~Evaluated() { jdoc_path_free(&path); }
    bool take(PyObject *const *arguments, Py_ssize_t count, PyObject *names) {
        if (count != 2) return wrong_count(2, count);
        if (!document.take(arguments[0]) || !text.take(arguments[1]) || !how.take(names, arguments + count))
            return false;
        if (how.limit.is_none()) return true;
        read = jdoc_path_read(text.at, text.length, &path);
        if (read == JDOC_OK) read = jdoc_path_limit(&path, how.limit.value);
        return true;
    }
    template <typename Out> uint32_t call(Out out) {
        if (read != JDOC_OK) return read;
        if (how.limit.is_none())
            return std::apply(TEXT_CALL, std::tuple_cat(document.words(), text.words(), how.strict.words(), out));
        return std::apply(PATH_CALL, std::tuple_cat(std::make_tuple(&path), document.words(), how.strict.words(), out));
    }
};

template <auto TEXT_CALL, auto PATH_CALL, typename Result>
PyObject *evaluate(PyObject *module, PyObject *const *arguments, Py_ssize_t count, PyObject *names) {
    Evaluated<TEXT_CALL, PATH_CALL> it;
    if (!it.take(arguments, count, names)) return nullptr;
    auto call = [&](auto out) { return it.call(out); };
    return Result::of(state_of(module), call, [=] { return Shown{arguments + 1, 1, arguments[0]}; });
}
