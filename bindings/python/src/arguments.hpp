// Arguments: how each type is converted from Python to C. `take` reads one; `words` returns the arguments of the call.
#pragma once

#include "python.hpp"

#include <cstring>
#include <tuple>
#include <type_traits>

// Memory that is read through the buffer protocol. Its length is that of the buffer, which may differ from len().
struct Memory {
    Py_buffer view;
    bool held = false;
    const uint8_t *at = nullptr;
    size_t length = 0;

    Memory() = default;
    Memory(const Memory &) = delete;
    ~Memory() {
        if (held) PyBuffer_Release(&view);
    }
    bool take(PyObject *it, const char *what = "a document (from_json and dumps return one)") {
        if (PyBytes_CheckExact(it)) {
            at = reinterpret_cast<const uint8_t *>(PyBytes_AsString(it)), length = size_t(PyBytes_Size(it));
            return true;
        }
        if (PyObject_GetBuffer(it, &view, PyBUF_SIMPLE)) return not_taken(it, what);
        held = true, at = static_cast<const uint8_t *>(view.buf), length = size_t(view.len);
        return true;
    }

  private:
    static bool not_taken(PyObject *it, const char *what) {
        if (PyErr_ExceptionMatches(PyExc_TypeError))
            PyErr_Format(PyExc_TypeError, "%s is bytes or another buffer, not %R", what, Py_TYPE(it));
        else if (!PyErr_ExceptionMatches(PyExc_MemoryError))
            PyErr_Format(PyExc_TypeError, "%s must be contiguous memory that is not released", what);
        return false;
    }
};

struct Document : Memory {
    auto words() const { return std::make_tuple(at, length); }
};

// A str, as UTF-8. Half of a surrogate pair becomes three bytes that are not UTF-8, which the library rejects
// (NotUtf8).
struct Text {
    const char *at = nullptr;
    size_t length = 0;
    Ref encoded;

    bool take(PyObject *it) {
        if (!PyUnicode_Check(it)) return PyErr_Format(PyExc_TypeError, "a path or a name is a str, not %R", Py_TYPE(it)), false;
        Py_ssize_t size;
        at = PyUnicode_AsUTF8AndSize(it, &size);
        if (!at && PyErr_ExceptionMatches(PyExc_UnicodeEncodeError)) return take_surrogates(it);
        length = size_t(size);
        return at;
    }
    auto words() const { return std::make_tuple(at, length); }

  private:
    bool take_surrogates(PyObject *it) {
        PyErr_Clear();
        encoded.it = PyUnicode_AsEncodedString(it, "utf-8", "surrogatepass");
        if (!encoded.it) return false;
        at = PyBytes_AsString(encoded.it), length = size_t(PyBytes_Size(encoded.it));
        return true;
    }
};

template <typename Number, long long LEAST, unsigned long long MOST> struct Whole {
    Number number = 0;
    bool take(PyObject *it) {
        Ref whole(PyNumber_Index(it));
        if (!whole.it) return false;
        int over;
        long long value = PyLong_AsLongLongAndOverflow(whole.it, &over);
        if (over > 0 && MOST > INT64_MAX) {
            number = Number(PyLong_AsUnsignedLongLong(whole.it));
            return !PyErr_Occurred();
        }
        if (over || value < LEAST || (value > 0 && (unsigned long long)value > MOST))
            return PyErr_Format(PyExc_OverflowError, "expected an integer from %lld to %llu", LEAST, MOST), false;
        return number = Number(value), true;
    }
    auto words() const { return std::make_tuple(number); }
};
using Index = Whole<int32_t, INT32_MIN, INT32_MAX>;
using Size = Whole<size_t, 0, SIZE_MAX>;

struct Flag {
    bool value = false;
    bool take(PyObject *it) {
        int truth = PyObject_IsTrue(it);
        return value = truth > 0, truth >= 0;
    }
    auto words() const { return std::make_tuple(value); }
};

// A column: bytes, and positions that are aligned native integers of 64 bits.
struct Column {
    Memory bytes;
    Py_buffer view;
    bool held = false;
    const uint64_t *offsets = nullptr;
    size_t count = 0;

    ~Column() {
        if (held) PyBuffer_Release(&view);
    }
    bool take(PyObject *data, PyObject *positions) {
        if (!bytes.take(data, "the bytes of a column")) return false;
        if (PyObject_GetBuffer(positions, &view, PyBUF_FORMAT | PyBUF_ND)) return false;
        held = true;
        if (!are_positions()) {
            const char *format = view.format ? view.format : "B";
            PyErr_Format(PyExc_TypeError, "positions are aligned native integers of 64 bits, not \"%s\" of %zd bytes",
                         format, view.itemsize);
            return false;
        }
        offsets = static_cast<const uint64_t *>(view.buf), count = size_t(view.len) / 8;
        return true;
    }
    size_t rows() const { return count ? count - 1 : 0; }
    // Whether a row is within the bytes. Another thread may write to the offsets, so compare copies of them.
    bool holds(uint64_t first, uint64_t end) const { return first <= end && end <= bytes.length; }
    auto words(size_t first = 0) const {
        return std::make_tuple(bytes.at, bytes.length, offsets + first, count - first);
    }

  private:
    bool are_positions() const {
        const char *format = view.format ? view.format : "B";
        if (*format == '@' || *format == '=' || *format == '<') format++;
        return view.itemsize == 8 && view.ndim == 1 && strlen(format) == 1 && strchr("qQlL", *format) &&
               (uintptr_t(view.buf) % 8 == 0 || !view.len);
    }
};

// A column as a pair of bytes and positions; of documents, and of texts.
struct Documents : Column {
    bool take(PyObject *pair) {
        if (PyTuple_Check(pair) && PyTuple_Size(pair) == 2)
            return Column::take(PyTuple_GetItem(pair, 0), PyTuple_GetItem(pair, 1));
        return PyErr_SetString(PyExc_TypeError, "a column is a pair of bytes and positions"), false;
    }
    auto words() const { return Column::words(); }
};

struct Names : Documents {
    auto words() const {
        return std::make_tuple(reinterpret_cast<const char *>(bytes.at), bytes.length, offsets, count);
    }
};

// The value of a word, as strict=True, which may be left out. `expected` is the word that the call has.
inline bool take_word(Flag &flag, PyObject *name, const char *expected, PyObject *value) {
    if (PyUnicode_CompareWithASCIIString(name, expected))
        return PyErr_Format(PyExc_TypeError, "the only keyword argument is %s, not %R", expected, name), false;
    return flag.take(value);
}

inline bool wrong_count(Py_ssize_t expected, Py_ssize_t given) {
    PyErr_Format(PyExc_TypeError, "%zd positional arguments are expected, not %zd", expected, given);
    return false;
}

// `known` is the only word that the call has, or empty.
inline bool wrong_names(const char *known) {
    PyErr_Format(PyExc_TypeError, *known ? "the only keyword argument is %s" : "there are no keyword arguments%s", known);
    return false;
}
