// Results: Python objects of the statuses and buffers of calls in C.
#pragma once

#include "arguments.hpp"
#include "path_fault.h"

#include <algorithm>

// A buffer for bytes: the call in C writes documents or strings.
struct Out {
    void *at;
    operator uint8_t *() const { return static_cast<uint8_t *>(at); }
    operator char *() const { return static_cast<char *>(at); }
};

// A call that fails for documents of some types, and what it expects.
struct Expected {
    const char *call, *types;
};
template <auto CALL> inline constexpr Expected EXPECTED = {nullptr, nullptr};
template <> inline constexpr Expected EXPECTED<jdoc_delete_by_keypath> = {"delete", "an array or an object"};
template <> inline constexpr Expected EXPECTED<jdoc_keypath_delete> = {"delete", "an array or an object"};
template <> inline constexpr Expected EXPECTED<jdoc_delete_by_index> = {"delete_by_index", "an array"};
template <> inline constexpr Expected EXPECTED<jdoc_delete_by_name> = {"delete_by_name", "an array or an object"};
template <> inline constexpr Expected EXPECTED<jdoc_object_insert> = {"object_insert", "an object"};
template <> inline constexpr Expected EXPECTED<jdoc_object_pick> = {"object_pick", "an object"};
template <> inline constexpr Expected EXPECTED<jdoc_object_delete> = {"object_delete", "an object"};
template <> inline constexpr Expected EXPECTED<jdoc_to_bool> = {"to_bool", "a Boolean or a string such as yes"};
template <> inline constexpr Expected EXPECTED<jdoc_to_str> = {"to_str", "a string, a number or a Boolean"};
template <>
inline constexpr Expected EXPECTED<jdoc_to_i64> = {
    "to_i64", "a number from -2**63 to 2**63 - 1, a Boolean or a string of digits"};
template <>
inline constexpr Expected EXPECTED<jdoc_to_u64> = {
    "to_u64", "a number from 0 to 2**64 - 1, a Boolean or a string of digits"};

// What an exception says of a document of another type.
inline std::string mistyped(const Expected &expected, const uint8_t *document, size_t length) {
    uint8_t kind = 0;
    bool is_known = jdoc_type(document, length, &kind) == JDOC_OK;
    std::string found = is_known ? std::string(", found ") + jdoc_kind_text(kind) : "";
    return std::string(expected.call) + ": expected " + expected.types + found;
}

// The arguments of a call that an exception shows. The path, if there is one, is the first.
struct Shown {
    PyObject *const *arguments;
    Py_ssize_t count;
    PyObject *document = nullptr;
    Expected expected = {nullptr, nullptr};

    // What is shown with a status: the types if one is wrong, otherwise the first str.
    std::string what(uint32_t status) const {
        bool is_of_type =
            status == JDOC_INVALID_JSON_TYPE || status == JDOC_INVALID_OBJECT || status == JDOC_INVALID_CAST;
        Document it;
        if (!is_of_type || !expected.call) return text();
        if (it.take(document)) return mistyped(expected, it.at, it.length);
        PyErr_Clear();
        return "";
    }

    // The first str, as an exception shows it.
    std::string text() const {
        for (Py_ssize_t at = 0; at < count; at++) {
            if (!PyUnicode_Check(arguments[at])) continue;
            Ref text(PyUnicode_FromFormat("%.200A", arguments[at]));
            Py_ssize_t size;
            const char *utf8 = text.it ? PyUnicode_AsUTF8AndSize(text.it, &size) : nullptr;
            if (utf8) return std::string(utf8, size_t(size));
            PyErr_Clear();
        }
        return "";
    }

    // The byte at which the path has an error, or None if it parses or the status is another one.
    PyObject *position(uint32_t status) const {
        bool is_key = status == JDOC_INVALID_KEY_PATH;
        size_t at;
        Text path;
        if (!count || (!is_key && status != JDOC_INVALID_JSON_PATH)) return Py_NewRef(Py_None);
        if (!path.take(arguments[0])) return nullptr;
        status = is_key ? jdoc_keypath_error_position(path.at, path.length, &at)
                        : jdoc_path_error_position(path.at, path.length, &at);
        return status == JDOC_OK ? PyLong_FromSize_t(at) : Py_NewRef(Py_None);
    }

    // The path, after what looks like another language at the position of its error, if something does.
    std::string path(uint32_t status, PyObject *position) const {
        Text path;
        const char *found = nullptr;
        if (position != Py_None && path.take(arguments[0])) found = hint(status, path, PyLong_AsSize_t(position));
        PyErr_Clear();
        return found ? std::string(found) + ": " + text() : text();
    }

  private:
    static bool ends_a_mode(const Text &path, size_t at, const char *mode) {
        return at == strlen(mode) && at < path.length && !memcmp(path.at, mode, at);
    }
    static const char *hint(uint32_t status, const Text &path, size_t at) {
        if (status == JDOC_INVALID_KEY_PATH) return key_path_fault(path.at, path.length, at);
        if (ends_a_mode(path, at, "strict ") || ends_a_mode(path, at, "lax "))
            return "a mode is not part of the path, but the argument strict";
        return path_fault(path.at, path.length, at);
    }
};

// Raises the exception of a status for a call with these arguments.
inline PyObject *fail(State *state, uint32_t status, const Shown &shown) {
    Ref at(shown.position(status));
    if (!at.it) return nullptr;
    bool is_of_path = status == JDOC_INVALID_JSON_PATH || status == JDOC_INVALID_KEY_PATH;
    std::string what = is_of_path ? shown.path(status, at.it) : shown.what(status);
    return fail(state, status, what, Py_None, at.it);
}

// `call` makes the call with these last arguments and returns its status. `show` returns what an exception shows.
struct Bytes {
    template <typename Call, typename Show> static PyObject *of(State *state, Call call, Show show) {
        uint8_t small[1024];
        size_t length;
        uint32_t status = call(std::make_tuple(Out{small}, sizeof small, &length));
        if (status == JDOC_OK) return PyBytes_FromStringAndSize(reinterpret_cast<char *>(small), Py_ssize_t(length));
        if (status == JDOC_NONE) return Py_NewRef(Py_None);
        if (status != JDOC_BUFFER_TOO_SMALL) return fail(state, status, show());
        Ref large(PyBytes_FromStringAndSize(nullptr, Py_ssize_t(length)));
        if (!large.it) return nullptr;
        status = call(std::make_tuple(Out{PyBytes_AsString(large.it)}, length, &length));
        return status == JDOC_OK ? large.release() : fail(state, status, show());
    }
};

struct String {
    template <typename Call, typename Show> static PyObject *of(State *state, Call call, Show show) {
        Ref bytes(Bytes::of(state, call, show));
        if (!bytes.it || bytes.it == Py_None) return bytes.release();
        return PyUnicode_FromEncodedObject(bytes.it, "utf-8", "strict");
    }
};

template <typename Number, PyObject *(*MADE)(Number)> struct Fixed {
    template <typename Call, typename Show> static PyObject *of(State *state, Call call, Show show) {
        Number number;
        uint32_t status = call(std::make_tuple(&number));
        if (status == JDOC_OK) return MADE(number);
        return status == JDOC_NONE ? Py_NewRef(Py_None) : fail(state, status, show());
    }
};
inline PyObject *ternary_of(uint8_t it) { return it > 1 ? Py_NewRef(Py_None) : PyBool_FromLong(it); }
inline PyObject *byte_of(uint8_t it) { return PyLong_FromLong(it); }
inline PyObject *order_of(int32_t it) { return PyLong_FromLong(it); }
inline PyObject *signed_of(int64_t it) { return PyLong_FromLongLong(it); }
inline PyObject *unsigned_of(uint64_t it) { return PyLong_FromUnsignedLongLong(it); }
using Ternary = Fixed<uint8_t, ternary_of>; // true, false or unknown
using Byte = Fixed<uint8_t, byte_of>;
using Order = Fixed<int32_t, order_of>;
using Signed = Fixed<int64_t, signed_of>;
using Unsigned = Fixed<uint64_t, unsigned_of>;
using Count = Fixed<size_t, unsigned_of>;

struct Nothing {
    template <typename Call, typename Show> static PyObject *of(State *state, Call call, Show show) {
        uint32_t status = call(std::make_tuple());
        return status == JDOC_OK ? Py_NewRef(Py_None) : fail(state, status, show());
    }
};

// A Decimal from its text, which has `scale` digits after the point.
inline PyObject *decimal_of(State *state, const uint8_t *payload, size_t length) {
    char text[JDOC_NUMBER_TEXT];
    return PyObject_CallFunction(state->decimal, "s#", text, Py_ssize_t(jdoc_number_text(payload, length, text)));
}

struct Number {
    template <typename Call, typename Show> static PyObject *of(State *state, Call call, Show show) {
        int64_t high;
        uint64_t low;
        uint8_t payload[18] = {0x70}, *scale = payload + 17;
        uint32_t status = call(std::make_tuple(&high, &low, scale));
        if (status == JDOC_NONE) return Py_NewRef(Py_None);
        if (status != JDOC_OK) return fail(state, status, show());
        for (int byte = 0; byte < 8; byte++) {
            payload[8 - byte] = uint8_t(high >> 8 * byte);
            payload[16 - byte] = uint8_t(low >> 8 * byte);
        }
        return decimal_of(state, payload, sizeof payload);
    }
};

