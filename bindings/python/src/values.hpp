// Python values as documents, and documents as Python values.
#pragma once

#include "text.hpp"

// VALUES TO A DOCUMENT

class Maker {
  public:
    Maker(State *state, Tape &tape, bool floats) : state(state), tape(tape), floats(floats) {}

    bool put(PyObject *value) {
        if (PyUnicode_Check(value)) return text(value, false);
        if (value == Py_None) return jdoc_tape_null(&tape);
        if (PyBool_Check(value)) return jdoc_tape_bool(&tape, value == Py_True);
        Ref held(Py_NewRef(value));
        if (PyLong_Check(value)) return integer(value);
        if (PyDict_Check(value)) return container(value, true, [&] { return pairs(value); });
        if (PyList_Check(value))
            return container(value, false, [&] { return elements(value, PyList_Size, PyList_GetItem); });
        if (PyTuple_Check(value))
            return container(value, false, [&] { return elements(value, PyTuple_Size, PyTuple_GetItem); });
        return other(value);
    }

    // The exception of a value without a document, with its position.
    PyObject *raise() {
        if (PyErr_Occurred()) return nullptr;
        std::string where = place.empty() ? "" : " at $" + place;
        if (wrong_type) return PyErr_Format(PyExc_TypeError, "%s%s", what.c_str(), where.c_str());
        if (what.empty() && tape.what) what = tape.what;
        return fail(state, tape.status, what + where);
    }

  private:
    State *state;
    Tape &tape;
    bool floats, wrong_type = false; // whether floats become decimals
    std::string what, place;

    bool wrong(uint32_t status, const std::string &said) {
        if (tape.status == JDOC_OK) tape.status = status;
        return what = said, false;
    }

    bool no_document(PyObject *value, const char *form) {
        Ref said(PyUnicode_FromFormat(form, value));
        const char *utf8 = said.it ? PyUnicode_AsUTF8AndSize(said.it, nullptr) : nullptr;
        if (!utf8) return false;
        return wrong_type = true, what = utf8, false;
    }

    bool text(PyObject *value, bool is_key) {
        Py_ssize_t size;
        const char *at = PyUnicode_AsUTF8AndSize(value, &size);
        if (at) return is_key ? jdoc_tape_key(&tape, at, size_t(size)) : jdoc_tape_string(&tape, at, size_t(size));
        if (!PyErr_ExceptionMatches(PyExc_UnicodeEncodeError)) return false;
        PyErr_Clear();
        return wrong(JDOC_NOT_UTF8, "a str with half of a surrogate pair");
    }

    template <typename Parts> bool container(PyObject *, bool object, Parts parts) {
        if (Py_EnterRecursiveCall(" while a document is made")) return false;
        bool fine = jdoc_tape_begin(&tape, object) && parts();
        Py_LeaveRecursiveCall();
        return fine && jdoc_tape_end(&tape);
    }

    bool pairs(PyObject *dict) {
        PyObject *key, *value;
        Py_ssize_t at = 0;
        while (PyDict_Next(dict, &at, &key, &value)) {
            Ref name(Py_NewRef(key));
            if (!PyUnicode_Check(key))
                return no_document(reinterpret_cast<PyObject *>(Py_TYPE(key)), "the keys of an object are str, not %R");
            if (!text(key, true)) return false;
            if (!put(value)) return step(key), false;
        }
        return true;
    }

    template <typename Size, typename Item> bool elements(PyObject *sequence, Size size, Item item) {
        for (Py_ssize_t at = 0; at < size(sequence); at++)
            if (!put(item(sequence, at))) return place.insert(0, "[" + std::to_string(at) + "]"), false;
        return true;
    }

    // Puts a key before the place, unless an exception is on its way.
    void step(PyObject *key) {
        if (PyErr_Occurred()) return;
        Ref shown(PyUnicode_FromFormat(PyUnicode_IsIdentifier(key) > 0 ? ".%.60U" : ".\"%.60U\"", key));
        const char *utf8 = shown.it ? PyUnicode_AsUTF8AndSize(shown.it, nullptr) : nullptr;
        if (utf8) place.insert(0, utf8);
        PyErr_Clear();
    }

    bool integer(PyObject *value) {
        int over;
        long long number = PyLong_AsLongLongAndOverflow(value, &over);
        if (!over) return jdoc_tape_i64(&tape, number);
        if (over < 0) return long_integer(value);
        unsigned long long natural = PyLong_AsUnsignedLongLong(value);
        if (!PyErr_Occurred()) return jdoc_tape_u64(&tape, natural);
        PyErr_Clear();
        return long_integer(value);
    }

    // An integer of more than 64 bits. Hexadecimal digits take linear time, decimal ones do not: they come last.
    bool long_integer(PyObject *value) {
        Ref plain(PyObject_CallFunctionObjArgs(reinterpret_cast<PyObject *>(&PyLong_Type), value, nullptr));
        Ref digits(plain.it ? PyNumber_ToBase(plain.it, 16) : nullptr);
        if (!digits.it) return false;
        if (PyUnicode_GetLength(digits.it) > 3 + 32)
            return wrong(JDOC_UNSUPPORTED_NUMBER, "an integer of more than 128 bits");
        return number(plain.it);
    }

    // What Python prints of a number.
    bool number(PyObject *value) {
        Ref text(PyObject_Str(value));
        Py_ssize_t size;
        const char *digits = text.it ? PyUnicode_AsUTF8AndSize(text.it, &size) : nullptr;
        if (!digits) return false;
        return jdoc_tape_number(&tape, digits, size_t(size)) ||
               (what = std::string(digits, std::min(size_t(size), size_t(60))), false);
    }

    bool real(PyObject *value) {
        Ref text(PyObject_CallMethod(reinterpret_cast<PyObject *>(&PyFloat_Type), "__repr__", "O", value));
        Py_ssize_t size;
        const char *digits = text.it ? PyUnicode_AsUTF8AndSize(text.it, &size) : nullptr;
        if (!digits) return false;
        std::string said = std::string("the float ") + digits;
        if (!floats) return wrong(JDOC_UNSUPPORTED_NUMBER, said + " (give a Decimal, or floats=\"decimal\")");
        tape.options |= JDOC_ROUND_NUMBERS;
        bool fine = jdoc_tape_number(&tape, digits, size_t(size));
        tape.options = 0;
        return fine || (what = said, false);
    }

    bool other(PyObject *value) {
        int decimal = PyObject_IsInstance(value, state->decimal);
        if (decimal) return decimal > 0 && number(value);
        if (PyFloat_Check(value)) return real(value);
        if (!PyIndex_Check(value))
            return no_document(reinterpret_cast<PyObject *>(Py_TYPE(value)), "no document for %R");
        Ref whole(PyNumber_Index(value)); // as numpy's integers
        return whole.it && integer(whole.it);
    }
};

// (value, *, floats): the document of a Python value.
inline PyObject *dumps(PyObject *module, PyObject *const *arguments, Py_ssize_t count, PyObject *names) {
    State *state = state_of(module);
    unsigned options;
    if (count != 1) return wrong_count(1, count), nullptr;
    if (!take_options(options, arguments + 1, names)) return nullptr;
    Lease<Tape> tape(state->tape);
    jdoc_tape_clear(&*tape);
    tape->options = 0;
    Maker maker(state, *tape, options & JDOC_ROUND_NUMBERS);
    if (!maker.put(arguments[0])) return maker.raise();
    Ref made(PyBytes_FromStringAndSize(nullptr, Py_ssize_t(jdoc_tape_size(&*tape))));
    if (!made.it) return nullptr;
    uint32_t status = jdoc_tape_write(&*tape, reinterpret_cast<uint8_t *>(PyBytes_AsString(made.it)));
    return status == JDOC_OK ? made.release() : fail(state, status);
}

// A DOCUMENT TO VALUES

// A key as a str: the same object as the last time, if it is short and came lately.
inline PyObject *key_of(State *state, const uint8_t *bytes, size_t length) {
    const char *text = reinterpret_cast<const char *>(bytes);
    if (length >= sizeof Name::text) return PyUnicode_DecodeUTF8(text, Py_ssize_t(length), nullptr);
    uint32_t hash = uint32_t(length);
    for (size_t byte = 0; byte < length; byte++) hash = hash * 31 + bytes[byte];
    Name &name = state->names[hash % 512];
    if (name.object && name.length == length && !memcmp(name.text, text, length)) return Py_NewRef(name.object);
    PyObject *made = PyUnicode_DecodeUTF8(text, Py_ssize_t(length), nullptr);
    if (!made) return nullptr;
    Py_XDECREF(name.object);
    name.object = Py_NewRef(made), name.length = uint8_t(length);
    memcpy(name.text, text, length);
    return made;
}

inline PyObject *number_of(State *state, const jdoc_event &event) {
    const uint8_t *payload = event.bytes;
    if (event.len && payload[0] == 0x70) return decimal_of(state, payload, event.len);
    uint64_t value = event.len > 1 && payload[0] == 0x40 && (payload[1] & 0x80) ? ~0ull : 0;
    for (size_t at = 1; at < event.len; at++) value = value << 8 | payload[at];
    return event.len && payload[0] == 0x40 ? PyLong_FromLongLong(int64_t(value)) : PyLong_FromUnsignedLongLong(value);
}

// An item as a value; of a container, an empty one.
inline PyObject *value_of(State *state, const jdoc_event &event) {
    switch (event.kind) {
    case JDOC_EVENT_NULL:
        return Py_NewRef(Py_None);
    case JDOC_EVENT_TRUE:
        return Py_NewRef(Py_True);
    case JDOC_EVENT_FALSE:
        return Py_NewRef(Py_False);
    case JDOC_EVENT_STRING:
        return PyUnicode_DecodeUTF8(reinterpret_cast<const char *>(event.bytes), Py_ssize_t(event.len), nullptr);
    case JDOC_EVENT_NUMBER:
        return number_of(state, event);
    case JDOC_EVENT_BEGIN:
        return event.object ? PyDict_New() : PyList_New(event.count);
    default:
        return fail(state, JDOC_INVALID_JSON_TYPE, "an extension value, such as a date, has no Python value");
    }
}

// Values that grow with the events of a walk.
class Reader {
  public:
    explicit Reader(State *state) : state(state) {}

    PyObject *read(jdoc_walk &walk) {
        jdoc_event event;
        uint32_t status;
        while ((status = jdoc_walk_next(&walk, &event)) == JDOC_OK)
            if (event.kind == JDOC_EVENT_END)
                levels.pop_back();
            else if (!add(event))
                return nullptr;
        return status == JDOC_NONE ? root.release() : fail(state, status);
    }

  private:
    struct Level {
        PyObject *container; // borrowed from the level around it, or from the root
        Py_ssize_t next;
    };
    State *state;
    Ref root;
    std::vector<Level> levels;

    bool add(const jdoc_event &event) {
        PyObject *value = value_of(state, event);
        if (!value || !place(event, value)) return false;
        if (event.kind == JDOC_EVENT_BEGIN) levels.push_back({value, 0});
        return true;
    }

    // Puts a value where it belongs, which takes the reference.
    bool place(const jdoc_event &event, PyObject *value) {
        if (levels.empty()) return root.it = value, true;
        Level &level = levels.back();
        if (!event.has_key) return PyList_SetItem(level.container, level.next++, value) == 0;
        Ref held(value), key(key_of(state, event.key, event.key_len));
        return key.it && PyDict_SetItem(level.container, key.it, value) == 0;
    }
};

struct Walk : jdoc_walk {
    ~Walk() { jdoc_walk_free(this); }
};

inline PyObject *loads(PyObject *module, PyObject *argument) {
    State *state = state_of(module);
    Document document;
    if (!document.take(argument)) return nullptr;
    uint32_t status = jdoc_check(document.at, document.length);
    if (status != JDOC_OK) return fail(state, status);
    Walk walk;
    status = jdoc_walk_init(&walk, HEAP, document.at, document.length);
    return status == JDOC_OK ? Reader(state).read(walk) : fail(state, status);
}
