// What each call needs of the interpreter: references, the module's state, errors, and its lock. Only the stable ABI is
// used, so one built module serves each later Python, and nothing is static, so each interpreter has its own.
#pragma once

#define PY_SSIZE_T_CLEAN
#include <Python.h>

#include <cstdint>
#include <cstdlib>
#include <new>
#include <string>

#include "jdoc_text.h"

constexpr jdoc_heap HEAP = {realloc, free};

// A tape, and a buffer for JSON text, that free what they have taken.
struct Tape : jdoc_tape {
    Tape() { jdoc_tape_init(this, HEAP, 0); }
    Tape(const Tape &) = delete;
    ~Tape() { jdoc_tape_free(this); }
    bool is_large() const { return events_size > 1 << 15 || bytes_size > 1 << 20 || document_size > 1 << 20; }
};

struct Buffer : jdoc_buffer {
    Buffer() : jdoc_buffer{HEAP, nullptr, 0, 0} {}
    Buffer(const Buffer &) = delete;
    ~Buffer() { free(bytes); }
    bool is_large() const { return size > 1 << 20; }
};

// A recent key, so that a key that occurs often is one object.
struct Name {
    uint8_t length;
    char text[23];
    PyObject *object;
};

struct State {
    PyObject *make_error, *decimal, *memory_type;
    Tape *tape;
    Buffer *buffer;
    Name names[512];
};

inline State *state_of(PyObject *module) { return static_cast<State *>(PyModule_GetState(module)); }

// An owned reference.
class Ref {
  public:
    PyObject *it;
    explicit Ref(PyObject *it = nullptr) : it(it) {}
    Ref(const Ref &) = delete;
    ~Ref() { Py_XDECREF(it); }
    PyObject *release() {
        PyObject *was = it;
        it = nullptr;
        return was;
    }
};

// Raises the exception of a status: what it is about, and the row of a column or the byte of a text, or None.
inline PyObject *fail(State *state, uint32_t status, const std::string &what = "", PyObject *row = Py_None,
                      PyObject *at = Py_None) {
    Ref text(PyUnicode_DecodeUTF8(what.data(), Py_ssize_t(what.size()), "replace"));
    Ref error(text.it ? PyObject_CallFunction(state->make_error, "IOOO", status, text.it, row, at) : nullptr);
    if (error.it) PyErr_SetObject(reinterpret_cast<PyObject *>(Py_TYPE(error.it)), error.it);
    return nullptr;
}

// The module's tape or buffer for one call. A call within another one, such as from an object's __index__, or while
// another thread uses it, gets a new one. One that has grown with a large document is freed.
template <typename It> class Lease {
  public:
    explicit Lease(It *&home) : home(home), it(home ? home : new It()) { home = nullptr; }
    Lease(const Lease &) = delete;
    ~Lease() {
        if (home || it->is_large())
            delete it;
        else
            home = it;
    }
    It &operator*() { return *it; }
    It *operator->() { return it; }

  private:
    It *&home;
    It *it;
};

// From this size on a text is read and written without the interpreter's lock.
constexpr size_t LARGE = 1 << 15;

template <typename Work> auto without_lock(bool large, Work work) {
    PyThreadState *thread = large ? PyEval_SaveThread() : nullptr;
    struct Back {
        PyThreadState *thread;
        ~Back() {
            if (thread) PyEval_RestoreThread(thread);
        }
    } back{thread};
    return work();
}

template <typename Function> PyCFunction function(Function it) {
    return reinterpret_cast<PyCFunction>(reinterpret_cast<void *>(it));
}
