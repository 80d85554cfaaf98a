// memoryviews of blocks that malloc allocated, or of memory that another object owns.
#pragma once

#include "python.hpp"

struct Room {
    PyObject_HEAD uint8_t *at;
    Py_ssize_t length;
    PyObject *owner; // whose memory it is; otherwise it is freed
};

inline void room_free(PyObject *self) {
    Room *room = reinterpret_cast<Room *>(self);
    PyTypeObject *type = Py_TYPE(self);
    if (room->owner)
        Py_DECREF(room->owner);
    else
        free(room->at);
    reinterpret_cast<freefunc>(PyType_GetSlot(type, Py_tp_free))(self);
    Py_DECREF(type);
}

inline int room_buffer(PyObject *self, Py_buffer *view, int flags) {
    Room *room = reinterpret_cast<Room *>(self);
    static uint8_t none[8] __attribute__((aligned(64)));
    return PyBuffer_FillInfo(view, self, room->at ? room->at : none, room->length, 1, flags);
}

inline PyType_Slot ROOM_SLOTS[] = {
    {Py_tp_dealloc, reinterpret_cast<void *>(room_free)},
    {Py_bf_getbuffer, reinterpret_cast<void *>(room_buffer)},
    {Py_tp_doc, const_cast<char *>("Memory that memoryview reads.")},
    {0, nullptr},
};
inline PyType_Spec ROOM = {"jsonb_paths._core.Memory", sizeof(Room), 0,
                           Py_TPFLAGS_DEFAULT | Py_TPFLAGS_DISALLOW_INSTANTIATION, ROOM_SLOTS};

// A memoryview. It takes the memory over, or a reference to its owner.
inline PyObject *view_of(State *state, void *at, size_t length, PyObject *owner = nullptr) {
    PyTypeObject *type = reinterpret_cast<PyTypeObject *>(state->memory_type);
    PyObject *self = reinterpret_cast<allocfunc>(PyType_GetSlot(type, Py_tp_alloc))(type, 0);
    if (!self) {
        if (!owner) free(at);
        return nullptr;
    }
    Room *room = reinterpret_cast<Room *>(self);
    room->at = static_cast<uint8_t *>(at), room->length = Py_ssize_t(length), room->owner = Py_XNewRef(owner);
    PyObject *view = PyMemoryView_FromObject(self);
    Py_DECREF(self);
    return view;
}

// A block of malloc.
struct Block {
    uint8_t *at = nullptr;
    size_t size = 0, length = 0;

    Block() = default;
    explicit Block(size_t size) { resize(size); }
    Block(const Block &) = delete;
    ~Block() { free(at); }
    bool resize(size_t wanted) {
        void *found = realloc(at, wanted ? wanted : 1);
        if (!found) return false;
        return at = static_cast<uint8_t *>(found), size = wanted, true;
    }
    uint64_t *words() const { return reinterpret_cast<uint64_t *>(at); }
    // Gives the memory away, as a memoryview of its first bytes.
    PyObject *view(State *state, size_t used) {
        if (used < size / 2) resize(used);
        uint8_t *was = at;
        at = nullptr;
        return view_of(state, was, used);
    }
};
