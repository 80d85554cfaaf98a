// Calls on columns, which run without the interpreter's lock. Arguments are the bytes of a column, its offsets, and the
// validity bitmap or None. A row that is null has the status NONE.
#pragma once

#include "memory.hpp"
#include "results.hpp"

struct Validity {
    Memory bits;
    bool some = false;

    bool take(PyObject *it, size_t rows) {
        if (it == Py_None) return true;
        if (!bits.take(it, "a validity bitmap")) return false;
        if (bits.length * 8 >= rows) return some = true;
        return PyErr_SetString(PyExc_ValueError, "the validity bitmap has fewer bits than rows"), false;
    }
    bool is_null(size_t row) const { return some && !(bits.at[row / 8] >> row % 8 & 1); }
    // Sets the status and the result of each row that is null.
    template <typename Result> void blank(uint8_t *statuses, Result *results, Result none, size_t rows) const {
        for (size_t row = 0; some && row < rows; row++)
            if (is_null(row)) statuses[row] = JDOC_NONE, results[row] = none;
    }
};

// The arguments of a call on a column.
template <typename... Kinds> struct Rows {
    Column column;
    Validity validity;
    std::tuple<Kinds...> more;

    bool take(PyObject *const *arguments, Py_ssize_t count) {
        Py_ssize_t next = 3, expected = Py_ssize_t(3 + sizeof...(Kinds));
        if (count != expected) return wrong_count(expected, count);
        if (!column.take(arguments[0], arguments[1]) || !validity.take(arguments[2], column.rows())) return false;
        return std::apply([&](auto &...it) { return (it.take(arguments[next++]) && ...); }, more);
    }
    template <auto CALL, typename... Results> uint32_t call(size_t first, Results... results) const {
        return std::apply(
            [&](auto &...it) {
                return std::apply(CALL,
                                  std::tuple_cat(column.words(first), it.words()..., std::make_tuple(results...)));
            },
            more);
    }
};

inline PyObject *fail_column(State *state, uint32_t status, PyObject *const *arguments, Py_ssize_t count) {
    return fail(state, status, Shown{arguments + 3, count - 3});
}

// A number of a fixed size for each row, and its status.
template <auto CALL, typename Number, int NONE_VALUE, typename... Kinds>
PyObject *fixed(PyObject *module, PyObject *const *arguments, Py_ssize_t count, PyObject *) {
    State *state = state_of(module);
    Rows<Kinds...> asked;
    if (!asked.take(arguments, count)) return nullptr;
    size_t rows = asked.column.rows(), done = 0;
    Block numbers(rows * sizeof(Number)), statuses(rows);
    if (!numbers.at || !statuses.at) return PyErr_NoMemory();
    Number *results = reinterpret_cast<Number *>(numbers.at);
    uint32_t status = without_lock(true, [&] {
        uint32_t found = asked.template call<CALL>(0, results, rows, statuses.at, rows, &done);
        asked.validity.blank(statuses.at, results, Number(NONE_VALUE), rows);
        return found;
    });
    if (status != JDOC_OK) return fail_column(state, status, arguments, count);
    Ref first(numbers.view(state, rows * sizeof(Number))), second(first.it ? statuses.view(state, rows) : nullptr);
    return second.it ? PyTuple_Pack(2, first.it, second.it) : nullptr;
}

inline PyObject *column_check(PyObject *module, PyObject *const *arguments, Py_ssize_t count, PyObject *) {
    Rows<> asked;
    if (!asked.take(arguments, count)) return nullptr;
    size_t rows = asked.column.rows(), done = 0;
    Block statuses(rows);
    if (!statuses.at) return PyErr_NoMemory();
    uint32_t status = without_lock(true, [&] {
        uint32_t found = asked.call<jdoc_column_check>(0, statuses.at, rows, &done);
        asked.validity.blank(statuses.at, statuses.at, uint8_t(JDOC_NONE), rows);
        return found;
    });
    return status == JDOC_OK ? statuses.view(state_of(module), rows) : fail(state_of(module), status);
}

// Calls until all rows are done, each time with more room where the one before was full.
template <auto CALL, typename Asked>
uint32_t fill(const Asked &asked, Block &out, uint64_t *positions, uint8_t *statuses) {
    size_t rows = asked.column.rows(), first = 0;
    positions[0] = 0;
    for (;;) {
        jdoc_progress progress;
        uint32_t status =
            asked.template call<CALL>(first, Out{out.at + out.length}, out.size - out.length, positions + first,
                                      rows + 1 - first, statuses + first, rows - first, &progress);
        // The positions of a call begin with 0: those of a later one go on where the one before ended.
        if (out.length)
            std::for_each(positions + first, positions + first + progress.rows + 1,
                          [&](uint64_t &it) { it += out.length; });
        first += progress.rows, out.length += progress.bytes;
        if (status != JDOC_BUFFER_TOO_SMALL) return status;
        if (!out.resize(out.size + std::max(out.size / 2, progress.next))) return JDOC_OUT_OF_MEMORY;
    }
}

// Bytes for each row: the bytes, their positions and the statuses.
template <auto CALL, typename... Kinds>
PyObject *several(PyObject *module, PyObject *const *arguments, Py_ssize_t count, PyObject *) {
    State *state = state_of(module);
    Rows<Kinds...> asked;
    if (!asked.take(arguments, count)) return nullptr;
    const Column &column = asked.column;
    size_t rows = column.rows(), spread = rows ? column.offsets[rows] - column.offsets[0] : 0;
    Block out(std::min(spread, column.bytes.length) / 2 + 24 * rows + 64), positions(8 * (rows + 1)), statuses(rows);
    if (!out.at || !positions.at || !statuses.at) return PyErr_NoMemory();
    uint32_t status = without_lock(true, [&] {
        uint32_t found = fill<CALL>(asked, out, positions.words(), statuses.at);
        asked.validity.blank(statuses.at, statuses.at, uint8_t(JDOC_NONE), found == JDOC_OK ? rows : 0);
        return found;
    });
    if (status != JDOC_OK) return fail_column(state, status, arguments, count);
    Ref bytes(out.view(state, out.length)), ends(bytes.it ? positions.view(state, 8 * (rows + 1)) : nullptr);
    Ref third(ends.it ? statuses.view(state, rows) : nullptr);
    return third.it ? PyTuple_Pack(3, bytes.it, ends.it, third.it) : nullptr;
}

// The rows whose byte is 1, one after the other. False: a row is not within the bytes, or has changed since it was
// counted.
inline bool gather_rows(const Column &column, const uint8_t *chosen, Block &out, uint64_t *positions, size_t kept) {
    uint64_t at = 0;
    *positions++ = 0;
    for (size_t row = 0; row < column.rows(); row++) {
        if (chosen[row] != 1) continue;
        uint64_t first = column.offsets[row], end = column.offsets[row + 1];
        if (!kept-- || !column.holds(first, end) || end - first > out.size - at) return false;
        memcpy(out.at + at, column.bytes.at + first, end - first);
        *positions++ = at += end - first;
    }
    out.length = at;
    return !kept;
}

// (bytes, positions, a byte for each row): the rows whose byte is 1, as a column.
inline PyObject *gather(PyObject *module, PyObject *const *arguments, Py_ssize_t count, PyObject *) {
    State *state = state_of(module);
    Column column;
    Memory chosen;
    if (count != 3) return wrong_count(3, count), nullptr;
    if (!column.take(arguments[0], arguments[1]) || !chosen.take(arguments[2], "a choice of rows")) return nullptr;
    size_t rows = column.rows(), kept = 0, length = 0;
    if (chosen.length != rows) return PyErr_SetString(PyExc_ValueError, "a choice has a byte for each row"), nullptr;
    for (size_t row = 0; row < rows; row++) {
        uint64_t first = column.offsets[row], end = column.offsets[row + 1];
        if (!column.holds(first, end)) return fail(state, JDOC_BAD_OFFSETS);
        if (chosen.at[row] == 1) kept++, length += end - first;
    }
    Block out(length), positions(8 * (kept + 1));
    if (!out.at || !positions.at) return PyErr_NoMemory();
    bool fine = without_lock(true, [&] { return gather_rows(column, chosen.at, out, positions.words(), kept); });
    if (!fine) return fail(state, JDOC_BAD_OFFSETS, "they changed during the call");
    Ref first(out.view(state, out.length)), second(first.it ? positions.view(state, 8 * (kept + 1)) : nullptr);
    return second.it ? PyTuple_Pack(2, first.it, second.it) : nullptr;
}

// (bytes, value): a bitmap of which bytes have the value, the first at the bottom of the first byte.
inline PyObject *bits_of(PyObject *, PyObject *const *arguments, Py_ssize_t count, PyObject *) {
    Memory bytes;
    Whole<uint8_t, 0, 255> value;
    if (count != 2) return wrong_count(2, count), nullptr;
    if (!bytes.take(arguments[0], "a byte for each row") || !value.take(arguments[1])) return nullptr;
    Ref made(PyBytes_FromStringAndSize(nullptr, Py_ssize_t((bytes.length + 7) / 8)));
    if (!made.it) return nullptr;
    char *bits = PyBytes_AsString(made.it);
    memset(bits, 0, (bytes.length + 7) / 8);
    for (size_t row = 0; row < bytes.length; row++)
        bits[row / 8] = char(bits[row / 8] | (bytes.at[row] == value.number) << row % 8);
    return made.release();
}

// (bitmap, first, rows): a byte for each of the rows from the first on, 1 where its bit is set.
inline PyObject *bytes_of(PyObject *, PyObject *const *arguments, Py_ssize_t count, PyObject *) {
    Memory bits;
    Size first, rows;
    if (count != 3) return wrong_count(3, count), nullptr;
    if (!bits.take(arguments[0], "a bitmap") || !first.take(arguments[1]) || !rows.take(arguments[2])) return nullptr;
    if (rows.number > bits.length * 8 || first.number > bits.length * 8 - rows.number)
        return PyErr_SetString(PyExc_ValueError, "the bitmap has fewer bits than rows"), nullptr;
    Ref made(PyBytes_FromStringAndSize(nullptr, Py_ssize_t(rows.number)));
    if (!made.it) return nullptr;
    char *bytes = PyBytes_AsString(made.it);
    for (size_t row = first.number; row < first.number + rows.number; row++) *bytes++ = bits.at[row / 8] >> row % 8 & 1;
    return made.release();
}
