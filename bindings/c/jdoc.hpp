/* jdoc.hpp - the functions of jdoc.h for C++17: views as arguments, owned bytes and errors as results
 *
 *   jdoc::result<std::optional<jdoc::document>> name = jdoc::get(people, "{0,name}");
 *   if (!name) return std::puts(jdoc::text(name.error()));
 *   if (*name) std::puts(jdoc::to_str(**name)->c_str());
 *
 * A document is bytes, and so is its view: a std::vector, a std::string_view or a C++20 std::span of bytes converts to it.
 * Each function is one of jdoc.h, under its name without the prefix; nothing here reads or writes the format. A result holds
 * the value or the error. `std::nullopt` stands for JDOC_NONE, and for unknown in `match`. Only std::bad_alloc is thrown.
 *
 * A jdoc::path or jdoc::keypath is a path that was parsed once, and a jdoc::builder makes a document from events. A
 * jdoc::column is many documents, on which most functions can be called too: jdoc::match(column, "$.age > 40") has a
 * Boolean and a status for each row.
 */
#ifndef JDOC_HPP
#define JDOC_HPP

#include "jdoc.h"

#include <algorithm>
#include <initializer_list>
#include <optional>
#include <string>
#include <string_view>
#include <utility>
#include <variant>
#include <vector>

namespace jdoc {

using document = std::vector<std::uint8_t>;
using key = std::vector<std::uint8_t>;

/* Bytes that someone else owns. */
class view {
  public:
    constexpr view(const std::uint8_t *data, std::size_t size) noexcept : data_(data), size_(size) {}
    template <class Bytes, class = std::enable_if_t<sizeof(*std::declval<const Bytes &>().data()) == 1>>
    view(const Bytes &bytes) noexcept
        : data_(reinterpret_cast<const std::uint8_t *>(bytes.data())), size_(bytes.size()) {}

    constexpr const std::uint8_t *data() const noexcept { return data_; }
    constexpr std::size_t size() const noexcept { return size_; }

  private:
    const std::uint8_t *data_;
    std::size_t size_;
};

/* Returns the JDOC_VERSION_NUMBER of the library. */
inline std::uint32_t version() noexcept { return jdoc_version(); }

/* Returns what a status means. */
inline const char *text(jdoc_status status) noexcept { return jdoc_status_text(status); }

/* Returns the name of a type. */
inline const char *text(jdoc_kind kind) noexcept { return jdoc_kind_text(kind); }

/* Documents or strings, one after the other, with the offsets between them. */
class column {
  public:
    column() = default;
    column(std::initializer_list<view> rows) {
        for (view it : rows) push_back(it);
    }
    column(std::vector<std::uint8_t> bytes, std::vector<std::uint64_t> offsets)
        : bytes_(std::move(bytes)), offsets_(std::move(offsets)) {}

    void push_back(view row) {
        bytes_.insert(bytes_.end(), row.data(), row.data() + row.size());
        offsets_.push_back(bytes_.size());
    }
    std::size_t size() const noexcept { return offsets_.empty() ? 0 : offsets_.size() - 1; }
    view operator[](std::size_t row) const noexcept {
        return view(bytes_.data() + offsets_[row], offsets_[row + 1] - offsets_[row]);
    }
    const std::vector<std::uint8_t> &bytes() const noexcept { return bytes_; }
    const std::vector<std::uint64_t> &offsets() const noexcept { return offsets_; }

  private:
    std::vector<std::uint8_t> bytes_;
    std::vector<std::uint64_t> offsets_{0};
};

/* A column that someone else owns, such as a large binary array of Arrow. */
struct column_view {
    const std::uint8_t *bytes;
    std::size_t bytes_len;
    const std::uint64_t *offsets;
    std::size_t offsets_len;

    column_view(const std::uint8_t *data, std::size_t size, const std::uint64_t *positions, std::size_t count) noexcept
        : bytes(data), bytes_len(size), offsets(positions), offsets_len(count) {}
    column_view(const column &it) noexcept
        : column_view(it.bytes().data(), it.bytes().size(), it.offsets().data(), it.offsets().size()) {}
    std::size_t size() const noexcept { return offsets_len ? offsets_len - 1 : 0; }
};

/* The results of a call on a column, and the status of each row: JDOC_OK, JDOC_NONE or an error. */
template <class T> struct values {
    std::vector<T> rows; /* 0 unless the status is JDOC_OK; a Boolean is 1, 0, or 2 for unknown and for an error */
    std::vector<std::uint8_t> statuses;
};
using booleans = values<std::uint8_t>;
using numbers = values<std::int64_t>;
struct documents {
    column rows; /* empty unless the status is JDOC_OK */
    std::vector<std::uint8_t> statuses;
};

/* The number (high * 2^64 + low) / 10^scale. */
struct decimal {
    std::int64_t high;
    std::uint64_t low;
    std::uint8_t scale;
    bool operator==(const decimal &other) const noexcept {
        return high == other.high && low == other.low && scale == other.scale;
    }
};

/* A value or an error, as std::expected of C++23. */
template <class T> class [[nodiscard]] result {
  public:
    result(T value) : state_(std::in_place_index<0>, std::move(value)) {}
    result(jdoc_status error) : state_(std::in_place_index<1>, error) {}

    bool has_value() const noexcept { return state_.index() == 0; }
    explicit operator bool() const noexcept { return has_value(); }
    jdoc_status error() const noexcept { return has_value() ? JDOC_OK : *std::get_if<1>(&state_); }

    /* Undefined if there is no value. */
    T &operator*() & noexcept { return *std::get_if<0>(&state_); }
    const T &operator*() const & noexcept { return *std::get_if<0>(&state_); }
    T &&operator*() && noexcept { return std::move(*std::get_if<0>(&state_)); }
    T *operator->() noexcept { return std::get_if<0>(&state_); }
    const T *operator->() const noexcept { return std::get_if<0>(&state_); }

    T value_or(T other) && { return has_value() ? std::move(**this) : std::move(other); }

  private:
    std::variant<T, jdoc_status> state_;
};

namespace detail {

/* Calls a function that writes into a buffer: once with a buffer of a likely size, and again if it needs a larger one. */
template <class Bytes, class Call> jdoc_status write(Bytes &out, std::size_t likely, Call call) {
    std::size_t len = 0;
    out.resize(likely);
    jdoc_status status = call(out.data(), out.size(), &len);
    if (status == JDOC_BUFFER_TOO_SMALL) {
        out.resize(len);
        status = call(out.data(), out.size(), &len);
    }
    out.resize(status == JDOC_OK ? len : 0);
    return status;
}

template <class Bytes, class Call> result<Bytes> bytes(std::size_t likely, Call call) {
    Bytes out;
    const jdoc_status status = write(out, likely, call);
    return status == JDOC_OK ? result<Bytes>(std::move(out)) : result<Bytes>(status);
}

template <class Bytes, class Call> result<std::optional<Bytes>> some_bytes(std::size_t likely, Call call) {
    Bytes out;
    const jdoc_status status = write(out, likely, call);
    if (status == JDOC_OK) return std::optional<Bytes>(std::move(out));
    return status == JDOC_NONE ? result<std::optional<Bytes>>(std::nullopt) : result<std::optional<Bytes>>(status);
}

template <class T, class Call> result<T> value(Call call) {
    T made{};
    const jdoc_status status = call(&made);
    return status == JDOC_OK ? result<T>(made) : result<T>(status);
}

template <class T, class Call> result<std::optional<T>> some_value(Call call) {
    T made{};
    const jdoc_status status = call(&made);
    if (status == JDOC_OK) return std::optional<T>(made);
    return status == JDOC_NONE ? result<std::optional<T>>(std::nullopt) : result<std::optional<T>>(status);
}

template <class Call> result<bool> truth(Call call) {
    std::uint8_t made = 0;
    const jdoc_status status = call(&made);
    return status == JDOC_OK ? result<bool>(made == 1) : result<bool>(status);
}

template <class Call> result<std::optional<bool>> ternary(Call call) {
    std::uint8_t made = 0;
    const jdoc_status status = call(&made);
    if (status != JDOC_OK) return status;
    return made == 2 ? std::optional<bool>() : std::optional<bool>(made == 1);
}

/* The arguments of a column of names. */
struct names {
    column rows;

    explicit names(std::initializer_list<std::string_view> list) {
        for (std::string_view it : list) rows.push_back(it);
    }
    const char *data() const noexcept { return reinterpret_cast<const char *>(rows.bytes().data()); }
    std::size_t size() const noexcept { return rows.bytes().size(); }
    const std::uint64_t *offsets() const noexcept { return rows.offsets().data(); }
    std::size_t count() const noexcept { return rows.offsets().size(); }
};

/* Calls a function that writes a value of fixed size for each row. */
template <class T, class Call> result<values<T>> fixed(column_view it, Call call) {
    values<T> made{std::vector<T>(it.size()), std::vector<std::uint8_t>(it.size())};
    std::size_t done = 0;
    const jdoc_status status =
        call(made.rows.data(), made.rows.size(), made.statuses.data(), made.statuses.size(), &done);
    return status == JDOC_OK ? result<values<T>>(std::move(made)) : result<values<T>>(status);
}

/* The arguments of a function that writes the results of the rows from `first` on. */
template <class Byte> struct output {
    std::size_t first;
    Byte *out;
    std::size_t out_size;
    std::uint64_t *positions;
    std::size_t positions_len;
    std::uint8_t *statuses;
    std::size_t statuses_len;
    jdoc_progress progress;
};

/* Calls a function that writes bytes for each row, until all rows are done: with a larger buffer for those that are
 * left. */
template <class Byte = std::uint8_t, class Call> result<documents> several(column_view it, Call call) {
    const std::size_t rows = it.size();
    std::vector<std::uint8_t> bytes, statuses(rows);
    std::vector<std::uint64_t> offsets(rows + 1);
    std::size_t done = 0, used = 0, more = it.bytes_len + 64;
    jdoc_status status = JDOC_BUFFER_TOO_SMALL;
    while (status == JDOC_BUFFER_TOO_SMALL) {
        bytes.resize(used + more);
        output<Byte> to{done,
                        reinterpret_cast<Byte *>(bytes.data() + used),
                        more,
                        offsets.data() + done,
                        rows + 1 - done,
                        statuses.data() + done,
                        rows - done,
                        {}};
        status = call(to);
        for (std::size_t i = 0; i <= to.progress.rows; i++) offsets[done + i] += used;
        done += to.progress.rows, used += to.progress.bytes;
        more = std::max(2 * more, to.progress.next);
    }
    if (status != JDOC_OK) return status;
    bytes.resize(used);
    return documents{column(std::move(bytes), std::move(offsets)), std::move(statuses)};
}

} // namespace detail

/* JDOC_OK if and only if the bytes are a document. */
[[nodiscard]] inline jdoc_status check(view it) { return jdoc_check(it.data(), it.size()); }

inline result<jdoc_kind> type(view it) {
    std::uint8_t kind = 0;
    const jdoc_status status = jdoc_type(it.data(), it.size(), &kind);
    return status == JDOC_OK ? result<jdoc_kind>(static_cast<jdoc_kind>(kind)) : result<jdoc_kind>(status);
}

/* ---- children and paths */

inline result<std::optional<document>> get(view it, std::string_view path) {
    return detail::some_bytes<document>(64, [=](std::uint8_t *out, std::size_t size, std::size_t *len) {
        return jdoc_get_by_keypath(it.data(), it.size(), path.data(), path.size(), out, size, len);
    });
}

/* The span of the value at a key path, which get copies. */
inline result<std::optional<jdoc_span>> find(view it, std::string_view path) {
    return detail::some_value<jdoc_span>([=](jdoc_span *span) {
        return jdoc_find_by_keypath(it.data(), it.size(), path.data(), path.size(), span);
    });
}

inline result<std::optional<document>> get(view it, std::size_t index) {
    return detail::some_bytes<document>(64, [=](std::uint8_t *out, std::size_t size, std::size_t *len) {
        return jdoc_get_by_index(it.data(), it.size(), index, out, size, len);
    });
}

inline result<std::optional<document>> get_by_name(view it, std::string_view name, bool ignore_case = false) {
    return detail::some_bytes<document>(64, [=](std::uint8_t *out, std::size_t size, std::size_t *len) {
        return jdoc_get_by_name(it.data(), it.size(), name.data(), name.size(), ignore_case, out, size, len);
    });
}

/* The spans of what get and get_by_name copy. */
inline result<std::optional<jdoc_span>> find(view it, std::size_t index) {
    return detail::some_value<jdoc_span>(
        [=](jdoc_span *span) { return jdoc_find_by_index(it.data(), it.size(), index, span); });
}

inline result<std::optional<jdoc_span>> find_by_name(view it, std::string_view name, bool ignore_case = false) {
    return detail::some_value<jdoc_span>([=](jdoc_span *span) {
        return jdoc_find_by_name(it.data(), it.size(), name.data(), name.size(), ignore_case, span);
    });
}

/* The value at a span, as a document. */
inline result<document> value_at(view it, const jdoc_span &span) {
    return detail::bytes<document>(span.len + 8, [&](std::uint8_t *out, std::size_t size, std::size_t *len) {
        return jdoc_span_document(it.data(), it.size(), &span, out, size, len);
    });
}

/* A child: the span of its key, if it is a member, and that of its value. */
struct child {
    std::optional<jdoc_span> key;
    jdoc_span value;
};

/* The children of an array or object one by one. The document must outlive it. */
class cursor {
  public:
    /* No value if the document is neither an array nor an object. */
    static result<std::optional<cursor>> open(view it) {
        return detail::some_value<cursor>([&](cursor *made) {
            made->it_ = it;
            return jdoc_cursor_open(it.data(), it.size(), &made->at_);
        });
    }
    cursor() noexcept : it_(nullptr, 0), at_{} {}
    result<std::optional<child>> next() {
        return detail::some_value<child>([this](child *made) {
            jdoc_span key = {};
            const jdoc_status status = jdoc_cursor_next(it_.data(), it_.size(), &at_, &key, &made->value);
            if (key.kind == JDOC_KIND_STRING) made->key = key;
            return status;
        });
    }

  private:
    view it_;
    jdoc_cursor at_;
};

inline result<std::optional<document>> select_value(view it, std::string_view path, bool strict = false) {
    return detail::some_bytes<document>(64, [=](std::uint8_t *out, std::size_t size, std::size_t *len) {
        return jdoc_select_value(it.data(), it.size(), path.data(), path.size(), strict, out, size, len);
    });
}

inline result<std::optional<document>> select_first(view it, std::string_view path, bool strict = false) {
    return detail::some_bytes<document>(64, [=](std::uint8_t *out, std::size_t size, std::size_t *len) {
        return jdoc_select_first(it.data(), it.size(), path.data(), path.size(), strict, out, size, len);
    });
}

/* The span of what select_first copies. Fails with JDOC_COMPUTED if the item is not in the document. */
inline result<std::optional<jdoc_span>> find_first(view it, std::string_view path, bool strict = false) {
    return detail::some_value<jdoc_span>([=](jdoc_span *span) {
        return jdoc_find_first(it.data(), it.size(), path.data(), path.size(), strict, span);
    });
}

inline result<document> select_array(view it, std::string_view path, bool strict = false) {
    return detail::bytes<document>(64, [=](std::uint8_t *out, std::size_t size, std::size_t *len) {
        return jdoc_select_array(it.data(), it.size(), path.data(), path.size(), strict, out, size, len);
    });
}

inline result<bool> exists(view it, std::string_view path, bool strict = false) {
    return detail::truth([=](std::uint8_t *made) {
        return jdoc_exists(it.data(), it.size(), path.data(), path.size(), strict, made);
    });
}

/* Returns the value of a path that is a predicate; std::nullopt is unknown, or the path is not a predicate. */
inline result<std::optional<bool>> match(view it, std::string_view path, bool strict = false) {
    return detail::ternary(
        [=](std::uint8_t *made) { return jdoc_match(it.data(), it.size(), path.data(), path.size(), strict, made); });
}

/* Returns the position of the error in text that is not a JSON path; std::nullopt if it is one. */
inline result<std::optional<std::size_t>> path_error_position(std::string_view text) {
    return detail::some_value<std::size_t>(
        [=](std::size_t *made) { return jdoc_path_error_position(text.data(), text.size(), made); });
}

/* Returns the position of the error in text that is not a key path; std::nullopt if it is one. */
inline result<std::optional<std::size_t>> keypath_error_position(std::string_view text) {
    return detail::some_value<std::size_t>(
        [=](std::size_t *made) { return jdoc_keypath_error_position(text.data(), text.size(), made); });
}

inline result<std::size_t> size(view it) {
    return detail::value<std::size_t>([=](std::size_t *made) { return jdoc_len(it.data(), it.size(), made); });
}

/* ---- edits */

inline result<document> remove(view it, std::string_view path) {
    return detail::bytes<document>(it.size(), [=](std::uint8_t *out, std::size_t size, std::size_t *len) {
        return jdoc_delete_by_keypath(it.data(), it.size(), path.data(), path.size(), out, size, len);
    });
}

inline result<document> remove(view it, std::int32_t index) {
    return detail::bytes<document>(it.size(), [=](std::uint8_t *out, std::size_t size, std::size_t *len) {
        return jdoc_delete_by_index(it.data(), it.size(), index, out, size, len);
    });
}

inline result<document> remove_by_name(view it, std::string_view name) {
    return detail::bytes<document>(it.size(), [=](std::uint8_t *out, std::size_t size, std::size_t *len) {
        return jdoc_delete_by_name(it.data(), it.size(), name.data(), name.size(), out, size, len);
    });
}

inline result<document> insert(view array, std::int32_t position, view value) {
    return detail::bytes<document>(array.size() + value.size(), [=](std::uint8_t *out, std::size_t size, std::size_t *len) {
        return jdoc_array_insert(array.data(), array.size(), value.data(), value.size(), position, out, size, len);
    });
}

/* Fails with JDOC_OBJECT_DUPLICATE_KEY if the key exists and `update` is false. */
inline result<document> insert(view object, std::string_view name, view value, bool update = true) {
    const std::size_t likely = object.size() + name.size() + value.size();
    return detail::bytes<document>(likely, [=](std::uint8_t *out, std::size_t size, std::size_t *len) {
        return jdoc_object_insert(object.data(), object.size(), value.data(), value.size(), name.data(), name.size(), update,
                                  out, size, len);
    });
}

inline result<document> concat(view it, view other) {
    return detail::bytes<document>(it.size() + other.size(), [=](std::uint8_t *out, std::size_t size, std::size_t *len) {
        return jdoc_concat(it.data(), it.size(), other.data(), other.size(), out, size, len);
    });
}

inline result<document> strip_nulls(view it) {
    return detail::bytes<document>(it.size(), [=](std::uint8_t *out, std::size_t size, std::size_t *len) {
        return jdoc_strip_nulls(it.data(), it.size(), out, size, len);
    });
}

inline result<document> pick(view object, std::initializer_list<std::string_view> names) {
    const detail::names column(names);
    return detail::bytes<document>(object.size(), [&](std::uint8_t *out, std::size_t size, std::size_t *len) {
        return jdoc_object_pick(object.data(), object.size(), column.data(), column.size(), column.offsets(),
                                column.count(), out, size, len);
    });
}

inline result<document> remove(view object, std::initializer_list<std::string_view> names) {
    const detail::names column(names);
    return detail::bytes<document>(object.size(), [&](std::uint8_t *out, std::size_t size, std::size_t *len) {
        return jdoc_object_delete(object.data(), object.size(), column.data(), column.size(), column.offsets(),
                                  column.count(), out, size, len);
    });
}

/* ---- arrays as sets, containment */

inline result<document> distinct(view it) {
    return detail::bytes<document>(it.size() + 8, [=](std::uint8_t *out, std::size_t size, std::size_t *len) {
        return jdoc_array_distinct(it.data(), it.size(), out, size, len);
    });
}

inline result<document> intersection(view it, view other) {
    return detail::bytes<document>(it.size() + 8, [=](std::uint8_t *out, std::size_t size, std::size_t *len) {
        return jdoc_array_intersection(it.data(), it.size(), other.data(), other.size(), out, size, len);
    });
}

inline result<document> except(view it, view other) {
    return detail::bytes<document>(it.size() + 8, [=](std::uint8_t *out, std::size_t size, std::size_t *len) {
        return jdoc_array_except(it.data(), it.size(), other.data(), other.size(), out, size, len);
    });
}

inline result<bool> overlap(view it, view other) {
    return detail::truth([=](std::uint8_t *made) {
        return jdoc_array_overlap(it.data(), it.size(), other.data(), other.size(), made);
    });
}

inline result<bool> contains(view it, view other) {
    return detail::truth([=](std::uint8_t *made) {
        return jdoc_contains(it.data(), it.size(), other.data(), other.size(), made);
    });
}

/* Returns -1, 0 or 1. */
inline result<std::int32_t> compare(view it, view other) {
    return detail::value<std::int32_t>([=](std::int32_t *made) {
        return jdoc_compare(it.data(), it.size(), other.data(), other.size(), made);
    });
}

inline result<bool> exists_all_keys(view it, std::initializer_list<std::string_view> names) {
    const detail::names column(names);
    return detail::truth([&](std::uint8_t *made) {
        return jdoc_exists_all_keys(it.data(), it.size(), column.data(), column.size(), column.offsets(),
                                    column.count(), made);
    });
}

inline result<bool> exists_any_keys(view it, std::initializer_list<std::string_view> names) {
    const detail::names column(names);
    return detail::truth([&](std::uint8_t *made) {
        return jdoc_exists_any_keys(it.data(), it.size(), column.data(), column.size(), column.offsets(),
                                    column.count(), made);
    });
}

/* ---- scalars: std::nullopt if the document has another type, or is a number that does not fit */

inline result<std::optional<bool>> as_bool(view it) {
    auto made = detail::some_value<std::uint8_t>([=](std::uint8_t *out) { return jdoc_as_bool(it.data(), it.size(), out); });
    if (!made) return made.error();
    return *made ? std::optional<bool>(**made == 1) : std::optional<bool>();
}

inline result<std::optional<std::int64_t>> as_i64(view it) {
    return detail::some_value<std::int64_t>([=](std::int64_t *out) { return jdoc_as_i64(it.data(), it.size(), out); });
}

inline result<std::optional<std::uint64_t>> as_u64(view it) {
    return detail::some_value<std::uint64_t>([=](std::uint64_t *out) { return jdoc_as_u64(it.data(), it.size(), out); });
}

inline result<std::optional<std::string>> as_str(view it) {
    return detail::some_bytes<std::string>(it.size(), [=](char *out, std::size_t size, std::size_t *len) {
        return jdoc_as_str(it.data(), it.size(), out, size, len);
    });
}

/* The span of the string that as_str copies. */
inline result<std::optional<jdoc_span>> find_str(view it) {
    return detail::some_value<jdoc_span>([=](jdoc_span *span) { return jdoc_find_str(it.data(), it.size(), span); });
}

inline result<std::optional<decimal>> as_decimal(view it) {
    return detail::some_value<decimal>(
        [=](decimal *out) { return jdoc_as_decimal(it.data(), it.size(), &out->high, &out->low, &out->scale); });
}

/* ---- casts: JDOC_INVALID_CAST if there is none */

inline result<bool> to_bool(view it) {
    return detail::truth([=](std::uint8_t *made) { return jdoc_to_bool(it.data(), it.size(), made); });
}

inline result<std::int64_t> to_i64(view it) {
    return detail::value<std::int64_t>([=](std::int64_t *made) { return jdoc_to_i64(it.data(), it.size(), made); });
}

inline result<std::uint64_t> to_u64(view it) {
    return detail::value<std::uint64_t>([=](std::uint64_t *made) { return jdoc_to_u64(it.data(), it.size(), made); });
}

inline result<std::string> to_str(view it) {
    return detail::bytes<std::string>(it.size() + 32, [=](char *out, std::size_t size, std::size_t *len) {
        return jdoc_to_str(it.data(), it.size(), out, size, len);
    });
}

/* ---- keys */

inline result<key> sort_key(view it, bool wide = false) {
    return detail::bytes<key>(it.size() + 16, [=](std::uint8_t *out, std::size_t size, std::size_t *len) {
        return jdoc_sort_key(it.data(), it.size(), wide, out, size, len);
    });
}

inline result<key> equality_key(view it) {
    return detail::bytes<key>(it.size() + 16, [=](std::uint8_t *out, std::size_t size, std::size_t *len) {
        return jdoc_equality_key(it.data(), it.size(), out, size, len);
    });
}

/* The composite key of the columns of one row: a view of no bytes is a missing value. */
inline result<key> composite_key(const column &row, bool wide = false) {
    const column_view it = row;
    return detail::bytes<key>(it.bytes_len + 16, [=](std::uint8_t *out, std::size_t size, std::size_t *len) {
        return jdoc_composite_key(it.bytes, it.bytes_len, it.offsets, it.offsets_len, wide, out, size, len);
    });
}

/* ---- building documents: scalars, arrays of a column, and objects of two columns */

inline result<document> from_null() { return detail::bytes<document>(16, jdoc_from_null); }

inline result<document> from_bool(bool value) {
    return detail::bytes<document>(16, [=](std::uint8_t *out, std::size_t size, std::size_t *len) {
        return jdoc_from_bool(value, out, size, len);
    });
}

inline result<document> from_i64(std::int64_t value) {
    return detail::bytes<document>(24, [=](std::uint8_t *out, std::size_t size, std::size_t *len) {
        return jdoc_from_i64(value, out, size, len);
    });
}

inline result<document> from_u64(std::uint64_t value) {
    return detail::bytes<document>(24, [=](std::uint8_t *out, std::size_t size, std::size_t *len) {
        return jdoc_from_u64(value, out, size, len);
    });
}

/* Fails with JDOC_NOT_UTF8. */
inline result<document> from_str(std::string_view value) {
    return detail::bytes<document>(value.size() + 8, [=](std::uint8_t *out, std::size_t size, std::size_t *len) {
        return jdoc_from_str(value.data(), value.size(), out, size, len);
    });
}

inline result<document> from_decimal(decimal value) {
    return detail::bytes<document>(32, [=](std::uint8_t *out, std::size_t size, std::size_t *len) {
        return jdoc_from_decimal(value.high, value.low, value.scale, out, size, len);
    });
}

inline result<document> array_of(column_view rows) {
    return detail::bytes<document>(
        rows.bytes_len + 4 * rows.size() + 8, [=](std::uint8_t *out, std::size_t size, std::size_t *len) {
            return jdoc_array_from_column(rows.bytes, rows.bytes_len, rows.offsets, rows.offsets_len, out, size, len);
        });
}

/* Fails with JDOC_OBJECT_DUPLICATE_KEY if a name occurs twice. */
inline result<document> object_of(column_view names, column_view rows) {
    const std::size_t likely = names.bytes_len + rows.bytes_len + 8 * rows.size() + 8;
    return detail::bytes<document>(likely, [=](std::uint8_t *out, std::size_t size, std::size_t *len) {
        return jdoc_object_from_columns(reinterpret_cast<const char *>(names.bytes), names.bytes_len, names.offsets,
                                        names.offsets_len, rows.bytes, rows.bytes_len, rows.offsets, rows.offsets_len,
                                        out, size, len);
    });
}

/* ---- taking documents apart */

/* Returns the member of an object at a position in the order of keys: the key, and the value as a document. */
inline result<std::optional<std::pair<std::string, document>>> pair(view it, std::size_t index) {
    using member = std::optional<std::pair<std::string, document>>;
    std::pair<std::string, document> made;
    std::size_t key_len = it.size(), value_len = it.size() + 8;
    jdoc_status status = JDOC_BUFFER_TOO_SMALL;
    for (int round = 0; round < 2 && status == JDOC_BUFFER_TOO_SMALL; round++) {
        made.first.resize(key_len), made.second.resize(value_len);
        status = jdoc_pair(it.data(), it.size(), index, made.first.data(), made.first.size(), &key_len,
                           made.second.data(), made.second.size(), &value_len);
    }
    if (status == JDOC_NONE) return member();
    if (status != JDOC_OK) return status;
    made.first.resize(key_len), made.second.resize(value_len);
    return member(std::move(made));
}

/* Returns the leaves in stored order: their key paths and their documents, as two columns. */
inline result<std::pair<column, column>> leaves(view it) {
    jdoc_leaf_sizes need{};
    std::vector<std::uint8_t> paths, documents;
    std::vector<std::uint64_t> path_offsets, document_offsets;
    const auto call = [&] {
        return jdoc_leaves(it.data(), it.size(), reinterpret_cast<char *>(paths.data()), paths.size(),
                           path_offsets.data(), path_offsets.size(), documents.data(), documents.size(),
                           document_offsets.data(), document_offsets.size(), &need);
    };
    jdoc_status status = call();
    if (status == JDOC_BUFFER_TOO_SMALL) {
        paths.resize(need.path_bytes), documents.resize(need.document_bytes);
        path_offsets.resize(need.rows + 1), document_offsets.resize(need.rows + 1);
        status = call();
    }
    if (status != JDOC_OK) return status;
    return std::pair(column(std::move(paths), std::move(path_offsets)),
                     column(std::move(documents), std::move(document_offsets)));
}

/* ---- documents from events */

/* Returns the document of some events, whose keys and strings are in `text`. Of members with the same key it has the last
 * one if `keep_last`, otherwise it fails with JDOC_OBJECT_DUPLICATE_KEY. Fails with JDOC_OUT_OF_ORDER or JDOC_NOT_UTF8. */
inline result<document> from_events(std::string_view text, const jdoc_text_event *events, std::size_t count,
                                    bool keep_last = false) {
    return detail::bytes<document>(
        text.size() + 22 * count + 8, [=](std::uint8_t *out, std::size_t size, std::size_t *len) {
            return jdoc_from_events(text.data(), text.size(), events, count, keep_last, out, size, len);
        });
}

/* A document that is built from events. With a status other than JDOC_OK a call leaves it as it was. One that was moved
 * from is before its first event. */
class builder {
  public:
    builder() noexcept : builder_{} {}
    builder(builder &&other) noexcept : builder_(std::exchange(other.builder_, jdoc_builder{})) {}
    builder &operator=(builder &&other) noexcept {
        std::swap(builder_, other.builder_);
        return *this;
    }
    ~builder() { jdoc_builder_free(&builder_); }

    [[nodiscard]] jdoc_status begin_array() { return jdoc_builder_begin_array(&builder_); }
    [[nodiscard]] jdoc_status begin_object() { return jdoc_builder_begin_object(&builder_); }
    [[nodiscard]] jdoc_status end() { return jdoc_builder_end(&builder_); }
    [[nodiscard]] jdoc_status key(std::string_view name) {
        return jdoc_builder_key(&builder_, name.data(), name.size());
    }
    [[nodiscard]] jdoc_status add_null() { return jdoc_builder_null(&builder_); }
    [[nodiscard]] jdoc_status add_bool(bool value) { return jdoc_builder_bool(&builder_, value); }
    [[nodiscard]] jdoc_status add_i64(std::int64_t value) { return jdoc_builder_i64(&builder_, value); }
    [[nodiscard]] jdoc_status add_u64(std::uint64_t value) { return jdoc_builder_u64(&builder_, value); }
    [[nodiscard]] jdoc_status add_decimal(decimal value) {
        return jdoc_builder_decimal(&builder_, value.high, value.low, value.scale);
    }
    [[nodiscard]] jdoc_status add_str(std::string_view text) {
        return jdoc_builder_str(&builder_, text.data(), text.size());
    }
    [[nodiscard]] jdoc_status add_document(view it) { return jdoc_builder_document(&builder_, it.data(), it.size()); }

    /* Returns the document, and keeps it. Fails with JDOC_OUT_OF_ORDER if the root is not complete. */
    result<document> finish() {
        return detail::bytes<document>(64, [&](std::uint8_t *out, std::size_t size, std::size_t *len) {
            return jdoc_builder_finish(&builder_, out, size, len);
        });
    }

  private:
    jdoc_builder builder_;
};

/* ---- prepared paths: parsed once, for many documents. Calls on one object must not overlap. One that was moved from
 * contains no path; its calls fail with JDOC_NO_PATH. */

/* What a path selects of a document, one item at a time. The document has to outlive it, unchanged. */
class items {
  public:
    items(items &&other) noexcept : of_(other.of_), items_(std::exchange(other.items_, jdoc_items{})) {}
    items &operator=(items &&other) noexcept {
        std::swap(of_, other.of_), std::swap(items_, other.items_);
        return *this;
    }
    ~items() { jdoc_items_free(&items_); }

    /* Returns the next item, and none after the last. After an error the same item is next. */
    result<std::optional<document>> next() {
        return detail::some_bytes<document>(64, [&](std::uint8_t *out, std::size_t size, std::size_t *len) {
            return jdoc_items_next(&items_, of_.data(), of_.size(), out, size, len);
        });
    }

    /* The span of what next copies. Fails with JDOC_COMPUTED if the item is not in the document. */
    result<std::optional<jdoc_span>> find_next() {
        return detail::some_value<jdoc_span>(
            [&](jdoc_span *span) { return jdoc_items_find_next(&items_, of_.data(), of_.size(), span); });
    }

  private:
    friend class path;
    explicit items(view of) noexcept : of_(of), items_{} {}
    view of_;
    jdoc_items items_;
};

class path {
  public:
    /* Fails with JDOC_INVALID_JSON_PATH if the text is not in the grammar. */
    static result<path> read(std::string_view text) {
        path made;
        const jdoc_status status = jdoc_path_read(text.data(), text.size(), &made.path_);
        return status == JDOC_OK ? result<path>(std::move(made)) : result<path>(status);
    }
    path(path &&other) noexcept : path_(std::exchange(other.path_, jdoc_path{})) {}
    path &operator=(path &&other) noexcept {
        std::swap(path_, other.path_);
        return *this;
    }
    ~path() { jdoc_path_free(&path_); }

    /* Calls fail with JDOC_LIMIT_EXCEEDED if most_items of a document is above the limit. UINT64_MAX is no limit. */
    jdoc_status limit(std::uint64_t most) { return jdoc_path_limit(&path_, most); }

    /* The bound: at most how many items the path lists on a document, and how many values its filters compare. */
    result<std::uint64_t> most_items(view it) {
        return detail::value<std::uint64_t>(
            [&](std::uint64_t *made) { return jdoc_path_most_items(&path_, it.data(), it.size(), made); });
    }

    result<std::optional<document>> select_value(view it, bool strict = false) {
        return detail::some_bytes<document>(64, [&](std::uint8_t *out, std::size_t size, std::size_t *len) {
            return jdoc_path_select_value(&path_, it.data(), it.size(), strict, out, size, len);
        });
    }
    result<std::optional<document>> select_first(view it, bool strict = false) {
        return detail::some_bytes<document>(64, [&](std::uint8_t *out, std::size_t size, std::size_t *len) {
            return jdoc_path_select_first(&path_, it.data(), it.size(), strict, out, size, len);
        });
    }
    result<std::optional<jdoc_span>> find_first(view it, bool strict = false) {
        return detail::some_value<jdoc_span>(
            [&](jdoc_span *span) { return jdoc_path_find_first(&path_, it.data(), it.size(), strict, span); });
    }
    result<document> select_array(view it, bool strict = false) {
        return detail::bytes<document>(64, [&](std::uint8_t *out, std::size_t size, std::size_t *len) {
            return jdoc_path_select_array(&path_, it.data(), it.size(), strict, out, size, len);
        });
    }
    result<jdoc::items> items(view it, bool strict = false) {
        jdoc::items made(it);
        const jdoc_status status = jdoc_path_items(&path_, it.data(), it.size(), strict, &made.items_);
        return status == JDOC_OK ? result<jdoc::items>(std::move(made)) : result<jdoc::items>(status);
    }
    result<bool> exists(view it, bool strict = false) {
        return detail::truth(
            [&](std::uint8_t *made) { return jdoc_path_exists(&path_, it.data(), it.size(), strict, made); });
    }
    result<std::optional<bool>> match(view it, bool strict = false) {
        return detail::ternary(
            [&](std::uint8_t *made) { return jdoc_path_match(&path_, it.data(), it.size(), strict, made); });
    }

  private:
    path() noexcept : path_{} {}
    jdoc_path path_;
};

class keypath {
  public:
    /* Fails with JDOC_INVALID_KEY_PATH if the text is not in the grammar. */
    static result<keypath> read(std::string_view text) {
        keypath made;
        const jdoc_status status = jdoc_keypath_read(text.data(), text.size(), &made.path_);
        return status == JDOC_OK ? result<keypath>(std::move(made)) : result<keypath>(status);
    }
    keypath(keypath &&other) noexcept : path_(std::exchange(other.path_, jdoc_keypath{})) {}
    keypath &operator=(keypath &&other) noexcept {
        std::swap(path_, other.path_);
        return *this;
    }
    ~keypath() { jdoc_keypath_free(&path_); }

    result<std::optional<document>> get(view it) {
        return detail::some_bytes<document>(64, [&](std::uint8_t *out, std::size_t size, std::size_t *len) {
            return jdoc_keypath_get(&path_, it.data(), it.size(), out, size, len);
        });
    }
    result<std::optional<jdoc_span>> find(view it) {
        return detail::some_value<jdoc_span>(
            [&](jdoc_span *span) { return jdoc_keypath_find(&path_, it.data(), it.size(), span); });
    }
    result<document> remove(view it) {
        return detail::bytes<document>(it.size(), [&](std::uint8_t *out, std::size_t size, std::size_t *len) {
            return jdoc_keypath_delete(&path_, it.data(), it.size(), out, size, len);
        });
    }

  private:
    keypath() noexcept : path_{} {}
    jdoc_keypath path_;
};

/* ---- columns: the path is parsed once. An invalid row has its own status, and affects no other */

#define JDOC_ROWS  it.bytes, it.bytes_len, it.offsets, it.offsets_len
#define JDOC_LEFT  it.bytes, it.bytes_len, it.offsets + to.first, it.offsets_len - (it.offsets_len ? to.first : 0)
#define JDOC_TO    to.out, to.out_size, to.positions, to.positions_len, to.statuses, to.statuses_len, &to.progress
#define JDOC_FIXED auto *rows, std::size_t size, std::uint8_t *statuses, std::size_t statuses_len, std::size_t *done
#define JDOC_DONE  rows, size, statuses, statuses_len, done

/* Returns the status of each row. */
inline result<std::vector<std::uint8_t>> check(column_view it) {
    std::vector<std::uint8_t> statuses(it.size());
    std::size_t done = 0;
    const jdoc_status status = jdoc_column_check(JDOC_ROWS, statuses.data(), statuses.size(), &done);
    if (status != JDOC_OK) return status;
    return statuses;
}

inline result<booleans> exists(column_view it, std::string_view path, bool strict = false) {
    return detail::fixed<std::uint8_t>(
        it, [=](JDOC_FIXED) { return jdoc_column_exists(JDOC_ROWS, path.data(), path.size(), strict, JDOC_DONE); });
}

inline result<booleans> match(column_view it, std::string_view path, bool strict = false) {
    return detail::fixed<std::uint8_t>(
        it, [=](JDOC_FIXED) { return jdoc_column_match(JDOC_ROWS, path.data(), path.size(), strict, JDOC_DONE); });
}

inline result<booleans> contains(column_view it, view other) {
    return detail::fixed<std::uint8_t>(
        it, [=](JDOC_FIXED) { return jdoc_column_contains(JDOC_ROWS, other.data(), other.size(), JDOC_DONE); });
}

inline result<numbers> to_i64(column_view it) {
    return detail::fixed<std::int64_t>(it, [=](JDOC_FIXED) { return jdoc_column_to_i64(JDOC_ROWS, JDOC_DONE); });
}

inline result<documents> get(column_view it, std::string_view path) {
    return detail::several(it, [=](auto &to) { return jdoc_column_get(JDOC_LEFT, path.data(), path.size(), JDOC_TO); });
}

inline result<documents> remove(column_view it, std::string_view path) {
    return detail::several(
        it, [=](auto &to) { return jdoc_column_delete_by_keypath(JDOC_LEFT, path.data(), path.size(), JDOC_TO); });
}

inline result<documents> select_value(column_view it, std::string_view path, bool strict = false) {
    return detail::several(
        it, [=](auto &to) { return jdoc_column_select_value(JDOC_LEFT, path.data(), path.size(), strict, JDOC_TO); });
}

inline result<documents> select_first(column_view it, std::string_view path, bool strict = false) {
    return detail::several(
        it, [=](auto &to) { return jdoc_column_select_first(JDOC_LEFT, path.data(), path.size(), strict, JDOC_TO); });
}

inline result<documents> select_array(column_view it, std::string_view path, bool strict = false) {
    return detail::several(
        it, [=](auto &to) { return jdoc_column_select_array(JDOC_LEFT, path.data(), path.size(), strict, JDOC_TO); });
}

inline result<documents> sort_key(column_view it, bool wide = false) {
    return detail::several(it, [=](auto &to) { return jdoc_column_key(JDOC_LEFT, wide, JDOC_TO); });
}

inline result<documents> equality_key(column_view it) {
    return detail::several(it, [=](auto &to) { return jdoc_column_equality_key(JDOC_LEFT, JDOC_TO); });
}

/* Returns a column of strings. */
inline result<documents> to_str(column_view it) {
    return detail::several<char>(it, [=](auto &to) { return jdoc_column_to_str(JDOC_LEFT, JDOC_TO); });
}

#undef JDOC_ROWS
#undef JDOC_LEFT
#undef JDOC_TO
#undef JDOC_FIXED
#undef JDOC_DONE

} // namespace jdoc

#endif
