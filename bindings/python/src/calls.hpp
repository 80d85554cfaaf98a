// A call on one document. The types of its arguments and of its result determine how they are converted. A Flag at the
// end is an optional keyword argument.
#pragma once

#include "results.hpp"

template <typename Kind> constexpr bool is_flag = std::is_same_v<Kind, Flag>;

template <auto CALL, const char *WORD, typename Result, typename... Kinds>
PyObject *one(PyObject *module, PyObject *const *arguments, Py_ssize_t count, PyObject *names) {
    constexpr Py_ssize_t expected = sizeof...(Kinds) - (is_flag<Kinds> || ...);
    constexpr bool has_flag = (is_flag<Kinds> || ...);
    std::tuple<Kinds...> taken;
    Py_ssize_t named = names ? PyTuple_Size(names) : 0, next = 0;
    if (count != expected) return wrong_count(expected, count), nullptr;
    if (named > has_flag) return wrong_names(WORD), nullptr;
    auto take = [&](auto &it) {
        if constexpr (is_flag<std::decay_t<decltype(it)>>)
            return !named || take_word(it, PyTuple_GetItem(names, 0), WORD, arguments[count]);
        else
            return it.take(arguments[next++]);
    };
    if (!std::apply([&](auto &...it) { return (take(it) && ...); }, taken)) return nullptr;
    auto call = [&](auto out) {
        return std::apply([&](auto &...it) { return std::apply(CALL, std::tuple_cat(it.words()..., out)); }, taken);
    };
    auto show = [=] { return Shown{arguments + 1, count - 1, arguments[0], EXPECTED<CALL>}; };
    return Result::of(state_of(module), call, show);
}
