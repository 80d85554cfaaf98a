/* The functions of jdoc.hpp: each once or more, on documents written by hand from docs/FORMAT.md. */
#include "../jdoc.hpp"

#include <cstdio>
#include <string>
#include <type_traits>
#if __cplusplus >= 202002L
#include <span>
#endif

namespace {

int passed = 0, failed = 0;

void expect(bool holds, const char *what) {
    (holds ? passed : failed)++;
    if (!holds) std::printf("not so: %s\n", what);
}
#define EXPECT(condition) expect(condition, #condition)

jdoc::document hex(std::string_view digits) {
    jdoc::document made;
    for (std::size_t at = 0; at + 1 < digits.size(); at += 2)
        made.push_back(static_cast<std::uint8_t>(std::stoi(std::string(digits.substr(at, 2)), nullptr, 16)));
    return made;
}

template <class T> bool is(const jdoc::result<T> &made, const T &expected) { return made && *made == expected; }
template <class T> bool is_some(const jdoc::result<std::optional<T>> &made, const T &expected) {
    return made && *made && **made == expected;
}
template <class T> bool is_none(const jdoc::result<std::optional<T>> &made) { return made && !*made; }

jdoc::document document_of(jdoc::view it) { return jdoc::document(it.data(), it.data() + it.size()); }
std::string string_of(jdoc::view it) { return std::string(it.data(), it.data() + it.size()); }
jdoc::view view_of(std::string_view it) { return it; }

/* [false, 10, {"k":"v"}], [10,20,30], {"asd":"adf"}, [1], 1, "v", null */
const jdoc::document mixed = hex("8000000330000000200000025000000e500a4000000110000001100000016b76");
const jdoc::document tens = hex("80000003200000022000000220000002500a5014501e");
const jdoc::document object = hex("400000011000000310000003617364616466");
const jdoc::document one_in_array = hex("80000001200000025001");
const jdoc::document one = hex("20000000200000025001");
const jdoc::document v = hex("200000001000000176");
const jdoc::document null = hex("2000000000000000");

void paths() {
    EXPECT(is_some(jdoc::get(mixed, "{2,k}"), v));
    EXPECT(is_none(jdoc::get(mixed, "{7}")));
    EXPECT(jdoc::get(mixed, "{1a}").error() == JDOC_INVALID_KEY_PATH);
    EXPECT(is_some(jdoc::keypath_error_position("{1a}"), std::size_t{2}));
    EXPECT(is_some(jdoc::path_error_position("$.a["), std::size_t{3}));
    EXPECT(is_none(jdoc::path_error_position("$.a")));
    EXPECT(is_some(jdoc::get(one_in_array, std::size_t{0}), one));
    EXPECT(is_some(jdoc::get_by_name(object, "ASD", true), hex("2000000010000003616466")));
    EXPECT(is_none(jdoc::get_by_name(object, "ASD")));
    EXPECT(is_some(jdoc::select_value(one_in_array, "$[*]"), one));
    EXPECT(is_some(jdoc::select_value(tens, "$[*]"), tens));
    EXPECT(is_some(jdoc::select_first(mixed, "$[*].k"), v));
    EXPECT(is(jdoc::select_array(tens, "$[last, 0]"), hex("800000022000000220000002501e500a")));
    EXPECT(is(jdoc::exists(object, "$.asd"), true));
    EXPECT(jdoc::exists(object, "$.c", true).error() == JDOC_STRICT_PATH);
    EXPECT(is_some(jdoc::match(tens, "$[*] > 25"), true));
    EXPECT(is_none(jdoc::match(one_in_array, "$.a")));
    EXPECT(is(jdoc::size(tens), std::size_t{3}));
    EXPECT(jdoc::size(one).error() == JDOC_NONE);
}

void edits() {
    EXPECT(is(jdoc::remove(mixed, "{2,k}"), hex("80000003300000002000000250000004500a40000000")));
    EXPECT(is(jdoc::remove(one_in_array, std::int32_t{-1}), hex("80000000")));
    EXPECT(jdoc::remove_by_name(one, "a").error() == JDOC_INVALID_JSON_TYPE);
    EXPECT(is(jdoc::insert(one_in_array, 2147483647, hex("20000000200000025009")), hex("80000002200000022000000250015009")));
    EXPECT(is(jdoc::insert(object, "b", one), hex("400000021000000310000001100000032000000261736462" "6164665001")));
    EXPECT(jdoc::insert(object, "asd", one, false).error() == JDOC_OBJECT_DUPLICATE_KEY);
    EXPECT(is(jdoc::concat(one, hex("20000000200000025002")), hex("80000002200000022000000250015002")));
    EXPECT(is(jdoc::strip_nulls(null), null));
    EXPECT(is(jdoc::pick(object, {"asd", "b"}), object));
    EXPECT(is(jdoc::remove(object, {"asd"}), hex("40000000")));
}

void sets() {
    EXPECT(is(jdoc::distinct(one), one_in_array));
    EXPECT(is(jdoc::intersection(one_in_array, one), one_in_array));
    EXPECT(is(jdoc::except(one, one_in_array), hex("80000000")));
    EXPECT(is(jdoc::overlap(tens, one), false));
    EXPECT(is(jdoc::contains(one_in_array, one), true));
    EXPECT(is(jdoc::compare(one_in_array, one), std::int32_t{1}));
    EXPECT(is(jdoc::compare(one, one_in_array), std::int32_t{-1}));
    EXPECT(is(jdoc::exists_all_keys(object, {"asd", "b"}), false));
    EXPECT(is(jdoc::exists_any_keys(object, {"asd", "b"}), true));
}

void scalars() {
    EXPECT(is(jdoc::type(mixed), JDOC_KIND_ARRAY));
    EXPECT(is_none(jdoc::as_bool(one)));
    EXPECT(is_some(jdoc::as_bool(hex("2000000040000000")), true));
    EXPECT(is_some(jdoc::as_i64(one), std::int64_t{1}));
    EXPECT(is_some(jdoc::as_u64(one), std::uint64_t{1}));
    EXPECT(is_some(jdoc::as_str(v), std::string("v")));
    EXPECT(jdoc::to_bool(one).error() == JDOC_INVALID_CAST);
    EXPECT(is(jdoc::to_i64(one), std::int64_t{1}));
    EXPECT(is(jdoc::to_u64(one), std::uint64_t{1}));
    EXPECT(is(jdoc::to_str(hex("200000002000000a7000000000000004d202")), std::string("12.34")));
    EXPECT(is(jdoc::sort_key(one), hex("00048103e90200")));
    EXPECT(is(jdoc::sort_key(one, true), hex("0000048103e90200")));
    EXPECT(is(jdoc::composite_key({jdoc::view(nullptr, 0), one}), hex("000000048103e90200")));
    EXPECT(is(jdoc::composite_key({one, jdoc::view(nullptr, 0)}, true), hex("0000048103e90200000000")));
    EXPECT(is(jdoc::equality_key(one), hex("048103e90200")));
    EXPECT(is(jdoc::from_null(), null));
    EXPECT(is(jdoc::from_bool(false), hex("2000000030000000")));
    EXPECT(is(jdoc::from_i64(-100), hex("2000000020000002409c")));
    EXPECT(is(jdoc::from_u64(1), one));
    EXPECT(is(jdoc::from_str("v"), v));
    EXPECT(jdoc::from_str("\xff").error() == JDOC_NOT_UTF8);
    EXPECT(jdoc::check(mixed) == JDOC_OK);
    EXPECT(jdoc::check(std::string_view("\x80\0\0", 3)) == JDOC_INVALID_JSONB);
    EXPECT(std::string(jdoc::text(JDOC_NOT_UTF8)) == jdoc_status_text(JDOC_NOT_UTF8));
    EXPECT(std::string(jdoc::text(*jdoc::type(one))) == "integer");
    EXPECT(jdoc::to_i64(v).value_or(7) == 7);
}

void prepared() {
    jdoc::result<jdoc::path> tall = jdoc::path::read("$[*] > 25");
    EXPECT(tall && is_some(tall->match(tens), true));
    EXPECT(is_some(tall->match(one_in_array), false));
    EXPECT(jdoc::path::read("$[").error() == JDOC_INVALID_JSON_PATH);
    jdoc::path items = *jdoc::path::read("$[last, 0]");
    EXPECT(is(items.select_array(tens), hex("800000022000000220000002501e500a")));
    jdoc::result<jdoc::items> found = items.items(tens);
    EXPECT(found && is_some(found->next(), hex("2000000020000002501e")));
    jdoc::items others = std::move(*found);
    EXPECT(is_some(others.next(), hex("2000000020000002500a")));
    EXPECT(is_none(others.next()) && found->next().error() == JDOC_NO_PATH);
    EXPECT(items.items(object, true).error() == JDOC_STRICT_PATH);
    jdoc::result<jdoc::items> places = items.items(tens);
    EXPECT((*places->find_next())->at == 20 && (*places->find_next())->at == 16 && !*places->find_next());
    jdoc::result<jdoc::items> sums = jdoc::path::read("$[0] + 1")->items(tens);
    EXPECT(sums->find_next().error() == JDOC_COMPUTED && is_some(sums->next(), hex("2000000020000002500b")));
    EXPECT(is_some(items.select_first(tens), hex("2000000020000002501e")));
    EXPECT(is_some(items.select_value(one_in_array), one_in_array) == false);
    EXPECT(is(items.exists(object), false));
    EXPECT(items.exists(object, true).error() == JDOC_STRICT_PATH);
    jdoc::path moved = std::move(items);
    EXPECT(is(moved.exists(tens), true));
    EXPECT(items.exists(tens).error() == JDOC_NO_PATH);
    moved = *jdoc::path::read("$.asd");
    EXPECT(is(moved.exists(tens), false));
    EXPECT(is(moved.exists(object), true));
    jdoc::path every = *jdoc::path::read("$[*]");
    EXPECT(is(every.most_items(tens), std::uint64_t{6}) && every.limit(5) == JDOC_OK);
    EXPECT(every.exists(tens).error() == JDOC_LIMIT_EXCEEDED && every.limit(6) == JDOC_OK);
    EXPECT(is(every.exists(tens), true) && items.limit(6) == JDOC_NO_PATH);
    jdoc::result<jdoc::keypath> key = jdoc::keypath::read("{2,k}");
    EXPECT(key && is_some(key->get(mixed), v));
    EXPECT(is_none(key->get(tens)));
    jdoc::result<std::optional<jdoc_span>> span = key->find(mixed);
    EXPECT(span && *span && (*span)->at == 31 && (*span)->len == 1 && (*span)->kind == JDOC_KIND_STRING);
    EXPECT(key->find(tens) && !*key->find(tens));
    EXPECT(jdoc::find(mixed, "{1}") && (*jdoc::find(mixed, "{1}"))->entry == 2);
    EXPECT((*jdoc::find(mixed, std::size_t{1}))->at == 16);
    EXPECT((*jdoc::find_by_name(object, "ASD", true))->at == 15);
    EXPECT((*jdoc::find_str(v))->at == 8);
    EXPECT(is(jdoc::value_at(mixed, **key->find(mixed)), v));
    EXPECT(jdoc::value_at(v, **key->find(mixed)).error() == JDOC_INVALID_JSONB);
    EXPECT((*jdoc::find_first(mixed, "$[*].k"))->at == 31 && !*jdoc::find_first(mixed, "$[9]"));
    EXPECT(jdoc::find_first(tens, "$[1] + 1").error() == JDOC_COMPUTED);
    EXPECT((*jdoc::path::read("$[1]")->find_first(tens))->at == 18);
    jdoc::cursor members = **jdoc::cursor::open(object);
    const jdoc::child member = **members.next();
    EXPECT(member.key && member.key->at == 12 && member.value.at == 15 && !*members.next());
    EXPECT(!(*(*jdoc::cursor::open(mixed))->next())->key && !*jdoc::cursor::open(one));
    EXPECT(is(key->remove(mixed), *jdoc::remove(mixed, "{2,k}")));
    EXPECT(jdoc::keypath::read("{1a}").error() == JDOC_INVALID_KEY_PATH);
    static_assert(!std::is_copy_constructible_v<jdoc::path> && !std::is_copy_constructible_v<jdoc::keypath>);
}

void parts() {
    EXPECT(is(jdoc::array_of(jdoc::column{one, null}), hex("80000002200000020000000050" "01")));
    EXPECT(is(jdoc::array_of(jdoc::column()), hex("80000000")));
    const jdoc::column names{std::string_view("asd")};
    EXPECT(is(jdoc::object_of(names, jdoc::column{*jdoc::from_str("adf")}), object));
    const jdoc::column twice{std::string_view("a"), std::string_view("a")};
    EXPECT(jdoc::object_of(twice, jdoc::column{one, one}).error() == JDOC_OBJECT_DUPLICATE_KEY);
    EXPECT(is_some(jdoc::pair(object, 0), std::pair(std::string("asd"), *jdoc::from_str("adf"))));
    EXPECT(is_none(jdoc::pair(object, 1)));
    const jdoc::result<std::pair<jdoc::column, jdoc::column>> leaves = jdoc::leaves(mixed);
    EXPECT(leaves && leaves->first.size() == 3 && leaves->second.size() == 3);
    EXPECT(leaves && string_of(leaves->first[2]) == "{2,k}" && document_of(leaves->second[2]) == v);
    EXPECT(jdoc::leaves(one)->first.size() == 0 && jdoc::column({}, {}).size() == 0);
    EXPECT(jdoc::leaves(view_of("?")).error() == JDOC_INVALID_JSONB);
    const jdoc::decimal price{0, 1234, 2};
    EXPECT(is(jdoc::from_decimal(price), hex("200000002000000a7000000000000004d202")));
    EXPECT(is_some(jdoc::as_decimal(hex("200000002000000a7000000000000004d202")), price));
    EXPECT(is_none(jdoc::as_decimal(v)));
    EXPECT(jdoc::version() == JDOC_VERSION_NUMBER);
}

void events() {
    jdoc::builder made;
    EXPECT(made.begin_object() == JDOC_OK && made.add_null() == JDOC_OUT_OF_ORDER);
    EXPECT(made.key("asd") == JDOC_OK && made.finish().error() == JDOC_OUT_OF_ORDER);
    EXPECT(made.add_str("adf") == JDOC_OK && made.key("asd") == JDOC_OBJECT_DUPLICATE_KEY);
    EXPECT(made.end() == JDOC_OK && is(made.finish(), object));
    jdoc::builder moved = std::move(made);
    EXPECT(is(moved.finish(), object) && made.begin_array() == JDOC_OK && made.end() == JDOC_OK);
    moved = std::move(made);
    EXPECT(is(moved.finish(), hex("80000000")));
    jdoc::builder values;
    EXPECT(values.begin_array() == JDOC_OK && values.add_bool(false) == JDOC_OK && values.add_i64(-100) == JDOC_OK);
    EXPECT(values.add_u64(1) == JDOC_OK && values.add_decimal({0, 1234, 2}) == JDOC_OK && values.add_null() == JDOC_OK);
    EXPECT(values.add_document(object) == JDOC_OK && values.add_document(view_of("?")) == JDOC_INVALID_JSONB);
    EXPECT(values.add_str("\xff") == JDOC_NOT_UTF8 && values.end() == JDOC_OK);
    const jdoc::column parts{*jdoc::from_bool(false), *jdoc::from_i64(-100), *jdoc::from_u64(1),
                             *jdoc::from_decimal({0, 1234, 2}), null, object};
    EXPECT(is(values.finish(), *jdoc::array_of(parts)));
    static_assert(!std::is_copy_constructible_v<jdoc::builder>);
    jdoc_text_event twice[] = {{0, 0, JDOC_TEXT_OBJECT, 0}, {3, 0, JDOC_TEXT_KEY, 0}, {0, 0, JDOC_TEXT_NULL, 0},
                               {3, 0, JDOC_TEXT_KEY, 0},    {3, 0, JDOC_TEXT_STRING, 0}, {0, 0, JDOC_TEXT_END, 0}};
    EXPECT(is(jdoc::from_events("asdasdadf", twice, 6, true), object));
    EXPECT(jdoc::from_events("asdasdadf", twice, 6).error() == JDOC_OBJECT_DUPLICATE_KEY);
    EXPECT(jdoc::from_events("asdasdadf", twice, 5).error() == JDOC_OUT_OF_ORDER);
}

/* One row of each outcome: a result, none, and an error. */
void columns() {
    const jdoc::column rows{mixed, tens, view_of("?"), object};
    const auto truths = jdoc::match(rows, "$[*] > 25");
    EXPECT(truths && truths->rows == (std::vector<std::uint8_t>{2, 1, 2, 2}));
    EXPECT(truths && truths->statuses[2] == JDOC_INVALID_JSONB && truths->statuses[1] == JDOC_OK);
    EXPECT(jdoc::match(rows, "$[").error() == JDOC_INVALID_JSON_PATH);
    EXPECT(jdoc::exists(rows, "$.asd")->rows == (std::vector<std::uint8_t>{0, 0, 2, 1}));
    EXPECT(jdoc::contains(rows, one_in_array)->rows == (std::vector<std::uint8_t>{0, 0, 2, 0}));
    EXPECT(*jdoc::check(rows) == (std::vector<std::uint8_t>{0, 0, JDOC_INVALID_JSONB, 0}));
    EXPECT(jdoc::to_i64(jdoc::column{one, v})->rows == (std::vector<std::int64_t>{1, 0}));
    const auto found = jdoc::get(rows, "{2}");
    EXPECT(found && found->rows.size() == 4 && document_of(found->rows[1]) == hex("2000000020000002501e"));
    EXPECT(found && found->statuses == (std::vector<std::uint8_t>{0, 0, JDOC_INVALID_JSONB, JDOC_NONE}));
    EXPECT(document_of(jdoc::select_first(rows, "$[0]")->rows[1]) == hex("2000000020000002500a"));
    EXPECT(document_of(jdoc::select_value(rows, "$.asd")->rows[3]) == *jdoc::from_str("adf"));
    EXPECT(document_of(jdoc::remove(rows, "{asd}")->rows[3]) == hex("40000000"));
    EXPECT(document_of(jdoc::sort_key(rows)->rows[1]) == *jdoc::sort_key(tens));
    EXPECT(document_of(jdoc::sort_key(rows, true)->rows[1]) == *jdoc::sort_key(tens, true));
    EXPECT(document_of(jdoc::equality_key(rows)->rows[0]) == *jdoc::equality_key(mixed));
    EXPECT(string_of(jdoc::to_str(jdoc::column{v, one})->rows[1]) == "1");
    EXPECT(jdoc::get(jdoc::column_view(nullptr, 0, nullptr, 0), "{}")->rows.size() == 0);
}

/* Results that are longer than their rows: more than one buffer. */
void long_results() {
    jdoc::column rows;
    for (int row = 0; row < 100; row++) rows.push_back(tens);
    const auto found = jdoc::select_array(rows, "$.**[*]");
    const jdoc::document wanted = *jdoc::select_array(tens, "$.**[*]");
    bool all = found && found->rows.size() == 100 && found->rows.bytes().size() > rows.bytes().size();
    for (std::size_t row = 0; all && row < 100; row++) all = document_of(found->rows[row]) == wanted;
    EXPECT(all);
}

void views() {
    const std::string text(reinterpret_cast<const char *>(one.data()), one.size());
    EXPECT(is(jdoc::to_i64(text), std::int64_t{1}));
    EXPECT(is(jdoc::to_i64(std::string_view(text)), std::int64_t{1}));
#if __cplusplus >= 202002L
    EXPECT(is(jdoc::to_i64(std::span(one)), std::int64_t{1}));
    EXPECT(is(jdoc::to_i64(std::as_bytes(std::span(one))), std::int64_t{1}));
#endif
}

} // namespace

int main() {
    paths();
    prepared();
    parts();
    events();
    columns();
    long_results();
    views();
    edits();
    sets();
    scalars();
    std::printf("%d passed, %d failed\n", passed, failed);
    return failed ? 1 : 0;
}
