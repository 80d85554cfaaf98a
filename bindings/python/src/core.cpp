// The module jsonb_paths._core: its table of calls, and its state.
#include "arrow.hpp"
#include "calls.hpp"
#include "columns.hpp"
#include "paths.hpp"

namespace {

// A call that turns a failed allocation of C++ into Python's MemoryError.
template <auto CALL, typename... Arguments> PyObject *safe(Arguments... arguments) {
    try {
        return CALL(arguments...);
    } catch (const std::bad_alloc &) {
        return PyErr_NoMemory();
    }
}

template <auto CALL> PyCFunction call_of_one() { return function(safe<CALL, PyObject *, PyObject *>); }
template <auto CALL> PyCFunction call_of_many() {
    return function(safe<CALL, PyObject *, PyObject *const *, Py_ssize_t, PyObject *>);
}

constexpr int MANY = METH_FASTCALL | METH_KEYWORDS;
constexpr char CASE[] = "ignore_case", UPDATE[] = "update", WIDE[] = "wide", NO_WORD[] = "";

// A call on one document: name, call in C, word of a Flag, result, signature, doc comment, arguments.
#define ONE(name, call, word, result, signature, doc, ...)                                                             \
    { name, call_of_many<one<call, word, result, __VA_ARGS__>>(), MANY, name signature "\n--\n\n" doc }
// A call with a JSON path: its text, or prepared if there is a limit.
#define PATH_CALL(name, call, path_call, result, doc)                                                                  \
    { name, call_of_many<evaluate<call, path_call, result>>(), MANY, name EVALUATION "\n--\n\n" doc }
// Another call of several arguments, and of one.
#define CALL(name, call, signature, doc)                                                                               \
    { name, call_of_many<call>(), MANY, name signature "\n--\n\n" doc }
#define CALL_1(name, call, signature, doc)                                                                             \
    { name, call_of_one<call>(), METH_O, name signature "\n--\n\n" doc }
// A call of this package alone.
#define ROWS(name, ...)                                                                                                \
    { name, call_of_many<__VA_ARGS__>(), MANY, nullptr }

#define DOCUMENT    "($module, document, /)"
#define OTHER       "($module, document, other, /)"
#define EVALUATION  "($module, document, path, /, *, strict=False, limit=None)"

PyMethodDef METHODS[] = {
    ONE("check", jdoc_check, NO_WORD, Nothing, DOCUMENT,
        "Raises an exception if the bytes are not a document. Other calls read only what they need: check untrusted "
        "documents first.",
        Document),
    ONE("kind_number", jdoc_type, NO_WORD, Byte, DOCUMENT, "Returns the index of the type in KINDS.", Document),
    ONE("get", jdoc_get_by_keypath, NO_WORD, Bytes, "($module, document, path, /)",
        "Returns the item at a key path such as {phones,0}, or None.", Document, Text),
    ONE("get_by_index", jdoc_get_by_index, NO_WORD, Bytes, "($module, document, index, /)",
        "Returns an element of an array, or None.", Document, Size),
    ONE("get_by_name", jdoc_get_by_name, CASE, Bytes, "($module, document, name, /, *, ignore_case=False)",
        "Returns the value of a key, or None. With ignore_case, a key that differs only in the case of ASCII letters "
        "matches too.",
        Document, Text, Flag),
    CALL("select", select_items, EVALUATION, "Returns each item that a JSON path selects, in order with repeats."),
    PATH_CALL("select_first", jdoc_select_first, jdoc_path_select_first, Bytes,
        "Returns the first item that a JSON path selects, or None."),
    PATH_CALL("select_value", jdoc_select_value, jdoc_path_select_value, Bytes,
        "Returns None, the only item that a JSON path selects, or an array of several."),
    PATH_CALL("select_array", jdoc_select_array, jdoc_path_select_array, Bytes,
        "Returns an array of all items that a JSON path selects."),
    PATH_CALL("exists", jdoc_exists, jdoc_path_exists, Ternary,
        "Returns whether a JSON path selects an item. A predicate selects its result: for that call match."),
    PATH_CALL("match", jdoc_match, jdoc_path_match, Ternary,
        "Returns the value of a JSON path that is a predicate. None: unknown, or not a predicate."),
    ONE("delete", jdoc_delete_by_keypath, NO_WORD, Bytes, "($module, document, path, /)",
        "Returns the document without the item at a key path.", Document, Text),
    ONE("delete_by_index", jdoc_delete_by_index, NO_WORD, Bytes, "($module, document, index, /)",
        "Returns the array without an element. A negative index counts from the end.", Document, Index),
    ONE("delete_by_name", jdoc_delete_by_name, NO_WORD, Bytes, "($module, document, name, /)",
        "Returns the object without a key, or the array without the strings equal to the name.", Document, Text),
    ONE("array_insert", jdoc_array_insert, NO_WORD, Bytes, "($module, document, value, position, /)",
        "Returns the array with a value before a position. A negative position counts from the end.", Document,
        Document, Index),
    ONE("object_insert_value", jdoc_object_insert, UPDATE, Bytes,
        "($module, document, value, name, /, *, update=False)",
        "Returns the object with a member added, or with update replaced.", Document, Document, Text, Flag),
    ONE("concat", jdoc_concat, NO_WORD, Bytes, OTHER,
        "Returns two objects as one, with the other's value if both have a key; otherwise two arrays joined.", Document,
        Document),
    ONE("strip_nulls", jdoc_strip_nulls, NO_WORD, Bytes, DOCUMENT,
        "Returns the document without the members whose value is null, at every depth.", Document),
    ONE("array_distinct", jdoc_array_distinct, NO_WORD, Bytes, DOCUMENT,
        "Returns the array with the first of each group of equal elements.", Document),
    ONE("array_intersection", jdoc_array_intersection, NO_WORD, Bytes, OTHER,
        "Returns the elements that the other array has too, each as often as both arrays have it.", Document, Document),
    ONE("array_except", jdoc_array_except, NO_WORD, Bytes, OTHER,
        "Returns the elements that are not in the intersection.", Document, Document),
    ONE("array_overlap", jdoc_array_overlap, NO_WORD, Ternary, OTHER,
        "Returns whether two arrays have an equal element.", Document, Document),
    ONE("pick_names", jdoc_object_pick, NO_WORD, Bytes, "($module, document, names, /)",
        "object_pick, of a column of names.", Document, Names),
    ONE("delete_names", jdoc_object_delete, NO_WORD, Bytes, "($module, document, names, /)",
        "object_delete, of a column of names.", Document, Names),
    ONE("contains", jdoc_contains, NO_WORD, Ternary, OTHER,
        "Returns whether the document contains the other, like PostgreSQL's @>.", Document, Document),
    ONE("compare", jdoc_compare, NO_WORD, Order, OTHER,
         "Returns -1, 0 or 1, as the document is below, equal to or above the other.\n\nWithout extension values this is "
         "the order of their sort_key().", Document, Document),
    ONE("all_names", jdoc_exists_all_keys, NO_WORD, Ternary, "($module, document, names, /)",
        "exists_all_keys, of a column of names.", Document, Names),
    ONE("any_names", jdoc_exists_any_keys, NO_WORD, Ternary, "($module, document, names, /)",
        "exists_any_keys, of a column of names.", Document, Names),
    ONE("array_of", jdoc_array_from_column, NO_WORD, Bytes, "($module, documents, /)",
        "array_from_column, of a column.", Documents),
    ONE("object_of", jdoc_object_from_columns, NO_WORD, Bytes, "($module, names, documents, /)",
        "object_from_columns, of two columns.", Names, Documents),
    ONE("as_bool", jdoc_as_bool, NO_WORD, Ternary, DOCUMENT, "Returns the value of a Boolean, or None.", Document),
    ONE("as_i64", jdoc_as_i64, NO_WORD, Signed, DOCUMENT, "Returns the value of an integer that fits, or None.",
        Document),
    ONE("as_u64", jdoc_as_u64, NO_WORD, Unsigned, DOCUMENT, "Returns the value of an integer that fits, or None.",
        Document),
    ONE("as_str", jdoc_as_str, NO_WORD, String, DOCUMENT, "Returns the value of a string, or None.", Document),
    ONE("as_decimal", jdoc_as_decimal, NO_WORD, Number, DOCUMENT,
        "Returns the value of a number as a Decimal, or None.", Document),
    ONE("to_bool", jdoc_to_bool, NO_WORD, Ternary, DOCUMENT, "Casts a Boolean, or a string such as yes, to bool.",
        Document),
    ONE("to_i64", jdoc_to_i64, NO_WORD, Signed, DOCUMENT,
        "Casts a number, a Boolean or a string of digits to an int from -2**63 to 2**63 - 1.", Document),
    ONE("to_u64", jdoc_to_u64, NO_WORD, Unsigned, DOCUMENT,
        "Casts a number, a Boolean or a string of digits to an int from 0 to 2**64 - 1.", Document),
    ONE("to_str", jdoc_to_str, NO_WORD, String, DOCUMENT, "Casts a string, a number or a Boolean to str.", Document),
    ONE("sort_key", jdoc_sort_key, WIDE, Bytes, "($module, document, /, *, wide=False)",
        "Returns bytes that sort as the documents do. Narrow and wide keys do not mix.", Document, Flag),
    ONE("equality_key", jdoc_equality_key, NO_WORD, Bytes, DOCUMENT,
        "Returns bytes that are the same if and only if the documents are equal by value.", Document),
    ONE("key_of", jdoc_composite_key, WIDE, Bytes, "($module, documents, /, *, wide=False)",
        "composite_key, of a column.", Documents, Flag),
    ONE("length", jdoc_len, NO_WORD, Count, DOCUMENT, "Returns the number of elements or members, or None.", Document),
    CALL_1("elements", children<false>, DOCUMENT, "Returns the elements of an array, as documents."),
    CALL_1("pairs", children<true>, DOCUMENT,
           "Returns the keys of an object with their values as documents, in the order of the keys."),
    CALL_1("leaves", leaves, DOCUMENT,
           "Returns the key paths of all scalars, empty arrays and empty objects, with the items as documents, in "
           "stored order.\n\nAn empty key is written \"\", which no key path can contain."),
    CALL("from_json", from_json, "($module, text, /, *, floats='error', duplicates='error')",
         "Returns the document of a JSON text.\n\nA number that the format does not hold exactly raises "
         "UnsupportedNumber, with its position; with floats='decimal' it is rounded.\nA duplicate key raises "
         "ObjectDuplicateKey; with duplicates='last' the last one is kept."),
    CALL_1("to_json", to_json, DOCUMENT, "Returns the JSON text of a document. Numbers keep all digits."),
    CALL("dumps", dumps, "($module, value, /, *, floats='error')",
         "Returns the document of a Python value.\n\nA float raises UnsupportedNumber, with its position; "
         "with floats='decimal' it is the decimal that repr() shows, rounded if no 128-bit decimal equals it."),
    CALL_1("loads", loads, DOCUMENT, "Returns the Python value of a document."),
    ROWS("column_check", column_check),
    ROWS("column_exists", fixed<jdoc_column_exists, uint8_t, 2, Text, Flag>),
    ROWS("column_match", fixed<jdoc_column_match, uint8_t, 2, Text, Flag>),
    ROWS("column_contains", fixed<jdoc_column_contains, uint8_t, 2, Document>),
    ROWS("column_to_i64", fixed<jdoc_column_to_i64, int64_t, 0>),
    ROWS("column_get", several<jdoc_column_get, Text>),
    ROWS("column_select_first", several<jdoc_column_select_first, Text, Flag>),
    ROWS("column_select_value", several<jdoc_column_select_value, Text, Flag>),
    ROWS("column_select_array", several<jdoc_column_select_array, Text, Flag>),
    ROWS("column_delete", several<jdoc_column_delete_by_keypath, Text>),
    ROWS("column_key", several<jdoc_column_key, Flag>),
    ROWS("column_equality_key", several<jdoc_column_equality_key>),
    ROWS("column_to_str", several<jdoc_column_to_str>),
    ROWS("gather", gather),
    ROWS("bits_of", bits_of),
    ROWS("bytes_of", bytes_of),
    ROWS("lines_in", texts_in<true>),
    ROWS("texts_in", texts_in<false>),
    ROWS("lines_out", lines_out),
    ROWS("arrow_out", arrow_out),
    ROWS("arrow_in", arrow_in),
    {"arrow_schema", call_of_one<arrow_schema>(), METH_O, nullptr},
    {"arrow_stream", call_of_one<arrow_stream>(), METH_O, nullptr},
    {nullptr, nullptr, 0, nullptr},
};

// Adds a type that belongs to the module.
bool add_type(PyObject *module, const char *name, PyType_Spec &spec) {
    Ref type(PyType_FromModuleAndSpec(module, &spec, nullptr));
    return type.it && PyModule_AddObjectRef(module, name, type.it) == 0;
}

bool fill_state(PyObject *module, State *state) {
    Ref errors(PyImport_ImportModule("jsonb_paths.errors")), decimal(PyImport_ImportModule("decimal"));
    if (!errors.it || !decimal.it) return false;
    state->make_error = PyObject_GetAttrString(errors.it, "exception_of");
    state->decimal = PyObject_GetAttrString(decimal.it, "Decimal");
    state->memory_type = PyType_FromModuleAndSpec(module, &ROOM, nullptr);
    return state->make_error && state->decimal && state->memory_type;
}

int module_start(PyObject *module) {
    State *state = state_of(module);
    memset(static_cast<void *>(state), 0, sizeof *state);
    if (!fill_state(module, state) || !add_type(module, "Path", PATH) || !add_type(module, "KeyPath", KEY_PATH))
        return -1;
    return PyModule_AddIntConstant(module, "LIBRARY_VERSION", long(jdoc_version()));
}

int module_visit(PyObject *module, visitproc visit, void *arg) {
    State *state = state_of(module);
    Py_VISIT(state->make_error);
    Py_VISIT(state->decimal);
    Py_VISIT(state->memory_type);
    return 0;
}

void module_end(void *module) {
    State *state = state_of(static_cast<PyObject *>(module));
    Py_CLEAR(state->make_error);
    Py_CLEAR(state->decimal);
    Py_CLEAR(state->memory_type);
    for (Name &name : state->names) Py_CLEAR(name.object);
    delete state->tape;
    delete state->buffer;
    state->tape = nullptr, state->buffer = nullptr;
}

PyModuleDef_Slot SLOTS[] = {
    {Py_mod_exec, reinterpret_cast<void *>(module_start)},
#if PY_VERSION_HEX >= 0x030c0000 && (!defined(Py_LIMITED_API) || Py_LIMITED_API >= 0x030c0000)
    {Py_mod_multiple_interpreters, Py_MOD_PER_INTERPRETER_GIL_SUPPORTED},
#endif
    {0, nullptr},
};
PyModuleDef MODULE = {
    PyModuleDef_HEAD_INIT, "_core", "The calls of libjdoc, and JSON text and Python values as documents.",
    sizeof(State),         METHODS, SLOTS,
    module_visit,          nullptr, module_end};

} // namespace

PyMODINIT_FUNC PyInit__core(void) { return PyModuleDef_Init(&MODULE); }
