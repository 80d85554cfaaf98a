"""The header, the libraries, this package and the crate for Rust name the same calls and statuses."""

import os
import pathlib
import re
import subprocess
import unittest

import jsonb_paths
from jsonb_paths import documents, errors
from jsonb_paths.errors import BY_STATUS, InvalidJson

BINDINGS = os.path.join(os.path.dirname(os.path.abspath(__file__)), "..", "..")
HEADER = os.path.join(BINDINGS, "c", "jdoc.h")
LIBRARY = os.environ.get("JDOC_LIBRARY", "")
RUST = os.path.join(BINDINGS, "rust", "sys", "src", "bindings.rs")
# The types of the header in Rust.
RUST_TYPES = {
    "const uint8_t *": "*const u8", "const char *": "*const core::ffi::c_char", "const uint64_t *": "*const u64",
    "size_t": "usize", "size_t *": "*mut usize", "uint8_t *": "*mut u8", "char *": "*mut core::ffi::c_char", "uint64_t *": "*mut u64", "int64_t *": "*mut i64",
    "int32_t": "i32", "int32_t *": "*mut i32", "int64_t": "i64", "uint64_t": "u64", "uint32_t": "u32", "uint8_t": "u8", "bool": "bool",
}
# Calls that the package does not make: bindings/text makes documents of text and of values; it reads objects as events, copies the values it finds, and reads the
# items of a path from their array.
UNUSED = {
    "status_name", "pair", "from_null", "from_bool", "from_i64", "from_u64", "from_decimal", "from_str",
    "find_by_keypath", "keypath_find", "find_by_index", "find_by_name", "find_str", "cursor_next", "find_first", "path_find_first", "span_document",
    "path_items", "items_next", "items_find_next", "items_free",
    "builder_begin_array", "builder_begin_object", "builder_end", "builder_key", "builder_null", "builder_bool", "builder_i64", "builder_u64",
    "builder_decimal", "builder_str", "builder_document", "builder_finish", "builder_free", "from_events",
}


def rust_type(words):
    """A type of the header in Rust."""
    struct = re.fullmatch(r"(const )?(?:struct )?(jdoc_\w+) \*", words)
    return f"*{'const' if struct[1] else 'mut'} {struct[2]}" if struct else RUST_TYPES[words]


def header():
    with open(HEADER) as file:
        return re.sub(r"/\*.*?\*/", "", file.read(), flags=re.S)


def prototypes():
    """Each call of the header and the types of its arguments."""
    for name, arguments in re.findall(r"(?:enum jdoc_status|uint32_t|void)\s+jdoc_(\w+)\(([^)]*)\);", header()):
        words = [re.sub(r"\s+", " ", it).strip() for it in arguments.split(",")]
        yield name, [re.sub(r"\w+$", "", it).strip() for it in words if it != "void"]


def sources():
    folder = os.path.join(BINDINGS, "python", "src")
    return "".join(it.read_text() for it in sorted(pathlib.Path(folder).iterdir()))


class Names(unittest.TestCase):
    def test_the_package_makes_each_call_of_the_header(self):
        made = set(re.findall(r"\bjdoc_(\w+)\b", sources()))
        self.assertEqual({name for name, _ in prototypes()} - made, UNUSED)

    @unittest.skipUnless(os.path.exists(LIBRARY), "JDOC_LIBRARY does not name libjdoc.so")
    def test_the_libraries_export_the_calls_of_the_header_alone(self):
        for words in (["-D", LIBRARY], ["-g", os.path.join(os.path.dirname(LIBRARY), "libjdoc.a")]):
            said = subprocess.run(["nm", "--defined-only", *words], capture_output=True, text=True, check=True).stdout
            exported = {line.split()[-1].split("@")[0] for line in said.splitlines() if len(line.split()) == 3 and line.split()[1] == "T"}
            self.assertEqual(exported, {f"jdoc_{name}" for name, _ in prototypes()})

    def test_the_module_exports_its_start_alone(self):
        said = subprocess.run(["nm", "-D", "--defined-only", jsonb_paths._core.__file__], capture_output=True, text=True, check=True).stdout
        self.assertEqual([line.split()[-1] for line in said.splitlines()], ["PyInit__core"])

    def test_rust_declares_the_arguments_of_the_header(self):
        with open(RUST) as file:
            declared = dict(re.findall(r"pub fn jdoc_(\w+)\(([^)]*)\)", file.read()))
        for name, wanted in prototypes():
            arguments = [it.split(": ")[1].strip() for it in declared[name].split(",") if it.strip()]
            self.assertEqual(arguments, [rust_type(it) for it in wanted], name)

    def test_statuses_have_the_numbers_and_names_of_the_header(self):
        listed = {int(number): name for name, number in re.findall(r"JDOC_((?!KIND|TEXT)\w+) = (\d+)", header())}
        known = {number: kind.__name__.upper() for number, kind in BY_STATUS.items() if kind is not InvalidJson}
        self.assertEqual({number: name.replace("_", "") for number, name in listed.items() if name not in ("OK", "NONE", "BUFFER_TOO_SMALL", "NO_PATH", "COMPUTED", "OUT_OF_ORDER")}, known)
        with open(os.path.join(BINDINGS, "text", "jdoc_text.h")) as file:
            self.assertIn(f"JDOC_INVALID_JSON = {InvalidJson.status} ", file.read())

    def test_exceptions_have_the_texts_of_the_header(self):
        texts = dict(re.findall(r'case JDOC_(\w+):\s+return "(.*)";', header()))
        for name, text in texts.items():
            known = getattr(errors, "".join(it.capitalize() for it in name.split("_")), None)
            if known not in (None, errors.UnsupportedNumber):
                self.assertEqual(known.meaning, text, name)

    def test_kinds_have_the_numbers_of_the_header(self):
        listed = [name.lower() for name, _ in sorted(re.findall(r"JDOC_KIND_(\w+) = (\d+)", header()), key=lambda it: int(it[1]))]
        self.assertEqual(listed, list(documents.KINDS))

    def test_the_version_is_that_of_the_library(self):
        major, minor, patch = map(int, jsonb_paths.__version__.split("."))
        self.assertEqual(jsonb_paths._core.LIBRARY_VERSION, major * 1_000_000 + minor * 1_000 + patch)

    def test_what_is_exported_is_written_out(self):
        self.assertEqual(list(jsonb_paths.__all__), sorted(jsonb_paths.__all__))
        hidden = {"column", "documents", "errors", "paths", "values", "shards"}
        public = {name for name in vars(jsonb_paths) if not name.startswith("_")} - hidden | {"__version__"}
        self.assertEqual(set(jsonb_paths.__all__), public)


if __name__ == "__main__":
    unittest.main()
