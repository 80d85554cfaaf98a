"""The names of the library: what it exports, what its headers and bindings/rust/sys declare, and what other libraries export.

    exports.py FOLDER      of libjdoc.so and libjdoc.a; the last line is `N passed, M failed`
    exports.py --write     writes bindings/c/abi.txt and, with abidw of libabigail, bindings/c/jdoc.abi. A release fixes both: what is
                           there may be added to, and not changed
"""

import ctypes
import ctypes.util
import os
import re
import shutil
import subprocess
import sys
import tempfile

HERE = os.path.dirname(os.path.abspath(__file__))
VERSION = "JDOC_0.1"
# The types of the headers that have other names in Rust: those that are left out are the same.
RUST_TYPES = {
    "uint8_t": "u8", "uint32_t": "u32", "uint64_t": "u64", "int32_t": "i32", "int64_t": "i64", "size_t": "usize", "char": "core::ffi::c_char",
    "unsigned": "core::ffi::c_uint", "enum jdoc_status": "jdoc_status",
}


def read(*path):
    with open(os.path.join(HERE, "..", *path), encoding="utf-8") as file:
        return file.read()


def exported(file, flag):
    """The functions that a library exports, with the version that each has."""
    said = subprocess.run(["nm", flag, "--defined-only", file], capture_output=True, text=True, check=True).stdout
    names = (line.split()[-1].partition("@@") for line in said.splitlines() if re.search(" [TtWiBDRuV] ", line))
    return {name: version for name, _, version in names}


def declared(*header):
    """Each function of a header, by default jdoc.h, with what it returns and the types of its arguments."""
    text = re.sub(r"/\*.*?\*/", "", read(*header or ("c", "jdoc.h")), flags=re.S)
    for result, name, arguments in re.findall(r"^(?:JDOC_NODISCARD )?(\w[\w ]*) (jdoc_\w+)\(([^)]*)\);", text, flags=re.M):
        words = [re.sub(r"\s+", " ", it).strip() for it in arguments.split(",") if it.strip() != "void"]
        yield name, result, [re.sub(r"( \*?)\w+$", lambda it: it[1].rstrip(), it) if "*" not in it else re.sub(r"\*\w+$", "*", it) for it in words]


def in_rust(kind):
    """A type of a header as bindgen writes it."""
    if not kind.endswith("*"):
        return RUST_TYPES.get(kind, kind)
    of, constant = re.subn(r"^const ", "", kind[:-1].rstrip())
    return f"*{'const' if constant else 'mut'} {in_rust(of)}"


def declared_in_rust():
    """Each function of bindings/rust/sys, with what it returns and the types of its arguments."""
    text = read("rust", "sys", "src", "bindings.rs")
    for name, arguments, result in re.findall(r"pub fn (jdoc_\w+)\(([^)]*)\)(?:\s+-> (\w+))?;", text):
        yield name, result or "void", [it.partition(":")[2].strip() for it in arguments.split(",") if it.strip()]


def of_the_library(folder):
    header = {name for name, _, _ in declared()}
    shared, static = exported(f"{folder}/libjdoc.so", "-D"), exported(f"{folder}/libjdoc.a", "-g")
    yield from (f"{name} has no prefix" for name in sorted(static) if not name.startswith("jdoc_"))
    yield from (f"{name} has the version {it!r}" for name, it in shared.items() if it != VERSION)
    yield from (f"{name} is in the header or in a library alone" for name in sorted(header ^ set(shared) | header ^ set(static)))
    if not header:
        yield "the header declares nothing"


def of_rust(_folder):
    headers = [*declared(), *declared("text", "jdoc_text.h")]
    wanted = {name: (in_rust(result), [in_rust(it) for it in arguments]) for name, result, arguments in headers}
    found = {name: (result, arguments) for name, result, arguments in declared_in_rust()}
    for name in sorted(wanted.keys() | found.keys()):
        if wanted.get(name) != found.get(name):
            yield f"Rust declares {name} as {found.get(name)} instead of {wanted.get(name)}"


# Functions of jdoc.h that jdoc.hpp does not call.
NOT_IN_CPP = {"jdoc_status_name"}


def of_cpp(_folder):
    called = set(re.findall(r"\bjdoc_\w+", read("c", "jdoc.hpp")))
    missing = {name for name, _, _ in declared()} - called
    yield from (f"jdoc.hpp does not call {name}, or no longer lacks it" for name in sorted(missing ^ NOT_IN_CPP))


def of_statuses(folder):
    """The header's numbers of statuses have these names in the library, and no other number has one."""
    library = ctypes.CDLL(f"{folder}/libjdoc.so")
    listed = {int(number): name for name, number in re.findall(r"(JDOC_(?!KIND|TEXT|VERSION)\w+) = (\d+)", read("c", "jdoc.h"))}
    for status in range(256):
        out, length = ctypes.create_string_buffer(64), ctypes.c_size_t()
        found = library.jdoc_status_name(status, out, ctypes.c_size_t(64), ctypes.byref(length)) == 0
        name = out.raw[: length.value].decode() if found else None
        if name != listed.get(status):
            yield f"the status {status} is {name} in the library and {listed.get(status)} in the header"


def interface():
    """What a program was compiled with, a line each: functions, constants, and the fields of structs."""
    text = re.sub(r"/\*.*?\*/", "", read("c", "jdoc.h"), flags=re.S)
    for name, result, arguments in declared():
        yield f"{result} {name}({', '.join(arguments)})"
    yield from (f"{name} = {number}" for name, number in re.findall(r"(JDOC_\w+) = (\d+)", text))
    for fields, name in re.findall(r"typedef struct \w+ \{(.*?)\} (\w+);", text, flags=re.S):
        yield f"{name} {{ {' '.join(fields.split())} }}"


def of_the_interface(_folder):
    here = set(interface())
    yield from (f"no longer in jdoc.h: {line}" for line in read("c", "abi.txt").splitlines() if line not in here)


# How abidw describes an interface: without the places of declarations and the names of parameters.
ABIDW = "abidw --no-corpus-path --no-comp-dir-path --no-show-locs --no-parameter-names --no-elf-needed --type-id-style hash --load-all-types"


def stubs(folder):
    """A library in a folder with the functions of jdoc.h, which do nothing, and with debugging information, which libjdoc.so lacks."""
    functions = "".join(f"{result} {name}({', '.join(arguments) or 'void'}) {{ abort(); }}\n" for name, result, arguments in declared())
    named = re.sub(r"(?<=[(,])[^,()]+", lambda it: it[0] if it[0] == "void" else f"{it[0]} a{it.start()}", functions)
    with open(os.path.join(folder, "stubs.c"), "w", encoding="utf-8") as file:
        file.write(f'#include "jdoc.h"\n#include <stdlib.h>\nstatic enum jdoc_kind kind __attribute__((used));\n{named}')
    library, c = os.path.join(folder, "libjdoc.so"), os.path.join(HERE, "..", "c")
    words = [f"-I{c}", "-Wl,-soname,libjdoc.so.0", f"-Wl,--version-script={c}/exports.map", "-o", library, f"{folder}/stubs.c"]
    subprocess.run(["cc", "-g", "-O0", "-fPIC", "-shared", *words], check=True)
    return library


def of_compiled_types(_folder):
    """The sizes, fields and numbers of the types as they are compiled, which the text of the header may not show."""
    if shutil.which("abidiff") is None:
        print("skipped: the interface as it is compiled: there is no abidiff (apt-get install abigail-tools)")
        return
    with tempfile.TemporaryDirectory() as folder:
        # abidiff takes a typedef for an added one if all its pointers are to constants; the struct is compared under its own name.
        with open(os.path.join(folder, "typedefs"), "w", encoding="utf-8") as file:
            file.write("[suppress_type]\nname = jdoc_text_event\ntype_kind = typedef\n")
        words = ["abidiff", "--no-added-syms", "--no-show-locs", "--non-reachable-types", "--suppr", file.name]
        words += [os.path.join(HERE, "..", "c", "jdoc.abi"), stubs(folder)]
        said = subprocess.run(words, capture_output=True, text=True)
    if said.returncode:
        yield f"bindings/c/jdoc.abi describes another interface:\n{said.stdout}{said.stderr}"


def server():
    """The file of PostgreSQL's server, or None."""
    if shutil.which("pg_config") is None:
        return None
    folder = subprocess.run(["pg_config", "--bindir"], capture_output=True, text=True, check=True).stdout.strip()
    file = os.path.join(folder, "postgres")
    return file if os.path.exists(file) else None


def sqlite():
    """The file of libsqlite3, or None."""
    name = ctypes.util.find_library("sqlite3")
    folders = ["/lib/x86_64-linux-gnu", "/usr/lib/x86_64-linux-gnu", "/lib64", "/usr/lib64", "/usr/lib", "/usr/local/lib"]
    return next((it for it in (os.path.join(folder, name) for folder in folders if name) if os.path.exists(it)), None)


def of_others(folder):
    """Names that a program exports into which users load the library."""
    ours = exported(f"{folder}/libjdoc.so", "-D")
    for title, file in (("PostgreSQL's server", server()), ("libsqlite3", sqlite())):
        if file is None:
            print(f"skipped: names beside those of {title}: it is not installed")
            continue
        theirs = exported(file, "-D")
        if not theirs:
            yield f"{title} exports nothing"
        yield from (f"{title} exports {name} too" for name in sorted(set(theirs) & set(ours)))


def main():
    if sys.argv[1] == "--write":
        c = os.path.join(HERE, "..", "c")
        with open(os.path.join(c, "abi.txt"), "w", encoding="utf-8") as file:
            file.write("".join(f"{line}\n" for line in interface()))
        with tempfile.TemporaryDirectory() as folder:
            subprocess.run([*ABIDW.split(), "--out-file", os.path.join(c, "jdoc.abi"), stubs(folder)], check=True)
        return 0
    passed = failed = 0
    for check in (of_the_library, of_the_interface, of_compiled_types, of_rust, of_cpp, of_statuses, of_others):
        faults = list(check(sys.argv[1]))
        print("".join(f"{it}\n" for it in faults), end="")
        passed, failed = passed + (not faults), failed + len(faults)
    print(f"{passed} passed, {failed} failed")
    return 1 if failed else 0


if __name__ == "__main__":
    sys.exit(main())
