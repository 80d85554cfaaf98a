"""Builds jsonb_paths._core, with libjdoc.a and bindings/text inside. JDOC_LIBRARY_DIR names the folder of libjdoc.a and jdoc.h;
without it they are in lib/ here, as in a source distribution, or in bindings/c/out, which `make` in bindings/c fills."""

import os
import re
import sys

from setuptools import Extension, setup
from setuptools.command.build_ext import build_ext
from wheel.bdist_wheel import bdist_wheel

HERE = os.path.dirname(os.path.abspath(__file__))


def found(file, *places):
    """The first of these folders that contains the file."""
    for place in filter(None, places):
        if os.path.exists(os.path.join(place, file)):
            return place
    raise SystemExit(f"jsonb_paths: {file} is not here. Run `make` in bindings/c, or unpack a release and name its folder: "
                     "JDOC_LIBRARY_DIR=FOLDER pip install ..")


class Build(build_ext):
    """Fails with a message if the library is missing; compiles C files as C and C++ files as C++."""

    def build_extension(self, extension):
        chosen = os.environ.get("JDOC_LIBRARY_DIR")
        library = found("libjdoc.a", chosen) if chosen else found("libjdoc.a", "lib", "../c/out")
        header = found("jdoc.h", chosen, "lib", "../c")
        text = found("jdoc_text.h", "text", "../text")
        extension.extra_objects = [os.path.join(library, "libjdoc.a")]
        extension.include_dirs += [header, text]
        extension.sources += sorted(os.path.join(text, it) for it in os.listdir(text) if it.endswith(".c"))
        headers = sorted(os.path.join(text, it) for it in os.listdir(text) if it.endswith(".h"))
        extension.depends += [*extension.extra_objects, os.path.join(header, "jdoc.h"), *headers]
        compile_one = self.compiler._compile

        def compile_by_language(obj, src, ext, cc_args, extra_postargs, pp_opts):
            language = "-std=c11" if src.endswith(".c") else "-std=c++17"
            compile_one(obj, src, ext, cc_args, [*extra_postargs, language], pp_opts)

        self.compiler._compile = compile_by_language
        super().build_extension(extension)


class Wheel(bdist_wheel):
    """The stable ABI of 3.11 serves each later Python. The platform is that of the newest version of the C library that the module
    needs, such as manylinux_2_34_x86_64, so that pip installs it only if the module can be loaded; or what JDOC_PLATFORM says."""

    def get_tag(self):
        return "cp311", "abi3", os.environ.get("JDOC_PLATFORM") or self.platform_tag()

    def platform_tag(self):
        platform = super().get_tag()[2]
        modules = [os.path.join(folder, it) for folder, _, files in os.walk(self.bdist_dir) for it in files if it.endswith(".so")]
        needed = [(0, 0)]
        for module in modules:
            with open(module, "rb") as file:
                needed += [tuple(map(int, it)) for it in re.findall(rb"GLIBC_(\d+)\.(\d+)", file.read())]
        major, minor = max(needed)
        return platform.replace("linux_", f"manylinux_{major}_{minor}_") if major and platform.startswith("linux_") else platform


if sys.version_info < (3, 11):
    raise SystemExit("jsonb_paths: Python 3.11 or later is needed (the buffer protocol is in its stable ABI)")

setup(
    cmdclass={"build_ext": Build, "bdist_wheel": Wheel},
    ext_modules=[
        Extension(
            "jsonb_paths._core",
            ["src/core.cpp"],
            depends=[os.path.join("src", it) for it in sorted(os.listdir(os.path.join(HERE, "src")))],
            include_dirs=["src"],
            define_macros=[("Py_LIMITED_API", "0x030b0000")],
            py_limited_api=True,
            extra_compile_args=["-O2", "-fvisibility=hidden", "-Wall", "-Wextra", "-Wno-missing-field-initializers", "-Wno-cast-function-type"],
            # The library's names stay inside, so that no other library of the process is called in their place.
            extra_link_args=["-Wl,--version-script=" + os.path.join(HERE, "src", "exports.map"), "-static-libstdc++", "-static-libgcc", "-s"],
            language="c++",
        )
    ],
)
