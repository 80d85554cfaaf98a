#!/bin/sh
# Prints the interpreter that builds the package: the first of $PYTHON, or else of python3 and /usr/bin/python3, that is Python 3.11 or
# later with its headers, setuptools and wheel. Fails if there is none.
for python in ${PYTHON:-python3 /usr/bin/python3}; do
    command -v "$python" >/dev/null && "$python" -c '
import os, sys, sysconfig, setuptools, wheel.bdist_wheel
assert sys.version_info >= (3, 11) and os.path.exists(os.path.join(sysconfig.get_path("include"), "Python.h"))' 2>/dev/null &&
        command -v "$python" && exit
done
exit 1
