"""Builds the extension module of the package. pyproject.toml has everything else.

uca.h is the one of the installed library, which pkg-config finds, or else the one in this checkout. The extension keeps the folder of
the library, and looks there when it is imported.
"""

import os
import subprocess

from setuptools import Extension, setup


def installed(variable):
    """A variable of the installed library's uca.pc, or "" if pkg-config finds none."""
    words = [os.environ.get("PKG_CONFIG", "pkg-config"), "--variable=" + variable, "uca"]
    try:
        return subprocess.run(words, check=True, stdout=subprocess.PIPE, stderr=subprocess.DEVNULL, text=True).stdout.strip()
    except (OSError, subprocess.CalledProcessError):
        return ""


here = os.path.dirname(os.path.abspath(__file__))
folders = [installed("includedir"), os.path.join(here, "..", "..", "include"), "/usr/local/include", "/usr/include"]
header = next((folder for folder in folders if folder and os.path.exists(os.path.join(folder, "uca.h"))), None)
if not header:
    raise SystemExit("uca.h was not found: install libuca, and name the folder of its uca.pc in PKG_CONFIG_PATH")

setup(
    ext_modules=[
        Extension(
            "uca._uca",
            ["src/uca/_uca.c"],
            include_dirs=[header],
            define_macros=[("Py_LIMITED_API", "0x030A0000"), ("LIBRARY_FOLDER", '"%s"' % installed("libdir"))],
            extra_compile_args=["-std=c11"],
            py_limited_api=True,
        )
    ],
    # The files of an earlier build may name another folder of the library.
    options={"bdist_wheel": {"py_limited_api": "cp310"}, "build_ext": {"force": True}},
)
