"""Builds the package `range_map`: `range_map.pyx`, compiled by Cython, with librange_map.a linked in.

The archive is in the folder that the environment variable RANGE_MAP_OUT names as an absolute path, or in ../out if it names none. The
header is in the same folder or in `..`. If ../out has no archive, both are those of the installed library that `pkg-config` knows.
"""
import sys

# Checked first: another Python may have no setuptools, and can't compile or import what Cython 0.29 makes of the module.
if not (3, 9) <= sys.version_info[:2] <= (3, 11):
    sys.exit("setup: range_map supports Python 3.9 to 3.11, and this is Python %d.%d" % tuple(sys.version_info[:2]))

import os
import shlex
import shutil
import subprocess
from pathlib import Path

from setuptools import Extension, setup
from setuptools.command.build_ext import build_ext

ARCHIVE = "librange_map.a"
here = Path(__file__).resolve().parent


def library() -> dict[str, list[str]]:
    """Where the header and the archive are, as attributes of an Extension."""
    named = os.environ.get("RANGE_MAP_OUT")
    out = Path(named) if named else here.parent / "out"
    if not out.is_absolute():
        sys.exit(f"setup: RANGE_MAP_OUT is the relative path '{out}': set an absolute path")
    if not (out / ARCHIVE).is_file():
        if named:
            sys.exit(f"setup: RANGE_MAP_OUT is {out}, which does not contain {ARCHIVE}")
        return installed_library()
    headers = [folder for folder in (out, here.parent) if (folder / "range_map.h").is_file()]
    if not headers:
        sys.exit(f"setup: there is no range_map.h in {out} or {here.parent}")
    return {"include_dirs": [str(headers[0])], "extra_objects": [str(out / ARCHIVE)]}


def installed_library() -> dict[str, list[str]]:
    """As `library`, from pkg-config. The archive is linked, so that the module does not need the shared library."""
    try:
        archive = Path(asked("--variable=libdir")) / ARCHIVE
        flags = shlex.split(asked("--cflags"))
    except (OSError, subprocess.CalledProcessError):
        sys.exit(
            f"setup: {here.parent}/out has no {ARCHIVE}, and pkg-config does not know range_map: "
            "run `make -C bindings` in the repository of range_map, or install the library"
        )
    if not archive.is_file():
        sys.exit(f"setup: the installed library has no {archive}")
    return {"extra_compile_args": flags, "extra_objects": [str(archive)]}


def asked(option: str) -> str:
    """What pkg-config says of the installed library."""
    command = [os.environ.get("PKG_CONFIG", "pkg-config"), option, "range_map"]
    return subprocess.run(command, capture_output=True, text=True, check=True).stdout.strip()


def compiled() -> str:
    """The C file of range_map.pyx, made anew if a source is younger. Cython may belong to another Python."""
    made = here / "range_map.c"
    sources = [*here.glob("*.pyx"), *here.glob("*.pxi")]
    if not made.is_file() or made.stat().st_mtime < max(source.stat().st_mtime for source in sources):
        program = shutil.which("cython3") or shutil.which("cython")
        if program is None:
            sys.exit("setup: Cython is not here: install cython3")
        subprocess.run([program, "-3", "range_map.pyx"], cwd=here, check=True)
    return "range_map.c"


class Build(build_ext):
    """Finds the library and runs Cython for a build alone: neither the metadata nor an archive of the sources needs them."""

    def run(self) -> None:
        for extension in self.extensions:
            for attribute, words in library().items():
                setattr(extension, attribute, words)
            extension.depends = [*extension.extra_objects, *(f"{folder}/range_map.h" for folder in extension.include_dirs)]
            extension.sources = [compiled()]
        super().run()


os.chdir(here)
setup(
    name="range_map",
    version="0.1.0",
    description="Maps from ranges of integers to values, over a proved library",
    long_description=(here / "README.md").read_text(encoding="utf-8"),
    long_description_content_type="text/markdown",
    author="the RangeMapBlaze developers",
    license="MIT OR Apache-2.0",
    license_files=["LICENSE", "LICENSE-MIT", "LICENSE-APACHE"],
    keywords=["range", "interval", "map"],
    platforms=["x86-64 Linux with glibc"],
    classifiers=[
        "Intended Audience :: Developers",
        "Operating System :: POSIX :: Linux",
        "Programming Language :: Cython",
        "Programming Language :: Python :: 3 :: Only",
        "Programming Language :: Python :: 3.9",
        "Programming Language :: Python :: 3.10",
        "Programming Language :: Python :: 3.11",
        "Programming Language :: Python :: Implementation :: CPython",
        "Topic :: Software Development :: Libraries",
        "Typing :: Typed",
    ],
    python_requires=">=3.9, <3.12",
    packages=["range_map"],
    package_data={"range_map": ["__init__.pyi", "py.typed"]},
    ext_modules=[Extension("range_map.__init__", sources=[])],
    cmdclass={"build_ext": Build},
    zip_safe=False,
)
