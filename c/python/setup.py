"""Builds hashers._hashers with libhashers.a in it: that of the folder HASHERS_LIB_DIR, or of `make -C c TARGET=x86-64`, or what cargo makes
of the plain Rust. Where the folder has libhashers.so alone, that is linked, and the system's loader has to find it."""
import os
import re
import shutil
import subprocess
import sys
import sysconfig

from setuptools import Extension, setup
from setuptools.command.build_ext import build_ext
from setuptools.command.sdist import sdist

try:
    # setuptools has it from 70.1 on
    from setuptools.command.bdist_wheel import bdist_wheel
except ImportError:
    try:
        from wheel.bdist_wheel import bdist_wheel
    except ImportError:
        # pip asks for dist_info first
        if {"bdist_wheel", "dist_info"} & set(sys.argv):
            sys.exit("setup.py: the package wheel is not installed (Debian's python3-wheel; pip install wheel)")
        bdist_wheel = None

HERE = os.path.dirname(os.path.abspath(__file__))
C = os.environ.get("HASHERS_C", os.path.dirname(HERE))
# What the module is built with, where it lies in the repository, whose folder c HASHERS_C names where these sources are a copy. The sources
# that are handed on have it in the folder native.
NATIVE = {"hashers.h": C, "hashes.inc": C, "hashers-c": os.path.join(C, "..", "rust"), "hashers-proved": os.path.join(C, "..", "rust")}
HANDED_ON = os.path.join(HERE, "native")
# of a processor's number in ELF files its name, and the glibc of the oldest tag that pip knows for it
MACHINES = {62: ("x86_64", 5), 183: ("aarch64", 17)}
# a Python without a GIL has no limited API
IS_LIMITED = not sysconfig.get_config_var("Py_GIL_DISABLED")


def native(name):
    """Where that file or folder is."""
    handed_on = os.path.join(HANDED_ON, name)
    return handed_on if os.path.exists(handed_on) else os.path.join(NATIVE[name], name)


def library(room):
    """What the linker takes as libhashers."""
    named, made = os.environ.get("HASHERS_LIB_DIR"), os.path.join(C, "target", "x86-64", "libhashers.a")
    for path in [os.path.join(named, "libhashers.a"), os.path.join(named, "libhashers.so")] if named else [made]:
        if os.path.isfile(path):
            return path
    if named or not shutil.which("cargo"):
        sys.exit(f"setup.py: there is no {named or made}, or no libhashers.a in it. Let HASHERS_LIB_DIR name the folder of one, of Debian's"
                 " package libhashers-dev, of a tarball of hashers, or made by make -C c; or install cargo 1.88 or later")
    subprocess.check_call(["cargo", "build", "--quiet", "--release", "--offline", "--target-dir", room], cwd=native("hashers-c"))
    return os.path.join(room, "release", "libhashers.a")


def platform_of(path):
    """The tag of the systems that load the module: those of its processor whose glibc has each version of symbols that it needs; None
    where it names another C library."""
    with open(path, "rb") as file:
        module = file.read()
    machine, oldest = MACHINES[int.from_bytes(module[18:20], "little")]
    needed = [int(minor) for minor in re.findall(rb"\0GLIBC_2\.(\d+)", module)]
    is_other = re.search(rb"\0libc\.(?!so\.6\0)", module)
    return None if is_other else f"manylinux_2_{max([oldest, *needed])}_{machine}"


class BuildWithLibrary(build_ext):
    def build_extension(self, extension):
        made = library(os.path.abspath(os.path.join(self.build_temp, "cargo")))
        extension.include_dirs.append(os.path.dirname(native("hashers.h")))
        extension.extra_objects.append(made)
        extension.depends += [made, native("hashers.h"), native("hashes.inc")]
        super().build_extension(extension)


class SourcesWithLibrary(sdist):
    def make_release_tree(self, base_dir, files):
        super().make_release_tree(base_dir, files)
        for name in NATIVE:
            put, source = os.path.join(base_dir, "native", name), native(name)
            os.makedirs(os.path.dirname(put), exist_ok=True)
            if os.path.isdir(source):
                shutil.copytree(source, put, ignore=shutil.ignore_patterns("target", "tests", "examples"))
            else:
                shutil.copy(source, put)


COMMANDS = {"build_ext": BuildWithLibrary, "sdist": SourcesWithLibrary}
if bdist_wheel:
    class WheelOfPlatform(bdist_wheel):
        """Any CPython from 3.9 on loads the module, on the platforms that it is made for."""

        def get_tag(self):
            python, abi, platform = super().get_tag()
            module = self.get_finalized_command("build_ext").get_ext_fullpath("hashers._hashers")
            is_linux = platform.startswith("linux") and os.path.isfile(module)
            return python, abi, (is_linux and platform_of(module)) or platform

    COMMANDS["bdist_wheel"] = WheelOfPlatform

ON_LINUX = sys.platform == "linux"
setup(
    ext_modules=[Extension(
        "hashers._hashers", ["hashers/_hashers.c"], py_limited_api=IS_LIMITED,
        define_macros=[("Py_LIMITED_API", "0x03090000")] if IS_LIMITED else [],
        extra_compile_args=["-g0", "-fvisibility=hidden"] if ON_LINUX else [],
        extra_link_args=["-s", "-Wl,--exclude-libs,ALL", "-Wl,--build-id=none"] if ON_LINUX else [])],
    cmdclass=COMMANDS,
    options={"bdist_wheel": {"py_limited_api": "cp39"}} if IS_LIMITED else {})
