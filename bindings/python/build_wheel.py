"""Makes a wheel from a clone or from the source package, with only a C compiler and Python's standard
library.

This is the build backend: pip calls `build_wheel`, and `build_editable` for `pip install -e`. The
compiler is the one that CC names, otherwise Python's own, otherwise the first one found. For CPython
3.10 and later, if its header is installed, the wheel contains the extension module, otherwise a
library for ctypes. bindings/packages.py uses this file too, for the metadata and to pack wheels.
"""
import base64
import hashlib
import os
import re
import shlex
import shutil
import subprocess
import sys
import sysconfig
import tempfile
import zipfile
from pathlib import Path

HERE = Path(__file__).resolve().parent
NAME = "chinese-number-proved"
MODULE = tuple(
    f"chinese_number/{it}"
    for it in (
        "__init__.py",
        "__main__.py",
        "_arrow.py",
        "_codes.py",
        "_columns.py",
        "_library.py",
        "_rows.py",
        "_tables.py",
        "py.typed",
    )
)
# Older versions of twine also accept version 2.1 and `License`.
METADATA = """\
Metadata-Version: 2.1
Name: {name}
Version: {version}
Summary: Chinese numerals, and amounts and dates in capitals, read, written and found by a proved library
Keywords: chinese,numeral,number,cheque
Author: {author}
License: {license}
Requires-Python: >=3.8
Description-Content-Type: text/markdown
Classifier: Programming Language :: Python :: 3
Classifier: Natural Language :: Chinese (Simplified)
Classifier: Natural Language :: Chinese (Traditional)
Classifier: Topic :: Text Processing :: Linguistic
Classifier: Typing :: Typed

{readme}"""
WHEEL = """\
Wheel-Version: 1.0
Generator: build_wheel.py
Root-Is-Purelib: false
"""
ENTRY_POINTS = b"""\
[console_scripts]
chinese-number = chinese_number.__main__:main
"""
NATIVE, BY_NATIVE, BY_CTYPES = "_native.abi3.so", "cp310-abi3", "py3-none"
COMPILERS = ("cc", "gcc", "clang", "cl")


class UnsupportedOperation(Exception):
    """What a frontend expects if a backend does not support a hook."""


def stop(why):
    """Exits with a message, which pip shows as it is. A traceback would hide it."""
    sys.exit(f"{NAME}: {why}")


def text_of(name):
    return (HERE / name).read_text(encoding="utf-8")


def package():
    """The name and the version, with which a package's file name begins."""
    version = re.search(r'^__version__ = "(.*)"', text_of(MODULE[0]), re.M)[1]
    return f"{NAME.replace('-', '_')}-{version}"


def metadata(license):
    """The metadata that pip reads, with the README."""
    return METADATA.format(
        name=NAME,
        version=package().rpartition("-")[2],
        author=re.search(r"^Copyright \(c\) \d+ (.*)$", text_of("LICENSE"), re.M)[1],
        license=license,
        readme=text_of("README.md"),
    ).encode()


def about():
    """The dist-info files of a wheel from C source, with wabt's license, which is the Apache license."""
    licenses = (HERE / "LICENSE", HERE / "source/LICENSE-wabt")
    files = {"METADATA": metadata("MIT AND Apache-2.0")}
    files.update({f"licenses/{path.name}": path.read_bytes() for path in licenses})
    # PROVENANCE.json of the source package, or of a clone.
    for folder in (HERE, HERE.parent.parent / "dist"):
        if (folder / "PROVENANCE.json").is_file():
            return {**files, "PROVENANCE.json": (folder / "PROVENANCE.json").read_bytes()}
    return files


def write_wheel(path, info, files):
    """Writes a zip archive of the files and their RECORD, in this order, all with the same old date."""
    record = ""
    for name, data in files.items():
        digest = base64.urlsafe_b64encode(hashlib.sha256(data).digest()).rstrip(b"=").decode()
        record += f"{name},sha256={digest},{len(data)}\n"
    files = {**files, f"{info}/RECORD": f"{record}{info}/RECORD,,\n".encode()}
    with zipfile.ZipFile(path, "w", zipfile.ZIP_DEFLATED) as packed:
        for name, data in files.items():
            entry = zipfile.ZipInfo(name, (1980, 1, 1, 0, 0, 0))
            entry.compress_type = zipfile.ZIP_DEFLATED
            entry.external_attr = 0o100644 << 16
            packed.writestr(entry, data)


def pack(folder, pythons, platforms, files, about):
    """Writes a wheel from files and its dist-info files, and returns its file name."""
    info = f"{package()}.dist-info"
    tags = "".join(f"Tag: {pythons}-{platform}\n" for platform in platforms)
    files = {**files, **{f"{info}/{it}": data for it, data in about.items()}}
    files[f"{info}/WHEEL"] = (WHEEL + tags).encode()
    files[f"{info}/entry_points.txt"] = ENTRY_POINTS
    wheel = f"{package()}-{pythons}-{'.'.join(platforms)}.whl"
    write_wheel(Path(folder) / wheel, info, files)
    return wheel


def this_platform():
    return re.sub(r"[-.]", "_", sysconfig.get_platform())


def module():
    return {it: (HERE / it).read_bytes() for it in MODULE}


def compiler():
    """The words with which a command of the C compiler begins."""
    named = os.environ.get("CC")
    for words in [named] if named else [sysconfig.get_config_var("CC"), *COMPILERS]:
        words = shlex.split(words or "", posix=os.name == "posix")
        if words and shutil.which(words[0]):
            return words
    missing = f"; CC names {named}, which was not found" if named else ""
    return stop(f"install a C compiler (on Debian: apt install gcc), or set CC to one{missing}")


def takes_native():
    """Whether this Python supports the extension module, and has the header to compile it."""
    is_fit = sys.implementation.name == "cpython" and sys.version_info >= (3, 10)
    is_fit = is_fit and os.name == "posix" and not sysconfig.get_config_var("Py_GIL_DISABLED")
    return is_fit and Path(sysconfig.get_path("include"), "Python.h").is_file()


def call(source, library):
    """The command that makes a shared library or the extension module from the C source."""
    words, native = compiler(), library.name == NATIVE
    if Path(words[0]).stem.lower() == "cl":
        header = source.with_suffix(".h").read_text(encoding="utf-8")
        calls = re.findall(r"^uint32_t (chinese_\w+)\(", header, re.M)
        exports = [f"/EXPORT:{name}" for name in calls]
        return [*words, "/nologo", "/O2", "/LD", str(source), f"/Fe:{library}", "/link", *exports]
    flags = ["-shared"] if library.suffix == ".dll" else ["-shared", "-fPIC"]
    if (
        sysconfig.get_platform()[:3] == "mac"
    ):  # a Python for two processors needs a library for both
        of_python = sysconfig.get_config_var("CFLAGS") or ""
        flags = ["-dynamiclib", *re.findall(r"-arch|(?<=-arch )\w+", of_python)]
        flags += ["-undefined", "dynamic_lookup"] * native
    if native:
        headers = source.parent, sysconfig.get_path("include")
        flags += [*(f"-I{it}" for it in headers), str(HERE / "native.c")]
    return [*words, "-O2", "-fvisibility=hidden", *flags, str(source), "-o", str(library)]


def shared_library():
    """The library, by its path in a wheel, and the Pythons that support it."""
    suffix = {"win": ".dll", "mac": ".dylib"}.get(sysconfig.get_platform()[:3], ".so")
    native = takes_native()
    with tempfile.TemporaryDirectory() as folder:
        library = Path(folder) / (NATIVE if native else f"libchinese_number{suffix}")
        words = call(HERE / "source/chinese_number.c", library)
        if subprocess.run(words, cwd=folder).returncode:
            stop(f"the C compiler failed, or is incomplete: {' '.join(words)}")
        path = f"chinese_number/{library.name}"
        return {path: library.read_bytes()}, BY_NATIVE if native else BY_CTYPES


def build_wheel(wheel_directory, config_settings=None, metadata_directory=None):
    library, pythons = shared_library()
    return pack(wheel_directory, pythons, [this_platform()], {**module(), **library}, about())


def build_editable(wheel_directory, config_settings=None, metadata_directory=None):
    """Writes the library beside the module, which stays here; the wheel contains only its path."""
    library, pythons = shared_library()
    for path, data in library.items():
        try:
            (HERE / path).write_bytes(data)
        except OSError as error:
            stop(f"{error}. An editable install writes there; install without -e")
    files = {f"{NAME}.pth": os.fsencode(f"{HERE}\n")}
    return pack(wheel_directory, pythons, [this_platform()], files, about())


def build_sdist(sdist_directory, config_settings=None):
    raise UnsupportedOperation("bindings/packages.sh makes the source package")
