"""Finds libboard.so, and refuses a library whose interface is another than this module's.

It is looked for in the folder BOARD_DIR, then beside this module, where a wheel has it, then where pkg-config has it,
then in the archives of the repository's release folder.
"""
import ctypes
import functools
import os
import pathlib
import re
import subprocess
import tarfile
import tempfile
import threading

from .errors import LibraryError
from .records import CALLS

INTERFACE = 8
LIBRARY = "libboard.so"
HEADER = "board.h"
RELEASE = pathlib.Path(__file__).resolve().parents[3] / "release"


def _interface_of_header(header: pathlib.Path) -> int:
    found = re.search(r"^#define BOARD_INTERFACE (\d+)", header.read_text(encoding="utf-8"), re.M)
    if not found:
        raise LibraryError(f"{header} has no BOARD_INTERFACE")
    return int(found[1])


def interface_of(library: ctypes.CDLL, path: pathlib.Path, headers: list[pathlib.Path]) -> int:
    """The interface of a library, as it says itself, or else the header that came with it."""
    if hasattr(library, "board_version"):
        library.board_version.argtypes = []
        library.board_version.restype = ctypes.c_uint32
        return int(library.board_version())
    for header in headers:
        if header.is_file():
            return _interface_of_header(header)
    raise LibraryError(f"{path} does not say its interface, and no {HEADER} is beside it")


def load(path: pathlib.Path, headers: list[pathlib.Path]) -> ctypes.CDLL:
    """A library with its calls declared."""
    try:
        library = ctypes.CDLL(str(path))
    except OSError as fault:
        raise LibraryError(f"{path} cannot be loaded: {fault}") from fault
    has = interface_of(library, path, headers)
    if has != INTERFACE:
        raise LibraryError(f"{path} has the interface {has}, and this module is for {INTERFACE}")
    for name, takes in CALLS.items():
        call = getattr(library, name)
        call.argtypes = takes
        call.restype = None if name == "board_close" else ctypes.c_uint32
    return library


def _by_variable() -> pathlib.Path | None:
    folder = os.environ.get("BOARD_DIR")
    if folder is None:
        return None
    path = pathlib.Path(folder).resolve() / LIBRARY
    if not path.is_file():
        raise LibraryError(f"BOARD_DIR: {folder} has no {LIBRARY}")
    return path


def _in_package() -> pathlib.Path | None:
    path = pathlib.Path(__file__).resolve().with_name(LIBRARY)
    return path if path.is_file() else None


def _by_pkg_config() -> pathlib.Path | None:
    try:
        answer = subprocess.run(["pkg-config", "--libs-only-L", "board"], capture_output=True, text=True)
    except OSError:
        return None
    words = answer.stdout.split() if answer.returncode == 0 else []
    paths = (pathlib.Path(word.removeprefix("-L"), LIBRARY) for word in words if word.startswith("-L"))
    return next((path for path in paths if path.is_file()), None)


@functools.cache
def _unpacked() -> tempfile.TemporaryDirectory[str]:
    """A folder for what a release has, which goes with the process."""
    return tempfile.TemporaryDirectory()


def _by_release() -> pathlib.Path | None:
    for archive in sorted(RELEASE.glob("*.tar.gz")):
        with tarfile.open(archive) as packed:
            members = {pathlib.PurePath(name).name: name for name in packed.getnames()}
            if LIBRARY not in members or HEADER not in members:
                continue
            for name in (LIBRARY, HEADER):
                member = packed.extractfile(members[name])
                if member is None:
                    raise LibraryError(f"{archive}: {name} is no file")
                pathlib.Path(_unpacked().name, name).write_bytes(member.read())
            return pathlib.Path(_unpacked().name, LIBRARY)
    return None


def found() -> pathlib.Path:
    """Where the library is."""
    for search in (_by_variable, _in_package, _by_pkg_config, _by_release):
        path = search()
        if path is not None:
            return path
    raise LibraryError(f"no {LIBRARY} was found: `./board --library DIR` makes it, and BOARD_DIR=DIR says where it is")


_FINDING = threading.Lock()


@functools.cache
def _found_library() -> ctypes.CDLL:
    path = found()
    return load(path, [path.with_name(HEADER)])


def library() -> ctypes.CDLL:
    """The library, found once, whichever thread asks first."""
    with _FINDING:
        return _found_library()
