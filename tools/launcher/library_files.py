"""The library for C: its files, by their names below the folder of a release."""
import os
import pathlib
import re
import shutil
import subprocess
import tempfile

from launcher.board_says import Refused
from launcher.crate_sources import LIBRARY, Crates, Sources
from launcher.found_program import what_to_call
from launcher.proved_builds import build, built
from launcher.release_files import Member, members, why_not_packed

HEADER, STATIC, LINK, PC = "include/board.h", "lib/libboard.a", "lib/libboard.so", "lib/pkgconfig/board.pc"


def interface(root: pathlib.Path) -> str:
    """The version of the interface, by board.h."""
    return str(re.findall(r"#define BOARD_INTERFACE (\d+)", (root / HEADER).read_text())[0])


def shared(root: pathlib.Path) -> str:
    """The name of the shared library, which is what a program that was linked with it looks for."""
    return f"{LINK}.{interface(root)}"


def pc_text(root: pathlib.Path, up: str, lib: str, include: str, is_found: bool = False) -> bytes:
    """board.pc of a folder that is `up` from where it lies. A program that is linked with the library looks for it in its
    folder, but where the system's loader finds it by itself."""
    names = {"up": up, "lib": lib, "include": include, "version": interface(root),
             "rpath": "" if is_found else "-Wl,-rpath,${libdir} "}
    text = (root / "include/board.pc.in").read_text()
    return re.sub("@([a-z]+)@", lambda it: names[it[1]], text).encode()


def library(crates: Crates, is_proved_here: bool) -> dict[str, Member]:
    """The files of the library of these sources: the packed ones, or of one that was proved and built here."""
    if is_proved_here:
        want_tools()
        return linked(crates, build(crates, LIBRARY).data)
    static = built(crates, LIBRARY, Sources.now(crates, LIBRARY))
    if static:
        want_tools()
        return linked(crates, static)
    why = why_not_packed(crates, LIBRARY)
    if why is not None:
        raise Refused(f"{why}; {what_to_call('--library DIR')}")
    return {name: it for name, it in members(crates.root).items() if name.split("/")[0] in ("lib", "include")}


def want_tools() -> None:
    for name in (compiler(), "ar"):
        if shutil.which(name) is None:
            raise Refused(f"no {name}, by which the library is linked")


def compiler() -> str:
    return os.environ.get("CC") or "cc"


def linked(crates: Crates, static: bytes) -> dict[str, Member]:
    """The library of what rt built, with the kit's small C part in it, so that a user links one file."""
    root = crates.root
    with tempfile.TemporaryDirectory() as name:
        room = pathlib.Path(name)
        (room / "board.a").write_bytes(static)
        objects = extracted(room, [room / "board.a", kit_folder() / "c/liblibc_c.a"])
        call(["ar", "crsD", "libboard.a", *objects], room)
        soname = pathlib.Path(shared(root)).name
        (room / "exports").write_text("{ global: board_*; local: *; };\n")
        call([compiler(), "-shared", "-o", soname, f"-Wl,-soname,{soname}", "-Wl,--version-script,exports",
              "-Wl,--whole-archive", "libboard.a", "-Wl,--no-whole-archive"], room)
        return {
            HEADER: Member((root / HEADER).read_bytes()),
            STATIC: Member((room / "libboard.a").read_bytes()),
            shared(root): Member((room / soname).read_bytes(), is_run=True),
            LINK: Member(link=soname),
            PC: Member(pc_text(root, "/../..", "/lib", "/include")),
        }


def extracted(room: pathlib.Path, archives: list[pathlib.Path]) -> list[str]:
    """The objects of archives, put into a folder, by their names; where one is taken a number stands before it."""
    found: list[str] = []
    for archive in archives:
        counts: dict[str, int] = {}
        for name in call(["ar", "t", str(archive)], room).splitlines():
            counts[name] = counts.get(name, 0) + 1
            with tempfile.TemporaryDirectory(dir=room) as place:
                call(["ar", "xN", str(counts[name]), str(archive), name], pathlib.Path(place))
                own = name if name not in found else f"{len(found)}-{name}"
                os.rename(f"{place}/{name}", room / own)
            found.append(own)
    return sorted(found)


def kit_folder() -> pathlib.Path:
    """The folder of the kit's first page."""
    return pathlib.Path(call(["rt", "doc"], pathlib.Path.cwd()).split("\n")[0]).parent


def call(words: list[str], folder: pathlib.Path) -> str:
    run = subprocess.run(words, cwd=folder, capture_output=True, text=True)
    if run.returncode:
        raise Refused(f"{words[0]} ended with {run.returncode}", run.stdout + run.stderr)
    return run.stdout
