"""Packs the program and the library that were proved and built here of the sources into release/, so that the same
files make the same archive.

    ./board --pack             those that ./board --prove WORDS and ./board --prove --library DIR made
    ./board --prove --pack     proves and builds them first

Exit status: 0, or 125 with a line that says why not.
"""
import subprocess

from launcher.board_says import Refused, say
from launcher.crate_sources import LIBRARY, PROGRAM, Crates, Sources
from launcher.library_files import linked, want_tools
from launcher.proved_builds import build, built
from launcher.release_files import ARCHIVE, WHAT, write_archive, write_sources
from launcher.release_layout import layout
from launcher.rt_children import want_rt


def data_of(crates: Crates, top: str, is_proved_here: bool) -> bytes:
    data = build(crates, top).data if is_proved_here else built(crates, top, Sources.now(crates, top))
    if not data:
        raise Refused(f"no {WHAT[top]} was built here of these sources; ./board --prove --pack proves and builds both")
    return data


def main(words: list[str]) -> int:
    if words == ["--help"]:
        print(__doc__.strip())
        return 0
    if words not in ([], ["--prove"]):
        raise Refused("--pack wants no other word")
    want_rt()
    want_tools()
    crates = Crates()
    program, static = (data_of(crates, top, bool(words)) for top in (PROGRAM, LIBRARY))
    files = layout(crates.root, program, linked(crates, static))
    kit = subprocess.run(["rt", "version"], stdout=subprocess.PIPE, text=True, check=True).stdout.strip()
    write_archive(crates.root, files, kit)
    write_sources(crates)
    say(f"{ARCHIVE} has {len(files)} files")
    return 0
