"""Puts the library for C into a folder.

    ./board --library DIR            libboard.a, libboard.so, board.h and board.pc: those packed with these sources, or
                                     those that were proved and built here
    ./board --prove --library DIR    proves and builds them first

Exit status: 0, or 125 with a line that says why not.
"""
import pathlib

from launcher.board_says import Refused, say
from launcher.crate_sources import Crates
from launcher.library_files import LINK, PC, library, pc_text, want_tools
from launcher.put_files import put_file, want_folder
from launcher.rt_children import want_rt


def main(words: list[str]) -> int:
    is_proved_here = words[-1:] == ["--prove"]
    words = words[: len(words) - is_proved_here]
    if words == ["--help"]:
        print(__doc__.strip())
        return 0
    if len(words) != 1 or not words[0]:
        raise Refused("--library wants a folder")
    folder = pathlib.Path(words[0])
    want_folder(folder)
    if is_proved_here:
        want_rt()
        want_tools()
    crates = Crates()
    files = library(crates, is_proved_here)
    for name, it in files.items():
        if name == PC:
            it.data = pc_text(crates.root, "", "", "")
        put_file(folder / pathlib.Path(name).name, it)
    say(f"libboard.a, {pathlib.Path(LINK).name}, board.h and board.pc are in {folder.resolve()}")
    return 0
