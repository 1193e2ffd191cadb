"""Proves and builds the program of the sources, and then runs it.

    ./board --prove WORDS             the program's words, as replay FILE; --version where nothing else is wanted
    ./board --prove --library DIR     proves and builds the library, and puts it there
    ./board --prove --install PREFIX  both
    ./board --prove --pack            both

What was proved before is not proved again. The first time takes one to three hours of a processor, and 2 GB for each of
those that BOARD_JOBS=N names, or of all that have so much memory. Ctrl-C ends it, and keeps what was proved so far.
"""
import sys

from launcher.board_says import become
from launcher.crate_sources import PROGRAM, Crates
from launcher.proved_builds import build, keep_program

OTHERS = ("--library", "--install", "--pack")


def main(words: list[str]) -> int:
    crates = Crates()
    if words == ["--help"]:
        print(__doc__.strip())
        return 0
    if words[:1] and words[0] in OTHERS:
        become([sys.executable, str(crates.root / "tools/launch"), words[0][2:], *words[1:], "--prove"])
    keep_program(crates, build(crates, PROGRAM))
    become([str(crates.root / "board"), *words])
