"""Finds the program that is that of the sources, and keeps it where ./board runs it.

    tools/launch take-program       prints the folder that has it

Nothing is printed where no folder can be written: then run-from-memory runs it. Exit status: 0, or 125 where
there is no such program, with a line that says why.
"""

from launcher.board_state import time_here, writable
from launcher.crate_sources import Crates
from launcher.found_program import found


def main(_: list[str]) -> int:
    crates = Crates()
    state = writable(crates.root)
    if state is None:
        return 0
    begun = time_here(state.folder)
    state.keep(*found(crates))
    state.mark(crates, begun)
    print(state.folder)
    return 0
