"""Runs the program that is that of the sources, where no folder can be written to keep it.

    tools/launch run-from-memory WORDS       the program's words; its exit status
"""
import os
import signal

from launcher.crate_sources import Crates
from launcher.found_program import found


def main(words: list[str]) -> int:
    data = found(Crates())[0]
    program = os.memfd_create("board", os.MFD_CLOEXEC)
    with open(program, "wb", closefd=False) as it:
        it.write(data)
    for number in (signal.SIGPIPE, signal.SIGXFSZ):  # which Python ignores
        signal.signal(number, signal.SIG_DFL)
    os.execve(program, ["board", *words], os.environ)
