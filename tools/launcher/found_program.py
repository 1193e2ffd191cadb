"""The program that is that of the sources: one that was proved and built here, or the packed one."""
import shutil

from launcher.board_says import Refused
from launcher.board_state import State, folders
from launcher.crate_sources import PROGRAM, STATED, Crates, Sources
from launcher.release_files import THE_PROGRAM, members, why_not_packed


def found(crates: Crates) -> tuple[bytes, bool, Sources]:
    """The program, whether it was built here, and the code, contracts and definitions that it is of.

    No proof is looked at: what it shows of the program stays shown where the proof is changed.
    """
    sources = Sources.now(crates, PROGRAM, STATED)
    for folder in folders(crates.root):
        kept = State(folder).program_of(sources)
        if kept is not None:
            return *kept, sources
    why = why_not_packed(crates, PROGRAM, STATED)
    if why is not None:
        raise Refused(f"{why}; {what_to_call('WORDS')}")
    return members(crates.root)[THE_PROGRAM].data, False, sources


def what_to_call(words: str) -> str:
    """What proves and builds what is wanted, where the kit is there."""
    if shutil.which("rt") is None:
        return "there is no rt of the Rattle kit to build them, so only unchanged sources run"
    unproved = ", ./board --try WORDS runs them unproved" if words == "WORDS" else ""
    return f"./board --prove {words} proves and builds them first{unproved}"
