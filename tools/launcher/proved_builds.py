"""Proves and builds the program and the library of the sources, unless that was done."""
import contextlib
import fcntl
import pathlib
import signal
import time
from dataclasses import dataclass
from typing import IO, Iterator

from launcher.board_says import Refused, die_by, say
from launcher.board_state import Note, State, time_here
from launcher.crate_sources import LIBRARY, PROGRAM, STATED, Crates, Sources, sum_of
from launcher.proof_lanes import Lanes
from launcher.release_files import WHAT, why_not_packed
from launcher.rt_children import Children, want_rt
from launcher.told_progress import Progress

# What rt makes of each, and the words that link it once it is proved.
MADE = {PROGRAM: "board_app", LIBRARY: "libboard_c.a"}
LINKING = {PROGRAM: ["run", "--", "--version"]}
PROVED: set[str] = set()  # the crates that this call proved


@dataclass
class Built:
    """What was proved and built, the sources that it was made of, and when these were looked at."""

    data: bytes
    sources: Sources
    begun: int


class Stopped(BaseException):
    """A signal came that ends the tool."""

    def __init__(self, number: int):
        self.number = number


def made(crates: Crates, top: str) -> pathlib.Path:
    return crates.root / "crates" / top / "out" / MADE[top]


def built(crates: Crates, top: str, sources: Sources) -> bytes:
    """What was proved and built here of the sources, or nothing."""
    note = Note.read(note_file(crates, top))
    if note is None or note.sources != sources.sum() or not made(crates, top).is_file():
        return b""
    data = made(crates, top).read_bytes()
    return data if sum_of(data) == note.sum else b""


def note_file(crates: Crates, top: str) -> pathlib.Path:
    return crates.root / "crates" / top / "out/built"


def build(crates: Crates, top: str) -> Built:
    """What is proved and built of the sources: now, where it was not before."""
    want_rt()
    out = crates.root / "crates" / PROGRAM / "out"
    try:
        out.mkdir(exist_ok=True)
        time_here(out)
        lock = open(out / "lock", "a")
    except OSError as fault:
        raise Refused(f"this tree cannot be written: {crates.root}") from fault
    with lock, signals():
        progress = Progress()
        try:
            wait_for(lock, progress)
            begun = time_here(out)
            sources = Sources.now(crates, top)
            data = built(crates, top, sources) or build_now(crates, top, sources, progress)
            return Built(data, sources, begun)
        except Stopped as it:
            progress.end()
            die_by(it.number)
        finally:
            progress.end()


def wait_for(lock: IO[str], progress: Progress) -> None:
    """Waits while another call builds."""
    while True:
        try:
            return fcntl.flock(lock, fcntl.LOCK_EX | fcntl.LOCK_NB)
        except BlockingIOError:
            progress.tell("another call builds")
            time.sleep(0.2)


def build_now(crates: Crates, top: str, sources: Sources, progress: Progress) -> bytes:
    why = why_not_packed(crates, top)
    say(f"{why or f'the packed {WHAT[top]} is of these sources'}; one is proved and built here")
    out = crates.root / "crates" / PROGRAM / "out"
    note_file(crates, top).unlink(missing_ok=True)
    lanes = Lanes(crates, top, out, PROVED)
    lanes.prove(progress.tell)
    PROVED.update(lanes.done)
    if top in LINKING:
        link(crates, top, out / "program.log", progress)
    data = made(crates, top).read_bytes()
    Note(sources.sum(), sum_of(data), True).write(note_file(crates, top))
    return data


def link(crates: Crates, top: str, log: pathlib.Path, progress: Progress) -> None:
    progress.tell(f"building the {WHAT[top]}")
    children = Children()
    try:
        status = children.run(LINKING[top], crates.root / "crates" / top, log)
    except BaseException:
        children.end()
        raise
    if status:
        raise Refused(f"the {WHAT[top]} is not built", log.read_text(errors="replace"))


@contextlib.contextmanager
def signals() -> Iterator[None]:
    """Lets each signal that ends a program stop the build in an orderly way."""
    def stop(number: int, _: object) -> None:
        for it in (signal.SIGHUP, signal.SIGINT, signal.SIGTERM):
            signal.signal(it, signal.SIG_IGN)
        raise Stopped(number)

    old = {it: signal.signal(it, stop) for it in (signal.SIGHUP, signal.SIGINT, signal.SIGTERM)}
    yield
    for it, handler in old.items():
        signal.signal(it, handler)


def keep_program(crates: Crates, program: Built) -> None:
    """Lets ./board run the program that was built here."""
    state = State(crates.root / "release/out")
    state.folder.mkdir(parents=True, exist_ok=True)
    state.keep(program.data, True, program.sources.of_parts(STATED))
    state.mark(crates, program.begun)
