"""The folder from which ./board runs: the program, of which sources it is, and since when nothing of them changed."""
import errno
import os
import pathlib
import tempfile
from dataclasses import dataclass
from typing import Optional

from launcher.board_says import Refused, fault_text
from launcher.crate_sources import PROGRAM, STATED, Crates, Sources, sum_of
from launcher.release_files import SUMS
from launcher.unchanged import unchanged

NO_ROOM = (errno.ENOSPC, errno.EDQUOT)


def folders(root: pathlib.Path) -> list[pathlib.Path]:
    """Where the program may lie: in the tree, or where that cannot be written in the caller's cache folder."""
    cache = os.environ.get("XDG_CACHE_HOME") or f"{os.environ.get('HOME', '')}/.cache"
    return [root / "release/out", pathlib.Path(f"{cache}/board{root}")]


@dataclass
class Note:
    """Of which sources a file was made, its own sum, and whether it was proved and built here."""

    sources: str
    sum: str
    is_built: bool

    @staticmethod
    def read(file: pathlib.Path) -> Optional["Note"]:
        try:
            sources, sum_, origin = file.read_text().split()
        except (OSError, ValueError):
            return None
        return Note(sources, sum_, origin == "built")

    def write(self, file: pathlib.Path) -> None:
        put(file, f"{self.sources} {self.sum} {'built' if self.is_built else 'packed'}\n".encode())


def put(file: pathlib.Path, data: bytes, mode: int = 0o644) -> None:
    """Writes a file at once, so that who reads it finds the old one or the new one."""
    handle, name = tempfile.mkstemp(dir=file.parent, prefix=".")
    try:
        with open(handle, "wb") as it:
            it.write(data)
        os.chmod(name, mode)
        os.replace(name, file)
    except BaseException:
        os.unlink(name)
        raise


class State:
    def __init__(self, folder: pathlib.Path):
        self.folder = folder
        self.program, self.note, self.unchanged = folder / "board", folder / "note", folder / "unchanged"

    def program_of(self, sources: Sources) -> Optional[tuple[bytes, bool]]:
        """The program, where it is that of these sources and nobody changed it, and whether it was built here."""
        note = Note.read(self.note)
        if note is None or note.sources != sources.sum():
            return None
        try:
            data = self.program.read_bytes()
        except OSError:
            return None
        return (data, note.is_built) if sum_of(data) == note.sum else None

    def keep(self, data: bytes, is_built: bool, sources: Sources) -> None:
        """Puts the program of these sources here."""
        try:
            if self.program_of(sources) != (data, is_built):
                put(self.program, data, 0o755)
                Note(sources.sum(), sum_of(data), is_built).write(self.note)
        except OSError as fault:
            raise Refused(f"the program cannot be kept in {self.folder}: {fault.strerror}") from fault

    def mark(self, crates: Crates, begun: int) -> None:
        """Lets ./board run the program for as long as each source, read after `begun`, has the time that it has now.

        Where a source changed since `begun`, nothing is noted, and the next call looks again.
        """
        sources = crates.names(PROGRAM, STATED)
        names = [str(self.program), *(name for name in (SUMS,) if (crates.root / name).exists()), *sources]
        try:
            times = {name: os.stat(crates.root / name).st_ctime_ns for name in names}
            if all(times[name] < begun for name in sources):
                put(self.unchanged, unchanged(times), 0o755)
        except OSError as fault:
            raise Refused(f"{self.folder}: {fault.strerror}") from fault


def time_here(folder: pathlib.Path) -> int:
    """The time as files have it."""
    with tempfile.TemporaryFile(dir=folder) as it:
        return os.fstat(it.fileno()).st_mtime_ns


def writable(root: pathlib.Path) -> Optional[State]:
    """The first folder in which the program can be kept, made where it is not there; or None."""
    for folder in folders(root):
        try:
            folder.mkdir(parents=True, exist_ok=True)
            time_here(folder)
            return State(folder)
        except OSError as fault:
            if fault.errno in NO_ROOM:
                raise Refused(f"the program cannot be kept in {fault_text(fault)}") from fault
    return None
