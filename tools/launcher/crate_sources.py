"""The sources that a crate and all below it are made of, and their sums."""
import hashlib
import os
import pathlib
from dataclasses import dataclass
from typing import Iterator, Optional

from launcher.board_says import Refused

ROOT = pathlib.Path(__file__).resolve().parents[2]
CRATES = "crates.txt"
PROGRAM, LIBRARY = "board_app", "board_c"
STATED = ("src", "specs")  # code, contracts and definitions: what is run, and what is claimed of it
PARTS = (*STATED, "proofs")
Parts = tuple[str, ...]
# What is beside the crates in what is made of them.
BESIDE: dict[str, list[str]] = {PROGRAM: [], LIBRARY: ["include/board.h", "include/board.pc.in"]}


class Crates:
    """The crates of crates.txt by their names: the line of each, and the crates that it stands on."""

    def __init__(self, root: pathlib.Path = ROOT):
        self.root = root
        lines = [line for line in (root / CRATES).read_text().splitlines() if line[:1].islower()]
        self.lines = {line.split(":")[0].split()[0]: line for line in lines}
        self.below = {name: [it for it in line.partition(":")[2].split() if it in self.lines]
                      for name, line in self.lines.items()}

    def needed(self, top: str) -> list[str]:
        """The names of a crate and of all below it, in the order of crates.txt."""
        if top not in self.lines:
            raise Refused(f"{CRATES} has no {top}")
        found, rest = {top}, [top]
        while rest:
            new = [it for it in self.below[rest.pop()] if it not in found]
            found.update(new)
            rest += new
        return [name for name in self.lines if name in found]

    def folders(self, top: str, parts: Parts = PARTS) -> list[str]:
        """The folders of their sources, below the root."""
        folders = [f"crates/{name}/{part}" for name in self.needed(top) for part in parts]
        return [it for it in folders if (self.root / it).is_dir()]

    def files(self, top: str, parts: Parts = PARTS) -> list[str]:
        """Their files, below the root, and what is beside them."""
        return sorted(name for name, is_file in self._walk(top, parts) if is_file) + BESIDE[top]

    def names(self, top: str, parts: Parts) -> list[str]:
        """All that changes its time where a source changes, comes or goes."""
        return [CRATES, *(name for name, _ in self._walk(top, parts)), *BESIDE[top]]

    def _walk(self, top: str, parts: Parts) -> Iterator[tuple[str, bool]]:
        for start in self.folders(top, parts):
            for folder, _, files in os.walk(self.root / start):
                name = os.path.relpath(folder, self.root)
                yield name, False
                yield from ((f"{name}/{it}", True) for it in files)


@dataclass
class Sources:
    """The lines of crates.txt and the sum of each file that something is made of."""

    lines: list[str]
    sums: dict[str, str]

    @staticmethod
    def now(crates: Crates, top: str, parts: Parts = PARTS) -> "Sources":
        sums = {name: sum_of((crates.root / name).read_bytes()) for name in crates.files(top, parts)}
        return Sources([crates.lines[name] for name in crates.needed(top)], sums)

    def of_parts(self, parts: Parts) -> "Sources":
        """These without the files in other folders of the crates."""
        is_in = lambda name: not name.startswith("crates/") or name.split("/")[2] in parts
        return Sources(self.lines, {name: it for name, it in self.sums.items() if is_in(name)})

    def sum(self) -> str:
        """One sum of all."""
        text = "\n".join([*self.lines, *(f"{name} {it}" for name, it in sorted(self.sums.items()))])
        return sum_of(text.encode())

    def change_since(self, other: "Sources") -> Optional[str]:
        """What differs from older sources, or None."""
        names = sorted(name for name in {**self.sums, **other.sums} if self.sums.get(name) != other.sums.get(name))
        if not names:
            return None if self.lines == other.lines else f"{CRATES} was changed"
        kind = "is gone" if names[0] not in self.sums else "is new" if names[0] not in other.sums else "was changed"
        more = f", and {len(names) - 1} more" if len(names) > 1 else ""
        return f"{names[0]} {kind}{more}"


def sum_of(data: bytes) -> str:
    return hashlib.sha256(data).hexdigest()
