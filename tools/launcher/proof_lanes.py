"""Proves a crate and all below it, several at a time.

In one tree `rt` does one thing at a time, so there is a lane for each two processors, and each but one has a copy of
the sources. A lane takes the crate from which the longest chain of crates goes up, among those whose crates below are
proved. What is made of a crate goes into the copy and comes back, so an earlier call's is used."""
import os
import pathlib
import shutil
import threading
import time
from typing import Callable, Optional

from launcher.board_says import Refused
from launcher.crate_sources import CRATES, PROGRAM, Crates
from launcher.proof_estimate import Estimate, was_kept
from launcher.rt_children import Children, processors, text_of

WAITS = "rt: waiting for another rt"


class Lanes:
    """The proofs of a crate and of those below it, but for those that this call proved before. `out` is where copies and
    what rt says lie meanwhile."""

    def __init__(self, crates: Crates, top: str, out: pathlib.Path, proved: set[str]):
        self.crates, self.top, self.place = crates, top, out / "lanes"
        self.names = crates.needed(top)
        count = processors()
        self.each, self.count = min(count, 2), max(1, count // 2)
        self.estimate = Estimate(crates, self.names, self.count)
        self.order = sorted(self.names, key=self.estimate.chain, reverse=True)
        self.done = proved.intersection(self.order)
        self.order = [name for name in self.order if name != top and name not in self.done]
        for name in self.done:
            self.estimate.end(name, 0, True)
        self.children, self.lock = Children(), threading.Lock()
        self.begun: dict[str, float] = {}  # when each was taken, by the clock
        self.failed: dict[str, str] = {}  # what rt said of each that is not proved
        self.fault: Optional[BaseException] = None

    def prove(self, tell: Callable[[str], None]) -> None:
        """Proves all, and tells meanwhile how far it is."""
        shutil.rmtree(self.place, ignore_errors=True)
        self.place.mkdir(parents=True)
        trees = [self.crates.root, *(self.place / str(k) for k in range(1, self.count))]
        try:
            self._all([threading.Thread(target=self._lane, args=(tree,)) for tree in trees], tell)
            if not self.failed:
                self.each = processors()
                self._all([threading.Thread(target=self._prove, args=(self.crates.root, self.top))], tell)
        finally:
            shutil.rmtree(self.place, ignore_errors=True)
        if self.failed:
            said = "".join(f"== {name}\n{text}" for name, text in self.failed.items())
            raise Refused(f"{' '.join(self.failed)} is not proved", said)

    def _all(self, threads: list[threading.Thread], tell: Callable[[str], None]) -> None:
        """Runs threads to their end, or ends all that they began."""
        try:
            for it in threads:
                it.start()
            while any(it.is_alive() for it in threads):
                tell(self.text())
                threads[0].join(0.2) if threads[0].is_alive() else time.sleep(0.2)
        except BaseException:
            self.children.end()
            raise
        finally:
            for it in threads:
                if it.ident is not None:
                    it.join()
        if self.fault is not None:
            raise self.fault

    def text(self) -> str:
        now = time.monotonic()
        with self.lock:
            running = {name: (now - at, text_of(str(self.place / name)))
                       for name, at in self.begun.items() if name not in self.done}
            if any(said.rstrip().rpartition("\n")[2].startswith(WAITS) for _, said in running.values()):
                return "waiting for an rt in the same tree"
            return self.estimate.text(running)

    def _lane(self, tree: pathlib.Path) -> None:
        try:
            if tree != self.crates.root:
                self._copy_sources(tree)
            while (name := self._claim()) is not None:
                if name:
                    self._prove(tree, name)
                else:
                    time.sleep(0.1)
        except BaseException as fault:
            self.fault = fault
            self.children.end()

    def _copy_sources(self, tree: pathlib.Path) -> None:
        for folder in self.crates.folders(self.top):
            shutil.copytree(self.crates.root / folder, tree / folder)
        (tree / CRATES).write_text("\n".join(self.crates.lines[name] for name in self.names) + "\n")
        if (self.crates.root / "HANDLES").exists():
            shutil.copy(self.crates.root / "HANDLES", tree)

    def _claim(self) -> Optional[str]:
        """A crate that nobody has begun and whose crates below are proved; nothing where there is none yet, None where
        none is left, or where one is not proved."""
        with self.lock:
            free = [name for name in self.order if name not in self.begun]
            if not free or self.failed or self.children.is_over:
                return None
            name = next((it for it in free if self.done.issuperset(self.crates.below[it])), "")
            if name:
                self.begun[name] = time.monotonic()
            return name

    def _prove(self, tree: pathlib.Path, name: str) -> None:
        """Proves a crate in a tree, and takes back what was made of it."""
        begun = self.begun.setdefault(name, time.monotonic())
        words = ["check" if name == PROGRAM else "lib", "--jobs", str(self.each)]
        if tree == self.crates.root:
            status = self.children.run(words, tree / "crates" / name, self.place / name)
        else:
            self._lend(tree, name)
            try:
                status = self.children.run(words, tree / "crates" / name, self.place / name)
            finally:
                move(tree / "crates" / name / "out", self.crates.root / "crates" / name / "out")
        said = (self.place / name).read_text(errors="replace") if (self.place / name).exists() else ""
        with self.lock:
            if status:
                self.failed[name] = said
            else:
                self.done.add(name)
                self.estimate.end(name, time.monotonic() - begun, was_kept(said))

    def _lend(self, tree: pathlib.Path, name: str) -> None:
        """Lets a copy of the tree have what is proved so far, and what an earlier call kept of a crate."""
        with self.lock:
            done = sorted(self.done)
        for it in done:
            made, to = self.crates.root / "crates" / it / "out/rlib", tree / "crates" / it / "out"
            if made.is_dir() and not to.is_dir():
                shutil.copytree(made, to / "rlib", copy_function=link_or_copy)
        move(self.crates.root / "crates" / name / "out", tree / "crates" / name / "out")


def link_or_copy(old: str, new: str) -> None:
    try:
        os.link(old, new)
    except OSError:
        shutil.copy2(old, new)


def move(old: pathlib.Path, new: pathlib.Path) -> None:
    if old.exists():
        os.rename(old, new)
