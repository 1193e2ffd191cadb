"""How long the proofs that are left take, by the lines of each crate, how fast those before went, and how far rt says that
a crate is."""
import pathlib
import re

from launcher.crate_sources import Crates

LINES_TO_BEGIN = 300  # a crate takes as long as so many lines more
# As measured on four processors, where nothing is known yet, and how many lines this weighs.
SECONDS_A_LINE, LINES_TRUSTED = 0.037, 3000
KEPT = ": begins with what a check kept"  # all that rt says where it has nothing to prove


class Estimate:
    def __init__(self, crates: Crates, names: list[str], lanes: int):
        self.names, self.lanes = names, lanes
        self.below = {name: [it for it in crates.below[name] if it in names] for name in names}
        self.lines = {name: LINES_TO_BEGIN + lines_of(crates.root / "crates" / name) for name in names}
        self.seconds_known, self.lines_known = LINES_TRUSTED * SECONDS_A_LINE, LINES_TRUSTED
        self.ended: set[str] = set()

    def chain(self, name: str) -> int:
        """The lines of the longest chain of crates from one up."""
        above = [it for it in self.names if name in self.below[it]]
        return self.lines[name] + max(map(self.chain, above), default=0)

    def end(self, name: str, seconds: float, was_kept: bool) -> None:
        """Notes that a crate is done, in so many seconds; how fast is not learned of one that was proved before."""
        self.ended.add(name)
        if not was_kept:
            self.seconds_known += seconds
            self.lines_known += self.lines[name]

    def seconds_left(self, running: dict[str, tuple[float, str]]) -> float:
        """What is left, while crates run for so many seconds and rt said this of them: its longest chain, or all of it on
        these lanes."""
        rate = self.seconds_known / self.lines_known
        left = {name: rate * self.lines[name] for name in self.names if name not in self.ended}
        for name, (seconds, said) in running.items():
            left[name] *= 1 - max(min(seconds / left[name], 1), share_done(said))
        return max(sum(left.values()) / self.lanes, self.longest(left))

    def longest(self, left: dict[str, float]) -> float:
        """The longest chain of crates, by what is left of each."""
        chain: dict[str, float] = {}

        def up_to(name: str) -> float:
            if name not in chain:
                chain[name] = left.get(name, 0) + max(map(up_to, self.below[name]), default=0)
            return chain[name]

        return max(map(up_to, self.names))

    def text(self, running: dict[str, tuple[float, str]]) -> str:
        """How far the proofs are: `proving 5 of 36, about 6 minutes left`."""
        minutes = max(1, round(self.seconds_left(running) / 60))
        number = min(len(self.ended) + 1, len(self.names))
        return f"proving {number} of {len(self.names)}, about {minutes} minute{'s' * (minutes > 1)} left"


def share_done(said: str) -> float:
    """How far a crate is, by what rt said last: `so far: 24 of 68 functions checked`."""
    found = re.findall(r"^so far: (\d+) of ([1-9]\d*) ", said, re.M)
    return int(found[-1][0]) / int(found[-1][1]) if found else 0


def was_kept(said: str) -> bool:
    """Whether a crate was proved before, by what rt said of it."""
    return all(KEPT in line for line in said.splitlines())


def lines_of(folder: pathlib.Path) -> int:
    parts = (folder / part for part in ("src", "specs", "proofs"))
    return sum(it.read_bytes().count(b"\n") for part in parts for it in part.rglob("*") if it.is_file())
