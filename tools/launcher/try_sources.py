"""Runs the sources as they stand, unproved, by `rt try`, over copies of the files that the words name.

    ./board --try WORDS                    the program's words
    ./board --try replay|run|map FILE..    of several scripts each, which are built once

It takes about a minute of two processors. Exit status: that of the program; 2 where a file cannot be read; 125 where
the sources did not run to their end.
"""
import os
import pathlib
import re
import shutil
import sys
import tempfile

from launcher.board_says import Refused, die_by, say
from launcher.crate_sources import PROGRAM, ROOT
from launcher.proved_builds import Stopped, signals
from launcher.rt_children import Children, want_rt
from refusals.command_files import files_of
from refusals.refusal import explained, why_unread
from shared.grammar import NAME

EACH = ("replay", "run", "map")  # which take several scripts
SECONDS = 600
MOST_BYTES = 70_000_000  # more than the program reads of a file
IMAGE = re.compile(rf"^(?:rom|disk) ({NAME.pattern})$", re.M)
OF_RT = re.compile(r"interpreter: |checked: |races: |case=.* status=0 |run=")
ENDED = re.compile(r"run=ended status=(\d+) ")


class Copies:
    """The folder with the copies that rt is given, by the names that the program asks for."""

    def __init__(self, room: pathlib.Path):
        self.data, self.cases = room / "data", room / "cases"
        self.data.mkdir()
        self.cases.mkdir()

    def give(self, file: str, place: pathlib.Path) -> None:
        """Copies what the program would read of a file."""
        with open(file, "rb") as it:
            place.write_bytes(it.read(MOST_BYTES))

    def give_images(self, script: pathlib.Path) -> None:
        """Copies the ROM and the disk that a script names, where they are there."""
        for name in IMAGE.findall(script.read_bytes().decode("latin-1")):
            if os.path.isfile(name):
                self.give(name, self.data / name)

    def words(self) -> list[str]:
        return [word for it in sorted(self.data.iterdir()) for word in ("--data", f"{it.name}={it}")]


def one(copies: Copies, words: list[str]) -> list[str]:
    """The words for rt of one command, after its files were copied."""
    words = list(words)
    for place, (kind, file) in enumerate(files_of(words).items(), 1):
        copies.give(file, copies.data / f"+{kind}")
        words[place] = f"+{kind}"
    if "+script" in words and words[0] != "resume":
        copies.give_images(copies.data / "+script")
    return [*copies.words(), "--", *words]


def each(copies: Copies, words: list[str]) -> list[str]:
    """The same of several scripts, each under a line with its name."""
    for file in words[1:]:
        case = copies.cases / file.replace("/", "_")
        copies.give(file, case)
        copies.give_images(case)
    return [*copies.words(), "--cases", str(copies.cases), "--", words[0], "{}"]


def attempt(room: pathlib.Path, words: list[str]) -> int:
    is_each = len(words) > 2 and words[0] in EACH
    more = (each if is_each else one)(Copies(room), words)
    say("the sources run as they stand, and nothing is proved; this takes about a minute of two processors")
    children = Children()
    try:
        more = ["try", "--seconds", str(SECONDS), *more]
        status = children.run(more, ROOT / "crates" / PROGRAM, room / "said", sys.stdout)
    except BaseException:
        children.end()
        raise
    text = (room / "said").read_text(errors="replace")
    ended = ENDED.search(text)
    if not is_each and ended is None:
        raise Refused("the sources did not run to their end", text)
    shown = "\n".join(line for line in text.splitlines() if not OF_RT.match(line))
    if shown:
        print(shown, file=sys.stderr)
    why = None if is_each or os.environ.get("BOARD_QUIET") == "1" else explained(shown, words)
    if why is not None:
        say(why)
    return status if is_each or ended is None else int(ended[1])


def main(words: list[str]) -> int:
    if words == ["--help"]:
        print(__doc__.strip())
        return 0
    want_rt()
    names = words[1:] if len(words) > 2 and words[0] in EACH else files_of(words).values()
    for file in names:
        if os.path.isdir(file) or not os.access(file, os.R_OK):
            say(f"the file {file} {why_unread(file)}")
            return 2
    with tempfile.TemporaryDirectory() as room, signals():
        try:
            return attempt(pathlib.Path(room), words)
        except Stopped as it:
            shutil.rmtree(room, ignore_errors=True)
            die_by(it.number)
