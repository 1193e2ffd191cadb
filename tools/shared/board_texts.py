"""What the tools share: the registers by name, the lines of a log, and how the program is called."""
import argparse
import os
import pathlib
import re
import signal
import subprocess
import sys
from dataclasses import dataclass
from typing import Iterator, NoReturn, Optional

from shared.grammar import WIDTHS
from shared.register_names import ANY_FUNCTION, HINTS, OF_FUNCTION

ROOT = pathlib.Path(__file__).resolve().parents[2]

LETTERS = {width: letter for letter, width in WIDTHS.items()}

# ---- the registers, by the names of the 82441FX, the 82371SB and PCI Local Bus 2.1, section 6.2

FUNCTIONS = {"00.0": "the host bridge", "01.0": "the ISA bridge", "01.1": "the IDE function"}
OTHER_DENIALS = {
    "confadd": "the configuration address at port 0CF8 is not enabled: its bit 31 is 0",
    "none": "no register keeps it out: nobody is there",
}


def register_name(register: str) -> str:
    """The name of a register that is written as 00.0.5B, or nothing where no table has one."""
    function, offset = register[:4], int(register[5:], 16)
    for name, first, count in OF_FUNCTION.get(function, []) + ANY_FUNCTION:
        if first <= offset < first + count:
            return name
    return ""


def hint(register: str) -> str:
    """Which bits of a register that denies an access would let it in."""
    name = register_name(register)
    if re.fullmatch("PAM[1-6]", name):
        first = 0xB8000 + 0x8000 * int(name[3])
        return "; ".join(
            f"bit {bit} opens {at:05X} to {at + 0x3FFF:05X} for reads and fetches, bit {bit + 1} for writes"
            for at, bit in ((first, 0), (first + 0x4000, 4))
        )
    return HINTS.get(name, "")


def owner(register: str) -> str:
    """Whose register it is."""
    return FUNCTIONS.get(register[:4], f"the card {int(register[:2], 16)}")


# ---- the log


@dataclass
class Entry:
    """A line of a log after its first."""

    number: int
    actor: int
    seq: int
    statement: str
    value: str  # what was read, or `-`; of a look its version
    replies: list[tuple[str, str]]  # each target with its denial; of a look the interval, and nothing for the area

    @property
    def words(self) -> list[str]:
        return self.statement.split(" ")

    @property
    def target(self) -> str:
        return self.replies[0][0]

    def line(self) -> str:
        """The line as it stands in a script."""
        return f"{self.actor} {self.statement}"


ENTRY = re.compile(r"([1-9]\d*) (\d)\.([1-9]\d*) ([^=]+) = (\S+)((?: \S+)+)")


def entry_of(line: str) -> Optional[Entry]:
    """The entry that a line of a log tells, or None where it has another form."""
    match = ENTRY.fullmatch(line)
    if match is None:
        return None
    number, actor, seq, statement, value, rest = match.groups()
    fields = rest.split()
    if statement.startswith("look "):
        replies = [(" ".join(fields), "-")]
    else:
        replies = list(zip(fields[::2], fields[1::2]))
    return Entry(int(number), int(actor), int(seq), statement, value, replies)


def entries(log: str) -> Iterator[Entry]:
    """The entries of a log that the program wrote."""
    for line in log.splitlines()[1:]:
        entry = entry_of(line)
        if entry is None:
            stop(4, f"the program wrote a line that is none of a log: {line}")
        yield entry


def register_text(register: str, count: int = 1) -> str:
    """A register, or so many bytes from it on, with their names and their owner."""
    function, first = register[:5], int(register[5:], 16)
    last = min(first + count, 0x100) - 1
    names = dict.fromkeys(register_name(f"{function}{offset:02X}") for offset in range(first, last + 1))
    named = ", ".join(name for name in names if name) or "a reserved register"
    upto = f" to {last:02X}" if count > 1 else ""
    return f"{register}{upto}, {named} of {owner(register)}"


def reply_texts(entry: Entry) -> list[str]:
    """What answered an access, and what kept it out, in words: a text for each of its parts."""
    texts = []
    for target, denial in entry.replies:
        kind, _, register = target.partition(":")
        text = f"answered by {target}" if target != "abort" else "answered by nobody"
        if kind == "config":
            text = f"answered by {register_text(register, WIDTHS[entry.words[1]])}"
        if denial in OTHER_DENIALS:
            text += f": {OTHER_DENIALS[denial]}"
        elif denial != "-":
            text += f": kept out by {register_text(denial)}"
        texts.append(text)
    return texts


BYTES_OF = {"01.1.40": 2}  # a register of two bytes that a denial names by its first
REGISTER = re.compile(r"[0-9A-F]{2}\.[0-7]\.[0-9A-F]{2}")
ENABLE, HARD = 4, 2  # the bits of the reset control register


def register_behind(reply: tuple[str, str]) -> Optional[str]:
    """The register that decided a reply: the one that denied it, or else the one that was accessed."""
    target, denial = reply
    if REGISTER.fullmatch(denial):
        return denial
    return target.partition(":")[2] if target.startswith("config:") else None


class Writers:
    """The last write of each register of configuration space, as entries of a log are noted one after another. A hard
    reset writes all. A command of the program that tells who made a register so could stand for this."""

    def __init__(self) -> None:
        self.last: dict[str, dict[int, Entry]] = {}  # by function and offset
        self.reset: Optional[Entry] = None
        self.reset_control = 0

    def note(self, entry: Entry) -> None:
        words = entry.words
        if words[0] == "out" and entry.target.startswith("config:"):
            function, offset = entry.target[7:11], int(entry.target[12:], 16)
            written = self.last.setdefault(function, {})
            written.update((it, entry) for it in range(offset, offset + WIDTHS[words[1]]))
        elif words[0] == "out" and entry.target == "reset":
            value, before = int(words[3], 16), self.reset_control
            self.reset_control = value
            if value & ENABLE and value & HARD and not before & ENABLE:
                self.last, self.reset, self.reset_control = {}, entry, 0

    def of(self, reply: tuple[str, str]) -> Optional[Entry]:
        """The last write of the register that decided a reply, or None where there is none."""
        register = register_behind(reply)
        if register is None:
            return None
        written, first = self.last.get(register[:4], {}), int(register[5:], 16)
        found = [written[it] for it in range(first, first + BYTES_OF.get(register, 1)) if it in written]
        return max(found, key=lambda entry: entry.number, default=self.reset)


# ---- the program and the files


def stop(status: int, why: str) -> NoReturn:
    """Ends the tool with this status, and says why in one line."""
    print(f"{pathlib.Path(sys.argv[0]).name}: {why}", file=sys.stderr)
    sys.exit(status)


class Board:
    """The program, run in the folder where the images lie."""

    ready: set[pathlib.Path] = set()  # the programs that were found to run

    def __init__(self, words: argparse.Namespace):
        self.program = words.program.resolve()
        self.folder = (words.images or words.script.parent).resolve()
        # where it is not of these sources it says so itself
        if self.program == ROOT / "board" and self.program not in self.ready:
            if self.run("--version", stderr=None).returncode:
                stop(4, f"the program {self.program} does not run")
            self.ready.add(self.program)

    @staticmethod
    def add_words(about: argparse.ArgumentParser) -> None:
        images = "where the ROM and the disk lie, if not beside the script"
        program = "stands for $BOARD, or ./board, which runs the program that was packed or proved of these sources"
        default = pathlib.Path(os.environ.get("BOARD") or ROOT / "board")
        about.add_argument("--images", type=pathlib.Path, metavar="FOLDER", help=images)
        about.add_argument("--program", type=pathlib.Path, default=default, help=program)

    def run(self, command: str, *files: pathlib.Path,
            stderr: Optional[int] = subprocess.PIPE) -> subprocess.CompletedProcess:
        words = [self.program, command, *(file.resolve() for file in files)]
        try:
            run = subprocess.run(words, cwd=self.folder, stdin=subprocess.DEVNULL, stdout=subprocess.PIPE,
                                 stderr=stderr, env={**os.environ, "BOARD_QUIET": "1"})
            texts = [(it or b"").decode("latin-1") for it in (run.stdout, run.stderr)]
            return subprocess.CompletedProcess(words, run.returncode, *texts)
        except OSError as fault:
            stop(4, f"the program {self.program} does not run: {fault.strerror}")


def end_with_reader() -> None:
    """Lets a reader that goes end the tool, as in `tools/compare .. | head`."""
    signal.signal(signal.SIGPIPE, signal.SIG_DFL)


def text_of(file: pathlib.Path) -> str:
    """The text of a file, byte by byte, so that a carriage return and what is not ASCII stay what they are."""
    try:
        return file.read_bytes().decode("latin-1")
    except OSError as fault:
        stop(4, f"{file}: {fault.strerror}")
