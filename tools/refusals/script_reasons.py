"""Why a script is refused: the ten reasons, and which half or which limit of each holds."""
import re
from dataclasses import dataclass, field
from typing import Optional

from refusals.script_lines import CHARACTERS, cause, right_lines
from shared.grammar import WIDTHS, out_of_range

MOST_STATEMENTS, MOST_PHASES, MOST_PULSES, MOST_BASES = 250_000, 1_000, 100_000_000, 64 << 20
MOST_BYTES = 120


@dataclass
class Before:
    """What the lines before a refused one have said. All of them are right."""

    version: int = 1
    setup: dict[str, int] = field(default_factory=dict)  # each word, and of a card `card D`, with its line
    cpus: int = 0
    bases: int = 0  # bytes of memory behind bases of cards
    phases: int = 0
    first_phase: int = 0  # its line
    statements: int = 0
    pulses: int = 0

    @staticmethod
    def of(lines: list[str]) -> "Before":
        before = Before(2 if lines[:1] == ["board 2"] else 1)
        for number, line in enumerate(lines[1:], 2):
            if line and not line.startswith("#"):
                before.note(number, line.split(" "))
        return before

    def note(self, number: int, words: list[str]) -> None:
        if words[0] == "phase":
            self.phases += 1
            self.first_phase = self.first_phase or number
        elif words[0].isdecimal():
            self.statements += 1
            self.pulses += int(words[2]) if words[1] == "pulse" else 0
        else:
            self.setup[" ".join(words[: 2 if words[0] == "card" else 1])] = number
            self.cpus = int(words[1]) if words[0] == "cpus" else self.cpus
            self.bases += bases_of(words)

    @property
    def cards(self) -> list[str]:
        return [key.split(" ")[1] for key in self.setup if key.startswith("card ")]

    @property
    def missing(self) -> list[str]:
        return [word for word in ("cpus", "memory", "rom") if word not in self.setup]


def bases_of(words: list[str]) -> int:
    return sum(1 << int(it[1:]) for it in words[3:] if it[0] == "m") if words[0] == "card" else 0


# ---- reason 1

NO_SCRIPTS = [
    ("^access log [12]", "it is a log, and no script: `board check SCRIPT LOG` reads it"),
    ("^BOARDIMG", "it is an image that `board save` wrote, and no script: `board resume IMAGE SCRIPT` reads it"),
    ("^[0-9A-F]{8} [0-9A-F]{8} ", "it is a map that `board map` wrote, and no script"),
    ("^# statement, value", "it is a file of values, and no script: `tools/compare SCRIPT VALUES` reads it"),
    ("memory_region_ops_|kvm_pio|event at t=",
     "it is the trace of a monitor, and no script: tools/from-trace makes one of it"),
    ("^\x1f\x8b", "it is packed by gzip: gunzip it first"),
    ("^\x7fELF|^PK", "it is a program or an archive, and no script"),
    ("^#!", "a line stands before `board 1`: no other line is the first"),
]


def first_line(line: str, size: int) -> str:
    """What is wrong with a first line."""
    if size == 0:
        return "the file is empty: it has 0 bytes"
    for pattern, text in NO_SCRIPTS:
        if re.search(pattern, line):
            return text
    if line == "":
        return "an empty line stands before `board 1`"
    if line.startswith("#"):
        return "a comment stands before `board 1`: it comes after the first line"
    wrong = next((said for find in CHARACTERS if (said := find(line))), None)
    if wrong:
        return wrong
    words = line.split(" ")
    if re.fullmatch("board ?[0-9.]*", line.lower()) and line != line.lower():
        return "words are written in lower-case letters"
    if words[0] == "board" or re.fullmatch("board[0-9]+", line):
        return "`board` stands in the first line alone, as `board 1` or `board 2`: there is no other version" \
            if re.fullmatch("board [0-9]+", line) else "the first line is, as `board 1` or `board 2`, two words alone"
    if cause(line, 2) is None:
        return "`board 1` is missing: the first line is a line of a script that comes after it"
    return "`board 1` is missing: " + (cause(line, 2) or "")


# ---- reasons 2 to 10


def too_long(line: str) -> str:
    size = len(line)
    what = "a comment counts too: break it" if line.startswith("#") else "no form needs so many"
    if line.rstrip() != line:
        what = f"{size - len(line.rstrip())} of them are spaces at its end"
    return f"it has {size} bytes, {size - MOST_BYTES} more than a line may have; {what}"


def order(line: str, before: Before) -> str:
    word = line.split(" ")[0]
    if before.phases:
        first = before.first_phase
        return f"`{word}` is a setup line, and the first `phase` stands in line {first}: move it above that"
    return "it is a statement, and no `phase` stands before it"


def came_before(line: str, before: Before) -> str:
    words = line.split(" ")
    key = " ".join(words[: 2 if words[0] == "card" else 1])
    return f"`{key}` came before, in line {before.setup[key]}"


def unaligned(line: str, before: Before) -> str:
    words = line.split(" ")
    width = WIDTHS[words[2]] if words[1] != "look" else 1
    place = int(words[3], 16)
    if words[1] in ("in", "out"):
        cut = ", ".join(f"{place + k:04X}" for k in range(width))
        wrong = f"the port {words[3]} is no multiple of {width}, in both versions"
        return f"{wrong}: cut the access, as into bytes at {cut}"
    if place + width > 1 << 32:
        return f"{width} bytes at {words[3]} pass FFFFFFFF, the last address"
    return f"the address {words[3]} is no multiple of {width}: `board 2` lets it stand there"


def nobody_there(line: str, before: Before) -> str:
    """Which half of reason 9 holds, or both."""
    words, found = line.split(" "), []
    if int(words[0]) >= before.cpus:
        last = before.cpus - 1
        found.append(f"processor {words[0]} is not there: `cpus {before.cpus}` in line {before.setup['cpus']} has "
                     + ("processor 0 alone" if last == 0 else f"0 to {last}"))
    if words[1] == "wire" and words[2] not in before.cards:
        fitted = ", ".join(before.cards) or "none"
        device = words[2]
        found.append(f"`wire {device}` names device {device}, and no `card {device}` is fitted: the cards are {fitted}")
    return "; and ".join(found)


def too_many(line: str, before: Before) -> str:
    """Which limit of reason 10 is passed."""
    words = line.split(" ")
    if words[0] == "phase":
        return f"it is phase {before.phases + 1:,}, and a script has at most {MOST_PHASES:,}"
    if words[0] == "card":
        total = before.bases + bases_of(words)
        size = f"{total >> 20} MiB and {total % (1 << 20)} bytes"
        return f"with it {size} lie behind memory bases, and at most 64 MiB may"
    if before.statements == MOST_STATEMENTS:
        return f"it is statement {MOST_STATEMENTS + 1:,}, and a script has at most {MOST_STATEMENTS:,}"
    pulses = before.pulses + int(words[2])
    return f"with it there are {pulses:,} pulses, and a script has at most {MOST_PULSES:,}"


OF_REASON = {
    2: lambda line, before: too_long(line),
    3: lambda line, before: cause(line, before.version),
    4: order,
    5: came_before,
    6: lambda line, before: f"missing: {', '.join(before.missing)}",
    7: lambda line, before: out_of_range(line.split(" ")),
    8: unaligned,
    9: nobody_there,
    10: too_many,
}


def cause_of(reason: int, line: str, lines_before: list[str], size: int) -> Optional[str]:
    """The cause of a refusal. `size` is that of the file."""
    if reason == 1:
        return first_line(line, size)
    return OF_REASON[reason](line, Before.of(lines_before))


def right_of(reason: int, line: str, version: int) -> list[str]:
    """What right lines look like in the place of a refused one, where its form or its numbers are wrong."""
    if reason == 1:
        return ["board 1"]
    return right_lines(line, version) if reason in (3, 7, 8) else []
