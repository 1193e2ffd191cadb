"""The interrupt lines and the outputs of the 8254 after each statement. No log tells them, so the board is asked: the
statements that may move a line are replayed without those of the 8259A. Its IRR then shows the lines, and line 0, which
alone is not masked, is acknowledged where it rose."""
from dataclasses import dataclass, field

from pages.asked import MOST_STATEMENTS, Asker
from pages.registers import Walk
from shared.board_texts import WIDTHS, Entry

MASTER, SLAVE = "0 in b 0020", "0 in b 00A0"  # after a reset an even port reads IRR
OUT_0 = ["0 out b 0043 E2", "0 in b 0040"]  # read-back of counter 0's status. Its bit 7 is OUT
OUT_2 = "0 in b 0061"
ACK = "0 ack"
# All lines that can be are level triggered: so IRR is the line itself. Lines 0, 1 and 8 cannot, and a rise of 8 is
# latched until it falls. The master is initialised with automatic end of interrupt, and all but line 0 masked.
PREPARED = [
    *("0 out b 04D0 F8", "0 out b 04D1 DE"),
    *("0 out b 0020 11", "0 out b 0021 08", "0 out b 0021 04", "0 out b 0021 03", "0 out b 0021 FE"),
]
LEVEL_LINES = {MASTER: (3, 4, 5, 6, 7), SLAVE: (8, 9, 10, 11, 12, 14, 15)}
TIMER, KEYBOARD = 0, 1
ROUTES = range(0x60, 0x64)  # PIRQRCA to PIRQRCD of 01.0
OUT_2_LINE = 16  # OUT of counter 2 is drawn below the sixteen lines
SOURCES = {TIMER: "8254 OUT0", 8: "clock", 14: "disk"}


@dataclass
class Line:
    """A line: the level before the first statement, the statements that turn it, those in which it fell and rose."""

    name: str
    source: str
    first: int
    turns: list[int] = field(default_factory=list)
    pulses: list[int] = field(default_factory=list)

    @property
    def level(self) -> int:
        return self.first ^ len(self.turns) & 1

    def note(self, number: int, level: int) -> None:
        if self.level != level:
            self.turns.append(number)


def fresh_lines() -> dict[int, Line]:
    """All lines as they are at power-on."""
    numbers = (TIMER, KEYBOARD, *LEVEL_LINES[MASTER], *LEVEL_LINES[SLAVE])
    lines = {it: Line(f"IRQ{it}", SOURCES.get(it, ""), int(it == TIMER)) for it in sorted(numbers)}
    return {**lines, OUT_2_LINE: Line("OUT2", "8254", 1)}


def is_route(entry: Entry) -> bool:
    """Whether a statement writes a register that routes the PCI interrupts."""
    if not entry.target.startswith("config:01.0.") or entry.words[0] != "out":
        return False
    offset = int(entry.target[12:], 16)
    return any(it in ROUTES for it in range(offset, offset + WIDTHS[entry.words[1]]))


def probes_after(entry: Entry, resets: set[int]) -> list[str]:
    """What is asked after a statement that may move a line, or nothing."""
    if entry.number in resets:
        return [MASTER, SLAVE, *OUT_0, ACK, OUT_2]
    word, kind = entry.words[0], entry.target.partition(":")[0]
    if word == "irq":
        return [MASTER] if int(entry.words[1]) < 8 else [SLAVE]
    if word == "wire" or is_route(entry):
        return [MASTER, SLAVE]
    if kind in ("pit", "sys") and word == "in":
        return []
    # a status that the guest has latched is read first, and so the second is asked
    by_target = {"clock": [SLAVE], "ata": [SLAVE], "pit": [*OUT_0, *OUT_0, ACK, OUT_2], "sys": [OUT_2]}
    return by_target.get(kind, [])


def is_kept(entry: Entry) -> bool:
    """Whether a statement can matter to a line: a write of configuration space, or one for a device but the pair."""
    kind = entry.target.partition(":")[0]
    return kind in ("pit", "sys", "clock", "ata", "wires", "reset", "confadd") or is_route(entry) or is_ide(entry)


def is_ide(entry: Entry) -> bool:
    return entry.target.startswith(("config:01.1.", "config:01.0.4C", "config:01.0.4E")) and entry.words[0] == "out"


def questions(log: list[Entry], resets: set[int]) -> tuple[list[str], list[tuple[int, int]], int]:
    """The statements with what is asked between them; of each question its place and the statement before it; and how
    far they fit into one script."""
    statements = list(PREPARED)
    asked: list[tuple[int, int]] = []
    for entry in log:
        if not is_kept(entry):
            continue
        probes = probes_after(entry, resets)
        settled = PREPARED if entry.number in resets else []
        if len(statements) + 1 + len(settled) + len(probes) > MOST_STATEMENTS:
            return statements, asked, entry.number - 1
        statements += [entry.line(), *settled]
        reads = (k for k, probe in enumerate(probes) if not probe.startswith("0 out"))
        asked += [(len(statements) + k, entry.number) for k in reads]
        statements += probes
    return statements, asked, len(log)


def levels_of(asker: Asker, log: list[Entry], walk: Walk) -> tuple[list[Line], int]:
    """The lines, and the last statement after which they were asked."""
    statements, asked, until = questions(log, {it.number for it in walk.writes if it.is_hard_reset})
    lines = fresh_lines()
    replies = asker.replies(statements) if asked else []
    for place, number in asked:
        note(lines, number, statements[place], replies[place])
    for entry in log:
        if entry.words[:2] == ["irq", str(KEYBOARD)]:
            lines[KEYBOARD].note(entry.number, int(entry.words[2]))
    return list(lines.values()), until


def note(lines: dict[int, Line], number: int, probe: str, reply: list[str]) -> None:
    """Notes what a probe read."""
    byte = int(reply[0], 16)
    if probe == OUT_2:
        lines[OUT_2_LINE].note(number, byte >> 5 & 1)
    elif probe == OUT_0[1]:
        lines[TIMER].note(number, byte >> 7)
    elif probe == ACK:
        timer = lines[TIMER]
        if reply[1] == "vec0" and timer.turns[-1:] != [number]:
            timer.pulses.append(number)
    else:
        for line in LEVEL_LINES[probe]:
            lines[line].note(number, byte >> line % 8 & 1)
