"""The scripts that the benches give to board: rows of statements in any number, and the words of the command that takes
them."""
import os
import subprocess
import sys
import time
from typing import IO, Callable, NamedTuple

ROOT = os.path.dirname(os.path.dirname(os.path.abspath(__file__)))
PROGRAM = os.path.join(ROOT, "release/out/board")
ROM = bytes(off % 256 for off in range(0x1_0000))
DISK = bytes(at // 512 for at in range(64 * 512))
SETUP = "memory 8\nrom r64\ndisk disk64\ncard 2 vga m20 i4\n"

# Statements that come first, by processor 0 in a phase of its own.
CARD_OPENED = ("out d 0CF8 80001010", "out d 0CFC E0000000", "out d 0CF8 80001004", "out b 0CFC 03")
PAM_CHOSEN = ("out d 0CF8 80000058",)
DISK_OPENED = ("out d 0CF8 80000904", "out b 0CFC 01", "out d 0CF8 80000940", "out w 0CFC 8000")
INTERRUPTS_OPENED = tuple(
    f"out b {word}" for word in ("0020 11", "0021 20", "0021 04", "0021 01", "00A0 11", "00A1 28", "00A1 02", "00A1 01")
)
TIMER_STARTED = ("out b 0043 34", "out b 0040 34", "out b 0040 12")


def reads(i: int) -> str:
    """Bytes of DRAM below A0000."""
    return f"r b {i * 64 % 0xA0000:08X}"


def writes(i: int) -> str:
    """Bytes of DRAM from 1 MiB on."""
    return f"w b {0x100000 + i % 0x100000:08X} {i % 256:02X}"


def windows(i: int) -> str:
    """PAM2 is written, and the address map changes each time."""
    return f"out b 0CFF {(i % 4) * 16 + i % 3:02X}"


def windows_and_looks(i: int) -> str:
    """PAM2 is written, and then its windows are looked at."""
    return windows(i // 2) if i % 2 == 0 else f"look {'rw'[i // 2 % 2]} {0xC8000 + i // 4 % 2 * 0x4000:08X}"


def ports(i: int) -> str:
    """Configuration registers of the host bridge are read."""
    return f"in b {0xCFC + i % 4:04X}"


def card(i: int) -> str:
    """Doublewords of a card's memory, written and read."""
    addr = 0xE0000000 + i // 2 * 4 % 0x100000
    return f"w d {addr:08X} {i:08X}" if i % 2 == 0 else f"r d {addr:08X}"


def rom(i: int) -> str:
    """Fetches from the ROM below 4 GiB."""
    return f"f d {0xFFFF0000 + i * 4 % 0x10000:08X}"


def aborts(i: int) -> str:
    """Reads that nobody answers."""
    return f"r d {0x80000000 + i * 4096 % 0x10000000:08X}"


def looks(i: int) -> str:
    """Looks all over the address map, with the card's memory in it."""
    return f"look {'frw'[i % 3]} {i * 0x9E3779B1 % 0x100000000:08X}"


# Of each function its bytes that the address map rests on: function, device, offset.
MAP_BYTES = (
    *((0x00, off) for off in (*range(0x59, 0x69), 0x72)),
    (0x08, 0x4E),
    *((0x10, off) for off in (0x04, *range(0x10, 0x28))),
)
BLOCK = 16  # statements for one byte: the address is set, and then the byte is written so often


def byte_writes(device: int, off: int, i: int) -> str:
    """Statement i of a block that writes a byte of a function."""
    if i % BLOCK == 0:
        return f"out d 0CF8 {0x80000000 | device << 8 | off & 0xFC:08X}"
    return f"out b {0x0CFC + off % 4:04X} {i * 0x35 % 0x100:02X}"


def map_bytes(i: int) -> str:
    """Every byte that the address map rests on, in blocks."""
    device, off = MAP_BYTES[i // BLOCK % len(MAP_BYTES)]
    return byte_writes(device, off, i)


def other_bytes(i: int) -> str:
    """The card's interrupt line, in the same blocks: no byte of the map."""
    return byte_writes(0x10, 0x3C, i)


def interrupts(i: int) -> str:
    """A line of the slave rises, is acknowledged, ends and falls, and its mask is read."""
    cycle = ("irq 10 1", "ack", "out b 00A0 20", "out b 0020 20", "irq 10 0", "in b 00A1")
    return cycle[i % len(cycle)]


def timer(i: int) -> str:
    """Pulses of the timer, whose count is latched and read, and port 61h."""
    cycle = (f"pulse {1 + i % 1999}", "out b 0043 00", "in b 0040", "in b 0040", "in b 0061")
    return cycle[i % len(cycle)]


def clock(i: int) -> str:
    """Moments for the clock, and reads of it."""
    second = f"{i // 3600 % 24:02}:{i // 60 % 60:02}:{i % 60:02}"
    cycle = (f"moment 2024-02-29T{second}", f"out b 0070 {i // 3 % 14:02X}", "in b 0071")
    return cycle[i % len(cycle)]


SECTOR_ASKED = ("01F6 E0", "01F2 01", "01F3 {:02X}", "01F4 00", "01F5 00", "01F7 20")


def sectors(i: int) -> str:
    """Sectors of the disk are read, a doubleword at a time."""
    number, at = divmod(i, len(SECTOR_ASKED) + 128)
    if at < len(SECTOR_ASKED):
        return "out b " + SECTOR_ASKED[at].format(number % 64)
    return "in d 01F0"


def wide(i: int) -> str:
    """Accesses of two to eight bytes at any address."""
    addr = 0x100000 + i * 13 % 0x100000
    return f"w q {addr:08X} {i:016X}" if i % 2 == 0 else f"r {'wdq'[i // 2 % 3]} {addr:08X}"


# Where areas meet after a reset: DRAM, nobody, the ROM, DRAM again, nobody.
BORDERS = (0xA0000, 0xF0000, 0x100000, 0x800000)


def across(i: int) -> str:
    """Accesses of eight bytes that begin in one area and end in the next."""
    addr = BORDERS[i // 2 % 4] - 1 - i // 8 % 7
    return f"w q {addr:08X} {i:016X}" if i % 2 == 0 else f"r q {addr:08X}"


def accesses(i: int) -> str:
    """Reads and writes of DRAM in turn."""
    return (reads if i % 2 == 0 else writes)(i // 2)


def looks_and_reads(i: int) -> str:
    """Looks and reads of DRAM in turn."""
    return (looks if i % 2 == 0 else reads)(i // 2)


MIXED = (reads, writes, windows, ports, card, rom, aborts, looks, interrupts, timer, clock, sectors)


def mix(i: int) -> str:
    """One after another of these."""
    return MIXED[i % len(MIXED)](i // len(MIXED))


MIX_OPENED = CARD_OPENED + DISK_OPENED + INTERRUPTS_OPENED + TIMER_STARTED + PAM_CHOSEN


class Row(NamedTuple):
    """A command, the statement at each place, what comes before them, and how many processors take turns.

    Beside these there are idle ones, and the statements stand in so many phases. A place is one of each processor's own
    statements, or where `is_round` one of all.
    """

    command: str
    statement: Callable[[int], str]
    opening: tuple[str, ...] = ()
    processors: int = 1
    version: int = 1
    idle: int = 0
    phases: int = 1
    is_round: bool = False


ROWS = {
    "reads": Row("replay", reads),
    "writes": Row("replay", writes),
    "windows": Row("replay", windows, PAM_CHOSEN),
    "pam-looks": Row("replay", windows_and_looks, PAM_CHOSEN),
    "map-bytes": Row("replay", map_bytes, CARD_OPENED),
    "other-bytes": Row("replay", other_bytes, CARD_OPENED),
    "ports": Row("replay", ports, PAM_CHOSEN),
    "card": Row("replay", card, CARD_OPENED),
    "rom": Row("replay", rom),
    "aborts": Row("replay", aborts),
    "looks": Row("replay", looks, CARD_OPENED),
    "interrupts": Row("replay", interrupts, INTERRUPTS_OPENED),
    "timer": Row("replay", timer, TIMER_STARTED),
    "clock": Row("replay", clock),
    "sectors": Row("replay", sectors, DISK_OPENED),
    "wide": Row("replay", wide, version=2),
    "across": Row("replay", across, version=2),
    "mix": Row("replay", mix, MIX_OPENED),
    "map": Row("map", mix, MIX_OPENED),
    "check": Row("check", mix, MIX_OPENED),
    "in-turn": Row("replay", accesses),
    "run-1": Row("run", accesses),
    "run-2": Row("run", accesses, processors=2),
    "run-4": Row("run", accesses, processors=4),
    "run-8": Row("run", accesses, processors=8),
    "run-windows": Row("run", windows, PAM_CHOSEN),
    "looking": Row("replay", looks_and_reads, CARD_OPENED),
    "looking-1": Row("run", looks_and_reads, CARD_OPENED),
    "looking-2": Row("run", looks_and_reads, CARD_OPENED, processors=2),
    "looking-4": Row("run", looks_and_reads, CARD_OPENED, processors=4),
    "looking-8": Row("run", looks_and_reads, CARD_OPENED, processors=8),
    "alone": Row("run", reads, idle=7, phases=999),
    "pairs": Row("run", reads, processors=2, idle=6, phases=999),
    "make": Row("make", str),  # of no statements
    "save": Row("save", mix, MIX_OPENED),
    "resume": Row("resume", mix, MIX_OPENED),
    "serial": Row("serial", mix, MIX_OPENED),
    "blame": Row("blame", windows, PAM_CHOSEN),
}

# The command that makes the file which another one reads.
MADE_BY = {"check": "replay", "resume": "save"}

# `make` has so many statements before its rounds, so many in each, and at most so many rounds.
MAKE_OPENING, MAKE_ROUND, MAKE_ROUNDS = 47, 11, 20_000


def write_script(path: str, row: Row, size: int) -> None:
    """A script of so many statements, the opening's among them. Without any it has the setup alone."""
    with open(path, "w", encoding="ascii") as file:
        file.write(f"board {row.version}\ncpus {row.processors + row.idle}\n{SETUP}phase\n")
        if size == 0:
            return
        file.writelines(f"0 {text}\n" for text in row.opening)
        count = size - len(row.opening)
        for i in range(count):
            if i % -(-count // row.phases) == 0:
                file.write("phase\n")
            place = i if row.is_round else i // row.processors
            file.write(f"{i % row.processors} {row.statement(place)}\n")


def once(words: list[str], folder: str, out: IO[bytes]) -> tuple[float, float, int]:
    """The time of one run in seconds, its processor time, and its peak memory in bytes.

    The peak is at least this script's own, some 12 MB.
    """
    begin = time.perf_counter()
    child = subprocess.Popen(words, stdout=out, cwd=folder)
    _, status, usage = os.wait4(child.pid, 0)
    seconds = time.perf_counter() - begin
    if status != 0:
        sys.exit(f"{' '.join(words)} ended with status {os.waitstatus_to_exitcode(status)}")
    return seconds, usage.ru_utime + usage.ru_stime, usage.ru_maxrss * 1024


def words_of(folder: str, name: str, size: int, program: str) -> tuple[list[str], int]:
    """The words of a row after the program's name, and how many statements they stand for. Their files are written."""
    row = ROWS[name]
    if row.command == "make":
        rounds = min((size - MAKE_OPENING) // MAKE_ROUND, MAKE_ROUNDS)
        return ["make", str(rounds)], MAKE_OPENING + MAKE_ROUND * rounds
    script, made, setup = f"{name}-{size}", f"{name}-{size}.made", f"{name}-setup"
    write_script(os.path.join(folder, script), row, size)
    words = {"check": ["check", script, made], "resume": ["resume", made, setup],
             "serial": ["serial", script, os.devnull]}
    if row.command == "resume":  # the image of all the statements goes on with a script of none
        write_script(os.path.join(folder, setup), row, 0)
    if row.command in MADE_BY:
        with open(os.path.join(folder, made), "wb") as out:
            once([program, MADE_BY[row.command], script], folder, out)
    return words.get(row.command, [row.command, script]), size


def want_programs(tool: str, programs: list[str]) -> None:
    """Ends the tool where one of the programs is not there."""
    for path in programs:
        if not os.access(path, os.X_OK) or os.path.isdir(path):
            how = "; ./board --version puts it there" if path == PROGRAM else ""
            sys.exit(f"{tool}: there is no program {path}{how}")


def write_images(folder: str) -> None:
    """Writes the ROM and the disk that the scripts name."""
    for name, image in (("r64", ROM), ("disk64", DISK)):
        with open(os.path.join(folder, name), "wb") as file:
            file.write(image)


