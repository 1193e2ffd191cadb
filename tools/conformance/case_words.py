"""The words of a case: what a line of a file in cases/ stands for, as statements. A line is one step.

A line is a statement, or begins with one of these words; `N * LINE` is N steps of the line, and `LINE; LINE` both in
one step.

    get 00.0.59 [b|w|d]        reads a register of configuration space: device, function and offset
    put 00.0.59 33             writes one, of as many bytes as there are digits
    size 03.0.10               writes ones to a base of four bytes and reads it
    inb 0021 [N]               reads a port N times; inw, ind
    outb 0021 11 22 ..         writes bytes to a port; outw, outd
    rb 000A0000 .. [smm]       reads memory at each address; fb fetches
    wb 000A0000 5A [smm]       writes a byte of memory
    pic ICW4 [ICW1]            ICW1 to ICW4 of both 8259A, vectors from 20h and A0h on, and no mask
    irr CHIP, isr CHIP         OCW3 and the read of that register; CHIP is master or slave
    poll CHIP                  the poll command and its read
    timer N MODE RW LOW [HIGH] [bcd]   control word and count of a counter, and a pulse
    count N [1|2]              the counter latch command, and 1 or 2 reads
    status N                   the read-back command for a status, and its read
    cmos 0B [VALUE]            reads or writes a byte of the clock
    date FORM SS MM HH WD DD MO YY     SET, the time as the registers have it, and register B as FORM
    time                       reads seconds, minutes, hours, weekday, day, month and year
    ide                        enables the channel of the disk
    ata COMMAND LBA [COUNT] [FEATURE] [DEVICE]   the task file, and the command
    task                       reads 1F1h to 1F7h
    words N                    reads N words of the disk, a step each
    reset                      a hard reset by port CF9h
"""
import re
from typing import Callable

from .scripts import WIDTHS, why_none

CONFADD, CONFDATA, ENABLE = "0CF8", 0xCFC, 0x8000_0000
PORTS = {"master": 0x20, "slave": 0xA0}
CLOCK_FIELDS = (0, 2, 4, 6, 7, 8, 9)
SET, DIVIDER = 0x80, 0x26
WIDTH_OF_DIGITS = {2: "b", 4: "w", 8: "d"}
READ_IRR, READ_ISR, POLL = 0x0A, 0x0B, 0x0C
STATUS_OF, LBA_MODE = 0xE0, 0xE0
Statements = list[str]


REPEATED = re.compile(r"(\d+) \* (.+)")


class CaseFault(Exception):
    """A line of a file of cases has no meaning."""


def outb(port: int, *values: int) -> Statements:
    return [f"out b {port:04X} {value:02X}" for value in values]


def inb(port: int, count: int = 1) -> Statements:
    return [f"in b {port:04X}"] * count


def address(register: str) -> tuple[str, int]:
    """The statement that chooses a register, and the port where its first byte is then."""
    found = re.fullmatch(r"([0-9A-F]{2})\.([0-7])\.([0-9A-F]{2})", register)
    if not found:
        raise CaseFault(f"{register}: a register is written as 00.0.59")
    device, function, offset = (int(it, 16) for it in found.groups())
    confadd = ENABLE | device << 11 | function << 8 | offset & 0xFC
    return f"out d {CONFADD} {confadd:08X}", CONFDATA + offset % 4


def get(register: str, width: str = "b") -> Statements:
    chosen, port = address(register)
    return [chosen, f"in {width} {port:04X}"]


def put(register: str, value: str) -> Statements:
    chosen, port = address(register)
    return [chosen, f"out {WIDTH_OF_DIGITS[len(value)]} {port:04X} {value}"]


def size(register: str) -> Statements:
    return put(register, "FFFFFFFF") + get(register, "d")[1:]


def ports_in(width: str) -> Callable[..., Statements]:
    return lambda port, count="1": [f"in {width} {port}"] * int(count)


def ports_out(width: str) -> Callable[..., Statements]:
    return lambda port, *values: [f"out {width} {port} {value}" for value in values]


def memory_read(word: str) -> Callable[..., Statements]:
    def read(*places: str) -> Statements:
        mode = " smm" if places[-1] == "smm" else ""
        return [f"{word} b {place}{mode}" for place in places if place != "smm"]

    return read


def write_byte(place: str, value: str, *mode: str) -> Statements:
    return [" ".join(["w b", place, value, *mode])]


def pic(icw4: str = "01", icw1: str = "11") -> Statements:
    words = []
    for port, base, cascade in ((0x20, 0x20, 0x04), (0xA0, 0xA0, 0x02)):
        words += outb(port, int(icw1, 16)) + outb(
            port + 1, base, cascade, int(icw4, 16) & (0x1F if port == 0x20 else 1), 0
        )
    return words


def chip_read(ocw3: int) -> Callable[..., Statements]:
    return lambda chip="master": outb(PORTS[chip], ocw3) + inb(PORTS[chip])


def timer(number: str, mode: str, access: str, *rest: str) -> Statements:
    counts, is_bcd = [int(it, 16) for it in rest if it != "bcd"], "bcd" in rest
    control = int(number) << 6 | int(access) << 4 | int(mode) << 1 | is_bcd
    return outb(0x43, control) + outb(0x40 + int(number), *counts) + ["pulse 1"]


def count(number: str, reads: str = "2") -> Statements:
    return outb(0x43, int(number) << 6) + inb(0x40 + int(number), int(reads))


def status(number: str) -> Statements:
    return outb(0x43, STATUS_OF | 2 << int(number)) + inb(0x40 + int(number))


def cmos(register: str, value: str = "") -> Statements:
    return outb(0x70, int(register, 16)) + ([f"out b 0071 {value}"] if value else inb(0x71))


def date(form: str, *fields: str) -> Statements:
    if len(fields) != len(CLOCK_FIELDS):
        raise CaseFault(f"a date has {len(CLOCK_FIELDS)} fields")
    written = [statement for at, value in zip(CLOCK_FIELDS, fields) for statement in cmos(f"{at:02X}", value)]
    held = cmos("0A", f"{DIVIDER:02X}") + cmos("0B", f"{SET | int(form, 16):02X}")
    return held + written + cmos("0B", form)


def time() -> Statements:
    return [statement for at in CLOCK_FIELDS for statement in cmos(f"{at:02X}")]


def ide() -> Statements:
    return put("01.1.04", "0005") + put("01.1.40", "8000")


def ata(command: str, lba: str, sectors: str = "01", feature: str = "00", device: str = "") -> Statements:
    at = int(lba)
    last = int(device, 16) if device else LBA_MODE | at >> 24
    values = (int(feature, 16), int(sectors, 16), at & 0xFF, at >> 8 & 0xFF, at >> 16 & 0xFF, last, int(command, 16))
    return [statement for port, value in enumerate(values, 0x1F1) for statement in outb(port, value)]


def task() -> Statements:
    return [f"in b {port:04X}" for port in range(0x1F1, 0x1F8)]


def words(number: str) -> Statements:
    return ["in w 01F0"] * int(number)


def reset() -> Statements:
    return outb(0xCF9, 0x02, 0x06)


WORDS: dict[str, Callable[..., Statements]] = {
    "get": get,
    "put": put,
    "size": size,
    "pic": pic,
    "timer": timer,
    "count": count,
    "status": status,
    "cmos": cmos,
    "date": date,
    "time": time,
    "ide": ide,
    "ata": ata,
    "task": task,
    "words": words,
    "reset": reset,
    "wb": write_byte,
    "irr": chip_read(READ_IRR),
    "isr": chip_read(READ_ISR),
    "poll": chip_read(POLL),
    "rb": memory_read("r"),
    "fb": memory_read("f"),
    **{f"in{width}": ports_in(width) for width in WIDTHS if width != "q"},
    **{f"out{width}": ports_out(width) for width in WIDTHS if width != "q"},
}


def steps_of(line: str) -> list[Statements]:
    """The steps that a line of a case stands for."""
    repeated = REPEATED.fullmatch(line)
    if repeated:
        return steps_of(repeated[2]) * int(repeated[1])
    found = statements_of(line)
    return [[it] for it in found] if line.startswith("words ") else [found]


def statements_of(line: str) -> Statements:
    """What a line of a case stands for."""
    if ";" in line:
        return [it for part in line.split(";") for it in statements_of(part.strip())]
    word, *fields = line.split()
    try:
        found = WORDS[word](*fields) if word in WORDS else [line]
    except (TypeError, KeyError, ValueError) as fault:
        raise CaseFault(f"{line}: {fault}") from None
    for statement in found:
        why = why_none(statement)
        if why:
            raise CaseFault(f"{line}: `{statement}` is no statement: {why}")
    return found
