"""Faults that are planted in the board for the tests of tools/conform and tools/hunt: a table of what each changes in
the statements that are done, or in what they answer. `tools/adapters/board --fault NAME` has one of them."""
import fnmatch
import re
from dataclasses import dataclass, replace
from typing import Callable, Optional

from causes.timer import NULL_COUNT
from conformance.reference import Machine
from conformance.scripts import WIDTHS, Setup
from shared.board_texts import Entry
from traces.difference_state import State

MIB = 1 << 20
LETTERS = {size: letter for letter, size in WIDTHS.items()}
CONFADD, CONFDATA = 0xCF8, range(0xCFC, 0xD00)
HARD_RESET, SOFT_RESET, ICW1 = 0x06, 0x04, 0x10
COUNTERS = range(0x40, 0x43)


@dataclass(frozen=True)
class Access:
    """A statement; of an access its parts too."""

    text: str
    word: str
    size: int = 0
    place: int = 0
    value: int = 0
    register: str = ""  # of configuration space, as 00.0.59, where one is accessed
    mode: str = ""

    @property
    def statement(self) -> str:
        if self.word not in ("r", "f", "w", "in", "out"):
            return self.text
        digits = 4 if self.word in ("in", "out") else 8
        value = f" {self.value:0{2 * self.size}X}" if self.word in ("w", "out") else ""
        return f"{self.word} {LETTERS[self.size]} {self.place:0{digits}X}{value}{self.mode}"


Change = Callable[[Access, State], Optional[Access]]  # None: nothing is done
Answer = Callable[[Access, Entry, State], str]
Of = Callable[[int], int]  # what becomes of a byte


@dataclass(frozen=True)
class Fault:
    name: str
    what: str  # is wrong
    cases: str  # of tools/conform, by a pattern of their names
    area: str  # of tools/hunt
    change: Change = lambda access, state: access
    answer: Answer = lambda access, entry, state: entry.value
    is_hidden: bool = False  # a register that is written wrongly reads as it was meant


def access_of(statement: str, confadd: int) -> Access:
    words = statement.split(" ")
    if words[0] not in ("r", "f", "w", "in", "out"):
        return Access(statement, words[0])
    place, mode = int(words[2], 16), " smm" if words[-1] == "smm" else ""
    value = int(words[3], 16) if words[0] in ("w", "out") else 0
    register = ""
    if words[0] in ("in", "out") and place in CONFDATA and confadd >> 31:
        offset = confadd & 0xFC | place % 4
        register = f"{confadd >> 11 & 0x1F:02X}.{confadd >> 8 & 7}.{offset:02X}"
    return Access(statement, words[0], WIDTHS[words[1]], place, value, register, mode)


class Spoiled:
    """The board with a fault."""

    def __init__(self, setup: Setup, fault: Fault) -> None:
        self.machine, self.fault = Machine(setup), fault
        self.state = State(setup.memory * MIB, setup.rom.read_bytes())
        self.confadd = 0
        self.meant: dict[str, int] = {}  # bytes, by register or port, that were written otherwise than they were meant

    def close(self) -> None:
        self.machine.close()

    def do(self, statement: str) -> str:
        access = access_of(statement, self.confadd)
        if access.word == "out" and access.place == CONFADD and access.size == 4:
            self.confadd = access.value
        changed = self.fault.change(access, self.state)
        if changed is None:
            return "-"
        if self.fault.is_hidden and access.word == "out":
            self.meant.update(bytes_of(access))
        entry = self.machine.do(changed.statement)
        answer = self.fault.answer(access, entry, self.state)
        self.state.note(entry)
        if access.word == "in" and self.fault.is_hidden:
            answer = self.as_meant(access, answer)
        if self.state.hard_reset == entry.number:
            self.confadd = 0
            self.meant.clear()
        return answer

    def as_meant(self, access: Access, answer: str) -> str:
        """An answer with the bytes that were meant, of what the fault changes alone."""
        shown = bytearray(bytes.fromhex(answer)[::-1])
        for k, (name, _) in enumerate(bytes_of(replace(access, word="out")).items()):
            probe = replace(
                access,
                word="out",
                size=1,
                value=self.meant.get(name, 0),
                place=access.place + k,
                register=name if "." in name else "",
            )
            changed = self.fault.change(probe, self.state)
            if name in self.meant and changed is not None and changed.value != probe.value:
                hidden = changed.value ^ probe.value
                shown[k] = shown[k] & ~hidden | self.meant[name] & hidden
        return bytes(shown[::-1]).hex().upper()


def bytes_of(access: Access) -> dict[str, int]:
    """The bytes of an access to ports, each by its register or port."""
    names = [
        f"{access.register[:5]}{int(access.register[5:], 16) + k:02X}" if access.register else f"{access.place + k:04X}"
        for k in range(access.size)
    ]
    return {name: access.value >> 8 * k & 0xFF for k, name in enumerate(names)}


# ---- kinds of faults


def written(names: str, of: Of) -> Change:
    """A byte that is written to a register or a port of these names is another."""

    def change(access: Access, _: State) -> Access:
        if access.word != "out":
            return access
        value = sum(
            (of(byte) & 0xFF if fnmatch.fnmatchcase(name, names) else byte) << 8 * k
            for k, (name, byte) in enumerate(bytes_of(access).items())
        )
        return replace(access, value=value)

    return change


def shown(names: str, of: Of, when: Callable[[Entry, State], bool] = lambda entry, state: True) -> Answer:
    """A byte that is read from a register or a port of these names is another."""

    def answer(access: Access, entry: Entry, state: State) -> str:
        if access.word != "in" or not when(entry, state):
            return entry.value
        ours = bytes.fromhex(entry.value)[::-1]
        theirs = [
            of(byte) & 0xFF if fnmatch.fnmatchcase(name, names) else byte for name, byte in zip(bytes_of(access), ours)
        ]
        return bytes(theirs[::-1]).hex().upper()

    return answer


def not_written(names: str) -> Change:
    """A write to a port of these names is lost."""
    return (
        lambda access, _: None if access.word == "out" and fnmatch.fnmatchcase(f"{access.place:04X}", names) else access
    )


def moved(first: int, last: int, by: int) -> Change:
    """An access to memory from here to there goes elsewhere."""

    def change(access: Access, _: State) -> Access:
        is_in = access.word in ("r", "f", "w") and first <= access.place <= last
        return replace(access, place=access.place + by) if is_in else access

    return change


def without_smm(access: Access, _: State) -> Access:
    return replace(access, mode="")


def icw4(of: Of) -> Change:
    """The ICW4 of the master is another."""

    def change(access: Access, state: State) -> Access:
        is_icw4 = access.word == "out" and access.place == 0x21 and state.interrupts.chips[0].words == ["ICW4"]
        return replace(access, value=of(access.value)) if is_icw4 else access

    return change


def command(of: Of) -> Change:
    """An OCW2 or OCW3 of either 8259A is another."""

    def change(access: Access, _: State) -> Access:
        is_ocw = access.word == "out" and access.place in (0x20, 0xA0) and not access.value & ICW1
        return replace(access, value=of(access.value)) if is_ocw else access

    return change


def control_word(of: Of) -> Change:
    return written("0043", lambda value: value if value >= 0xC0 or not value & 0x30 else of(value))


def vector(target: str, of: Of) -> Answer:
    """The vector of an acknowledge that this chip gives is another."""

    def answer(_: Access, entry: Entry, __: State) -> str:
        return f"{of(int(entry.value, 16)) & 0xFF:02X}" if re.fullmatch(target, entry.target) else entry.value

    return answer


def clock_byte(register: int, of: Of) -> Change:
    """A byte that is written to a register of the clock is another."""

    def change(access: Access, state: State) -> Access:
        is_it = access.word == "out" and access.place == 0x71 and state.clock.index == register
        return replace(access, value=of(access.value)) if is_it else access

    return change


def clock_shown(register: int, of: Of) -> Answer:
    return shown("0071", of, lambda entry, state: state.clock.index == register)


def other_port(port: int, other: int) -> Change:
    """A read of a port reads another."""
    return lambda access, _: replace(access, place=other) if access.word == "in" and access.place == port else access


def without_falls(access: Access, _: State) -> Optional[Access]:
    return None if re.fullmatch(r"irq \d+ 0", access.text) else access


def zero_where_nobody_is(access: Access, entry: Entry, _: State) -> str:
    return "0" * len(entry.value) if access.word in ("r", "f") and entry.target == "abort" else entry.value


def no_null_count(access: Access, entry: Entry, state: State) -> str:
    if (
        access.word != "in"
        or access.place not in COUNTERS
        or not state.timer.counters[access.place - 0x40].gives_status
    ):
        return entry.value
    return f"{int(entry.value, 16) & ~NULL_COUNT:02X}" if entry.target == "pit" else entry.value


def swapped_words(access: Access, entry: Entry, _: State) -> str:
    return (
        entry.value[2:] + entry.value[:2]
        if access.word == "in" and access.place == 0x1F0 and access.size == 2
        else entry.value
    )


def without(bits: int) -> Of:
    return lambda value: value & ~bits


def with_bits(bits: int) -> Of:
    return lambda value: value | bits


def instead(of: dict[int, int]) -> Of:
    return lambda value: of.get(value, value)


FAULTS = [
    # the 82441FX
    Fault(
        "pam-write-enable",
        "the upper window of each PAM register keeps no write enable",
        "pam-*",
        "pam",
        written("00.0.5[A-F]", without(0x20)),
        is_hidden=True,
    ),
    Fault("pam-border", "the window at C4000 begins 4 KiB late", "pam-*", "pam", moved(0xC4000, 0xC4FFF, -0x1000)),
    Fault(
        "pam-read-enable",
        "PAM0 opens F0000 to FFFFF for writes alone",
        "pam-*",
        "pam",
        written("00.0.59", without(0x10)),
        is_hidden=True,
    ),
    Fault("smram-lock", "DLCK is no lock", "smram-*", "smram", written("00.0.72", without(0x10)), is_hidden=True),
    Fault(
        "smram-code",
        "DCLS does not keep data out",
        "smram-*",
        "smram",
        written("00.0.72", without(0x20)),
        is_hidden=True,
    ),
    Fault("smram-smm", "an access in SMM is as any other", "smram-*", "smram", without_smm),
    Fault("smram-reset", "SMRAM reads 00 after a hard reset", "*", "smram", answer=shown("00.0.72", without(0x02))),
    Fault(
        "drb-first",
        "the row boundaries are 00 at first",
        "register-drb*",
        "config",
        answer=shown("00.0.6[0-7]", lambda value: 0 if value == 1 else value),
    ),
    Fault(
        "drb7",
        "DRAM ends at 8 MiB, whatever DRB7 says",
        "drb*",
        "rows",
        written("00.0.67", lambda value: 1),
        is_hidden=True,
    ),
    Fault(
        "hole-512k",
        "FDHC makes no hole at 512 KiB",
        "hole-*",
        "rows",
        written("00.0.68", lambda value: value & 0x3F if value >> 6 == 1 else value),
        is_hidden=True,
    ),
    Fault(
        "confadd-reserved",
        "bits 30 to 24 of an enabled configuration address read 1",
        "confadd-*",
        "config",
        answer=lambda access, entry, state: entry.value
        if (access.word, access.place, access.size) != ("in", CONFADD, 4) or entry.value[:2] == "00"
        else "FF" + entry.value[2:],
    ),
    Fault("ids", "the device id is another", "ids*", "config", answer=shown("00.0.02", lambda value: 0x36)),
    Fault("nobody", "memory that nobody has reads 0", "nobody-*", "smram", answer=zero_where_nobody_is),
    # the 82371SB
    Fault(
        "xbcs-extended",
        "bit 7 of XBCS selects nothing",
        "*bios*",
        "rom",
        written("01.0.4E", without(0x80)),
        is_hidden=True,
    ),
    Fault(
        "xbcs-clock",
        "the clock answers while XBCS does not select it",
        "xbcs-*",
        "rom",
        written("01.0.4E", with_bits(1)),
        is_hidden=True,
    ),
    Fault(
        "pirq-off",
        "bit 7 of PIRQRC does not turn a route off",
        "pirq*",
        "pirq",
        written("01.0.6[0-3]", without(0x80)),
        is_hidden=True,
    ),
    Fault(
        "ide-enable",
        "bit 15 of IDETIM cannot be cleared",
        "ata-channel*",
        "ata",
        written("01.1.41", with_bits(0x80)),
        is_hidden=True,
    ),
    Fault(
        "soft-reset",
        "a soft reset resets the devices",
        "*reset*",
        "reset",
        written("0CF9", lambda value: HARD_RESET if value & SOFT_RESET else value),
    ),
    Fault("reset-control", "port CF9 reads 00", "*reset*", "reset", answer=shown("0CF9", lambda value: 0)),
    Fault("elcr", "a line is an edge, whatever ELCR says", "pic-*", "pic", not_written("04D0")),
    Fault("refresh", "bit 4 of port 61h stays 0", "port-61*", "ports", answer=shown("0061", without(0x10))),
    Fault("gate-2", "the gate of counter 2 is always 1", "pit-*", "pit", written("0061", with_bits(1)), is_hidden=True),
    # the 8259A
    Fault("mask-read", "the mask reads 00", "pic-*", "pic", answer=shown("00[2A]1", lambda value: 0)),
    Fault(
        "specific-end",
        "a specific end of interrupt ends the highest level",
        "pic-*",
        "pic",
        command(lambda value: 0x20 if value & 0xE8 == 0x60 else value),
    ),
    Fault("rotation", "an end of interrupt does not rotate", "pic-*", "pic", command(instead({0xA0: 0x20}))),
    Fault(
        "set-priority",
        "the priority cannot be set",
        "pic-*",
        "pic",
        command(lambda value: 0x40 if value & 0xF8 == 0xC0 else value),
    ),
    Fault("automatic-end", "ICW4 has no automatic end of interrupt", "pic-*", "pic", icw4(without(0x02))),
    Fault("special-nested", "ICW4 has no special fully nested mode", "pic-*", "pic", icw4(without(0x10))),
    Fault("special-mask", "there is no special mask mode", "pic-*", "pic", command(instead({0x68: 0x48}))),
    Fault("poll", "there is no poll", "pic-*", "pic", command(instead({0x0C: 0x08}))),
    Fault(
        "spurious", "the spurious vector is that of level 5", "pic-*", "pic", answer=vector("spur[01]", without(0x02))
    ),
    Fault("slave-vector", "the slave gives vectors of level 0", "pic-*", "pic", answer=vector("vec1", without(0x07))),
    Fault("falls", "a line that fell goes on asking", "pic-*", "pic", without_falls),
    # the 8254
    Fault("decimal", "a counter does not count in decimal", "pit-*", "pit", control_word(without(0x01))),
    Fault(
        "mode-5",
        "mode 5 is as mode 4",
        "pit-*",
        "pit",
        control_word(lambda value: value & ~0x02 if value >> 1 & 7 == 5 else value),
    ),
    Fault(
        "latch",
        "a count is not latched",
        "pit-*",
        "pit",
        lambda access, _: None if access.word == "out" and access.place == 0x43 and not access.value & 0x30 else access,
    ),
    Fault("null-count", "the null count is always 0", "pit-*", "pit", answer=no_null_count),
    Fault(
        "square",
        "mode 3 counts as mode 2",
        "pit-*",
        "pit",
        control_word(lambda value: value & ~0x02 if value >> 1 & 3 == 3 else value),
    ),
    # the clock
    Fault(
        "afternoon",
        "bit 7 of the hours does not tell the afternoon",
        "rtc-*",
        "rtc",
        answer=clock_shown(4, without(0x80)),
    ),
    Fault(
        "flags", "a read of register C does not tell the alarm", "rtc-*", "rtc", answer=clock_shown(0x0C, without(0x20))
    ),
    Fault(
        "alarm-any",
        "an alarm byte from C0 on matches nothing",
        "rtc-*",
        "rtc",
        clock_byte(1, lambda value: 0x77 if value >= 0xC0 else value),
    ),
    Fault("register-d", "register D reads 00", "rtc-*", "rtc", answer=clock_shown(0x0D, without(0x80))),
    # the disk
    Fault("drive-1", "drive 1 answers as drive 0", "ata-*", "ata", written("01F6", without(0x10)), is_hidden=True),
    Fault("status-read", "a read of the status leaves the request", "ata-*", "ata", other_port(0x1F7, 0x3F6)),
    Fault("no-interrupt", "nIEN does not keep the request off", "ata-*", "ata", written("03F6", without(0x02))),
    Fault(
        "error-register",
        "the error register reads 04 for IDNF",
        "ata-*",
        "ata",
        answer=shown("01F1", instead({0x10: 0x04})),
    ),
    Fault("words", "the bytes of a word are changed round", "ata-*", "ata", answer=swapped_words),
    Fault("unknown-command", "C6h is done", "ata-*", "ata", written("01F7", instead({0xC6: 0xE7}))),
    # COM1
    Fault("divisor", "DLAB shows no divisor latch", "uart-*", "uart", written("03FB", without(0x80)), is_hidden=True),
    Fault("fifos", "the FIFOs cannot be turned on", "uart-*", "uart", written("03FA", without(0x01))),
    Fault("overrun", "OE stays 0", "uart-*", "uart", answer=shown("03FD", without(0x02))),
    Fault("modem-changes", "MSR marks no change", "uart-*", "uart", answer=shown("03FE", without(0x0F))),
    Fault("scratch", "SCR keeps seven bits", "uart-*", "uart", written("03FF", without(0x80))),
]
