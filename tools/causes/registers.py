"""Registers of configuration space and the configuration address."""
from typing import TYPE_CHECKING

from .row import ABSENT, CHOICE, DATASHEET, EITHER, Row

if TYPE_CHECKING:
    from traces.difference_state import Byte

CHIP = "0[01][.][01]"  # a function of the chipset
CARD = "0[2-9][.]0"
CONFADD = 0xCF8
# The bits that software can write, of the registers that a hard reset gives their defaults.
WRITABLE = {
    "00.0": {
        0x59: 0x30,
        **dict.fromkeys(range(0x5A, 0x60), 0x33),
        **dict.fromkeys(range(0x60, 0x68), 0xFF),
        0x68: 0xC0,
        0x72: 0x78,
    },
    "01.0": {0x4E: 0xC7, **dict.fromkeys(range(0x60, 0x64), 0x8F)},
    "01.1": {0x04: 0x05, 0x40: 0xFF, 0x41: 0xFF},
}
OWN_REGISTERS = {
    "00.0": (*range(0x59, 0x69), 0x72),
    "01.0": (0x4E, 0x4F, *range(0x60, 0x64)),
    "01.1": (0x40, 0x41),
}
KEPT = "the registers keep the bits that the datasheets call read/write, and no others"
SOFT_RESET = "a soft reset, 04, resets the processor alone: the registers and the devices keep what they have"
BASES, ROM_BASE = range(0x10, 0x28), range(0x30, 0x34)
IO_SPACE, IO_TYPE, MEMORY_TYPE = 0x01, 0x03, 0x0F  # the low bits of a base


def span(first: int, last: int) -> tuple[int, ...]:
    return tuple(range(first, last + 1))


def is_writable(byte: "Byte") -> bool:
    return bool(WRITABLE.get(byte.function, {}).get(byte.offset, 0) & byte.differing)


def is_default(byte: "Byte") -> bool:
    """Whether a hard reset gave the register what it has, and nobody wrote it since."""
    return byte.state.is_as_reset(byte) and is_writable(byte)


def is_lost_by_soft_reset(byte: "Byte") -> bool:
    """Whether the register was written before a soft reset, and not after it."""
    written = byte.state.written_register(byte.function, byte.offset)
    return is_writable(byte) and written is not None and written.number < byte.state.soft_reset


def is_base_type(byte: "Byte") -> bool:
    """Whether only the low bits of a base differ, which tell its kind."""
    if byte.offset not in BASES or byte.offset % 4:
        return False
    kind = IO_TYPE if (byte.given | byte.ours) & IO_SPACE else MEMORY_TYPE
    return not byte.differing & ~kind


def is_base_of_another_size(byte: "Byte") -> bool:
    """Whether what was given can be what was written, above the size of another base, or of none. Before a base is
    written its address tells nothing."""
    written = byte.state.written_byte(byte.function, byte.offset)
    low = MEMORY_TYPE if byte.offset in BASES and not byte.offset % 4 else 0
    return written is None or any((written & 0xFF << size & 0xFF & ~low) == byte.given & ~low for size in range(9))


def is_reserved_in_confadd(byte: "Byte") -> bool:
    return not byte.differing & ~{0: 0x03, 3: 0x7F}.get(byte.at, 0)


ROWS = [
    Row(
        "soft-reset",
        DATASHEET,
        "82371SB, RC: Reset Control Register",
        SOFT_RESET,
        "config",
        CHIP,
        when=is_lost_by_soft_reset,
    ),
    Row("ids", DATASHEET, "{chip}, VID and DID", "the ids are fixed", "config", CHIP, span(0, 3)),
    Row(
        "reset",
        DATASHEET,
        "82371SB, RC: Reset Control Register",
        "a hard reset gives each register its default value",
        "config",
        CHIP,
        when=is_default,
    ),
    Row(
        "command-on",
        DATASHEET,
        "82441FX, PCICMD: PCI Command Register",
        "memory access and bus master are always " "enabled",
        "config",
        "00.0",
        (4,),
        0x06,
    ),
    Row(
        "command-on",
        DATASHEET,
        "82371SB, function 0, PCICMD: PCI Command Register",
        "ports, memory and bus master are always enabled",
        "config",
        "01.0",
        (4,),
        0x07,
    ),
    Row(
        "command-ide",
        DATASHEET,
        "82371SB, function 1, PCICMD: PCI Command Register",
        "it is 0000 at first, bits 0 and 2 keep what is written, and there is no memory to enable",
        "config",
        "01.1",
        (4,),
        0x07,
    ),
    Row("command", CHOICE, "Registers", "the other bits of a command register are constants", "config", "", (4, 5)),
    Row(
        "status-timing",
        DATASHEET,
        "82441FX, PCISTS: PCI Status Register",
        "DEVSEL# is medium",
        "config",
        "00.0",
        (7,),
        0x06,
    ),
    Row(
        "status-timing",
        DATASHEET,
        "82441FX, PCISTS: PCI Status Register",
        "fast back-to-back is possible",
        "config",
        "00.0",
        (6,),
        0x80,
    ),
    Row(
        "status",
        CHOICE,
        "Registers",
        "the status register is the constant 0280 in every function",
        "config",
        "",
        (6, 7),
    ),
    Row("revision", ABSENT, "", "a revision number, which depends on the stepping", "config", CHIP, (8,)),
    Row("class", DATASHEET, "{chip}, CLASSC: Class Code Register", "the class is fixed", "config", CHIP, span(9, 11)),
    Row(
        "header",
        DATASHEET,
        "82371SB, function 0, HEDT: Header Type Register",
        "the chip has several functions",
        "config",
        "01.0",
        (14,),
        0x80,
    ),
    Row("header-rest", ABSENT, "", "cache line size, latency timer and self test", "config", CHIP, span(12, 15)),
    Row(
        "bus-master",
        ABSENT,
        "",
        "BMIBA: the bus master of the IDE function has no registers here",
        "config",
        "01.1",
        span(0x20, 0x23),
    ),
    Row(
        "unimplemented",
        DATASHEET,
        "PCI Local Bus 2.1, 6.1: Configuration Space Organization",
        "a register that the chip does not have reads 0",
        "config",
        CHIP,
        span(0x10, 0x3F),
    ),
    Row(
        "pam",
        DATASHEET,
        "82441FX, PAM: Programmable Attribute Map Registers",
        "the read and the write enable of each window can be written",
        "config",
        "00.0",
        span(0x59, 0x5F),
        when=is_writable,
    ),
    Row(
        "drb",
        DATASHEET,
        "82441FX, DRB: DRAM Row Boundary Registers",
        "each is 01 at first and keeps what is written",
        "config",
        "00.0",
        span(0x60, 0x67),
    ),
    Row(
        "fdhc",
        DATASHEET,
        "82441FX, FDHC: Fixed DRAM Hole Control Register",
        "bits 7 and 6 can be written",
        "config",
        "00.0",
        (0x68,),
        0xC0,
    ),
    Row(
        "smram-lock",
        DATASHEET,
        "82441FX, SMRAM: System Management RAM Control Register",
        "once DLCK is set, DOPEN stays 0 and DLCK stays 1",
        "config",
        "00.0",
        (0x72,),
        0x50,
        when=lambda it: it.state.is_locked,
    ),
    Row(
        "smram",
        DATASHEET,
        "82441FX, SMRAM: System Management RAM Control Register",
        "DOPEN, DCLS, DLCK and SMRAME can be written, and bits 2 to 0 are 010",
        "config",
        "00.0",
        (0x72,),
        0x7F,
        when=lambda it: not it.state.is_locked,
    ),
    Row(
        "smram-under-lock",
        CHOICE,
        "Registers",
        "DCLS and SMRAME can be written under the lock",
        "config",
        "00.0",
        (0x72,),
        0x28,
        when=lambda it: it.state.is_locked,
    ),
    Row(
        "xbcs",
        DATASHEET,
        "82371SB, XBCS: X-Bus Chip Select Register",
        "bits 7, 6, 2, 1 and 0 can be written",
        "config",
        "01.0",
        (0x4E,),
        0xC7,
    ),
    Row(
        "xbcs-rest",
        ABSENT,
        "",
        "bits of XBCS for the coprocessor, the mouse and the APIC",
        "config",
        "01.0",
        (0x4E,),
        0x30,
    ),
    Row(
        "xbcs-rest",
        ABSENT,
        "",
        "bits of XBCS for the coprocessor, the mouse and the APIC",
        "config",
        "01.0",
        (0x4F,),
        0x01,
    ),
    Row(
        "pirqrc",
        DATASHEET,
        "82371SB, PIRQRC: PIRQx Route Control Registers",
        "bits 7 and 3 to 0 can be written",
        "config",
        "01.0",
        span(0x60, 0x63),
        0x8F,
    ),
    Row(
        "idetim",
        DATASHEET,
        "82371SB, IDETIM: IDE Timing Register",
        "it keeps what is written",
        "config",
        "01.1",
        (0x40, 0x41),
        when=lambda it: bool(it.differing & (0xFF if it.offset == 0x40 else 0xF3)),
    ),
    Row(
        "reserved-bits",
        CHOICE,
        "Registers",
        KEPT,
        "config",
        CHIP,
        (*span(0x59, 0x68), 0x72, 0x4E, 0x4F, 0x40, 0x41),
        when=lambda it: it.offset in OWN_REGISTERS.get(it.function, ()),
    ),
    Row("other-register", ABSENT, "", "a register that this board does not have", "config", CHIP),
    Row(
        "card-base-kind",
        EITHER,
        "PCI Local Bus 2.1, 6.2.5.1: Address Maps",
        "the low bits of a base tell whether it is of ports, how wide it is and whether it can be prefetched",
        "config",
        CARD,
        when=is_base_type,
    ),
    Row(
        "card-base-size",
        ABSENT,
        "",
        "a card whose bases have other sizes or stand elsewhere",
        "config",
        CARD,
        (*BASES, *ROM_BASE),
        when=is_base_of_another_size,
    ),
    Row(
        "card-base",
        DATASHEET,
        "PCI Local Bus 2.1, 6.2.5: Base Addresses",
        "a base keeps the bits above its size",
        "config",
        CARD,
        (*BASES, *ROM_BASE),
    ),
    Row(
        "card-line",
        DATASHEET,
        "PCI Local Bus 2.1, 6.2.4: Miscellaneous Functions",
        "the interrupt line register keeps what is written",
        "config",
        CARD,
        (0x3C,),
        when=lambda it: it.state.written_byte(it.function, it.offset) is not None,
    ),
    Row("card", ABSENT, "", "a register that a card of this board has in its own way", "config", CARD),
    Row(
        "confadd-reset",
        DATASHEET,
        "82371SB, RC: Reset Control Register",
        "a hard reset gives each register its default value",
        "confadd",
        when=lambda it: it.state.is_confadd_as_reset,
    ),
    Row(
        "soft-reset",
        DATASHEET,
        "82371SB, RC: Reset Control Register",
        SOFT_RESET,
        "confadd",
        when=lambda it: 0 < it.state.confadd_written < it.state.soft_reset,
    ),
    Row(
        "confadd-reserved",
        DATASHEET,
        "PCI Local Bus 2.1, Configuration Mechanism #1",
        "bits 30 to 24 and 1 to 0 of the configuration address read 0",
        "confadd",
        when=is_reserved_in_confadd,
    ),
    Row(
        "confadd-narrow",
        DATASHEET,
        "PCI Local Bus 2.1, Configuration Mechanism #1",
        "only a doubleword at 0CF8h is the configuration address: narrower accesses pass on to the bus",
        "confadd",
        when=lambda it: it.state.is_confadd_written_narrow,
    ),
    Row(
        "confadd", DATASHEET, "82441FX, CONFADD: Configuration Address Register", "it keeps what is written", "confadd"
    ),
]
