"""Ports: which device answers, and those of the 82371SB itself."""
from typing import TYPE_CHECKING

from .row import ABSENT, CHOICE, DATASHEET, Row

if TYPE_CHECKING:
    from traces.difference_state import Byte

RC = "82371SB, RC: Reset Control Register"
NMISC = "82371SB, NMISC: NMI Status and Control Register"
OUT_2, REFRESH, KEPT_BITS, GATE_2 = 0x20, 0x10, 0x03, 0x01
ELCR_BITS = {0x4D0: 0xF8, 0x4D1: 0xDE}
SOFT_RESET = "a soft reset, 04, resets the processor alone: the registers and the devices keep what they have"
BYTE_DEVICES = (
    *range(0x20, 0x22),
    *range(0x40, 0x44),
    0x61,
    0x70,
    0x71,
    *range(0xA0, 0xA2),
    *range(0x1F1, 0x1F8),
    0x3F6,
    *range(0x3F8, 0x400),
    0x4D0,
    0x4D1,
)
DEVICES = "pic[01]|vec[01]|spur[01]|pit|sys|clock|uart|elcr|ata"


def is_wide_on_bytes(byte: "Byte") -> bool:
    """Whether an access of several bytes reached a port of a device that is eight bits wide."""
    return byte.width > 1 and any(byte.place - byte.at + k in BYTE_DEVICES for k in range(byte.width))


def is_narrow_confadd(byte: "Byte") -> bool:
    return 0xCF8 <= byte.place < 0xCFC and byte.width < 4


def was_written_before(byte: "Byte") -> bool:
    """Whether the register was written before a soft reset, or by it, and not after it."""
    return 0 < byte.state.port_written.get(byte.place, 0) <= byte.state.soft_reset


def is_reset_value_gone(byte: "Byte") -> bool:
    """Whether a hard reset came after the register was written, and the other kept what was written."""
    state = byte.state
    return 0 < state.port_written.get(byte.place, 0) < state.hard_reset


ROWS = [
    Row(
        "confadd-narrow",
        DATASHEET,
        "PCI Local Bus 2.1, Configuration Mechanism #1",
        "only a doubleword at 0CF8h is the configuration address: narrower accesses pass on to the bus",
        "abort",
        when=is_narrow_confadd,
    ),
    Row(
        "disabled-config",
        CHOICE,
        "Ports",
        "configuration data is nobody's while bit 31 of the address is 0",
        "abort",
        denial="confadd",
    ),
    Row(
        "other-function",
        ABSENT,
        "",
        "a function of PCI that the other has, and the script has not",
        "abort",
        denial="none",
        when=lambda it: it.place in range(0xCFC, 0xD00),
    ),
    Row(
        "ide-shut",
        DATASHEET,
        "82371SB, IDETIM: IDE Timing Register",
        "bit 15 at 0 shuts the channel",
        "abort",
        denial="01[.]1[.]40",
    ),
    Row(
        "ide-shut",
        DATASHEET,
        "82371SB, function 1, PCICMD: PCI Command Register",
        "bit 0 at 0 shuts the channel",
        "abort",
        denial="01[.]1[.]04",
    ),
    Row(
        "chip-select",
        DATASHEET,
        "82371SB, XBCS: X-Bus Chip Select Register",
        "its bits 1 and 0 select these ports",
        "abort",
        denial="01[.]0[.]4E",
    ),
    Row(
        "shut-card",
        DATASHEET,
        "PCI Local Bus 2.1, 6.2.2: Device Control",
        "a card decodes what its command enables",
        "abort",
        denial="0[2-9][.]0[.]04",
    ),
    Row(
        "wide-port",
        CHOICE,
        "Ports",
        "a wide access to a port of a byte device is not split",
        "abort",
        denial="none",
        when=is_wide_on_bytes,
    ),
    Row("other-port", ABSENT, "", "a device that the other has at this port, and this board has not", "abort"),
    Row("keyboard", ABSENT, "", "the keyboard controller: its socket is empty here", "kbd"),
    Row("soft-reset", DATASHEET, RC, SOFT_RESET, "reset|elcr|sys", when=was_written_before),
    Row(
        "elcr",
        DATASHEET,
        "82371SB, ELCR: Edge/Level Control Registers",
        "the bits of lines 3 to 7, 9 to 12, 14 and 15 can be written",
        "elcr",
        when=lambda it: bool(it.differing & ELCR_BITS[it.place]),
    ),
    Row(
        "elcr-reserved",
        CHOICE,
        "Registers",
        "the registers keep the bits that the datasheets call read/write, and no " "others",
        "elcr",
    ),
    Row("reset-control", DATASHEET, RC, "bits 2 and 1 can be written", "reset", bits=0x06),
    Row(
        "reset-reserved",
        CHOICE,
        "Registers",
        "the registers keep the bits that the datasheets call read/write, and no " "others",
        "reset",
    ),
    Row(
        "port-61-reset",
        DATASHEET,
        RC,
        "a hard reset gives each register its default value",
        "sys",
        bits=KEPT_BITS,
        when=is_reset_value_gone,
    ),
    Row("port-61", DATASHEET, NMISC, "bits 1 and 0 keep what is written", "sys", bits=KEPT_BITS),
    Row(
        "port-61-out-2",
        DATASHEET,
        NMISC,
        "bit 5 is the output of counter 2",
        "sys",
        bits=OUT_2,
        when=lambda it: it.state.timer.counters[2].is_set_up,
    ),
    Row("port-61-first", CHOICE, "Timer", "the output of counter 2 before it has a mode", "sys", bits=OUT_2),
    Row(
        "port-61-refresh", CHOICE, "Registers", "bit 4 flips at each read, from 0 after a reset on", "sys", bits=REFRESH
    ),
    Row("port-61-rest", ABSENT, "", "the bits of port 61 for errors", "sys"),
    Row(
        "wide-written",
        CHOICE,
        "Ports",
        "a wide access to a port of a byte device is not split, and changes nothing",
        DEVICES,
        when=lambda it: it.target in it.state.written_wide,
    ),
]
