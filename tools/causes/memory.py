"""Memory: the shadow windows, SMRAM, the row boundaries, the holes, and the ROM."""
from typing import TYPE_CHECKING

from .row import ABSENT, CHOICE, DATASHEET, QTEST, VIEW, Row

if TYPE_CHECKING:
    from traces.difference_state import Byte

PAM = "82441FX, PAM: Programmable Attribute Map Registers"
SMRAM = "82441FX, SMRAM: System Management RAM Control Register"
FDHC = "82441FX, FDHC: Fixed DRAM Hole Control Register"
DRB = "82441FX, DRB: DRAM Row Boundary Registers"
RC = "82371SB, RC: Reset Control Register"
XBCS = "82371SB, XBCS: X-Bus Chip Select Register"
TAKEN = "dram|shadow|smram"  # the targets of DRAM
OF_PAM, OF_SMRAM, OF_FDHC, OF_DRB7 = "00[.]0[.](59|5[A-F])", "00[.]0[.]72", "00[.]0[.]68", "00[.]0[.]67"
SHUT_WINDOW = f"{OF_PAM}|01[.]0[.]4E|none"  # where the ROM is behind it, that refuses the write
SHUT_READ = "a window that is shut for reads sends them to PCI, and not to the DRAM behind it"
SHUT_WRITE = "a window that is shut for writes sends them to PCI: they do not reach the DRAM behind it"
SHADOWED, TOP_OF_SHADOW = 0xE0000, 0x100000
MIB, FOUR_GIB = 1 << 20, 1 << 32
LOWER_BIOS, UPPER_BIOS, EXTENDED_BIOS = 0xE0000, 0xF0000, 0xFFF8_0000
TOP_64_KIB = 0xFFFF_0000


def is_selected_by_xbcs(address: int) -> bool:
    """Whether bit 6 or 7 of XBCS has to select the ROM there."""
    return LOWER_BIOS <= address < UPPER_BIOS or EXTENDED_BIOS <= address < TOP_64_KIB


def is_unselected_rom(byte: "Byte") -> bool:
    """Whether the ROM's byte was given where XBCS has to select the ROM. A zero tells nothing."""
    rom, at = byte.state.rom, byte.place
    return bool(is_selected_by_xbcs(at) and rom and byte.given and rom[at % len(rom)] == byte.given)


def is_repeated_rom(byte: "Byte") -> bool:
    """Whether the place is below the ROM's first copy under 1 MiB or 4 GiB, where the same chip is selected."""
    end = MIB if byte.place < MIB else FOUR_GIB
    return is_selected_by_xbcs(byte.place) and 0 < len(byte.state.rom) < end - byte.place


def is_dram_behind_rom(byte: "Byte") -> bool:
    return SHADOWED <= byte.place < TOP_OF_SHADOW and byte.is_dram and byte.state.has_windows


def is_kept_out(byte: "Byte") -> bool:
    """Whether the other gave what is read where nobody or the ROM answers, or not what was written."""
    rom = byte.state.rom
    is_rom = byte.target == "shadow" and bool(rom) and byte.given == rom[byte.place % len(rom)] != 0
    return byte.is_memory and (byte.given == 0xFF or is_rom or byte.place in byte.state.landed)


def is_map_lost(byte: "Byte") -> bool:
    """Whether a soft reset came after the map's registers were written, and what was given is what the ROM has, or
    what is read where nobody answers."""
    state = byte.state
    rom = state.rom[byte.place % len(state.rom)] if state.rom else 0
    return byte.is_memory and 0 < state.map_written < state.soft_reset and byte.given in (0, 0xFF, rom)


def is_map_kept(byte: "Byte") -> bool:
    """Whether a hard reset came after the map's registers were written, and the DRAM behind them was given."""
    state = byte.state
    return byte.is_memory and 0 < state.map_written < state.hard_reset and byte.is_dram


ROWS = [
    Row(
        "soft-reset",
        DATASHEET,
        RC,
        "a soft reset, 04, resets the processor alone: the registers and the devices keep what they have",
        TAKEN,
        when=is_map_lost,
    ),
    Row("reset", DATASHEET, RC, "a hard reset gives each register its default value", "rom|abort", when=is_map_kept),
    Row("pam-read", DATASHEET, PAM, SHUT_READ, "abort", denial=OF_PAM, when=lambda it: it.is_dram),
    Row("pam-read", DATASHEET, PAM, SHUT_READ, "rom", when=is_dram_behind_rom),
    Row(
        "pam-write",
        VIEW,
        PAM,
        "QEMU's test protocol writes as a bus master, through a window that is open for reads alone; "
        "a write of a processor is lost there",
        TAKEN,
        when=lambda it: it.state.view == QTEST and it.lost_by(SHUT_WINDOW) and it.state.lost[it.place].is_read_open,
    ),
    Row("pam-write", DATASHEET, PAM, SHUT_WRITE, TAKEN, when=lambda it: it.lost_by(SHUT_WINDOW)),
    Row(
        "smram-write",
        DATASHEET,
        SMRAM,
        "a write that SMRAM is not open to goes to PCI: it does not reach the DRAM",
        TAKEN,
        when=lambda it: it.lost_by(OF_SMRAM),
    ),
    Row(
        "hole-write",
        DATASHEET,
        FDHC,
        "a write to the hole goes to PCI: it does not reach the DRAM",
        TAKEN,
        when=lambda it: it.lost_by(OF_FDHC),
    ),
    Row(
        "top-write",
        DATASHEET,
        DRB,
        "a write above DRB7 goes to PCI: it does not reach the DRAM",
        TAKEN,
        when=lambda it: it.lost_by(OF_DRB7),
    ),
    Row(
        "smram-shut",
        DATASHEET,
        SMRAM,
        "an access that SMRAM is not open to goes to PCI",
        "abort",
        denial=OF_SMRAM,
        when=lambda it: it.is_dram,
    ),
    Row(
        "hole",
        DATASHEET,
        FDHC,
        "an access to the hole goes to PCI",
        "abort",
        denial=OF_FDHC,
        when=lambda it: it.is_dram,
    ),
    Row(
        "top-of-dram",
        DATASHEET,
        DRB,
        "DRAM ends where DRB7 says, and an access above it goes to PCI",
        "abort",
        denial=OF_DRB7,
        when=lambda it: it.is_dram,
    ),
    Row(
        "lower-bios",
        DATASHEET,
        XBCS,
        "bit 6 at 0, as it is at first, does not select the ROM at E0000 to EFFFF and FFFE0000 to FFFEFFFF, nor bit 7 "
        "below",
        "abort",
        when=lambda it: it.is_memory and is_unselected_rom(it),
    ),
    Row(
        "nobody",
        DATASHEET,
        "PCI Local Bus 2.1, 3.3.3.1: Master Initiated Termination",
        "a read that nobody answers gives all ones: PCI says so of a master abort, and behind the ISA bridge, below "
        "16 MiB, this board does the same",
        "abort",
        when=lambda it: it.is_memory and it.given == 0,
    ),
    Row(
        "other-memory",
        ABSENT,
        "",
        "memory of a card or a device that the other has, and the script has not",
        "abort",
        when=lambda it: it.is_memory,
    ),
    Row(
        "rom-repeats",
        DATASHEET,
        XBCS,
        "bits 6 and 7 select the ROM in their whole ranges: a smaller one, which sees the low lines of the address "
        "alone, repeats there",
        "rom",
        when=is_repeated_rom,
    ),
    Row("other-rom", ABSENT, "", "another ROM than the script names", "rom"),
    Row(
        "past-memory",
        CHOICE,
        "Memory",
        "DRAM reads FF past the installed memory",
        "dram",
        when=lambda it: it.place >= it.state.installed,
    ),
    Row(
        "bus-master-moves",
        DATASHEET,
        "82371SB, Bus Master IDE: Physical Region Descriptor Table",
        "a transfer moves as many words as the regions of its table have, or the sectors",
        TAKEN,
        when=lambda it: it.is_memory and it.state.has_mastered and it.place not in it.state.written,
    ),
    Row(
        "pam-open",
        DATASHEET,
        PAM,
        "a window that is open sends reads and writes to the DRAM behind it",
        "shadow",
        when=is_kept_out,
    ),
    Row(
        "smram-open",
        DATASHEET,
        SMRAM,
        "an access that SMRAM is open to reaches the DRAM",
        "smram",
        when=is_kept_out,
    ),
    Row(
        "zeros",
        CHOICE,
        "Memory",
        "installed memory begins with zeros",
        f"{TAKEN}|card",
        when=lambda it: it.is_memory and it.place not in it.state.written,
    ),
    Row(
        "dram-keeps",
        DATASHEET,
        DRB,
        "the DRAM below the boundaries keeps what is written",
        TAKEN,
        when=lambda it: it.is_memory,
    ),
    Row(
        "card-keeps",
        DATASHEET,
        "PCI Local Bus 2.1, 6.2.5: Base Addresses",
        "what stands behind an enabled base keeps what is written",
        "card",
    ),
]
