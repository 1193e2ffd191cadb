"""PCI cards."""
import re
from dataclasses import dataclass

from . import grammar
from .errors import BadCards
from .records import MOST_BASES, BaseNumber, BaseRecord, CardRecord

_BASES = {"m": BaseNumber.MEMORY_BASE, "i": BaseNumber.IO_BASE, "o": BaseNumber.OUTSIDE}


@dataclass(frozen=True)
class Identity:
    """What a card says that it is, by the names of PCI Local Bus 2.1. A field of 0 says nothing: there the card has what
    every card of this board has."""

    vendor_id: int = 0
    device_id: int = 0
    class_code: int = 0
    revision_id: int = 0
    subsystem_vendor_id: int = 0
    subsystem_id: int = 0
    interrupt_pin: int = 0

    def are_in_range(self) -> bool:
        """Whether each field fits its bytes."""
        words = self.vendor_id, self.device_id, self.subsystem_vendor_id, self.subsystem_id
        fit = all(0 <= word <= 0xFFFF for word in words) and 0 <= self.class_code <= 0xFFFFFFFF
        return fit and 0 <= self.revision_id <= 0xFF and 0 <= self.interrupt_pin <= 0xFF


@dataclass(frozen=True)
class Card:
    """A card as a script has it: `m24` is a base of 2 to the power of 24 bytes of memory, `i6` one of 64 ports, and
    rom is log2 of the bytes of its expansion ROM, or 0. No script has `o28`, a base of memory whose bytes the monitor
    keeps: reads of the board give ones. Its identity, of which a script says nothing, is what it says that
    it is. Whether a board can be fitted with it Board says."""

    device: int
    vga: bool = False
    bases: tuple[str, ...] = ()
    rom: int = 0
    identity: Identity = Identity()

    @staticmethod
    def parse(text: str) -> "Card":
        """Of the line of a script, without the word `card`: `2 vga m24 x15`."""
        device, *rest = text.split(" ")
        if grammar.wrong_fields("card", [device, *(re.sub("^o", "m", it) for it in rest)]):
            raise BadCards(text)
        roms = [int(it[1:]) for it in rest[1:] if it[0] == "x"]
        return Card(int(device), rest[0] == "vga", tuple(it for it in rest[1:] if it[0] != "x"), sum(roms))

    def record(self) -> CardRecord:
        """As board.h has it."""
        if any(re.fullmatch("[mio][0-9]{1,2}", base) is None for base in self.bases) or len(self.bases) > MOST_BASES:
            raise BadCards(self)
        if not (0 <= self.device <= 0xFF and 0 <= self.rom <= 0xFF and self.identity.are_in_range()):
            raise BadCards(self)
        bases = [BaseRecord(_BASES[base[0]], int(base[1:])) for base in self.bases]
        of = self.identity
        return CardRecord(
            self.device, self.vga, self.rom, len(bases), (BaseRecord * MOST_BASES)(*bases), of.class_code, of.vendor_id,
            of.device_id, of.subsystem_vendor_id, of.subsystem_id, of.revision_id, of.interrupt_pin, 0,
        )

    def __str__(self) -> str:
        rom = [f"x{self.rom}"] if self.rom else []
        return " ".join([str(self.device), "vga" if self.vga else "plain", *self.bases, *rom])
