"""Areas of the chipset for tools/hunt: random sequences that know the devices. An area makes steps of a random.Random;
a step is what belongs together, and the first one, the prologue, sets the devices up."""
import pathlib
import random
from dataclasses import dataclass
from typing import Callable

from ..scripts import Script, Setup
from . import chip_areas, device_areas, map_areas
from .words import Steps

CARD, ASKING_CARD = "2 plain m20 m12 i8", f"{chip_areas.CARD_AT} plain m20"


@dataclass(frozen=True)
class Area:
    name: str
    steps: Callable[[random.Random], Steps]
    rom: str = "r64"
    has_disk: bool = False
    cards: tuple[str, ...] = ()

    def script(self, seed: int, images: pathlib.Path, rom: pathlib.Path | None = None) -> Script:
        """The script of a seed: the same one each time. A ROM that is given stands for the area's."""
        disk = images / "d4" if self.has_disk else None
        setup = Setup(rom or images / self.rom, disk=disk, cards=self.cards)
        return Script.of(setup, self.steps(random.Random(f"{self.name} {seed}")))


AREAS = [
    Area("config", map_areas.config),
    Area("pam", map_areas.pam),
    Area("smram", map_areas.smram),
    Area("rows", map_areas.rows),
    Area("rom", map_areas.rom, rom="r256"),
    Area("cards", map_areas.cards, cards=(CARD,)),
    Area("pic", chip_areas.interrupts),
    Area("pirq", chip_areas.routes, cards=(ASKING_CARD,)),
    Area("pit", chip_areas.timer),
    Area("rtc", chip_areas.clock),
    Area("ata", device_areas.disk, has_disk=True),
    Area("uart", device_areas.serial),
    Area("reset", device_areas.resets),
    Area("ports", device_areas.ports, has_disk=True),
]
