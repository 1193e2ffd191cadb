"""Areas of the address map: configuration space, shadow windows, SMRAM, row boundaries, the ROM, and cards."""
import random

from ..case_words import address, cmos, get, put, reset
from .words import WIDTH_LETTERS, Steps, hexed, memory_access, put_byte, several

OFFSETS = (4, 5, 6, 7, 0x40, 0x41, 0x4E, 0x4F, 0x60, 0x63, 0x59, 0x68, 0x72)
FUNCTIONS = ("00.0", "01.0", "01.1")
ABSENT_FUNCTIONS = ("00.1", "02.0", "1F.7")
WINDOW_ENABLES = (0, 0x10, 0x20, 0x30, 0x11, 0x22, 0x33, 0x13, 0x31)
SMRAM_VALUES = (0x0A, 0x4A, 0x1A, 0x5A, 0x2A, 0x6A, 0x02, 0x42)
DRB_VALUES, FDHC_VALUES = (0, 1, 2, 1, 2), (0, 0x40, 0x80, 0xC0)
XBCS_VALUES = (0, 3, 0x43, 0x83, 0xC7, 0x47, 0x02, 0x01)
ROM_PLACES = (0xE0000, 0xEFFFC, 0xF0000, 0xFFFF0, 0xFFFF0000, 0xFFFFFFF0, 0xFFFE0000, 0xFFF80000, 0xFFFDFFFC)
ROW_PLACES = (0x80000, 0x9FFFE, 0xA00000, 0xEFFFFE, 0xF00000, 0xFFFFFC, 0x7FFFFE, 0x800000, 0x100000, 0x1800000)
CARD_BASES, CARD_PLACES, CARD_PORTS = ("02.0.10", "02.0.14", "02.0.18"), (0xE000_0000, 0xE010_0000), (0xC000, 0xD000)


def config(rng: random.Random) -> Steps:
    """Every register of the chipset in every width, and port 0CF8h."""

    def register() -> tuple[str, int, int]:
        size = rng.choice((1, 1, 2, 4))
        offset = rng.choice((rng.randrange(256), rng.randrange(0x40), rng.choice(OFFSETS)))
        offset -= offset % size
        return f"{rng.choice(FUNCTIONS * 3 + ABSENT_FUNCTIONS)}.{offset:02X}", offset, size

    def accessed() -> Steps:
        name, _, size = register()
        read = get(name, WIDTH_LETTERS[size])
        if rng.random() < 0.4:
            return [read]
        return [put(name, hexed(size, rng.choice((rng.getrandbits(32), 0, 0xFFFF_FFFF)))), read]

    def narrow() -> Steps:
        size = rng.choice((1, 2, 4))
        port = rng.choice([it for it in range(0xCF8, 0xCFC) if it % size == 0 and (size, it) != (1, 0xCF9)])
        letter = WIDTH_LETTERS[size]
        access = rng.choice((f"in {letter} {port:04X}", f"out {letter} {port:04X} {hexed(size, rng.getrandbits(32))}"))
        return [[access], ["in d 0CF8"], [f"in b {0xCFC + rng.randrange(4):04X}"]]

    def disabled() -> Steps:
        return [[f"out d 0CF8 {rng.getrandbits(31):08X}", "in d 0CFC"]]

    return [[], *several(rng, 6, 14, [(8, accessed), (1, narrow), (1, disabled)])]


def pam(rng: random.Random) -> Steps:
    """Shadow windows: what is written while one is open either way is read while it is open otherwise."""
    places = [rng.randrange(0xC0000, 0x100000) for _ in range(3)]
    places.append(rng.randrange(0xC0000, 0x100000, 0x4000) - rng.randrange(3))

    def window() -> Steps:
        value = rng.choice((*WINDOW_ENABLES, rng.getrandbits(8) & 0x33))
        return [put_byte(f"00.0.{rng.randrange(0x59, 0x60):02X}", value)]

    return [[], *several(rng, 10, 24, [(1, window), (2, lambda: memory_access(rng, rng.choice(places)))])]


def smram(rng: random.Random) -> Steps:
    """SMRAM: open, closed, locked, in SMM and outside, and a hard reset between."""
    places = [rng.randrange(0xA0000, 0xC0000), rng.randrange(0xA0000, 0xC0000), 0x9FFFC, 0xA0000, 0xBFFFC]

    def control() -> Steps:
        value = rng.choice((*SMRAM_VALUES, rng.getrandbits(8) & 0x78 | 2))
        return [put_byte("00.0.72", value), get("00.0.72")]

    def access() -> Steps:
        return memory_access(rng, rng.choice(places), rng.choice(("", "", " smm")))

    return [[], *several(rng, 8, 18, [(6, control), (9, access), (1, lambda: [reset(), get("00.0.72")])])]


def rows(rng: random.Random) -> Steps:
    """DRB, the top of DRAM, and the holes of FDHC."""

    def boundary() -> Steps:
        row = rng.choice((7, 7, rng.randrange(8)))
        return [put_byte(f"00.0.{0x60 + row:02X}", rng.choice((*DRB_VALUES, rng.getrandbits(8))))]

    def hole() -> Steps:
        return [put_byte("00.0.68", rng.choice(FDHC_VALUES))]

    def access() -> Steps:
        return memory_access(rng, rng.choice((*ROW_PLACES, rng.randrange(1 << 24))))

    return [[], *several(rng, 8, 18, [(3, boundary), (2, hole), (7, access)])]


def rom(rng: random.Random) -> Steps:
    """XBCS: which addresses reach the ROM, and the ports that it selects."""

    def select() -> Steps:
        return [put_byte("01.0.4E", rng.choice((*XBCS_VALUES, rng.getrandbits(8) & 0xC7)))]

    def access() -> Steps:
        return memory_access(rng, rng.choice((*ROM_PLACES, rng.randrange(0xFFF0_0000, 1 << 32))))

    def port() -> Steps:
        memory = [cmos("40", f"{rng.randrange(1, 0x100):02X}"), cmos("40")]
        return rng.choice((memory, memory[1:], [["in b 0060"]], [["in b 0064"]]))

    return [[], *several(rng, 8, 18, [(4, select), (5, access), (2, port)])]


def cards(rng: random.Random) -> Steps:
    """A card's bases, its command register, and what stands behind them."""

    def base() -> Steps:
        name = rng.choice(CARD_BASES)
        value = rng.choice((*CARD_PLACES, *CARD_PORTS, 0xFFFF_FFFF, rng.getrandbits(32)))
        return [put(name, f"{value:08X}"), get(name, "d")]

    def command() -> Steps:
        return [put("02.0.04", f"{rng.randrange(4):04X}"), get("02.0.04", "w")]

    def port() -> Steps:
        at = rng.choice(CARD_PORTS) + 4 * rng.randrange(2)
        return [[f"out d {at:04X} {hexed(4, rng.getrandbits(32))}"], [f"in d {at:04X}"]]

    def memory() -> Steps:
        return memory_access(rng, rng.choice(CARD_PLACES) + rng.randrange(0x2000))

    first = [it for name, at in zip(CARD_BASES, (*CARD_PLACES, CARD_PORTS[0])) for it in put(name, f"{at:08X}")]
    chosen = [address("02.0.04")[0], "out w 0CFC 0003"]
    return [[*first, *chosen], *several(rng, 6, 16, [(3, base), (2, command), (3, port), (4, memory)])]
