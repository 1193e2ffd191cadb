"""What the areas share: accesses of a random width, and doings that are chosen by their weight."""
import random
from typing import Callable, Sequence

from ..case_words import get, outb
from ..scripts import WIDTHS

Steps = list[list[str]]
Doing = Callable[[], Steps]
WIDTH_LETTERS = {size: letter for letter, size in WIDTHS.items()}
BYTE_OF_EACH = 0x0101_0101_0101_0101  # no byte of a written value is 0, since zeros are what memory begins with
WRITES, UNALIGNED = 0.5, 0.15
READ_REQUESTS, READ_SERVICE = 0x0A, 0x0B
EVEN_PORTS = (0x20, 0xA0)


def hexed(size: int, value: int) -> str:
    return f"{value & (1 << 8 * size) - 1:0{2 * size}X}"


def several(rng: random.Random, least: int, most: int, doings: Sequence[tuple[float, Doing]]) -> Steps:
    """So many doings, each chosen by its weight."""
    makers, weights = [doing for _, doing in doings], [weight for weight, _ in doings]
    chosen = rng.choices(makers, weights, k=rng.randint(least, most))
    return [step for doing in chosen for step in doing()]


def put_byte(register: str, value: int) -> list[str]:
    return [*get(register)[:1], f"out b {0xCFC + int(register[-2:], 16) % 4:04X} {value:02X}"]


def memory_access(rng: random.Random, address: int, mode: str = "") -> Steps:
    """A read, or a write and a read, of any width at an address or just below it."""
    size = rng.choice((1, 1, 2, 4, 8))
    at = address if rng.random() < UNALIGNED else address - address % size
    letter, at = WIDTH_LETTERS[size], min(at, (1 << 32) - size)
    read = [f"{rng.choice('rrrf')} {letter} {at:08X}{mode}"]
    if rng.random() >= WRITES:
        return [read]
    return [[f"w {letter} {at:08X} {hexed(size, rng.getrandbits(64) | BYTE_OF_EACH)}{mode}"], read]


def requests(chip: int, word: int = READ_REQUESTS) -> list[str]:
    """Reads a register of an 8259A by OCW3."""
    return [*outb(EVEN_PORTS[chip], word), f"in b {EVEN_PORTS[chip]:04X}"]
