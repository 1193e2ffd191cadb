"""Strategies for hypothesis: sequences of events that know the devices of the board.

    @given(strategies.sequences())
    def test_as_the_board(events):
        with Board() as board:
            for event in events:
                ...

A sequence is made of whole steps, as a driver does them: a register of configuration space is selected and then
written, an 8259A has all its command words, a counter its control word and both bytes. So it shrinks by steps that
still mean something. `second` among the events lets a second of the clock pass: Board.second does it. hypothesis is the
caller's to install (Debian's python3-hypothesis).
"""
from typing import Literal

from hypothesis import strategies as st
from hypothesis.strategies import SearchStrategy

from .events import Event
from .replies import REGISTERS

Step = Event | Literal["second"]

_BYTE = st.integers(0, 0xFF)
_CONFIG_ADDRESS, _CONFIG_DATA = 0xCF8, 0xCFC
_ENABLE = 1 << 31
# The registers of the chips, by device and function as CONFADD has them, and offset.
_MAP_REGISTERS = [(place[0] << 11 | place[1] << 8, offset) for _, place, first, last in REGISTERS if place is not None
                  for offset in range(first, last + 1)]
# Where the map of memory may change, and the ends of what may lie there.
_PLACES = (0x00000, 0x80000, 0x9FFFF, 0xA0000, 0xBFFFF, 0xC0000, 0xCC000, 0xDFFFF, 0xE0000, 0xEFFFF, 0xF0000, 0xFFFFF,
           0x100000, 0x7FFFFF, 0x800000, 0xF00000, 0xFFFE0000, 0xFFFFFFFF)
_PORTS = (0x20, 0x21, 0x40, 0x41, 0x42, 0x43, 0x61, 0x70, 0x71, 0xA0, 0xA1, 0x4D0, 0x4D1, 0xCF9, *range(0x3F8, 0x400))
_LINES = (1, 3, 5, 6, 7, 9, 10, 11, 12, 15)


def _outs(*writes: tuple[int, int]) -> list[Step]:
    return [Event.out(port, 1, value) for port, value in writes]


def _config(register: tuple[int, int], value: int) -> list[Step]:
    function, offset = register
    address = _ENABLE | function | offset & ~3
    return [Event.out(_CONFIG_ADDRESS, 4, address), Event.out(_CONFIG_DATA + offset % 4, 1, value)]


def _interrupts(level: bool, mask: int) -> list[Step]:
    """Both 8259A with their command words, the vectors at 08h and 70h."""
    first = 0x11 | 8 * level
    return _outs((0x20, first), (0x21, 0x08), (0x21, 0x04), (0x21, 0x01), (0xA0, first), (0xA1, 0x70), (0xA1, 0x02),
                 (0xA1, 0x01), (0x21, mask), (0xA1, mask))


def _counter(number: int, mode: int, count: int) -> list[Step]:
    """A counter of the 8254 with its control word, and the two bytes of its count."""
    control, port = number << 6 | 0x30 | mode << 1, 0x40 + number
    return _outs((0x43, control), (port, count & 0xFF), (port, count >> 8))


def config_writes() -> SearchStrategy[list[Step]]:
    """A byte is written to a register that the memory map, the ports or the routing of interrupts depend on."""
    return st.builds(_config, st.sampled_from(_MAP_REGISTERS), _BYTE)


def interrupts() -> SearchStrategy[list[Step]]:
    """Both 8259A are set up, or a line moves, or an interrupt is acknowledged."""
    lines = st.builds(lambda line, level: [Event.irq(line, level)], st.sampled_from(_LINES), st.booleans())
    return st.one_of(st.builds(_interrupts, st.booleans(), _BYTE), lines, st.just([Event.acknowledge()]))


def time() -> SearchStrategy[list[Step]]:
    """A counter is set up, pulses come, a second of the clock passes, or a byte of it is written and read."""
    counters = st.builds(_counter, st.integers(0, 2), st.integers(0, 5), st.integers(0, 0xFFFF))
    pulses = st.builds(lambda count: [Event.pulse(count)], st.integers(1, 100_000))
    seconds: SearchStrategy[list[Step]] = st.just(["second"])
    written = st.builds(lambda at, value: _outs((0x70, at), (0x71, value)), st.integers(0, 0x7F), _BYTE)
    clock = written.map(lambda step: [*step, Event.in_(0x71)])
    return st.one_of(counters, pulses, seconds, clock)


def ports() -> SearchStrategy[list[Step]]:
    """A byte of a port of a device is read, written, or written and read back."""
    port = st.sampled_from(_PORTS)
    reads = st.builds(lambda at: [Event.in_(at)], port)
    writes = st.builds(lambda at, value: _outs((at, value)), port, _BYTE)
    return st.one_of(reads, writes, st.builds(lambda at, value: [*_outs((at, value)), Event.in_(at)], port, _BYTE))


def memory() -> SearchStrategy[list[Step]]:
    """A byte of memory is read, fetched or written, in system management mode or not."""
    addr, smm = st.sampled_from(_PLACES), st.booleans()
    reads = st.builds(lambda at, mode: [Event.read(at, smm=mode)], addr, smm)
    fetches = st.builds(lambda at, mode: [Event.fetch(at, smm=mode)], addr, smm)
    writes = st.builds(lambda at, value, mode: [Event.write(at, 1, value, smm=mode)], addr, _BYTE, smm)
    return st.one_of(reads, fetches, writes)


def sequences(most: int = 20) -> SearchStrategy[list[Step]]:
    """Up to so many steps of all devices, as one list of events."""
    steps = st.one_of(ports(), memory(), config_writes(), interrupts(), time())
    return st.lists(steps, max_size=most).map(lambda made: [event for step in made for event in step])
