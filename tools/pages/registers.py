"""What the registers hold after each statement, and the version of the map: the board is asked after each write."""
from dataclasses import dataclass, field
from typing import Iterator

from pages.asked import MOST_STATEMENTS, VERSION, Asker
from pages.register_fields import CHIPS, Register, registers_of
from shared.board_texts import Entry

PORTS = {"0CF8": "d", "0CF9": "b", "04D0": "b", "04D1": "b"}  # each with the width in which it is read
PORT_TARGETS = ("confadd", "reset", "elcr")
State = dict[str, int]  # by place: a port, or the first of four bytes of a function


def place_of(function: str, offset: int) -> str:
    """The place of the four bytes in which an offset stands."""
    return f"{function}.{offset & 0xFC:02X}"


def address_of(place: str) -> str:
    """The statement that selects four bytes."""
    device, function, offset = int(place[:2], 16), int(place[3]), int(place[5:], 16)
    return f"0 out d 0CF8 {1 << 31 | device << 11 | function << 8 | offset:08X}"


def settings(state: State, before: State) -> list[str]:
    """Statements that bring the bytes of configuration space from what they were to a state."""
    lines = []
    for place, value in state.items():
        if place not in PORTS and value != before[place]:
            lines += [address_of(place), f"0 out d 0CFC {value:08X}"]
    return lines


def port_settings(state: State) -> list[str]:
    """Statements that bring the ports to a state. Bit 2 of reset control is set without bit 1 first, as both at once
    reset the board."""
    control = state["0CF9"]
    writes = [("04D0", state["04D0"]), ("04D1", state["04D1"]), ("0CF9", control & 4), ("0CF9", control)]
    return [*(f"0 out b {port} {value:02X}" for port, value in writes), f"0 out d 0CF8 {state['0CF8']:08X}"]


@dataclass
class MapWrite:
    """A statement after which the map has another version."""

    number: int
    values: tuple[int, ...]  # what each place holds after it
    is_hard_reset: bool


@dataclass
class Walk:
    """What the registers held: after a reset, and of each place the changes, each with its statement."""

    at_reset: State
    changes: dict[str, list[tuple[int, int]]] = field(default_factory=dict)
    writes: list[MapWrite] = field(default_factory=list)

    def change(self, state: State, place: str, number: int, value: int) -> None:
        if state.get(place, value) != value:
            state[place] = value
            self.changes.setdefault(place, []).append((number, value))


def functions_of(asker: Asker) -> dict[str, list[str]]:
    """The functions of the board, each with the bases of a card."""
    cards = {f"{int(card[0]):02X}.0": card[2:] for card in asker.of("card")}
    return {**{it: [] for it in CHIPS}, **dict(sorted(cards.items()))}


def shown_registers(asker: Asker) -> dict[str, list[Register]]:
    return {function: registers_of(function, bases) for function, bases in functions_of(asker).items()}


def places_of(asker: Asker) -> list[str]:
    """The places of all registers that are shown. All on which the map depends are among them."""
    shown = [it.place for registers in shown_registers(asker).values() for it in registers]
    return [*PORTS, *dict.fromkeys(place_of(it[:4], int(it[5:], 16)) for it in shown if it not in PORTS)]


def question(entry: Entry) -> list[str]:
    """A statement that may write a register, and what is asked after it."""
    port = entry.words[2]
    read = "0 in d 0CFC" if entry.target.startswith("config:") else f"0 in {PORTS[port]} {port}"
    return [entry.line(), read, VERSION]


def is_write(entry: Entry) -> bool:
    return entry.words[0] == "out" and entry.target.startswith(("config:", *PORT_TARGETS))


def state_at_reset(asker: Asker, places: list[str]) -> State:
    reads = [[f"0 in {PORTS[it]} {it}"] if it in PORTS else [address_of(it), "0 in d 0CFC"] for it in places]
    replies = asker.replies([line for read in reads for line in read])
    return dict(zip(places, (int(value, 16) for value, *_ in replies if value != "-")))


def walk(asker: Asker, log: list[Entry]) -> Walk:
    """Asks what all registers hold after each statement of a log."""
    done = Walk(state_at_reset(asker, places_of(asker)))
    state = dict(done.at_reset)
    rest = [entry for entry in log if is_write(entry)]
    while rest:
        head = [*settings(state, done.at_reset), *port_settings(state), VERSION]
        count = (MOST_STATEMENTS - len(head)) // len(question(rest[0]))
        piece, rest = rest[:count], rest[count:]
        asked = [question(entry) for entry in piece]
        replies = asker.replies([*head, *(line for lines in asked for line in lines)])
        version = int(replies[len(head) - 1][0])
        for k, entry in enumerate(piece):
            _, read, look = replies[len(head) + 3 * k : len(head) + 3 * k + 3]
            is_map_write, version = int(look[0]) > version, int(look[0])
            note(done, state, entry, int(read[0], 16), is_map_write)
    return done


def note(done: Walk, state: State, entry: Entry, value: int, is_map_write: bool) -> None:
    """Notes what a statement changed of a state."""
    is_hard_reset = is_map_write and entry.target == "reset"
    if is_hard_reset:
        for place, it in done.at_reset.items():
            done.change(state, place, entry.number, it)
    elif entry.target.startswith("config:"):
        done.change(state, place_of(entry.target[7:11], int(entry.target[12:], 16)), entry.number, value)
    else:
        done.change(state, entry.words[2], entry.number, value)
    if is_map_write:
        done.writes.append(MapWrite(entry.number, tuple(state.values()), is_hard_reset))


def values(register: Register, done: Walk) -> Iterator[tuple[int, int]]:
    """What a register held: from statement 0 on, and from each on that changed it."""
    is_port = register.place in PORTS
    offset = 0 if is_port else int(register.place[5:], 16)
    place = register.place if is_port else place_of(register.place[:4], offset)
    shift, mask = 8 * (offset & 3), (1 << 8 * register.count) - 1
    last = None
    for number, value in [(0, done.at_reset[place]), *done.changes.get(place, [])]:
        it = value >> shift & mask
        if it != last:
            last = it
            yield number, it
