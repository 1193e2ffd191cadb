"""The tables of names, as they are read: the numbers of board.h, the registers of configuration space, and where they
stand in the datasheets."""
import pathlib
import sys
from dataclasses import dataclass, field
from typing import Any, Iterator, Union

if sys.version_info < (3, 11):
    sys.exit("the tables of names are read with Python 3.11: tomllib is new there")
import tomllib

FOLDER = pathlib.Path(__file__).resolve().parent
FILES = ("numbers", "registers", "datasheets")
ANY = "any"
Says = Union[str, list[str]]  # of a field: a formula, or a text for each value


@dataclass(frozen=True)
class Status:
    """A status that says why a call was refused, with the exception of Python and the variant of Rust, and its names before
    this interface, which go with the next."""

    name: str
    number: int
    python: str
    rust: str
    says: str
    older: str = ""
    older_python: str = ""


@dataclass(frozen=True)
class Case:
    """A case of an enum. Of a target also its text in a log as Python formats it and as a page writes it, what it means
    there, and what it is called in a sentence."""

    name: str
    number: int
    says: str
    in_c_alone: bool = False
    text: str = ""
    log: str = ""
    means: str = ""
    called: str = ""


@dataclass(frozen=True)
class Enum:
    """An enum of board.h, with the class of Python and the type of its numbers in Rust."""

    c: str
    python: str
    rust: str
    says: str
    cases: list[Case]


@dataclass(frozen=True)
class Wide:
    """A port whose accesses have other sizes than one byte."""

    port: int
    sizes: list[int]
    called: str = ""


@dataclass(frozen=True)
class Device:
    """A device, or what gave a vector: its word in a log, its variant in Rust, its ports of one byte each and those of
    other sizes, whether traces of other monitors name it, and what it is called in a sentence, here and as one that hears a
    port."""

    name: str
    number: int
    word: str
    rust: str
    says: str
    ports: list[int] = field(default_factory=list)
    wide: list[Wide] = field(default_factory=list)
    traced: bool = True
    called: str = ""
    heard_as: str = ""
    in_log: bool = True

    @staticmethod
    def read(said: dict[str, Any]) -> "Device":
        wide = [Wide(**it) for it in said.pop("wide", [])]
        called = said.pop("called", said["says"])
        return Device(wide=wide, called=called, heard_as=said.pop("heard_as", called), **said)


@dataclass(frozen=True)
class Bound:
    name: str
    number: int
    says: str


@dataclass(frozen=True)
class Register:
    """A register, or several of one kind that follow one another; registers.toml says what each field is."""

    function: str
    name: str
    first: int
    bytes: int
    count: int = 1
    step: int = 1
    letters: bool = False
    decides: bool = False
    absent: bool = False
    identity: bool = False
    of: str = ""
    denies: dict[str, str] = field(default_factory=dict)
    opens: str = ""
    denying: str = ""
    fields: list[dict[str, Any]] = field(default_factory=list)

    def each(self) -> Iterator[tuple[str, int]]:
        """The name and the first offset of each."""
        for k in range(self.count):
            number = chr(ord("A") + k) if self.letters else str(k)
            yield self.name.replace("{k}", number), self.first + k * self.step


@dataclass(frozen=True)
class Source:
    """Where a part of the board stands in a datasheet: registers or a device of the other tables, or a part in words."""

    defined: str
    document: str
    what: str = ""
    device: str = ""
    registers: list[str] = field(default_factory=list)


@dataclass(frozen=True)
class Tables:
    statuses: list[Status]
    enums: list[Enum]
    devices: list[Device]
    bounds: list[Bound]
    registers: list[Register]
    effects: dict[str, str]
    sources: list[Source]

    @staticmethod
    def read() -> "Tables":
        numbers, registers, datasheets = (tomllib.loads((FOLDER / f"{name}.toml").read_text()) for name in FILES)
        enums = [Enum(cases=[Case(**case) for case in it.pop("cases")], **it) for it in numbers["enum"]]
        return Tables([Status(**it) for it in numbers["status"]], enums, [Device.read(it) for it in numbers["device"]],
                      [Bound(**it) for it in numbers["bound"]], [Register(**it) for it in registers["register"]],
                      registers["effects"], [Source(**it) for it in datasheets["source"]])

    def enum(self, c: str) -> Enum:
        return next(it for it in self.enums if it.c == c)

    def deciding(self) -> Iterator[tuple[Register, str, int]]:
        """The registers that the map, the ports or the lines depend on, those of single functions first."""
        for is_any in (False, True):
            for register in self.registers:
                if register.decides and (register.function == ANY) == is_any:
                    yield from ((register, name, first) for name, first in register.each())
