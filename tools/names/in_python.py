"""What is made of the tables for the Python binding and for the tools."""
import json
from os.path import commonprefix
from typing import Any, Iterator

from names.tables import ANY, Register, Tables

FUNCTIONS = ("00.0", "01.0", "01.1")
Rows = dict[str, list[tuple[str, int, int]]]


def numbers(tables: Tables) -> str:
    """The enums of records.py."""
    device = ("DeviceNumber", [(it.name, it.number) for it in tables.devices])
    enums = [(it.python, [(case.name, case.number) for case in it.cases if not case.in_c_alone]) for it in tables.enums]
    at = next(k for k, it in enumerate(tables.enums) if it.c == "board_target") + 1
    enums.insert(at, device)
    lines = [f"{it.name} = {it.number}" for it in tables.bounds]
    for name, cases in enums:
        lines += ["", "", f"class {name}(IntEnum):", *(f"    {case} = {number}" for case, number in cases)]
    names = ", ".join(name for name, _ in enums)
    return "\n".join([*lines, "", "", "NUMBERS: list[type[IntEnum]] = [", f"    {names},", "]"]) + "\n"


def exceptions(tables: Tables) -> str:
    """The exceptions of errors.py."""
    lines = []
    for it in tables.statuses:
        lines += [f"class {it.python}(BoardError, status={it.number}):", f'    """{it.says}"""', "", ""]
        if it.older_python:
            lines += [f"{it.older_python} = {it.python}  # its name before this interface; it goes with the next", "", ""]
    return "\n".join(lines[:-2]) + "\n"


def replies(tables: Tables) -> str:
    """The registers, and the words of devices and targets, of replies.py."""
    lines = ["REGISTERS: list[tuple[str, tuple[int, int] | None, int, int]] = ["]
    for register, name, first in tables.deciding():
        device, _, function = register.function.partition(".")
        place = "None" if register.function == ANY else f"({int(device, 16)}, {function})"
        lines.append(f'    ("{name}", {place}, 0x{first:02X}, 0x{first + register.bytes - 1:02X}),')
    lines += ["]", "DEVICES = {", *(f'    DeviceNumber.{it.name}: "{it.word}",' for it in tables.devices), "}"]
    texts = (it for it in tables.enum("board_target").cases if it.text)
    lines += ["TARGETS: dict[int, str] = {", *(f'    TargetNumber.{it.name}: "{it.text}",' for it in texts), "}"]
    return "\n".join(lines) + "\n"


# ---- the tools


class Offset(int):
    """A number that is shown as an offset."""


def literal(value: Any, depth: int = 1) -> str:
    """A table as Python writes it, an entry a line."""
    pad = "    " * depth
    if isinstance(value, dict):
        body = "".join(f"{pad}{literal(key)}: {literal(it, depth + 1)},\n" for key, it in value.items())
        return f"{{\n{body}{pad[4:]}}}"
    if isinstance(value, list):
        return "[\n" + "".join(f"{pad}{literal(it)},\n" for it in value) + f"{pad[4:]}]"
    if isinstance(value, tuple):
        return f"({', '.join(map(literal, value))})"
    if isinstance(value, Offset):
        return f"0x{value:02X}"
    return json.dumps(value)


def rows(registers: list[Register]) -> list[tuple[str, int, int]]:
    return [(name, Offset(first), it.bytes) for it in registers for name, first in it.each()]


def by_name(tables: Tables) -> Iterator[tuple[str, Register]]:
    yield from ((name, it) for it in tables.registers for name, _ in it.each())


def register_names(tables: Tables) -> str:
    """The tables of tools/shared/register_names.py."""
    says = lambda it: tuple(it["says"]) if isinstance(it["says"], list) else it["says"]
    fields = {name: [(it["name"], it["high"], it["low"], says(it)) for it in register.fields]
              for name, register in by_name(tables) if register.fields}
    of_function: Rows = {it: rows([reg for reg in tables.registers if reg.function == it]) for it in FUNCTIONS}
    found = {
        "ANY_FUNCTION: list[tuple[str, int, int]]": rows([it for it in tables.registers if it.function == ANY]),
        "OF_FUNCTION: dict[str, list[tuple[str, int, int]]]": of_function,
        "HINTS": {name: it.opens for name, it in by_name(tables) if it.opens},
        "DENYING_BITS": {name: it.denying for name, it in by_name(tables) if it.denying},
        "IDENTITY": [name for name, it in by_name(tables) if it.identity],
        "ABSENT": [name for name, it in by_name(tables) if it.absent],
        "FIELD_ROWS: dict[str, list[tuple[str, int, int, Union[str, tuple[str, ...]]]]]": fields,
    }
    return "\n".join(f"{name} = {literal(value)}" for name, value in found.items()) + "\n"


def byte_ports(tables: Tables) -> str:
    """The ports of tools/traces/board_parts.py."""
    lines = [f'    **dict.fromkeys(({", ".join(f"0x{port:X}" for port in it.ports)},), "{it.word}"),'
             for it in tables.devices if it.ports and it.traced]
    return "\n".join(["BYTE_PORTS = {", *lines, "}"]) + "\n"


def hearers(tables: Tables) -> str:
    """Each device with its ports, of tools/refusals/denials.py."""
    lines = []
    for it in tables.devices:
        heard = [(it.heard_as, it.ports, [1])] if it.ports else []
        heard += [(wide.called or it.heard_as, [wide.port], wide.sizes) for wide in it.wide]
        lines += [f'    ("{name}", ({", ".join(f"0x{port:X}" for port in ports)},), ({", ".join(map(str, sizes))},)),'
                  for name, ports, sizes in heard]
    return "\n".join(["HEARERS: list[tuple[str, tuple[int, ...], tuple[int, ...]]] = [", *lines, "]"]) + "\n"


CARD = "DD.0"


def places_of(tables: Tables, function: str) -> list[tuple[int, int]]:
    """The first and the last byte of each register of a function; the bases of a card are one."""
    group = "cards" if function == CARD else "chips"
    found = []
    for it in tables.registers:
        if it.absent or it.function not in (function, ANY) or it.function == ANY and it.of not in ("", group):
            continue
        firsts = [first for _, first in it.each()]
        if function == CARD:
            found.append((Offset(firsts[0]), Offset(firsts[-1] + it.bytes - 1)))
        else:
            found += [(Offset(first), Offset(first + it.bytes - 1)) for first in firsts]
    return sorted(found)


def denials(tables: Tables) -> dict[str, str]:
    """What a denial begins with, and what it is called."""
    found = {}
    for function in (*FUNCTIONS, CARD):
        for it in tables.registers:
            if function in it.denies:
                found[commonprefix([f"{function}.{first:02X}" for _, first in it.each()])] = it.denies[function]
    found = dict(sorted(found.items()))
    confadd = next(it for it in tables.devices if it.name == "CONFADD")
    return {**found, confadd.word: confadd.called, "none": "no register"}


def reached(tables: Tables) -> str:
    """What can answer and deny, of tools/conformance/reached.py."""
    targets = {it.word: it.called for it in tables.devices if it.in_log and it.name != "WIRES"}
    targets |= {it.log.partition(":")[0]: it.called for it in tables.enum("board_target").cases if it.called}
    found = {
        "REGISTERS: dict[str, list[tuple[int, int]]]": {it: places_of(tables, it) for it in (*FUNCTIONS, CARD)},
        "TARGETS": targets,
        "DENIALS": denials(tables),
    }
    return "\n".join(f"{name} = {literal(value)}" for name, value in found.items()) + "\n"
