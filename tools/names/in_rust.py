"""What is made of the tables for the Rust binding: constants, registers, devices and statuses."""
from names.tables import ANY, Tables

NAMES_IN_A_LINE = 6


def sentence(text: str) -> str:
    """A text as a sentence."""
    return text[0].upper() + text[1:].rstrip(".") + "."


def constants(tables: Tables) -> str:
    """The numbers of raw.rs. Those of devices stand where their variants do."""
    lines = []
    for it in tables.enums:
        cases = (case for case in it.cases if not case.in_c_alone)
        lines += [*(f"pub(crate) const {case.name}: {it.rust} = {case.number};" for case in cases), ""]
    return "\n".join([*lines, *(f"pub(crate) const {it.name}: usize = {it.number};" for it in tables.bounds)]) + "\n"


def same_names(tables: Tables) -> str:
    """The names that layout_tests.rs compares with those of board.h."""
    names = [case.name for it in tables.enums for case in it.cases if not case.in_c_alone]
    names += [it.name for it in tables.bounds]
    rows = [names[k : k + NAMES_IN_A_LINE] for k in range(0, len(names), NAMES_IN_A_LINE)]
    return "".join(f"        {' '.join(row)}\n" for row in rows)


def named_devices(tables: Tables) -> str:
    return "".join(f'        ("{it.name}", Device::{it.rust}),\n' for it in tables.devices)


def registers(tables: Tables) -> str:
    """The rows of REGISTERS of target.rs."""
    lines = []
    for register, name, first in tables.deciding():
        last = first + register.bytes - 1
        place = f"of_any(0x{first:02X}, 0x{last:02X})"
        if register.function != ANY:
            device, function = register.function.split(".")
            place = f"at({int(device, 16)}, {function}, 0x{first:02X}, 0x{last:02X})"
        lines.append(f'    ({place}, "{name}"),\n')
    return "".join(lines)


def devices(tables: Tables) -> str:
    return "".join(f'    {it.number} {it.rust} "{it.word}" "{sentence(it.says)}"\n' for it in tables.devices)


def statuses(tables: Tables) -> str:
    return "".join(f'    {it.number} {it.rust} "{it.says}"\n' for it in tables.statuses)
