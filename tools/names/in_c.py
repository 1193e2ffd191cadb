"""What is made of the tables for C: the enums of include/board.h, and what bindings/layout.c prints of them."""
import textwrap
from typing import Iterator

from names.tables import Case, Tables

WIDTH = 100
NUMBERS_IN_A_LINE = 4


def comment(text: str, indent: str = "") -> str:
    """A comment of as many lines as it needs."""
    lines = textwrap.wrap(text, WIDTH - len(indent) - len("/*  */"), break_on_hyphens=False)
    return f"{indent}/* " + f"\n{indent} * ".join(lines) + " */"


def case_lines(name: str, number: int, says: str, is_last: bool) -> str:
    line = f"    BOARD_{name} = {number}{'' if is_last else ','}"
    beside = f"{line} /* {says} */"
    if not says or len(beside) <= WIDTH:
        return beside if says else line
    return f"{comment(says, '    ')}\n{line}"


def enum(c: str, says: str, cases: list[Case]) -> Iterator[str]:
    yield f"\n{comment(says)}\nenum {c} {{"
    for k, case in enumerate(cases):
        yield case_lines(case.name, case.number, case.says, k == len(cases) - 1)
    yield "};"


def header(tables: Tables) -> str:
    """The numbers of board.h."""
    statuses = [Case("OK", 0, ""), *(Case(it.name, it.number, it.says) for it in tables.statuses)]
    lines = list(enum("board_status", "How a call ends. At each call stand the statuses that it can give; none gives "
                      "10, 11 or 14.", statuses))
    lines += [f"#define BOARD_{it.older} BOARD_{it.name} /* its name before this interface; it goes with the next */"
              for it in tables.statuses if it.older]
    lines += ["", comment("What a status says, in a line without a line feed."),
              "static inline const char *board_status_text(uint32_t status) {", "    switch (status) {",
              '    case BOARD_OK: return "done";']
    lines += [f'    case BOARD_{it.name}: return "{it.says}";' for it in tables.statuses]
    lines += ['    default: return "no status of this library";', "    }", "}"]
    for it in tables.enums:
        lines += enum(it.c, it.says, it.cases)
        if it.c == "board_target":
            devices = [Case(device.name, device.number, device.says) for device in tables.devices]
            lines += enum("board_device", "A device of the board, or what gave a vector.", devices)
    bounds = [Case(it.name, it.number, it.says) for it in tables.bounds]
    lines += ["", comment("Room that is enough for every map."), "enum {"]
    lines += [case_lines(it.name, it.number, it.says, it is bounds[-1]) for it in bounds]
    return "\n".join([*lines, "};"]).strip("\n") + "\n"


def names_of(tables: Tables) -> list[str]:
    """The names of all numbers that the bindings have too."""
    cases = [case.name for it in tables.enums for case in it.cases if not case.in_c_alone]
    return [*cases, *(it.name for it in tables.bounds), *(it.name for it in tables.devices)]


def layout(tables: Tables) -> str:
    """The lines of bindings/layout.c that print the numbers."""
    names = names_of(tables)
    rows = [names[k : k + NUMBERS_IN_A_LINE] for k in range(0, len(names), NUMBERS_IN_A_LINE)]
    return "".join("    " + ", ".join(f"NUMBER(BOARD_{name})" for name in row) + ";\n" for row in rows)
