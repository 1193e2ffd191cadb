"""What is made of the tables for the documents."""
from names.tables import ANY, Tables


def targets(tables: Tables) -> str:
    """The table of the targets of a log in docs/FORMATS.md."""
    cases = tables.enum("board_target").cases
    named = [(it.log, it.means) for it in cases if it.log and it.name != "ABORT"]
    named += [(it.word, it.says) for it in tables.devices if it.in_log]
    named += [(it.log, it.means) for it in cases if it.name == "ABORT"]
    return "".join(["\n| TARGET | Means |\n|---|---|\n", *(f"| `{log}` | {means} |\n" for log, means in named), "\n"])


def joined(first: str, last: str, count: int) -> str:
    return first if count == 1 else f"{first} {'and' if count == 2 else 'to'} {last}"


def place_of(tables: Tables, names: list[str]) -> str:
    """Registers that follow one another: their names, and where they stand."""
    found = [it for name in names for it in tables.registers if it.name == name and it.function != ANY]
    each = [named for it in found for named in it.each()]
    first, last = each[0][1], each[-1][1] + found[-1].bytes - 1
    named = joined(each[0][0], each[-1][0], len(each))
    return f"{named}, {joined(f'{first:02X}h', f'{last:02X}h', last - first + 1)} of {found[0].function}"


def ports_of(tables: Tables, name: str) -> str:
    """The ports of a device, which follow one another."""
    ports = next(it for it in tables.devices if it.name == name).ports
    texts = [f"{port:02X}h" if port < 0x100 else f"{port:04X}h" for port in ports]
    return f"port{'s' * (len(ports) > 1)} {joined(texts[0], texts[-1], len(ports))}"


def sources(tables: Tables) -> str:
    """The table of the datasheets in docs/DEFINITIONS.md."""
    lines = ["| In the board | Definition | In the document |", "|---|---|---|"]
    for it in tables.sources:
        what = it.what or (ports_of(tables, it.device) if it.device else place_of(tables, it.registers))
        lines.append(f"| {what} | {it.defined} | {it.document} |")
    return "\n".join(["", *lines, ""]) + "\n"
