"""The grammar of scripts: the fields of each line, what is wrong with a line of another form, and the ranges of numbers.

docs/FORMATS.md has it in words. The repository's tools read this file too, so it needs no more than Python 3.9.
"""
import datetime
import re
from dataclasses import dataclass
from typing import Callable, Optional

WIDTHS = {"b": 1, "w": 2, "d": 4, "q": 8}
KINDS = {"f": 1, "r": 2, "w": 3}  # as board.h numbers them
DIGITS = {letter: 2 * width for letter, width in WIDTHS.items()}
OTHER_WIDTHS = {"1": "b", "2": "w", "4": "d", "8": "q", "16": "w", "32": "d", "64": "q", "byte": "b", "word": "w",
                "dword": "d", "long": "d", "l": "d", "qword": "q"}
NAME = re.compile("[A-Za-z0-9_][A-Za-z0-9._-]{0,63}")
MOMENT = re.compile(r"\d{4}-\d\d-\d\dT\d\d:\d\d:\d\d")
BASE = re.compile("[mi](0|[1-9][0-9]{0,8})")
MOST_BASES, FIRST_OF_CARD = 6, 2
NEWEST = 2  # the version of scripts that has all forms
Check = Callable[[str, list[str], int], Optional[str]]  # of a field, all fields after the word, and the version


# ---- the fields


def hexadecimal(what: str, field: str, digits: int) -> Optional[str]:
    """Why a field is not so many hexadecimal digits."""
    if re.match("0[xX]", field):
        return f"0x stands before {what}: the digits alone"
    if re.fullmatch("[0-9A-Fa-f]+[hH]", field):
        return f"an h stands after {what}: the digits alone"
    if re.fullmatch("[0-9A-Fa-f]+:[0-9A-Fa-f]+", field):
        return f"{what} is no hexadecimal number: a segment and an offset stand for the {digits} digits"
    if not re.fullmatch("[0-9A-Fa-f]+", field):
        mark = re.search("[^0-9A-Fa-f]", field)
        return f"{what} is no hexadecimal number: `{mark[0]}` stands in it" if mark else f"{what} is missing"
    if len(field) != digits:
        shorter = field.lstrip("0").rjust(digits, "0")
        same = f", as {shorter}" if len(shorter) == digits else ""  # where no digit is lost
        return f"{what} has {len(field)} digits and not {digits}{same}"
    return None


def decimal(what: str, field: str) -> Optional[str]:
    """Why a field is no decimal number."""
    if re.match("0[xX]", field):
        return f"0x stands before {what}, which is decimal: the digits alone"
    if re.fullmatch("0[0-9]+", field):
        return f"{what}, the decimal number {field}, has a leading zero"
    if re.fullmatch("[0-9]{10,}", field):
        return f"{what}, the decimal number {field}, has more than nine digits"
    if not re.fullmatch("[0-9]+", field):
        return f"{what}, {field}, is no decimal number: digits alone, with no sign, unit or mark between them"
    return None


def width(field: str, fields: list[str], version: int) -> Optional[str]:
    if field in DIGITS and field != "q":
        return None
    if field == "q":
        return None if version == 2 else "the width q is of version 2: begin with `board 2`"
    if re.fullmatch("(0[xX])?[0-9A-Fa-f]{3,}[hH]?", field):
        return "the width is missing before the address or the port: one of b, w and d"
    if field.lower() in DIGITS:
        return "words are written in lower-case letters: the width too"
    meant = OTHER_WIDTHS.get(field.lower())
    return f"the width is missing or none of b, w and d, or in version 2 and for memory q: `{field}` is none" \
        + (f", as {meant}" if meant else "")


def port_width(field: str, fields: list[str], version: int) -> Optional[str]:
    return "a port has no width q: cut the access" if field == "q" else width(field, fields, version)


def address(field: str, fields: list[str], version: int) -> Optional[str]:
    return hexadecimal("the address", field, 8)


def byte(field: str, fields: list[str], version: int) -> Optional[str]:
    return hexadecimal("the byte", field, DIGITS["b"])


def port(field: str, fields: list[str], version: int) -> Optional[str]:
    return hexadecimal("the port", field, 4)


def value(field: str, fields: list[str], version: int) -> Optional[str]:
    digits = DIGITS[fields[0]]
    wrong = hexadecimal("the value", field, digits)
    is_number = re.fullmatch("[0-9A-Fa-f]+", field) is not None
    other = next((width for width, count in DIGITS.items() if count == len(field)), None)
    if is_number and other and len(field.lstrip("0")) > digits:
        return f"{wrong}: the width is {fields[0]}, and {len(field)} digits are of {other}"
    return wrong


def kind(field: str, fields: list[str], version: int) -> Optional[str]:
    if field in ("f", "r", "w"):
        return None
    if field in ("b", "d", "q"):
        return f"a look has no width, and `{field}` is none of its kinds: a kind, f, r or w, stands before its address"
    if field.lower() in ("f", "r", "w"):
        return "words are written in lower-case letters: the kind too"
    return "a look has a kind, f, r or w, before its address"


def moment(field: str, fields: list[str], version: int) -> Optional[str]:
    form = "a moment is written YYYY-MM-DDTHH:MM:SS, with a T and with no zone or fraction"
    return None if MOMENT.fullmatch(field) else form


def number(what: str) -> Check:
    return lambda field, fields, version: decimal(what, field)


def name(field: str, fields: list[str], version: int) -> Optional[str]:
    if re.search(r"[/\\]", field):
        return "a path stands for the name: a name alone, of a file in the folder in which board is started"
    if re.search("[\"']", field):
        return "a quote stands round the name: the name alone"
    if len(field) > 64:
        return f"the name has {len(field)} characters, and a name has 1 to 64"
    if not NAME.fullmatch(field):
        return "a name has 1 to 64 letters, digits, `.`, `_` and `-`, and begins with a letter, a digit or `_`"
    return None


def card_kind(field: str, fields: list[str], version: int) -> Optional[str]:
    if field in ("vga", "plain"):
        return None
    if field.lower() in ("vga", "plain"):
        return "words are written in lower-case letters: vga and plain too"
    return f"a card is vga or plain, and not `{field}`"


def base(field: str, fields: list[str], version: int) -> Optional[str]:
    at = FIRST_OF_CARD + next(k for k, it in enumerate(fields[FIRST_OF_CARD:]) if it is field)
    if BASE.fullmatch(field):
        return None
    if re.fullmatch("x(0|[1-9][0-9]{0,8})", field):
        if version == 1:
            return "xK is of version 2: begin with `board 2`"
        if at == len(fields) - 1:
            return None
        more = ": a base stands after it" if BASE.fullmatch(fields[at + 1]) else ""
        return f"a card is vga or plain, with its bases, and one xK at the end alone{more}"
    form = "a card is vga or plain, with at most six bases, each mK or iK, and in version 2 one xK at the end"
    if re.fullmatch("[MIX][0-9]+", field):
        return "words are written in lower-case letters: m, i and x too"
    if re.fullmatch("[mix][0-9].*|[mix][-+].*", field):
        return f"{form}: {decimal('K', field[1:])}"
    return f"{form}: `{field}` is none of them" + (", as its letter is missing" if field.isdecimal() else "")


# ---- the lines


def number_of(text: str) -> int:
    """What a hexadecimal field says."""
    return int(text, 16)


@dataclass(frozen=True)
class Field:
    """A field of a line: what it is called, what is wrong with its text, and the number that a right one says."""

    what: str
    check: Check
    says: Callable[[str], int] = int


@dataclass(frozen=True)
class Form:
    """How a line of a kind is written: in words, as an example, and each of its fields."""

    text: str
    example: str
    fields: tuple[Field, ...] = ()
    is_smm: bool = False  # whether smm may stand at the end
    more: int = 0  # how many fields more there may be, of a card


PLACE = Field("its address", address, number_of)
WIDTH, PORT_WIDTH = Field("its width", width, WIDTHS.__getitem__), Field("its width", port_width, WIDTHS.__getitem__)
PORT, VALUE = Field("its port", port, number_of), Field("its value", value, number_of)
MOMENT_FIELD = Field("its moment", moment, lambda text: int(re.sub("[-T:]", "", text)))
DEVICE, LEVEL = Field("its device", number("the device")), Field("its level", number("the level"))
FORMS = {
    "board": Form("board 1, or board 2, as the first line alone", "board 1"),
    "cpus": Form("cpus N", "cpus 2", (Field("N", number("the number of processors")),)),
    "memory": Form("memory N", "memory 8", (Field("N", number("the number of MiB")),)),
    "rom": Form("rom NAME", "rom bios.bin", (Field("its name", name),)),
    "disk": Form("disk NAME", "disk boot.disk", (Field("its name", name),)),
    "card": Form("card D vga or card D plain, then mK and iK, in version 2 one xK at the end", "card 2 vga m20 i4",
                 (DEVICE, Field("vga or plain", card_kind)), more=MOST_BASES + 1),
    "phase": Form("phase", "phase"),
    "r": Form("A r W ADDR, or with smm at the end", "0 r b 000A0000", (WIDTH, PLACE), True),
    "f": Form("A f W ADDR, or with smm at the end", "0 f d FFFFFFF0", (WIDTH, PLACE), True),
    "w": Form("A w W ADDR VALUE, or with smm at the end", "0 w b 000A0000 77", (WIDTH, PLACE, VALUE), True),
    "in": Form("A in W PORT", "0 in b 0CFD", (PORT_WIDTH, PORT)),
    "out": Form("A out W PORT VALUE", "0 out d 0CF8 80000058", (PORT_WIDTH, PORT, VALUE)),
    "look": Form("A look K ADDR with K one of f, r, w, or with smm at the end", "0 look r 000C0000",
                 (Field("its kind", kind, KINDS.__getitem__), PLACE), True),
    "ack": Form("A ack", "0 ack"),
    "pulse": Form("A pulse N", "0 pulse 100", (Field("N", number("the number of pulses")),)),
    "moment": Form("A moment YYYY-MM-DDTHH:MM:SS", "0 moment 2024-02-29T12:00:00", (MOMENT_FIELD,)),
    "wire": Form("A wire D L", "0 wire 2 1", (DEVICE, LEVEL)),
    "irq": Form("A irq N L", "0 irq 5 1", (Field("its line", number("the line")), LEVEL)),
    "bad": Form("A bad N", "0 bad 17", (Field("its sector", number("the sector")),)),
}
SETUP = ("board", "cpus", "memory", "rom", "disk", "card", "phase")
STATEMENTS = tuple(word for word in FORMS if word not in SETUP)
RECEIVE = Form("receive BYTE", "receive 41", (Field("its byte", byte, number_of),))  # by COM1; no script has it


def wrong_fields(word: str, fields: list[str], version: int = NEWEST, form: Optional[Form] = None) -> Optional[str]:
    """What is wrong with the fields after a word, whose form is that of a script or another."""
    form = form or FORMS[word]
    given = fields[:-1] if has_smm(form, fields) else fields
    for k, field in enumerate(form.fields):
        if k == len(given):
            return f"a field of `{word}` is missing: {field.what}"
        wrong = field.check(given[k], given, version)
        if wrong:
            return wrong
    more = given[len(form.fields) :]
    if word == "card":
        return of_bases(given, more, version)
    return of_more(word, more) if more else None


def has_smm(form: Form, fields: list[str]) -> bool:
    return fields[-1:] == ["smm"] and form.is_smm


def numbers_of(form: Form, fields: list[str]) -> list[int]:
    """What right fields say."""
    return [field.says(text) for field, text in zip(form.fields, fields)]


def of_bases(fields: list[str], more: list[str], version: int) -> Optional[str]:
    for field in more:
        wrong = base(field, fields, version)
        if wrong:
            return wrong
    count = sum(it[0] in "mi" for it in more)
    if count > MOST_BASES:
        return f"a card is vga or plain, with at most six bases, and has {count} here"
    return None


def of_more(word: str, more: list[str]) -> str:
    """What is wrong with fields that stand after the last one."""
    if more[0].lower() == "smm":
        if word in ("in", "out"):
            return "smm stands at accesses to memory alone"
        if more[0] != "smm":
            return "words are written in lower-case letters: smm too"
        return "smm stands once, and at the end"
    if word in ("r", "f"):
        return f"`{word}` has a field too many, `{more[0]}`: a read ends with its address, or with smm"
    if word == "in":
        return f"`in` has a field too many, `{more[0]}`: what is read is not told, a log tells it"
    if word == "look":
        return f"`look` has a field too many, `{more[0]}`: a look has a kind, f, r or w, and no width"
    return f"`{word}` has a field too many: `{more[0]}`"


# ---- ranges


def range_of(what: str, given: str, first: int, last: int) -> Optional[str]:
    return None if first <= int(given) <= last else f"{what} is {given}, and goes from {first:,} to {last:,}"


OWN_LINES = {
    0: "the timer drives it",
    2: "the slave stands there",
    8: "the clock drives it",
    13: "no coprocessor is there",
    14: "the disk drives it",
}


def out_of_range(words: list[str]) -> Optional[str]:
    """Which number of a line of right form is out of its range."""
    if words[0] == "cpus":
        return range_of("the number of processors", words[1], 1, 8)
    if words[0] == "memory":
        return range_of("the number of MiB", words[1], 1, 64)
    if words[0] == "card":
        return card_out_of_range(words)
    word, fields = words[1], words[2:]
    if word == "pulse":
        return range_of("the number of pulses", fields[0], 1, 1_000_000)
    if word == "bad":
        return range_of("the sector", fields[0], 0, 65_535)
    if word == "wire":
        return range_of("the device", fields[0], 2, 9) or range_of("the level", fields[1], 0, 1)
    if word == "irq":
        return line_out_of_range(int(fields[0])) or range_of("the level", fields[1], 0, 1)
    return no_moment(fields[0]) if word == "moment" else None


def card_out_of_range(words: list[str]) -> Optional[str]:
    found = range_of("the device", words[1], 2, 9)
    for it in words[3:]:
        first, last = {"m": (4, 24), "i": (2, 8), "x": (11, 24)}[it[0]]
        found = found or range_of(f"K of {it}", it[1:], first, last)
    return found


def line_out_of_range(number: int) -> Optional[str]:
    if number in OWN_LINES:
        return f"line {number} is none that `irq` sets: {OWN_LINES[number]}"
    return f"line {number} is not there: the last is 15" if number > 15 else None


def no_moment(text: str) -> Optional[str]:
    year, month, day, hour, minute, second = map(int, re.split("[-T:]", text))
    if not 1980 <= year <= 2099:
        return f"the year is {year}, and goes from 1980 to 2099"
    found = range_of("the month", str(month), 1, 12)
    if found:
        return found
    last = (datetime.date(year + month // 12, month % 12 + 1, 1) - datetime.timedelta(1)).day
    if not 1 <= day <= last:
        return f"the day is {day}, and this month of {year} has {last}"
    return (range_of("the hour", str(hour), 0, 23) or range_of("the minute", str(minute), 0, 59)
            or range_of("the second", str(second), 0, 59))
