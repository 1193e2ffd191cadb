"""What is wrong with a line of a script beside its fields: words, spaces and characters; and what a right one is."""
import difflib
import re
from typing import Callable, Optional

from shared.grammar import DIGITS, FORMS, SETUP, STATEMENTS, decimal, wrong_fields

REASONS = {
    1: "it is the first line, and neither `board 1` nor `board 2`",
    2: "it has more than 120 bytes; a comment counts too",
    3: "it has none of the forms of its version",
    4: "a setup line stands after the first `phase`, or a statement before it",
    5: "a setup line of its kind came before; of `card` one of the same device",
    6: "here a phase begins or the file ends, and `cpus`, `memory` or `rom` is missing",
    7: "a number is out of its range, or the calendar has no such moment: cpus 1 to 8, memory 1 to 64, card and wire 2 "
    "to 9, mK 4 to 24, iK 2 to 8, xK 11 to 24, pulse 1 to 1,000,000, irq 1, 3 to 7, 9 to 12 or 15, a level 0 or 1, "
    "bad 0 to 65,535, a year 1980 to 2099",
    8: "the address or the port is no multiple of the width, or a wide access passes FFFFFFFF; `board 2` lets memory "
    "be accessed anywhere, but not ports",
    9: "the processor is not below `cpus`, or `wire` names a device without a card",
    10: "with it there are more than 250,000 statements, 1,000 phases, 100,000,000 pulses, or 64 MiB behind bases",
}
MEANT = {
    "read": "r", "write": "w", "fetch": "f", "rd": "r", "wr": "w", "inb": "in b", "inw": "in w", "inl": "in d",
    "outb": "out b", "outw": "out w", "outl": "out d", "ind": "in d", "outd": "out d", "rb": "r b", "wb": "w b",
    "rw": "r w", "ww": "w w", "cpu": "cpus", "mem": "memory", "ram": "memory", "bios": "rom", "hda": "disk",
    "phases": "phase", "tick": "pulse", "pulses": "pulse", "time": "moment", "date": "moment", "int": "irq",
    "inta": "ack", "load": "r", "peek": "r", "store": "w", "poke": "w", "mov": "w",
}
TO_REGISTER = re.compile(r"mov +%?(e?[abcd]x|[abcd][lh]|e?[sd]i|e?[sb]p)\b", re.I)  # which reads what stands after it


def word_of(line: str) -> str:
    """The word that says what kind of line it is, as far as that can be seen."""
    words = line.split()
    first = words[0].lower() if words else ""
    return words[1].lower() if len(words) > 1 and re.match("[-+]?[0-9]", first) else first


def of_first(words: list[str]) -> Optional[str]:
    """What is wrong with the number of the processor, or with what stands for it."""
    first = words[0]
    if re.fullmatch("[0-9]+[:.)]", first):
        return f"`{first[-1]}` stands after the number of the processor: a space alone"
    if re.fullmatch("(cpu|p|#|cpu#)[0-9]+:?", first.lower()):
        return f"`{first}` stands for the processor: its number alone"
    if re.fullmatch("[-+]?[0-9][0-9A-Za-z_]*", first):
        return decimal("the processor", first)
    return None


def of_word(line: str, version: int) -> Optional[str]:
    """What is wrong with the words of a line whose spaces and characters are right."""
    words = line.split(" ")
    if words[0] in SETUP:
        if words[0] == "board":
            return "`board` stands in the first line alone, as `board 1` or `board 2`"
        return wrong_fields(words[0], words[1:], version)
    if words[0].lower() in FORMS and not words[0].isdecimal():
        if words[0] in STATEMENTS:
            return "the number of the processor is missing before the statement"
        if words[0].lower() in SETUP or len(words) > 1 and words[0].lower() in STATEMENTS:
            return "words are written in lower-case letters"
    wrong = of_first(words)
    if wrong or not re.fullmatch("[0-9]+", words[0]):
        return wrong or unknown(words[0], line)
    if len(words) == 1:
        return "a statement is missing after the number of the processor"
    if words[1] in SETUP:
        return f"`{words[1]}` is no statement, and has no number before it"
    if words[1] in FORMS:
        return wrong_fields(words[1], words[2:], version)
    if words[1].lower() in FORMS:
        return "words are written in lower-case letters"
    return unknown(words[1], line)


def unknown(word: str, line: str) -> str:
    meant = meant_by(word, line)
    return f"`{word[:40]}` is no word of a script" + (f": `{meant}`" if meant else "")


def meant_by(word: str, line: str) -> Optional[str]:
    """The word of a script, also with its width, that another stands for, as far as that can be seen."""
    if TO_REGISTER.search(line):
        return "r"
    return MEANT.get(word.lower()) or next(iter(difflib.get_close_matches(word.lower(), FORMS, 1, 0.75)), None)


# ---- the spaces and characters of a line


def of(pattern: str, text: str) -> Callable[[str], Optional[str]]:
    return lambda line: text if re.search(pattern, line) else None


CHARACTERS: list[Callable[[str], Optional[str]]] = [
    of("^\xff\xfe|^\xfe\xff",
       "the file is UTF-16, as its byte order mark says: `iconv -f UTF-16 -t UTF-8` makes it plain"),
    of("^\x00[ -~]|^[ -~]\x00", "the file is UTF-16: `iconv -f UTF-16LE -t UTF-8` or `-f UTF-16BE` makes it plain"),
    of("\x00", "a NUL stands in it, a byte 00: `tr -d '\\000'` takes all of them away"),
    of("^\xef\xbb\xbf", "a byte order mark stands before it: save the file without one"),
    of("\r.", "a carriage return stands in it, in place of a line feed: tr '\\r' '\\n' makes lines"),
    of("\r$", "a carriage return stands at its end (CRLF): tr -d '\\r' takes all of them away"),
    of("\t", "a tab stands in it: fields are separated by one space"),
    of("^ +$", "spaces stand alone in it: an empty line has none"),
    of("^ ", "a space stands at its head"),
    of(" $", "a space stands at its end"),
    of("[\x80-\xff]", "a character stands in it that is not ASCII, as a space that does not break"),
    of("[\x01-\x1f\x7f]", "a control character stands in it"),
    of("^(//|;|--|/\\*|%|'|REM |rem )", "a comment begins with #"),
    of(r".\s*(#|//|;)", "a comment stands on the line: it needs a line of its own, which begins with #"),
    of("  ", "two spaces stand together: fields are separated by one"),
    of(",", "a comma stands in it: fields are separated by one space, and digits stand together"),
    of("=", "an equals sign stands in it: fields are separated by one space, and a value is a field"),
]


def cause(line: str, version: int) -> Optional[str]:
    """What is wrong with a line that has no form of its version, or None."""
    return next((text for find in CHARACTERS if (text := find(line))), None) or of_word(line, version)


def right_lines(line: str, version: int) -> list[str]:
    """What right lines of its kind look like: the line itself with the word that is meant, where that alone was wrong;
    else the form of its kind, or of all kinds where it is of none."""
    word = word_of(line)
    meant = word if word in FORMS else meant_by(word, line)
    if meant is None:
        return [f"{form.text}, as: {form.example}" for form in FORMS.values()]
    own = with_word(line, word, meant)
    if meant != word and cause(own, version) is None:
        return [own]
    return [form_with_width(*meant.split(" "))]


def with_word(line: str, word: str, meant: str) -> str:
    """A line with the word that is meant in the place of its own."""
    own = re.sub(rf"(?<!\S){re.escape(word)}(?!\S)", meant, line, count=1, flags=re.I)
    return own if own[:1].isdecimal() or meant in SETUP else f"0 {own}"


def form_with_width(word: str, width: str = "") -> str:
    """The form of a word with an example of it, both with a width where one is known."""
    form = FORMS[word]
    if not width:
        return f"{form.text}, as: {form.example}"
    place = "0CF8" if word in ("in", "out") else "000A0000"
    number = " " + "58".rjust(DIGITS[width], "0") if word in ("out", "w") else ""
    return f"{form.text.replace(' W ', f' {width} ')}, as: 0 {word} {width} {place}{number}"
