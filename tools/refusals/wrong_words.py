"""What is wrong with words that are no command of `board`: which word, and what it may be."""
import difflib
import os
import re
from typing import Callable, Optional

from shared.grammar import decimal, hexadecimal

MOST_ROUNDS, LAST_SECTOR, MOST_SECTORS = 20_000, 65_535, 256
TABLE_DIGITS, TABLE_ALIGNMENT = 8, 4
LONGEST_SHOWN = 60
Check = Callable[[str], Optional[str]]  # what is wrong with a word, or None


def shown(word: str) -> str:
    """A word as it may stand in a line: bytes that are not UTF-8, and control characters, as `\\xff`."""
    text = os.fsencode(word).decode("utf-8", "backslashreplace")
    return re.sub("[\x00-\x1f\x7f]", lambda it: f"\\x{ord(it[0]):02x}", text)[:LONGEST_SHOWN]


# ---- the words of each command


def any_file(word: str) -> Optional[str]:
    return None


def number(what: str, first: int, last: int) -> Check:
    """A decimal number that goes from one to another."""

    def check(word: str) -> Optional[str]:
        wrong = decimal(what, shown(word))
        if wrong or first <= int(word) <= last:
            return wrong
        return f"{what} is {word}, and goes from {first:,} to {last:,}"

    return check


def direction(word: str) -> Optional[str]:
    return None if word in ("in", "out") else f"`{shown(word)}` is neither in, from the disk to memory, nor out"


def table(word: str) -> Optional[str]:
    wrong = hexadecimal("the address of the table", shown(word), TABLE_DIGITS)
    if wrong or int(word, 16) % TABLE_ALIGNMENT == 0:
        return wrong
    return f"the address of the table, {word}, is no multiple of {TABLE_ALIGNMENT}"


FILE = ("FILE", any_file)
FORMS: dict[str, list[tuple[str, Check]]] = {
    "replay": [FILE],
    "run": [FILE],
    "map": [FILE],
    "check": [FILE, ("LOG", any_file)],
    "make": [("N", number("the number of rounds", 1, MOST_ROUNDS))],
    "dma": [FILE, ("in|out", direction), ("TABLE", table), ("LBA", number("the first sector", 0, LAST_SECTOR)),
            ("COUNT", number("the number of sectors", 1, MOST_SECTORS))],
    "save": [FILE],
    "resume": [("IMAGE", any_file), FILE],
    "serial": [FILE, ("INPUT", any_file)],
    "blame": [FILE],
}
# Words that stand alone, and those of ./board itself, which it does not hand on.
ALONE = ("--help", "--version")
OF_LAUNCHER = ("--prove", "--try", "--library", "--install", "--uninstall", "--pack", "--packed")
MEANT = {"-h": "--help", "help": "--help", "-?": "--help", "usage": "--help", "-v": "--version", "-V": "--version",
         "version": "--version", "load": "resume", "restore": "resume", "diff": "check", "verify": "check",
         "play": "replay", "uart": "serial"}


def form_of(command: str) -> str:
    return " ".join(["board", command, *(name for name, _ in FORMS[command])])


def wrong_words(words: list[str]) -> Optional[str]:
    """Which of these words is wrong and what it may be, or None where they are a command."""
    if not words:
        return f"no command was given: {commands()}"
    if words[0] in ALONE:
        return f"`{shown(words[1])}` is a word too many: {words[0]} stands alone" if len(words) > 1 else None
    not_text = next((word for word in words if not is_text(word)), None)
    if not_text is not None:
        return f"the word `{shown(not_text)}` is not UTF-8: give the file a name that is"
    return of_command(words[0], words[1:]) if words[0] in FORMS else unknown(words[0])


def of_command(command: str, given: list[str]) -> Optional[str]:
    form = FORMS[command]
    for (_, check), word in zip(form, given):
        wrong = check(word)
        if wrong:
            return f"{wrong}: {form_of(command)}"
    if len(given) < len(form):
        return f"{form[len(given)][0]} is missing after `{shown(' '.join([command, *given]))}`: {form_of(command)}"
    if len(given) > len(form):
        return f"`{shown(given[len(form)])}` is a word too many: {form_of(command)}"
    return None


def unknown(word: str) -> str:
    """What is said of a first word that is no command."""
    near = difflib.get_close_matches(word.lower(), [*FORMS, *ALONE, *OF_LAUNCHER], 1, 0.7)
    meant = MEANT.get(word) or (near[0] if near else None)
    return f"`{shown(word)}` is no command: " + (f"is `{meant}` meant?" if meant else commands())


def commands() -> str:
    return f"one of {', '.join(FORMS)}; board --help tells what each does"


def is_text(word: str) -> bool:
    """Whether a word is UTF-8: Python puts other bytes of the command line in as surrogates."""
    return not re.search("[\udc80-\udcff]", word)
