"""Why a log is refused: the line that was wanted beside the one found, and what the file is where it is no log."""
import pathlib
import re
from typing import Optional

from refusals.explain_denials import Script
from shared.board_texts import Entry, entry_of, reply_texts, text_of
from shared.tool_files import say
from traces.comparison import Comparison, Value

LONGEST_SHOWN = 200


def candidates(script: Script, log: list[str]) -> list[Entry]:
    """The right entries after these lines of a legal log: each processor's next statement of the phase that is on."""
    queues: dict[str, list[str]] = {}
    rest = iter(script.phases)
    done = []
    for line in log:
        while not any(queues.values()):
            queues = queues_of(next(rest))
        actor = line.split(" ", 2)[1].split(".")[0]
        done.append(queues[actor].pop(0))
    while not any(queues.values()):
        phase = next(rest, None)
        if phase is None:
            return []
        queues = queues_of(phase)
    return [script.replay([*done, queue[0]])[-1] for _, queue in sorted(queues.items()) if queue]


def queues_of(phase: list[str]) -> dict[str, list[str]]:
    """The statements of a phase by their processor."""
    queues: dict[str, list[str]] = {}
    for line in phase:
        queues.setdefault(line.split(" ")[0], []).append(line)
    return queues


def entry_text(entry: Entry) -> str:
    replies = " ".join(target if entry.statement.startswith("look ") else f"{target} {denial}"
                       for target, denial in entry.replies)
    return f"{entry.number} {entry.actor}.{entry.seq} {entry.statement} = {entry.value} {replies}"


# ---- what is wrong

NO_LOGS = [
    ("^board [12]$", "it is a script, and no log: `board replay SCRIPT` writes one"),
    ("^BOARDIMG", "it is an image that `board save` wrote, and no log"),
    ("^[0-9A-F]{8} [0-9A-F]{8} ", "it is a map that `board map` wrote, and no log"),
    ("^\x00|^.\x00|^\xff\xfe|^\xfe\xff", "the file is UTF-16: `iconv -f UTF-16 -t UTF-8` makes it plain"),
    ("^\xef\xbb\xbf", "a byte order mark stands before it: save the file without one"),
]


def cause_of(text: str, found: str, number: int, version: int) -> Optional[str]:
    """What the file is where it is no log of this script, or how its lines end otherwise."""
    if not text:
        return "the log is empty: it has 0 bytes"
    if number == 1:
        for pattern, what in NO_LOGS:
            if re.search(pattern, found):
                return what
        if re.fullmatch("access log [12]", found):
            return f"the script is of version {version}, and the log of another"
    if found.endswith("\r"):
        return "a carriage return stands at its end (CRLF): tr -d '\\r' takes all of them away"
    if "\x00" in found:
        return "a NUL stands in it, a byte 00"
    return None


def difference(log: list[str], wanted: Entry, found: Entry) -> list[str]:
    """Why a value in a log is another, by the table of differences."""
    if found.value == wanted.value or "-" in (found.value, wanted.value) or len(found.value) != len(wanted.value):
        return []
    comparison = Comparison(0, [])
    for line in log:
        entry = entry_of(line)
        if entry is not None:
            comparison.take(entry, None)
    it = comparison.take(wanted, Value(found.value, None, None))
    return [reason.text() for reason in it.reasons] if it else []


def wanted_lines(entry: Entry, found: str, log: list[str]) -> list[str]:
    text = entry_text(entry)
    lines = [f"  wanted: {text}" + (", with a line feed" if text == found else "")]
    if entry.statement.startswith("look "):
        return lines
    lines += [f"          {reply}" for reply in reply_texts(entry)]
    given = entry_of(found)
    if given and given.statement == entry.statement:
        lines += [f"          {text}" for text in difference(log, entry, given)]
    return lines


def explain_bad_log(script: Script, log: pathlib.Path, number: int, is_json: bool) -> None:
    text = text_of(log)
    lines = text.split("\n")
    found = lines[number - 1] if number <= len(lines) else ""
    is_end = number > len(lines) or number == len(lines) and found == ""
    shown = "the end of the file" if is_end else found.encode("unicode_escape").decode()[:LONGEST_SHOWN]
    texts = [f"{log}: line {number} is not that of a legal and complete history", f"  found:  {shown}"]
    cause = cause_of(text, found, number, script.version)
    texts += [f"  the cause: {cause}"] if cause else []
    wanted = [f"access log {script.version}"] if number == 1 else []
    if number == 1:
        texts += [f"  wanted: {wanted[0]}"]
    else:
        more, wanted = wanted_of(script, lines, number, found)
        texts += more
    item = {"item": "differs", "file": str(log), "line": number, "found": None if is_end else found, "cause": cause,
            "wanted": wanted}
    say(is_json, item, texts)


def wanted_of(script: Script, lines: list[str], number: int, found: str) -> tuple[list[str], list[str]]:
    """What is said of the wanted lines, and these."""
    wanted = candidates(script, lines[1 : number - 1])
    if not wanted:
        return ["  wanted: the end of the file: all statements are done"], []
    actor = (re.match(r"\d+ (\d)\.", found) or [None, None])[1]
    same = [entry for entry in wanted if str(entry.actor) == actor]
    texts = [text for entry in same or wanted for text in wanted_lines(entry, found, lines[1 : number - 1])]
    given = entry_of(found)
    if same and given and (given.actor, given.statement) != (same[0].actor, same[0].statement):
        texts += [f"  processor {actor} has another statement next"]
    return texts, [entry_text(entry) for entry in same or wanted]
