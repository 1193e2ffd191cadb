"""A line that explains what the program said when it refused its words or the files that they name."""
import os
import pathlib
import re
from typing import Optional

from refusals.command_files import files_of
from refusals.image_faults import of_board_image, of_file, of_image, other_board
from refusals.script_lines import REASONS
from refusals.script_reasons import cause_of, right_of
from refusals.wrong_words import ALONE, wrong_words

ROOT = pathlib.Path(__file__).resolve().parents[2]
LONGEST_SHOWN = 200


def explained(text: str, words: list[str]) -> Optional[str]:
    """What is behind the text that the program gave to these words, or None where no more can be said."""
    said = text.strip()
    files = {kind: pathlib.Path(file) for kind, file in files_of(words).items()}
    if said.startswith("usage: "):
        return wrong_words(words)
    bad = re.fullmatch(r"bad script: line (\d+): reason (\d+)", said)
    if "script" in files and bad is not None:
        return bad_script(files["script"], int(bad[1]), int(bad[2]))
    differs = re.fullmatch(r"differs: line (\d+)", said)
    if "log" in files and differs is not None:
        return bad_log(files["script"], files["log"], int(differs[1]))
    return of_files(said, files)


def of_files(said: str, files: dict[str, pathlib.Path]) -> Optional[str]:
    """What is wrong with a file of the words, or with one that their script names."""
    if said == "bad image: image" and "image" in files:
        return of_board_image(files["image"])
    script = files.get("script")
    if said == "other board" and "image" in files and script is not None:
        more = other_board(files["image"], lines_of(script) or [])
        return f"{files['image']} is the image of another board than that of {script}: {more}"
    file = files.get(said.rpartition(": ")[2])
    if file is not None:
        text = of_file(said, file)
        alone = f"; `{file}` stands alone: board {file}" if str(file) in ALONE else ""
        return text and text + alone
    named = of_image(said, lines_of(script) or [], pathlib.Path.cwd()) if script is not None else None
    return f"{script}: {named}" if named else None


def bad_script(file: pathlib.Path, number: int, reason: int) -> Optional[str]:
    """Which line of a script is refused, why, and what a right one looks like."""
    lines = lines_of(file)
    if lines is None or number > len(lines) + 1 or reason not in REASONS:
        return None
    line = "" if is_end(lines, number) else lines[number - 1]
    version = 2 if lines[0] == "board 2" else 1
    cause = cause_of(reason, line, lines[: number - 1], os.path.getsize(file)) or REASONS[reason]
    more = more_of(right_of(reason, line, version), file)
    return f"line {number} of {file} is {shown(lines, number)}: {cause}{more}"


def bad_log(script: pathlib.Path, log: pathlib.Path, number: int) -> Optional[str]:
    """Which line of a log is none of a legal and complete history, and who tells the right one."""
    lines = lines_of(log)
    if lines is None:
        return None
    return (f"line {number} of {log} is {shown(lines, number)}, which no legal and complete history of {script} has "
            f"there; {explain_tool()} {script} {log} tells the wanted line")


def is_end(lines: list[str], number: int) -> bool:
    """Whether a line of this number is the end of a file, which has these lines."""
    return number > len(lines) or number == len(lines) and lines[-1] == ""


def shown(lines: list[str], number: int) -> str:
    return "the end of the file" if is_end(lines, number) else f'"{printable(lines[number - 1])}"'


def more_of(right: list[str], file: pathlib.Path) -> str:
    """What is said of right lines: the one that is meant, or who tells all of them."""
    if len(right) > 1:
        return f"; {explain_tool()} {file} lists the right ones"
    return f"; a right line: {right[0]}" if right else ""


def explain_tool() -> str:
    """How tools/explain is called from here."""
    if not (ROOT / "crates.txt").exists():  # where ./board --install put it
        return "board-explain"
    tool = ROOT / "tools/explain"
    near = os.path.relpath(tool)
    return near if near.count("..") < 3 else str(tool)


def lines_of(file: pathlib.Path) -> Optional[list[str]]:
    """The lines of a file, or None where it is none that can be read again, as a pipe."""
    if not file.is_file():
        return None
    try:
        return file.read_bytes().decode("latin-1").split("\n")
    except OSError:
        return None


def printable(line: str) -> str:
    return line.encode("unicode_escape").decode()[:LONGEST_SHOWN]


def why_unread(file: str) -> str:
    """Why a file cannot be read."""
    try:
        with open(file, "rb") as it:
            it.read(1)
    except FileNotFoundError:
        return "is not there"
    except IsADirectoryError:
        return "is a folder"
    except OSError as fault:
        return f"cannot be read: {fault.strerror}"
    return "could not be read"
