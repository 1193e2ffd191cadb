"""Files and texts that the tools write: none is left half-written, none that is read is written over."""
import json
import os
import pathlib
import sys
import tempfile
from typing import Callable, Iterable

from shared.board_texts import stop


def same(first: pathlib.Path, second: pathlib.Path) -> bool:
    """Whether two paths name one file. A device or a pipe may be named twice."""
    try:
        if first.exists() and second.exists():
            return os.path.samefile(first, second) and first.is_file()
        return first.resolve() == second.resolve()
    except OSError:
        return False


def refuse_overlaps(read: dict[str, pathlib.Path], written: dict[str, pathlib.Path]) -> None:
    """Ends the tool with status 2 where a file that it would write is read too, or written twice."""
    names = list(written.items())
    others = [*read.items(), *names]
    for k, (what, file) in enumerate(names):
        for of, other in others[: len(read) + k]:
            if same(file, other):
                stop(2, f"{what} and {of} are one file, {file}: nothing is written; give {what} another name")


def write_all(texts: list[tuple[pathlib.Path, str]]) -> None:
    """Writes texts, all of them or none: each under another name beside its own, and then they take their names."""
    made: list[tuple[str, pathlib.Path]] = []
    file = pathlib.Path()
    try:
        for file, text in texts:
            if file.exists() and not file.is_file():  # a device or a pipe
                file.write_text(text, "ascii", "replace")
                continue
            place = file.resolve()
            number, name = tempfile.mkstemp(dir=place.parent, prefix=f".{place.name}.")
            made.append((name, place))
            with open(number, "w", encoding="ascii", errors="replace") as it:
                it.write(text)
            os.chmod(name, 0o666 & ~umask())
        while made:
            name, file = made[0]
            os.replace(name, file)
            made.pop(0)
    except OSError as fault:
        stop(4, f"{file}: {fault.strerror}: nothing is left of it")
    finally:
        for name, _ in made:
            pathlib.Path(name).unlink(missing_ok=True)


def umask() -> int:
    mask = os.umask(0)
    os.umask(mask)
    return mask


def run_tool(main: Callable[[], None]) -> None:
    """Runs a tool to its end. Where standard output does not take what it says, that is status 4 and one line."""
    try:
        try:
            main()
        finally:
            sys.stdout.flush()
    except OSError as fault:
        os.dup2(os.open(os.devnull, os.O_WRONLY), 1)  # what is left is not tried again at the end
        stop(4, f"standard output: {fault.strerror}")


def say(is_json: bool, item: dict, lines: Iterable[str]) -> None:
    """Says an item: as one line of JSON, or in lines for people."""
    if is_json:
        print(json.dumps(item))
    else:
        for line in lines:
            print(line)
