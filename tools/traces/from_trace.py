"""Makes of what a monitor prints of its accesses a script for `board`, and beside it the values that the monitor gave.

    tools/from-trace qemu trace.txt boot.script boot.values --rom bios.bin
    tools/compare boot.script boot.values

FORM is qemu (its trace events), kvm (the kernel's tracepoints), bochs (its debugger's events) or plain (a form for all
other monitors). docs/FORMATS.md has each, and how such a trace is made. A name that ends in .gz is unpacked. A trace
begins at power-on.

Accesses that reach a device which the board does not have are left out, and counted by the device's name. Accesses to
ports are cut as the bus cuts them. Ticks of the timer, acknowledges and dates are put in as far as the trace tells
them. A value that hangs on what it does not tell is kept and marked as not compared. A ROM or a disk that is named with
its folder is copied beside the script.

A script ends at its 250,000 statements, which is said. With --whole it goes on: `board` refuses such a script, and
tools/compare replays it by chunks.

Exit status: 0 both files are written; 2 the words are wrong, or the trace has nothing to compare: no line that FORM
understands, no statement, or no value; 3 a line of the trace is broken: its number is said; 4 a file cannot be read or
written. But for 0 nothing is written.
"""
import argparse
import collections
import gzip
import pathlib
import shutil
import zlib

from shared.board_texts import stop
from shared.grammar import NAME
from shared.tool_files import refuse_overlaps, same, write_all
from traces.convert import REASONS, Converter, Full
from traces.lines import LOOKED_FOR, READERS, Broken, Event, events


def lines_of(trace: str) -> list[str]:
    try:
        data = pathlib.Path(trace).read_bytes()
        text = gzip.decompress(data) if trace.endswith(".gz") else data
    except (OSError, EOFError, zlib.error) as fault:
        stop(4, f"{trace}: {getattr(fault, 'strerror', None) or fault}")
    return text.decode("latin-1").split("\n")[: -1 if text.endswith(b"\n") else None]


def add_setup(about: argparse.ArgumentParser) -> None:
    """The words that say what the trace does not tell."""
    about.add_argument("--memory", type=int, default=8, metavar="N", help="the MiB installed, 1 to 64 (8)")
    about.add_argument("--rom", default="bios.bin", metavar="NAME", help="the BIOS ROM beside the script (bios.bin)")
    about.add_argument("--disk", metavar="NAME", help="the disk beside the script; without it the disk is left out")
    about.add_argument("--card", action="append", default=[], metavar="CARD", help="a card, as '2 vga m24 m12'")
    about.add_argument("--rows", action="store_true", help="begin with writes of the row boundaries for N MiB")


def check_setup(about: argparse.ArgumentParser, words: argparse.Namespace) -> None:
    if not 1 <= words.memory <= 64 or words.rows and words.memory % 8:
        about.error("--memory is 1 to 64, and with --rows a multiple of 8")
    if not all(card.split(" ")[0].isdecimal() for card in words.card):
        about.error("--card begins with the number of the card's device")


def words_given() -> argparse.Namespace:
    about = argparse.ArgumentParser(description=__doc__, formatter_class=argparse.RawDescriptionHelpFormatter)
    about.add_argument("form", metavar="FORM", choices=READERS, help="qemu, kvm, bochs or plain")
    about.add_argument("trace", metavar="TRACE", help="what the monitor printed")
    about.add_argument("script", metavar="SCRIPT", help="the script, which is written")
    about.add_argument("values", metavar="VALUES", help="the values that the monitor gave, which are written")
    add_setup(about)
    about.add_argument("--whole", action="store_true",
                       help="go on past the 250,000 statements that a script may have: tools/compare takes such a one")
    words = about.parse_args()
    check_setup(about, words)
    return words


# ---- the images, which lie beside the script


def place_image(what: str, given: str, script: pathlib.Path) -> tuple[str, list[tuple[pathlib.Path, pathlib.Path]]]:
    """The name that the script has for an image, and what is to be copied for it."""
    file, name = pathlib.Path(given), pathlib.Path(given).name
    if NAME.fullmatch(name) is None:
        stop(2, f"{what} {given}: a script takes a name of 1 to 64 letters, digits, `.`, `_` and `-`: rename the file")
    if given == name:
        return name, []
    if not file.is_file():
        stop(4, f"{what} {given}: there is no such file")
    beside = script.parent / name
    if not beside.exists():
        return name, [(file, beside)]
    if not same(file, beside) and beside.read_bytes() != file.read_bytes():
        stop(2, f"{what} {given}: a script names its files without folders, and {beside} is there with other bytes: "
                f"rename one of them, or write the script to another folder")
    return name, []


def place_images(words: argparse.Namespace) -> list[tuple[pathlib.Path, pathlib.Path]]:
    """Puts the bare names in the words, and gives what is to be copied."""
    script, copies = pathlib.Path(words.script), []
    files = {"TRACE": pathlib.Path(words.trace)}
    for what in ("rom", "disk"):
        given = getattr(words, what)
        if given:
            files[f"--{what}"] = pathlib.Path(given)
            name, more = place_image(f"--{what}", given, script)
            setattr(words, what, name)
            files[f"--{what} beside SCRIPT"] = script.parent / name
            copies += more
    refuse_overlaps(files, {"SCRIPT": script, "VALUES": pathlib.Path(words.values)})
    return copies


def write_beside(copies: list[tuple[pathlib.Path, pathlib.Path]], texts: list[tuple[pathlib.Path, str]]) -> None:
    """Copies the images and writes the texts, all of them or none."""
    beside, is_done = pathlib.Path(), False
    try:
        for file, beside in copies:
            shutil.copyfile(file, beside)
        write_all(texts)
        is_done = True
    except OSError as fault:
        stop(4, f"{beside}: {fault.strerror}: nothing is left of it")
    finally:
        for _, beside in copies if not is_done else []:
            beside.unlink(missing_ok=True)


# ---- the trace


def refuse_nothing(words: argparse.Namespace, trace: list[Event], converter: Converter) -> None:
    """Ends the tool with status 2 where there is nothing to compare: a comparison of nothing would be green."""
    looked = f"looked for {LOOKED_FOR[words.form]}"
    left_out = "".join(f"; left out: {line}" for line in converter.left_out_lines()[:5])
    if not any(event.word != "function" for event in trace):
        stop(2, f"{words.trace}: no line was understood as {words.form}: {looked}")
    if not converter.statements:
        stop(2, f"{words.trace}: no statement: no access reaches a device of the board{left_out}")
    if not converter.values:
        what = "no value: no line tells what a read or an acknowledge of the board gave"
        stop(2, f"{words.trace}: {what}: {looked}{left_out}")


def converted(words: argparse.Namespace) -> tuple[list[Event], Converter, str]:
    """The events of the trace, what was made of them, and what is to be said where the script is full."""
    try:
        trace = list(events(words.form, lines_of(words.trace)))
        converter = Converter(words, trace, is_whole=words.whole)
        for event in trace:
            try:
                converter.take(event)
            except Full as why:
                return trace, converter, f"the script ends before line {event.line} of the trace: {why}"
    except Broken as why:
        stop(3, f"{words.trace}: {why}")
    return trace, converter, ""


def main() -> None:
    words = words_given()
    copies = place_images(words)
    trace, converter, end = converted(words)
    refuse_nothing(words, trace, converter)
    texts = [(words.script, converter.script()), (words.values, converter.values_text())]
    write_beside(copies, [(pathlib.Path(name), text) for name, text in texts])
    for file, beside in copies:
        print(f"copied: {file} to {beside}")
    marked = collections.Counter(it.why for it in converter.values if it.why)
    print(f"{len(converter.statements)} statements, {len(converter.values)} values")
    for why, count in marked.most_common():
        print(f"not compared: {count}, {why}: {REASONS[why]}")
    for line in converter.left_out_lines():
        print(f"left out: {line}")
    if end:
        print(end)
