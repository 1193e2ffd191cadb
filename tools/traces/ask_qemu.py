"""Asks QEMU what its `pc` machine answers to a script, and writes a trace in the plain form.

    tools/ask-qemu examples/smram.script smram.plain
    tools/from-trace plain smram.plain smram.script smram.values --rom r64
    tools/compare smram.script smram.values --images examples

The script is asked as tools/adapters/qemu asks. QEMU runs no processor meanwhile: its test protocol reads and writes
ports and memory for it. So there is no SMM, no fetch and no acknowledge, and QEMU's time stands still. Statements that
ask for these, and looks, moments, lines and bad sectors, are left out and counted. QEMU has no card like those of a
script: each `card` line is said, and what reaches its registers, its bases or its window is left out, as `board replay`
tells it. Where the disk is busy it is waited for. The script's ROM and disk lie beside it, or in another folder that
--images names; the disk is not changed.

Exit status: 0 the trace is written; 2 the words are wrong, or no statement was asked; 3 QEMU does not start or stops
answering, its disk stays busy, or the program refuses the script; 4 a file or the program cannot be read or run, or the
trace cannot be written.
"""
import argparse
import collections
import pathlib
import re
from typing import Optional

from conformance.protocol import CANNOT
from conformance.qemu_link import Options
from conformance.qemu_machine import Machines
from conformance.scripts import Setup, reads
from conformance.serving import MonitorEnded
from shared.board_texts import Board, entries, stop, text_of
from shared.tool_files import refuse_overlaps, write_all

ASKED = ("in", "out", "r", "w")


def answered(program: str, setup: Setup, statements: list[str]) -> list[str]:
    """What QEMU answers to each of the statements."""
    try:
        return list(Machines(Options(program, is_fresh=True)).answers_of(setup, statements))
    except MonitorEnded as why:
        stop(3, str(why))


def told(line: str, answer: str) -> Optional[str]:
    """The line of the trace for a statement, or None where QEMU cannot do it."""
    if answer == CANNOT:
        return None
    return f"{line} = {answer}" if reads(line.partition(" ")[2]) else line


# ---- cards, which QEMU does not have


def card_statements(words: argparse.Namespace, cards: list[str]) -> dict[int, str]:
    """The statements that reach a card of the script, by their number, each with its card."""
    if not cards:
        return {}
    run = Board(words).run("replay", words.script)
    if run.returncode:
        stop(3, f"{words.script}: {run.stderr.strip() or run.returncode}; tools/explain {words.script} says more")
    found = {}
    for entry in entries(run.stdout):
        for target, denial in entry.replies:
            match = re.match(r"card:(\d)\.|config:0(\d)\.0", target) or re.match(r"(0)(\d)\.0\.", denial)
            number = match and next(it for it in reversed(match.groups()) if it)
            if number and int(number) >= 2:
                found[entry.number] = number
    return found


def words_given() -> argparse.Namespace:
    about = argparse.ArgumentParser(description=__doc__, formatter_class=argparse.RawDescriptionHelpFormatter)
    about.add_argument("script", metavar="SCRIPT", type=pathlib.Path)
    about.add_argument("trace", metavar="TRACE", type=pathlib.Path)
    about.add_argument("--qemu", default="qemu-system-i386", help="stands for qemu-system-i386")
    Board.add_words(about)
    return about.parse_args()


def setup_of(words: argparse.Namespace, setup: list[str]) -> Setup:
    """The machine of a script, without its cards."""
    folder, fields = words.images or words.script.parent, dict(line.split(" ", 1) for line in setup)
    disk = folder.resolve() / fields["disk"] if "disk" in fields else None
    return Setup(folder.resolve() / fields["rom"], int(fields["memory"]), disk)


def asked(
    words: argparse.Namespace, setup: list[str], statements: list[str]
) -> tuple[list[str], collections.Counter[str]]:
    """The lines of the trace, and what was left out."""
    of_card = card_statements(words, [line.split(" ")[1] for line in setup if line.startswith("card ")])
    left_out: collections.Counter[str] = collections.Counter()
    lines = []
    for number, line in enumerate(statements, 1):
        word = line.split(" ")[1]
        if number in of_card:
            left_out[f"accesses to card {of_card[number]}"] += 1
        elif word not in ASKED or line.endswith(" smm"):
            left_out[word + " in SMM" * line.endswith(" smm")] += 1
        else:
            lines.append(line)
    answers = answered(words.qemu, setup_of(words, setup), [line.partition(" ")[2] for line in lines])
    trace = [it for it in map(told, lines, answers) if it is not None]
    return trace, left_out


def main() -> None:
    words = words_given()
    lines = [line for line in text_of(words.script).splitlines() if line and not line.startswith("#")]
    if "phase" not in lines:
        stop(4, f"{words.script} has no statements; tools/explain says more")
    begin = lines.index("phase")
    setup, statements = lines[:begin], [line for line in lines[begin:] if line != "phase"]
    folder = words.images or words.script.parent
    images = {
        f"the script's {it[:4].strip()}": folder / it.split(" ")[1] for it in setup if it[:4] in ("rom ", "disk")
    }
    refuse_overlaps({"SCRIPT": words.script, **images}, {"TRACE": words.trace})
    if not statements:
        stop(2, f"{words.script}: no statement: looked for lines `0 in b 0071` after `phase`")
    trace, left_out = asked(words, setup, statements)
    said = "".join(f"; left out: {count} of {what}" for what, count in sorted(left_out.items()))
    if not trace:
        stop(2, f"{words.script}: no statement was asked{said}")
    write_all([(words.trace, "".join(f"{line}\n" for line in trace))])
    for line in setup:
        if line.startswith("card "):
            print(f"`{line}`: QEMU has no such card, and its accesses are left out")
    print(f"{len(trace)} statements")
    for word, count in sorted(left_out.items()):
        print(f"left out: {count} of {word}")
