"""Finds the first statement of a script whose value a monitor gave otherwise than the board, and says why.

    tools/compare boot.script boot.values

VALUES has a line for each value, as tools/from-trace writes it: the number of the statement, the value and, where they
are known, `@` with the line of the trace and `? WHY` where the value is not compared. The script's ROM and disk lie
beside it, or in another folder that --images names. A script of more than 250,000 statements, as tools/from-trace
--whole writes it, is replayed by chunks.

Each difference is of one kind: by a datasheet, with its section; a choice of this board, with its heading in
docs/DECISIONS.md; the other by a datasheet, with the section; left open by one; not modelled here, as the identity of
a disk or a card that the script has not; the view of the tool that asked (--asked-by); or a date. The first two count:
of the first of them both values are said, what answered, the register that denied the access or that was read, and the
write that made it so; then the ten statements before it. With --all each difference has a line, and all count. At the
end the values are counted by what answered, and the differences by their kind. `tools/differences` prints the causes.

Exit status: 0 no difference that counts; 1 there is one; 2 the words are wrong, or there is nothing to compare: no
statement or no value; 3 the program refuses the script (tools/explain SCRIPT says why); 4 a file or the program cannot
be read or run, or VALUES has a broken line.
"""
import argparse
import pathlib
import sys

from causes.row import QTEST
from shared.board_texts import Board, Entry, end_with_reader, stop, text_of
from shared.tool_files import say
from traces.comparison import Comparison, Difference, installed_of, rom_of, values_of
from traces.differences import COUNTED, KINDS
from traces.long_replay import log_of

BEFORE = 10


def before_lines(entry: Entry, log: list[Entry]) -> list[str]:
    """The statements before an entry, as they stand in a log."""
    found = log[max(0, entry.number - 1 - BEFORE) : entry.number - 1]
    return [f"    {it.number} {it.line()} = {it.value} " + " ".join(" ".join(reply) for reply in it.replies)
            for it in found]


def show(differences: list[Difference], log: list[Entry], words: argparse.Namespace) -> None:
    """Says the first difference that counts at length, and with --all each in a line."""
    counted = [it for it in differences if it.kind in COUNTED]
    if words.json:
        for it in differences if words.all else counted[:1]:
            say(True, it.item(), [])
        return
    if counted:
        print("\n".join([*counted[0].texts(), "  before it:", *before_lines(counted[0].entry, log)]))
    if words.all:
        for it in differences:
            print(it.line())


def words_given() -> argparse.Namespace:
    about = argparse.ArgumentParser(description=__doc__, formatter_class=argparse.RawDescriptionHelpFormatter)
    about.add_argument("script", metavar="SCRIPT", type=pathlib.Path)
    about.add_argument("values", metavar="VALUES", type=pathlib.Path)
    about.add_argument("--all", action="store_true", help="a line for each difference, and all kinds count")
    about.add_argument("--except", action="append", default=[], dest="excepted", metavar="TARGET",
                       help="do not compare what a target that begins so answers")
    about.add_argument("--asked-by", choices=[QTEST], default="", dest="view",
                       help="how the other was asked: by QEMU's test protocol, as tools/ask-qemu does")
    about.add_argument("--json", action="store_true", help="a line of JSON for each item")
    Board.add_words(about)
    return about.parse_args()


def main() -> None:
    end_with_reader()
    words = words_given()
    values = values_of(words.values)
    if not values:
        stop(2, f"{words.values}: no value: looked for lines `STATEMENT VALUE`, as `158 1AF4 @180`")
    board = Board(words)
    log = log_of(board, words.script)
    if not log:
        stop(2, f"{words.script}: no statement: looked for lines `0 in b 0071` after `phase`")
    script = text_of(words.script)
    comparison = Comparison(installed_of(script), words.excepted, rom_of(script, board.folder), words.view)
    differences = list(comparison.walk(words.values, values, log))
    show(differences, log, words)
    say(words.json, comparison.count_item(), comparison.count_lines())
    counted = KINDS if words.all else COUNTED
    sys.exit(1 if any(comparison.kinds[kind] for kind in counted) else 0)
