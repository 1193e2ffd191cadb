"""Writes a page that shows a script's log to a browser: the statements with their replies, and at each of them the flat
map, the registers by their fields, and the interrupt lines.

    tools/show SCRIPT > page.html          of the script's replay
    tools/show SCRIPT LOG > page.html      of a log of `run` or of a monitor, which `board check` calls legal
    tools/show SCRIPT --beside VALUES > page.html
                                           with the values of another monitor, as tools/from-trace writes them

The page is one file and needs no network. The script's ROM and disk lie beside it, or in another folder that --images
names. docs/SHOW.md says how the page is used.

Exit status: 0 the page is written; 1 the log is not one of the script; 2 the words are wrong; 3 the program refuses the
script (tools/explain SCRIPT [LOG] says why in both cases); 4 a file or the program cannot be read or run.
"""
import argparse
import pathlib
import re

from pages.asked import Asker
from pages.beside import beside
from pages.maps import blame_lines, blamed_maps
from pages.page import Asked, page
from pages.registers import walk
from shared.board_texts import Board, end_with_reader, entries, stop, text_of
from traces.comparison import rom_of


def words_given() -> argparse.Namespace:
    about = argparse.ArgumentParser(description=__doc__, formatter_class=argparse.RawDescriptionHelpFormatter)
    about.add_argument("script", metavar="SCRIPT", type=pathlib.Path)
    about.add_argument("log", metavar="LOG", type=pathlib.Path, nargs="?")
    others = "values of another monitor, beside the log's"
    about.add_argument("--beside", metavar="VALUES", type=pathlib.Path, help=others)
    excepted = "do not compare what a target that begins so answers"
    about.add_argument("--except", action="append", default=[], dest="excepted", metavar="TARGET", help=excepted)
    Board.add_words(about)
    return about.parse_args()


def log_of(board: Board, words: argparse.Namespace) -> str:
    """The log that is shown: the one given, where it is legal, or that of the replay."""
    if words.log is None:
        run = board.run("replay", words.script)
    else:
        run = board.run("check", words.script, words.log)
        if re.match("differs", run.stderr):
            stop(1, f"{words.log}: {run.stderr.strip()}; tools/explain {words.script} {words.log} says more")
    if run.returncode:
        stop(3, f"{words.script}: {run.stderr.strip() or run.returncode}; tools/explain {words.script} says more")
    return run.stdout if words.log is None else text_of(words.log)


def blamed(asker: Asker, statements: list[str]) -> list[str]:
    """What `board blame` says of the map at the end, without its versions."""
    lines = (line.split(" ") for line in asker.command("blame", statements) if not line.startswith("keep "))
    return [" ".join([*words[:8], words[9]]) for words in lines]


def main() -> None:
    end_with_reader()
    words = words_given()
    board = Board(words)
    text = log_of(board, words)
    log = list(entries(text))
    asker = Asker(board, text_of(words.script))
    script = text_of(words.script)
    rom = rom_of(script, board.folder)
    other = beside(words.beside, script, log, words.excepted, rom) if words.beside else None
    walked = walk(asker, log)
    maps = blamed_maps(asker, walked)
    if blame_lines(maps[-1]) != blamed(asker, [entry.line() for entry in log]):
        stop(4, "the looks and `board blame` say two maps; this is a fault of tools/show")
    print(page(words.script.name, text, Asked(asker, log, walked, maps), other), end="")
