"""Explains what `board` says of a script, of a log, and of denied accesses.

    tools/explain SCRIPT        of a script that is refused: the line, its reason, the cause and right lines; of its ROM
                                or disk what is wrong with them; of a good one each denial: the register by name, its
                                value and who wrote it
    tools/explain SCRIPT LOG    of a log that `board check` refuses: the line that was wanted beside the one found;
                                of a legal one its denials
    tools/explain SCRIPT --image IMAGE
                                the same of `board resume IMAGE SCRIPT`
    tools/explain SCRIPT --said TEXT
                                of the line that the program wrote on standard error, without running it

The script's ROM and disk lie beside it, or in another folder that --images names. Denials by one register that was
written by the same statement are told once and counted.

Exit status: 0 the script is good and LOG, where it is given, legal; 1 one of them is not; 2 the words are wrong;
3 the program ends with another status, which is explained; 4 a file or the program cannot be read or run. With --said
it is 0 where the text was explained, and 2 where the program has no such text.
"""
import argparse
import pathlib
import re
import sys

from refusals.explain_denials import Script, explain_denials
from refusals.explain_log import explain_bad_log
from refusals.image_faults import of_board_image, of_file, of_image, other_board
from refusals.script_lines import REASONS
from refusals.script_reasons import cause_of, right_of
from shared.board_texts import Board, end_with_reader, stop
from shared.tool_files import say

LONGEST_SHOWN = 200
ORDER = "the order: board 1, then cpus, memory, rom, disk and cards, then phase, then statements"


def shown(line: str) -> str:
    return line.encode("unicode_escape").decode()[:LONGEST_SHOWN]


# ---- a script that is refused


def explain_bad_script(script: Script, number: int, reason: int, is_json: bool) -> None:
    lines = script.lines
    at_end = number > len(lines) or number == len(lines) and lines[-1] == ""
    line = "" if at_end else lines[number - 1]
    cause = cause_of(reason, line, lines[: number - 1], script.size)
    right = right_of(reason, line, script.version)
    texts = [f"{script.file}: line {number} has reason {reason}: {REASONS[reason]}"]
    texts += ["  the end of the file" if at_end else f"  {number} | {shown(line)}"]
    texts += [f"  the cause: {cause}" if cause else "  none of the usual causes"]
    texts += [f"  {ORDER}"] if reason == 4 else []
    texts += [f"  a right line: {it}" for it in right]
    item = {"item": "refused", "file": str(script.file), "line": number, "reason": reason, "means": REASONS[reason],
            "text": None if at_end else line, "cause": cause, "right": right}
    say(is_json, item, texts)


# ---- other statuses

PLAIN = {
    "no memory": "the system refused memory: a board asks for what `memory`, its cards, its ROM and its disk say; "
    "`ulimit -v` or a limit of the container may be lower",
    "write fault": "standard output did not take the text: its disk is full, or the reader of the pipe has gone",
}


def text_of_said(said: str, script: Script, words: argparse.Namespace) -> str:
    """The cause of what the program said, or nothing where it says no such thing."""
    if said.startswith("usage: "):
        return "the words are no command of board: `board --help` lists them, and each has all its words"
    if said in PLAIN:
        return PLAIN[said]
    if said == "bad image: image":
        return of_board_image(words.image) if words.image else "the image is not what `board save` writes of any board"
    if said == "other board":
        more = other_board(words.image, script.lines) if words.image else ""
        text = "memory, cards or the presence of a disk differ between the image and the script"
        return text + (f": {more}" if more else "")
    files = {"script": script.file, "log": words.log, "image": words.image, "input": None}
    which = said.rpartition(": ")[2]
    return of_image(said, script.lines, script.folder) or of_file(said, files.get(which)) or ""


def explain_status(said: str, status: int, script: Script, words: argparse.Namespace) -> None:
    text = text_of_said(said, script, words)
    item = {"item": "status", "file": str(script.file), "status": status, "said": said, "cause": text or None}
    head = f"{script.file}: {said or f'the program ended with {status}'}"
    say(words.json, item, [head, f"  the cause: {text}"] if text else [head])


def explain_said(script: Script, words: argparse.Namespace) -> None:
    """Explains a text of the program without running it."""
    said = words.said.strip()
    bad = re.fullmatch(r"bad script: line (\d+): reason (\d+)", said)
    differs = re.fullmatch(r"differs: line (\d+)", said)
    if bad and int(bad[2]) in REASONS:
        explain_bad_script(script, int(bad[1]), int(bad[2]), words.json)
    elif differs and words.log:
        explain_bad_log(script, words.log, int(differs[1]), words.json)
    elif text_of_said(said, script, words):
        explain_status(said, 0, script, words)
    else:
        stop(2, f"the program has no text `{said}`")


def words_given() -> argparse.Namespace:
    about = argparse.ArgumentParser(description=__doc__, formatter_class=argparse.RawDescriptionHelpFormatter)
    about.add_argument("script", metavar="SCRIPT", type=pathlib.Path)
    about.add_argument("log", metavar="LOG", type=pathlib.Path, nargs="?")
    about.add_argument("--image", metavar="IMAGE", type=pathlib.Path, help="of `board resume IMAGE SCRIPT`")
    about.add_argument("--said", metavar="TEXT", help="what the program wrote on standard error")
    about.add_argument("--json", action="store_true", help="a line of JSON for each item")
    Board.add_words(about)
    return about.parse_args()


def explain(script: Script, board: Board, words: argparse.Namespace) -> int:
    run = board.run("replay", script.file)
    if not run.returncode and words.image:
        run = board.run("resume", words.image, script.file)
    if not run.returncode and words.log:
        run = board.run("check", script.file, words.log)
    said = run.stderr.strip().partition("\n")[0]
    bad = re.fullmatch(r"bad script: line (\d+): reason (\d+)", said)
    differs = re.fullmatch(r"differs: line (\d+)", said)
    if bad:
        explain_bad_script(script, int(bad[1]), int(bad[2]), words.json)
        return 1
    if differs:
        explain_bad_log(script, words.log, int(differs[1]), words.json)
        return 1
    if run.returncode:
        explain_status(said, run.returncode, script, words)
        return 3
    explain_denials(script, words.log, words.json)
    return 0


def main() -> None:
    end_with_reader()
    words = words_given()
    board = Board(words)
    script = Script(words.script, board)
    for file in (words.log, words.image):
        if file is not None and not file.is_file():
            stop(4, str(of_file("read fault: " + ("log" if file == words.log else "image"), file)))
    if words.said is not None:
        explain_said(script, words)
    else:
        sys.exit(explain(script, board, words))
