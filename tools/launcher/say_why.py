"""Says in a line more why the program refused its words: it asks once more, and looks at the files that they name.

    tools/launch say-why PROGRAM WORDS

Nothing is said where no more can be said, as of a script that came through a pipe or as /dev/stdin, or where a file was
changed meanwhile. The exit status says nothing.
"""
import os
import subprocess

from launcher.board_says import say
from refusals.command_files import files_of
from refusals.refusal import explained

SECONDS = 10


def can_be_read_again(file: str) -> bool:
    is_passing = os.path.exists(file) and not os.path.isfile(file) and not os.path.isdir(file)
    return not file.startswith(("/dev/", "/proc/")) and not is_passing


def main(asked: list[str]) -> int:
    program, *words = asked
    if not all(map(can_be_read_again, files_of(words).values())):
        return 0
    try:
        run = subprocess.run([program, *words], stdin=subprocess.DEVNULL, stdout=subprocess.DEVNULL,
                             stderr=subprocess.PIPE, timeout=SECONDS)
        text = explained(run.stderr.decode("utf-8", "replace"), words)
    except (OSError, subprocess.SubprocessError, LookupError, ValueError):  # the files are not what they were
        return 0
    if text is not None:
        say(text)
    return 0
