"""Counts instructions by valgrind's callgrind."""
import re
import subprocess
import sys

COLLECTED = re.compile(rb"Collected : (\d+)")


def instructions(words: list[str], folder: str, within: str = "") -> int:
    """How many instructions a program takes with its words in a folder, or within one of its functions alone."""
    tool = ["valgrind", "--tool=callgrind", "--callgrind-out-file=/dev/null"]
    tool += [f"--toggle-collect={within}"] if within else []
    done = subprocess.run([*tool, *words], cwd=folder, stdout=subprocess.DEVNULL, stderr=subprocess.PIPE)
    counted = COLLECTED.search(done.stderr)
    if done.returncode != 0 or counted is None:
        sys.exit(f"{' '.join([*tool, *words])}: {done.stderr.decode(errors='replace')}")
    return int(counted[1])
