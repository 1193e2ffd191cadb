"""Replays a script, as `board replay FILE` does, and writes its log. The ROM and the disk lie in the script's folder.

    python3 -m board440fx FILE
"""
import pathlib
import sys

from .errors import BoardError, LibraryError
from .script import Script, ScriptError


def main() -> None:
    if len(sys.argv) != 2:
        sys.exit("usage: python3 -m board440fx FILE")
    path = pathlib.Path(sys.argv[1])
    try:
        script = Script.parse(path.read_text(encoding="utf-8"))
        log = [f"access log {script.version}", *map(str, script.replay(path.parent))]
    except (OSError, LibraryError, BoardError, ScriptError) as fault:
        sys.exit(f"board440fx: {fault}")
    sys.stdout.write("".join(f"{line}\n" for line in log))


main()
