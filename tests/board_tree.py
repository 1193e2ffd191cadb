"""A small tree in which tests/board-script tries ./board: the script and its tools over six crates, and a program `rt`
that proves nothing but notes what is asked of it."""
import os
import pathlib
import shutil
import signal
import subprocess
import sys
import time
from typing import Any, Optional

ROOT = pathlib.Path(__file__).resolve().parent.parent
sys.path.insert(0, str(ROOT / "tools"))
from launcher.crate_sources import Crates
from launcher.release_files import Member, write_archive, write_sources
from launcher.release_layout import layout

CRATES = ("base: arrayvec\nleft may_wait=1: base\nright: base\naside: base\nboard_app: left right\n"
          "board_c staticlib: left\n")

# `lib` and `check` take what the file `seconds` says where something changed, over the libraries of the crates below. A
# crate with the word `wrong` in its sources is not proved. `run` links the program below, `lib` of board_c a library.
RT = r"""#!/usr/bin/env python3
import os, pathlib, shutil, subprocess, sys, time
app = pathlib.Path.cwd()
room = pathlib.Path(__file__).parent.parent
top = room / "a tree"
with open(top / "asked", "a") as it:
    it.write(" ".join(sys.argv[1:]) + "\n")
def text(folder):
    return "".join(it.read_text() for it in sorted((folder / "src").iterdir()))
def is_proved(folder):
    stamp = folder / "out/rlib/stamp"
    return stamp.exists() and stamp.read_text() == text(folder)
def below(name):
    lines = [line.split(":") for line in (app.parent.parent / "crates.txt").read_text().splitlines() if ":" in line]
    known = {line[0].split()[0]: line[1].split() for line in lines}
    return [it for it in known[name] if it in known]
def prove():
    if not all(is_proved(app.parent / it) for it in below(app.name)):
        print("no library of a crate below")
        return 1
    if not is_proved(app):
        child = subprocess.Popen(["sleep", (top / "seconds").read_text()])
        child.wait()
        while (top / f"held-{app.name}").exists():
            time.sleep(0.02)
        if "wrong" in text(app):
            print(f"{app.name} has a hole")
            return 1
        (app / "out/rlib").mkdir(parents=True, exist_ok=True)
        (app / "out/rlib/stamp").write_text(text(app))
        print(f"{app.name} logic=proved")
    return archive() if app.name == "board_c" else 0
def archive():
    (app / "out/c.c").write_text("int board_version(void) { return 2; }\n")
    subprocess.run(["cc", "-fPIC", "-c", "c.c", "-o", "c.o"], cwd=app / "out", check=True)
    return subprocess.run(["ar", "crs", "libboard_c.a", "c.o"], cwd=app / "out").returncode
def link():
    if "loose" in text(app):
        print("the linker failed")
        return 2
    shutil.copy(room / "program", app / "out/board_app")
    return 0
def attempt():
    if "stuck" in " ".join(sys.argv) or "19999" in sys.argv:
        print("run=none proved=no", file=sys.stderr)
        return 2
    data = dict(word.split("=", 1) for word in sys.argv if "=" in word)
    print(*sys.argv[sys.argv.index("--") + 1:])
    if "--cases" in sys.argv:
        for case in sorted(pathlib.Path(sys.argv[sys.argv.index("--cases") + 1]).iterdir()):
            print(f"== {case.name}")
    for name in sorted(data):
        print(name, pathlib.Path(data[name]).read_text().split("\n")[0])
    print("bad script: line 1: reason 1\nchecked: ended status=5", file=sys.stderr)
    print("run=ended status=5 runners=1 races=unchecked proved=no", file=sys.stderr)
    return 5
does = {"lib": prove, "check": prove, "run": link, "try": attempt, "version": lambda: print("kit"),
        "doc": lambda: print(room / "kit/START.md")}
sys.exit(does[sys.argv[1]]())
"""

# It tells its words, its folder, what it asks of the C library, its open files and the signals that it ignores; says
# what the file `said` has, and ends with the status that stands in `status`.
PROGRAM = r"""#!/bin/sh
case $* in
--help) printf 'board: a chipset\n\nusage: board replay FILE\n\n  replay FILE     does it\n' && exit 0 ;;
--version) echo 'board 0.1' && exit 0 ;;
esac
echo "words: $*"
pwd
echo "$GLIBC_TUNABLES"
ls /proc/self/fd | wc -l
grep SigIgn /proc/$$/status
[ ! -e said ] || cat said >&2
[ ! -e wait ] || { echo >began; sleep 30; }
exit "$(cat status)"
"""


# What is asked of the C library for each script, and for one that is long.
ASKED = ["glibc.malloc.hugetlb=1", "glibc.malloc.mmap_threshold=1048576"]
ASKED_FOR_LONG = ["glibc.malloc.top_pad=33554432"]
MOST_BYTES_SHORT = 1 << 20

# What ./board --pack makes of that program and of a library.
RELEASE = layout(ROOT, PROGRAM.encode(), {
    "include/board.h": Member((ROOT / "include/board.h").read_bytes()),
    "lib/libboard.a": Member(b"static\n"),
    "lib/libboard.so.8": Member(b"shared\n", is_run=True),
    "lib/libboard.so": Member(link="libboard.so.8"),
    "lib/pkgconfig/board.pc": Member(b"Name: board\n"),
})


class Tree:
    """A copy of the script and its tools over six small crates, of which `aside` is nobody's."""

    def __init__(self, room):
        self.room = pathlib.Path(room)
        self.top = self.room / "a tree"
        for line in CRATES.splitlines():
            for part in ("src", "specs"):
                folder = self.top / "crates" / line.replace(":", " ").split(" ")[0] / part
                folder.mkdir(parents=True)
                (folder / "a file").write_text(part + "\n")
        (self.top / "crates.txt").write_text("# The crates.\n" + CRATES)
        shutil.copy(ROOT / "board", self.top / "board")
        for name in ("tools", "include"):
            shutil.copytree(ROOT / name, self.top / name, ignore=shutil.ignore_patterns("__pycache__"))
        for name in ("bin", "kit/c", "elsewhere", "home"):
            (self.room / name).mkdir(parents=True)
        self.command("rt", RT)
        self.write(self.room / "program", PROGRAM)
        self.status(3)
        self.seconds(0)
        self.shell = None
        self.tunables = ""
        os.chmod(self.room, 0o755)

    @staticmethod
    def write(file, text):
        file.write_text(text)
        file.chmod(0o755)

    def command(self, name, text):
        """Puts a command before those of the system."""
        self.write(self.room / "bin" / name, text if text.startswith("#!") else f"#!/bin/sh\n{text}\n")

    def status(self, number):
        """With what the program ends."""
        (self.room / "elsewhere/status").write_text(str(number))

    def kit_part(self):
        """Makes the small C part that the kit has, whose object has the name of the library's."""
        part = self.room / "kit/c"
        (part / "c.c").write_text("int heap(void) { return 1; }\n")
        subprocess.run(["cc", "-fPIC", "-c", "c.c"], cwd=part, check=True)
        subprocess.run(["ar", "crs", "liblibc_c.a", "c.o"], cwd=part, check=True)

    def seconds(self, each):
        """How long the proof of a crate takes."""
        (self.top / "seconds").write_text(str(each))

    def hold(self, *crates):
        """Lets the proofs of crates not end before they are released."""
        for name in crates:
            (self.top / f"held-{name}").touch()

    def release(self, *crates):
        for name in crates:
            (self.top / f"held-{name}").unlink()

    def environment(self):
        return {**os.environ, "PATH": f"{self.room}/bin:{os.environ['PATH']}", "GLIBC_TUNABLES": self.tunables,
                "HOME": str(self.room / "home"), "XDG_CACHE_HOME": "", "BOARD_QUIET": "", "BOARD_JOBS": "4",
                "DESTDIR": ""}

    def start(self, *words, script=None, env=None, **how):
        """Starts the script, by its first line or by a shell, in a folder beside the tree."""
        shells: dict[Optional[str], list[str]] = {None: [], "busybox": [str(shutil.which("busybox")), "sh"]}
        shell = shells.get(self.shell, [str(self.shell)])
        usual: dict[str, Any] = {"stdout": subprocess.PIPE, "stderr": subprocess.PIPE, "text": True,
                                 "cwd": self.room / "elsewhere", "env": {**self.environment(), **(env or {})}}
        return subprocess.Popen([*shell, script or self.top / "board", *words], **(usual | how))

    def call(self, *words, **how):
        """The status, the output and what was said of one call."""
        run = self.start(*words, **how)
        out, said = run.communicate()
        return run.returncode, out, said

    def wait_for(self, file):
        while not file.exists():
            time.sleep(0.02)

    def asked(self):
        """What was asked of rt since the last question, each once and without how many processes."""
        file = self.top / "asked"
        words = file.read_text().splitlines() if file.exists() else []
        file.unlink(missing_ok=True)
        return list(dict.fromkeys(it.rpartition(" ")[0] if "--jobs" in it else it for it in words))

    def source(self, crate):
        return self.top / "crates" / crate / "src/a file"

    def pack(self, program=PROGRAM.encode()):
        """Packs a program and a library of these sources by hand, as ./board --pack does."""
        write_archive(self.top, {**RELEASE, "bin/board": Member(program, is_run=True)}, "kit")
        write_sources(Crates(self.top))

    def told(self, *words, is_quiet=False, is_long=False):
        """What the program tells, in the caller's folder: it has the three open files that each program has, beside that
        of ls; a file's size does not end it, nor what is typed where the script waits for it. The C library is asked
        for large pages, and for much memory at once where the script is long, before what the caller asks."""
        ignored = [signal.SIGXFSZ] if is_quiet else [signal.SIGXFSZ, signal.SIGINT, signal.SIGQUIT]
        mask = sum(1 << it - 1 for it in ignored)
        asked = [*ASKED, *ASKED_FOR_LONG[: is_long], *([self.tunables] if self.tunables else [])]
        tunables = ":".join(asked)
        return 3, f"words: {' '.join(words)}\n{self.room}/elsewhere\n{tunables}\n4\nSigIgn:\t{mask:016x}\n"

    def runs(self, *words, told_as=None, **how):
        """Sees that a call ends as the program does. What it said is given."""
        status, out, said = self.call(*words, **how)
        assert (status, out) == self.told(*(told_as or words)), (status, out, said)
        return said

    def quick(self):
        """Sees that a call asks nothing of rt nor of a tool, and says nothing."""
        self.command("python3", "echo python3 was asked >&2; exit 1")
        assert self.runs("map", "a b") == ""
        (self.room / "bin/python3").unlink()
        assert self.asked() == []
