"""What the tests of the tools share: each tool runs in this process, in a folder of the test's own."""
import collections
import contextlib
import importlib.machinery
import importlib.util
import io
import os
import pathlib
import signal
import subprocess
import sys
import tempfile
import unittest

sys.dont_write_bytecode = True
ROOT = pathlib.Path(__file__).resolve().parent.parent
TOOLS, EXAMPLES, TRACES = ROOT / "tools", ROOT / "examples", ROOT / "tests/traces"
sys.path[:0] = [str(TOOLS)]
from shared import board_texts


def program_given():
    """The program of --program, or $BOARD, or ./board."""
    if "--program" not in sys.argv:
        return pathlib.Path(os.environ.get("BOARD") or ROOT / "board").resolve()
    at = sys.argv.index("--program")
    program = pathlib.Path(sys.argv[at + 1]).resolve()
    del sys.argv[at : at + 2]
    return program


PROGRAM = program_given()


def load(name):
    """A tool as a module."""
    loader = importlib.machinery.SourceFileLoader(name.replace("-", "_"), str(TOOLS / name))
    spec = importlib.util.spec_from_loader(loader.name, loader)
    assert spec is not None
    module = importlib.util.module_from_spec(spec)
    sys.modules[loader.name] = module
    loader.exec_module(module)
    return module


LOADED = {name: load(name) for name in ("ask-qemu", "compare", "explain", "from-trace", "watch")}
Ran = collections.namedtuple("Ran", "returncode stdout stderr")


def ran(name, *words):
    """What a tool says, run in this process."""
    out, err, before = io.StringIO(), io.StringIO(), sys.argv
    status: int | str = 0
    sys.argv = [name, *map(str, words)]
    try:
        with contextlib.redirect_stdout(out), contextlib.redirect_stderr(err):
            LOADED[name].main()
    except SystemExit as end:
        status = end.code or 0
    finally:
        sys.argv = before
        signal.signal(signal.SIGPIPE, signal.SIG_IGN)
    return Ran(status, out.getvalue(), err.getvalue())


SETUP = "board 1\ncpus 1\nmemory 8\nrom r64\nphase\n"
BOARD_2 = SETUP.replace("board 1", "board 2").replace("cpus 1", "cpus 2")


class Case(unittest.TestCase):
    """A test with a folder of its own, in which the ROM r64 lies."""

    def setUp(self):
        folder = tempfile.TemporaryDirectory()
        self.addCleanup(folder.cleanup)
        self.folder = pathlib.Path(folder.name)
        (self.folder / "r64").write_bytes((EXAMPLES / "r64").read_bytes())

    def file(self, name, text):
        (self.folder / name).write_bytes(text.encode("latin-1"))
        return self.folder / name

    def run_tool(self, name, *words):
        more = ["--program", PROGRAM] if name != "from-trace" else []
        with contextlib.chdir(self.folder):
            return ran(name, *words, *more)

    def convert(self, form, text, *words):
        """The statements after `phase` and the values that from-trace writes, and what it says."""
        trace = self.file("trace", text)
        run = self.run_tool("from-trace", form, trace, "made.script", "made.values", "--rom", "r64", *words)
        self.assertEqual(run.returncode, 0, run.stderr)
        script = (self.folder / "made.script").read_text()
        statements = [line for line in script.split("phase\n")[1].splitlines() if not line.startswith("#")]
        return statements, (self.folder / "made.values").read_text().splitlines()[1:], run.stdout

    def replay(self, statements):
        """What each statement reads."""
        script = self.file("replayed", SETUP + "\n".join(statements) + "\n")
        run = subprocess.run([PROGRAM, "replay", script], cwd=self.folder, capture_output=True, text=True, check=True)
        return [entry.value for entry in board_texts.entries(run.stdout)]
