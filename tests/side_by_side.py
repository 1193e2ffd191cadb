"""Runs tests side by side, each in a limit of its own, and counts what passed, what failed and what was not run.

A test is a program of the repository. Exit status 0: it passed; 77: it was not run, and its last line says why;
another: it failed. A line `not run: PART: WHY` of it names a part that was left out.
"""
import concurrent.futures
import os
import pathlib
import re
import resource
import shutil
import signal
import subprocess
import time
from dataclasses import dataclass, field
from typing import Optional

ROOT = pathlib.Path(__file__).resolve().parent.parent
NOT_RUN = 77  # the exit status of a test that has not what it needs
SLOWER = 20  # so many times slower than an idle one may a machine be
LINES_SHOWN = 20  # of a test that failed
PART = re.compile(r"^(?:not run|skipped): (.+)", re.M)
ASKS_ALL = "BOARD_TESTS"  # of this value `all`: what was not run fails


@dataclass(frozen=True)
class Test:
    """A program with its words, the seconds that it takes on an idle machine, and the commands that it needs."""

    name: str
    words: list[str]
    seconds: float
    needs: list[str] = field(default_factory=list)

    def missing(self) -> Optional[str]:
        """Why it cannot be run here, or None."""
        if not (ROOT / self.words[0]).exists():
            return f"no {self.words[0]}"
        gone = [need for need in self.needs if shutil.which(need) is None]
        return "not installed: " + ", ".join(gone) if gone else None


@dataclass
class End:
    """How a test ended: `passed`, `failed` or `not run`, its parts that were left out, and what it said."""

    test: Test
    verdict: str
    not_run: list[str] = field(default_factory=list)
    said: str = ""
    seconds: float = 0

    def shown(self) -> str:
        lines = [f"{self.test.name}: {self.verdict}, {self.seconds:.0f} s"]
        if self.verdict == "failed":
            lines += ["    " + line for line in self.said.splitlines()[-LINES_SHOWN:]]
        return "\n".join(lines)


def left_out(test: Test, why: str) -> End:
    return End(test, "not run", [f"{test.name}: {why}"])


def end_group(process: "subprocess.Popen[str]") -> None:
    """Ends a test with all that it began."""
    try:
        os.killpg(process.pid, signal.SIGKILL)
    except ProcessLookupError:
        pass


def verdict_of(test: Test, status: int, said: str) -> End:
    parts = [f"{test.name}, {part}" for part in dict.fromkeys(PART.findall(said))]
    if status == NOT_RUN:
        return End(test, "not run", parts or [f"{test.name}: {(said.splitlines() or ['no word why'])[-1]}"], said)
    return End(test, "failed" if status else "passed", parts, said)


class SideBySide:
    """Tests that run so many at a time."""

    def __init__(self, at_once: int, folder: pathlib.Path, slower: float = SLOWER):
        self.at_once, self.folder, self.slower = at_once, folder, slower
        self.running: set["subprocess.Popen[str]"] = set()

    def run(self, test: Test) -> End:
        why = test.missing()
        if why:
            return left_out(test, why)
        begun = time.monotonic()
        with open(self.folder / f"{test.name}.said", "w+", errors="replace") as said:
            process = subprocess.Popen([ROOT / test.words[0], *test.words[1:]], cwd=ROOT, stdin=subprocess.DEVNULL,
                                       stdout=said, stderr=subprocess.STDOUT, text=True, start_new_session=True)
            self.running.add(process)
            try:
                status: Optional[int] = process.wait(test.seconds * self.slower)
            except subprocess.TimeoutExpired:
                status = None
                end_group(process)
                process.wait()
            self.running.discard(process)
            said.seek(0)
            text = said.read()
        end = left_out(test, "no time") if status is None else verdict_of(test, status, text)
        end.seconds = time.monotonic() - begun
        return end

    def all(self, tests: list[Test]) -> list[End]:
        """Runs the tests, the longest first, and prints a line as each ends."""
        ends = []
        with concurrent.futures.ThreadPoolExecutor(self.at_once) as pool:
            runs = [pool.submit(self.run, test) for test in sorted(tests, key=lambda test: -test.seconds)]
            try:
                for future in concurrent.futures.as_completed(runs):
                    ends.append(future.result())
                    print(ends[-1].shown(), flush=True)
            except BaseException:
                for waiting in runs:
                    waiting.cancel()
                for process in list(self.running):
                    end_group(process)
                raise
        return ends


def processor_seconds() -> float:
    """The seconds of processors that the tests took which have ended."""
    used = resource.getrusage(resource.RUSAGE_CHILDREN)
    return used.ru_utime + used.ru_stime


def told(ends: list[End]) -> tuple[list[str], int]:
    """The last lines, and the exit status."""
    passed, failed = (sum(end.verdict == verdict for end in ends) for verdict in ("passed", "failed"))
    not_run = [name for end in ends for name in end.not_run]
    lines = [f"not run: {name}" for name in not_run]
    lines += [f"failed: {end.test.name}" for end in ends if end.verdict == "failed"]
    lines.append(f"{passed} passed, {failed} failed" + (f", {len(not_run)} not run" if not_run else ""))
    is_short = bool(not_run) and os.environ.get(ASKS_ALL) == "all"
    return lines, int(failed > 0 or is_short)
