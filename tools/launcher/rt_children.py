"""The calls of `rt`: how many processors they take, and how all of them end together."""
import os
import pathlib
import shutil
import signal
import subprocess
import threading
import time
from typing import Optional, TextIO

from launcher.board_says import Refused

BYTES_A_PROCESSOR = 2e9
SECONDS_TO_END = 2  # what an rt that is told to end may take


def processors() -> int:
    """How many the proofs take: BOARD_JOBS, or those that have 2 GB of memory each."""
    if os.environ.get("BOARD_JOBS", "").isdigit():
        return max(1, int(os.environ["BOARD_JOBS"]))
    lines = text_of("/proc/meminfo").splitlines()
    room = [int(line.split()[1]) * 1000 for line in lines if line.startswith("MemAvailable:")]
    room += [int(it) for it in text_of("/sys/fs/cgroup/memory.max").split() if it.isdigit()]
    most = len(os.sched_getaffinity(0))
    return max(1, min([most, *(int(it / BYTES_A_PROCESSOR) for it in room)]))


def text_of(file: str) -> str:
    try:
        return pathlib.Path(file).read_text()
    except OSError:
        return ""


class Children:
    """The rt that run, each with all that it starts in a session of its own, so that all end together."""

    def __init__(self) -> None:
        self.running: set[subprocess.Popen] = set()
        self.lock = threading.Lock()
        self.is_over = False

    def run(self, words: list[str], folder: pathlib.Path, log: pathlib.Path, output: Optional[TextIO] = None) -> int:
        """Runs rt with what it says in a file, and its output too where it goes nowhere else. Its status, or one where
        all are to end."""
        with self.lock:
            if self.is_over:
                return 1
            with open(log, "wb") as it:
                child = subprocess.Popen(["rt", *words], cwd=folder, stdin=subprocess.DEVNULL, stdout=output or it,
                                         stderr=it, start_new_session=True)
            self.running.add(child)
        status = child.wait()
        with self.lock:
            self.running.discard(child)
        return status

    def end(self) -> None:
        """Ends all at once, and lets none begin."""
        with self.lock:
            self.is_over = True
            running = list(self.running)
        for number in (signal.SIGTERM, signal.SIGKILL):
            for child in running:
                try:
                    os.killpg(child.pid, number)
                except ProcessLookupError:
                    pass
            until = time.monotonic() + SECONDS_TO_END
            while number == signal.SIGTERM and time.monotonic() < until and any(is_alive(it.pid) for it in running):
                time.sleep(0.02)


def is_alive(group: int) -> bool:
    try:
        os.killpg(group, 0)
        return True
    except ProcessLookupError:
        return False


def want_rt() -> None:
    if shutil.which("rt") is None:
        raise Refused("no rt, the command of the Rattle kit")
