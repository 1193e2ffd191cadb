"""A monitor of examples/ that runs with its terminal in pipes, for tests/monitor and what stands beside it."""
import os
import pathlib
import re
import select
import signal
import subprocess
import time
from typing import Any

HERE = pathlib.Path(__file__).resolve().parent
MONITOR = HERE.parent / "examples" / "monitor"
RUST_KVM = "rust/debug/examples/kvm"  # in OUT
SHELL = "/ # "
STARVED = 10  # times as long may a guest take by the clock, where others have the processors
SECTOR = 120  # seconds of a boot sector; an emulated KVM takes many
END = 60  # seconds to end
TICKS = os.sysconf("SC_CLK_TCK")


class Failed(Exception):
    """What a guest should have said and did not."""


class Guest:
    """A monitor that runs, with its terminal in pipes."""

    def __init__(self, out: pathlib.Path, name: str, processor: str, *words: Any, program: str | None = None) -> None:
        self.name = name
        self.text = ""
        self.seen = 0
        self.start = time.monotonic()
        self.figures = out / f"{name}.figures"
        self.copy = open(out / f"{name}.text", "wb")
        command = [str(out / (program or f"monitor-{processor}")), *map(str, words)]
        with open(self.figures, "wb") as figures:
            self.process = subprocess.Popen(command, stdin=subprocess.PIPE, stdout=subprocess.PIPE, stderr=figures)
        assert self.process.stdin and self.process.stdout
        self.stdin, self.stdout = self.process.stdin, self.process.stdout

    def wait(self, text: str, seconds: float) -> float:
        """Reads until the guest says the text, after what was waited for before. The seconds since the start."""
        clock, used = time.monotonic() + STARVED * seconds, self.used() + seconds
        while (place := self.text.find(text, self.seen)) < 0:
            if time.monotonic() > clock or self.used() > used:
                raise Failed(f"{self.name}: no {text!r} after {seconds} s; it said last: {self.text[-300:]!r}")
            if select.select([self.stdout], [], [], 1)[0]:
                data = os.read(self.stdout.fileno(), 65536)
                if not data:
                    raise Failed(f"{self.name}: ended without {text!r}; it said last: {self.text[-300:]!r}")
                self.copy.write(data)
                self.copy.flush()
                self.text += data.decode("latin-1")
        self.seen = place + len(text)
        return time.monotonic() - self.start

    def used(self) -> float:
        """The seconds that the monitor has had a processor."""
        fields = pathlib.Path(f"/proc/{self.process.pid}/stat").read_text().rpartition(")")[2].split()
        return (int(fields[11]) + int(fields[12])) / TICKS

    def type(self, line: str) -> None:
        """Types a line."""
        self.press(line.encode() + b"\r")

    def do(self, command: str, answer: str, seconds: float = 60) -> None:
        """Types a command of a shell and waits for its answer, which the command does not contain."""
        self.type(command)
        self.wait(answer, seconds)
        self.wait(SHELL, seconds)

    def press(self, keys: bytes) -> None:
        """Types bytes as they are."""
        self.stdin.write(keys)
        self.stdin.flush()

    def key(self, key: str) -> None:
        """Types a key for the monitor."""
        self.press(b"\x01" + key.encode())

    def figure(self, text: str, seconds: float = 60, times: int = 1) -> str:
        """Waits until the monitor itself has said the text so many times, and gives what it has said."""
        clock = time.monotonic() + STARVED * seconds
        while (said := self.figures.read_text(errors="replace")).count(text) < times:
            if time.monotonic() > clock or self.process.poll() is not None:
                raise Failed(f"{self.name}: the monitor did not say {text!r}; it said last: {said[-300:]!r}")
            time.sleep(0.1)
        return said

    def steps(self) -> list[int]:
        """How many steps the board has done, and in how many calls."""
        before = self.figures.read_text(errors="replace").count("steps in")
        self.key("f")
        while (said := self.figures.read_text(errors="replace")).count("steps in") == before:
            time.sleep(0.1)
        return [int(number) for number in re.findall(r"board: (\d+) steps in (\d+) calls", said)[-1]]

    def save(self, file: pathlib.Path) -> int:
        """Saves the guest, which goes on."""
        self.key("s")
        said = self.figure(f"saved in {file}")
        return int(re.findall(r"saved in .*: (\d+) bytes", said)[-1])

    def memory(self) -> int:
        """The KiB of data that the monitor has asked the system for."""
        status = pathlib.Path(f"/proc/{self.process.pid}/status").read_text()
        return int(status.split("VmData:")[1].split()[0])

    def kill(self) -> None:
        """Ends the monitor by SIGKILL, of which it hears nothing."""
        self.process.kill()
        self.process.communicate()
        self.copy.close()

    def end(self) -> str:
        """Ends the monitor, and gives what it says of its figures."""
        if self.process.poll() is None:
            self.process.send_signal(signal.SIGTERM)
        try:
            self.process.communicate(timeout=STARVED * END)
        except subprocess.TimeoutExpired:
            self.process.kill()
            self.process.communicate()
        self.copy.close()
        return self.figures.read_text(errors="replace").strip()


def make(out: pathlib.Path, library: pathlib.Path, *targets: str, **settings: str) -> bool:
    """Builds, and says whether that could be done."""
    words = ["make", "-s", "-C", str(MONITOR), f"OUT={out}", f"LIBRARY={library}", *(str(out / t) for t in targets)]
    words += [f"{name}={value}" for name, value in settings.items()]
    done = subprocess.run(words, capture_output=True, text=True)
    if done.returncode:
        print("   ", (done.stderr.strip().splitlines() or ["make failed"])[-1])
    return done.returncode == 0


def skip(what: str, why: str) -> None:
    print(f"skipped: {what}: {why}")


def indented(text: str) -> str:
    return "\n".join("    " + line for line in text.splitlines() if line)
