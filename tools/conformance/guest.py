"""A monitor that has booted the agent's BIOS, which makes the accesses by the guest's processor and is asked over
COM1."""
import os
import shlex
import signal
import socket
import subprocess
import tempfile
import time
from typing import Optional

from .scripts import WIDTHS, Setup
from .serving import MonitorEnded

HELLO = 0x4E47_4121
# What is asked, of a byte; of a word it is 1 more, of a doubleword 2.
IN, OUT, READ, WRITE, SMM, SMM_READ, SMM_WRITE = 1, 4, 7, 10, 13, 14, 17
WIDTH_NUMBERS = {"b": 0, "w": 1, "d": 2}
ANSWER_BYTES = 4
COM1 = range(0x3F8, 0x400)
RESET_CONTROL, RESETS = 0xCF9, 0x04
DATA, COMMAND, DEVICE_CONTROL, SOFTWARE_RESET, SECTOR = 0x1F0, 0x1F7, 0x3F6, 0x04, 512
DISK = (*range(DATA, COMMAND + 1), DEVICE_CONTROL)
ALTERNATE_STATUS, BUSY, NOBODY, MOST_POLLS = DEVICE_CONTROL, 0x80, 0xFF, 500
SECONDS_TO_START, SECONDS_TO_ANSWER, SECONDS_TO_RESET, SECONDS_TO_END, TICK = 60.0, 30.0, 0.5, 2.0, 0.5


def question(operation: int, place: int = 0, value: int = 0) -> bytes:
    return bytes([operation]) + place.to_bytes(4, "little") + value.to_bytes(4, "little")


def question_of(statement: str) -> Optional[bytes]:
    """What the agent is asked for a statement, or None where it cannot do it. A fetch cannot: what would be fetched
    runs."""
    word, *fields = statement.split(" ")
    if word not in ("in", "out", "r", "w") or fields[0] not in WIDTH_NUMBERS:
        return None
    place, is_smm = int(fields[1], 16), fields[-1] == "smm"
    if word in ("in", "out") and any(at in COM1 for at in range(place, place + WIDTHS[fields[0]])):
        return None
    of_memory = {"r": SMM_READ, "w": SMM_WRITE} if is_smm else {"r": READ, "w": WRITE}
    value = int(fields[2], 16) if word in ("out", "w") else 0
    return question({"in": IN, "out": OUT, **of_memory}[word] + WIDTH_NUMBERS[fields[0]], place, value)


def is_reset(asked: bytes) -> bool:
    """Whether a question may reset the machine: the agent then begins anew."""
    return asked[0] == OUT and int.from_bytes(asked[1:5], "little") == RESET_CONTROL and bool(asked[5] & RESETS)


def asks_disk(statement: str) -> bool:
    """Whether a statement reaches the disk's ports."""
    words = statement.split(" ")
    return words[0] in ("in", "out") and int(words[2], 16) in DISK


class NotBegun(MonitorEnded):
    """The monitor did not begin: its command does not start, or COM1 does not call."""


class DiskWaits:
    """Where a disk is waited for, since here a command is done when it is written: before the first access of a machine
    that begins, and after a command, after the last word of a sector, and after a software reset, as it is let go."""

    def __init__(self) -> None:
        self.is_new, self.is_held, self.moved = True, False, 0

    def before(self) -> bool:
        """Whether to wait before an access to the disk."""
        is_new, self.is_new = self.is_new, False
        return is_new

    def after(self, statement: str) -> bool:
        """Whether to wait after it."""
        word, width, port, *value = statement.split(" ")
        first, size = int(port, 16), WIDTHS[width]
        if first == DATA:
            self.moved += size
            return not self.is_held and self.moved % SECTOR == 0
        if word == "out" and first == DEVICE_CONTROL:
            self.is_held = bool(int(value[0], 16) & SOFTWARE_RESET)
        if word == "out" and first + size > COMMAND:
            self.moved = 0
            return not self.is_held
        return False


class Guest:
    """A monitor that was started by its command line, with {memory}, {rom}, {disk}, and the {port} on 127.0.0.1 that
    its COM1 calls."""

    def __init__(self, command: str, setup: Setup) -> None:
        self.link: Optional[socket.socket] = None
        self.has_smm: Optional[bool] = None
        self.waits = DiskWaits()
        self.errors = tempfile.TemporaryFile()
        with socket.create_server(("127.0.0.1", 0)) as server:
            server.settimeout(TICK)
            words = {
                "rom": setup.rom,
                "memory": setup.memory,
                "disk": setup.disk or "",
                "port": server.getsockname()[1],
            }
            try:
                self.process = subprocess.Popen(
                    [it.format(**words) for it in shlex.split(command)],
                    stdin=subprocess.DEVNULL,
                    stdout=subprocess.DEVNULL,
                    stderr=self.errors,
                    start_new_session=True,
                )
            except (OSError, KeyError, IndexError, ValueError) as fault:
                raise NotBegun(f"it does not start: {fault}") from None
            self.link = self.called(server)
        if self.link is None:
            why = f"COM1 does not call, status {self.process.poll()}{self.said()}"
            self.close()
            raise NotBegun(why)
        self.link.setsockopt(socket.IPPROTO_TCP, socket.TCP_NODELAY, 1)
        self.link.settimeout(SECONDS_TO_ANSWER)
        if self.answer() != HELLO:
            raise MonitorEnded("the agent does not begin")

    def called(self, server: socket.socket) -> Optional[socket.socket]:
        """The connection of COM1, or None where the monitor ended or does not call."""
        end = time.monotonic() + SECONDS_TO_START
        while time.monotonic() < end:
            try:
                return server.accept()[0]
            except TimeoutError:
                if self.process.poll() is not None:
                    break
        return None

    def said(self) -> str:
        """The last line that the monitor wrote of its errors."""
        self.errors.seek(0)
        lines = self.errors.read().decode("utf-8", "replace").splitlines()
        return f": {lines[-1]}" if lines else ""

    def close(self) -> None:
        for number in (signal.SIGTERM, signal.SIGKILL):
            try:
                os.killpg(self.process.pid, number)  # the group that was started here
                self.process.wait(SECONDS_TO_END)
                break
            except ProcessLookupError:
                self.process.wait()
                break
            except subprocess.TimeoutExpired:
                continue
        if self.link:
            self.link.close()
        self.errors.close()

    def answer(self) -> int:
        assert self.link
        data = b""
        while len(data) < ANSWER_BYTES:
            try:
                more = self.link.recv(ANSWER_BYTES - len(data))
            except TimeoutError:
                raise MonitorEnded(f"the guest does not answer for {SECONDS_TO_ANSWER:g} seconds") from None
            except OSError as fault:
                raise MonitorEnded(str(fault)) from None
            if not more:
                raise MonitorEnded(self.end_told())
            data += more
        return int.from_bytes(data, "little")

    def end_told(self) -> str:
        """How the process ended, where it did."""
        try:
            return f"it ended with status {self.process.wait(TICK)}"
        except subprocess.TimeoutExpired:
            return "it closed COM1"

    def ask(self, asked: bytes) -> int:
        assert self.link
        try:
            self.link.sendall(asked)
        except OSError as fault:
            raise MonitorEnded(str(fault)) from None
        return self.answer()

    def reset_by(self, asked: bytes) -> None:
        """A write that resets some monitors at once, some after its answer, and some not."""
        assert self.link
        self.waits = DiskWaits()
        if self.ask(asked) == HELLO:
            return
        self.link.settimeout(SECONDS_TO_RESET)
        try:
            if self.link.recv(1):
                self.link.settimeout(SECONDS_TO_ANSWER)
                for _ in range(ANSWER_BYTES - 1):
                    self.link.recv(1)
        except TimeoutError:
            pass
        self.link.settimeout(SECONDS_TO_ANSWER)

    def wait_for_disk(self) -> None:
        """Waits while the disk is busy."""
        for _ in range(MOST_POLLS):
            status = self.ask(question(IN, ALTERNATE_STATUS))
            if status == NOBODY or not status & BUSY:
                return

    def can_enter_smm(self) -> bool:
        if self.has_smm is None:
            self.has_smm = self.ask(question(SMM)) == 1
        return self.has_smm
