"""A process of QEMU: its test protocol (qtest) on its standard input and output, QMP on a socket, COM1 on another. It
goes back to its start by `loadvm` within milliseconds, where a new process takes a tenth of a second."""
import fcntl
import json
import os
import pathlib
import select
import socket
import subprocess
import sys
import tempfile
import termios
import time
from dataclasses import dataclass
from typing import Any, Callable, Optional, Sequence

from .scripts import Setup
from .serving import MonitorEnded

SECONDS = 20
SECONDS_TO_TAKE, POLL_SECONDS = 0.5, 0.0005
BLOCK = 1 << 16
CYLINDER_BYTES, HEADS, SECTORS = 516096, 16, 63
CLOCK_BEGINS = "2024-02-28T22:59:49"
SNAPSHOT = "begin"
PORT_B, REFRESH = 0x61, 0x10
MACHINE = "-M pc,acpi=off,hpet=off,usb=off,vmport=off,i8042=off -nodefaults -display none -vga none -net none"
CARD_DEVICE = "edu"  # has INTA#, which a register raises


@dataclass(frozen=True)
class Options:
    """How QEMU is started."""

    program: str = "qemu-system-i386"
    modules: str = ""  # a folder with the accelerator qtest, which Debian's package leaves out
    is_fresh: bool = False  # a process for each script

    def words(self, setup: Setup) -> list[str]:
        """The command line of a machine."""
        words = [self.program, *MACHINE.split(), "-m", str(setup.memory), "-bios", str(setup.rom)]
        words += ["-rtc", f"base={CLOCK_BEGINS},clock=vm"]
        if setup.disk:
            cylinders = max(1, setup.disk.stat().st_size // CYLINDER_BYTES)
            words += [
                "-drive",
                f"file={setup.disk},if=none,id=d0,format=raw,snapshot=on",
                "-device",
                f"ide-hd,drive=d0,bus=ide.0,unit=0,cyls={cylinders},heads={HEADS},secs={SECTORS}",
            ]
        for card in setup.cards:
            words += ["-device", f"{CARD_DEVICE},addr={int(card.split()[0]):#x}"]
        return words + (["-accel", "qtest"] if self.modules else ["-accel", "tcg", "-S"])


class Link:
    """A QEMU that was started, and what was sent to it and not yet answered."""

    def __init__(self, options: Options, setup: Setup) -> None:
        self.options = options
        self.now = 0  # its virtual clock, in nanoseconds
        self.came = b""
        self.queue: list[tuple[str, Optional[Callable[[int], None]]]] = []
        self.pics: Optional[tuple[str, str]] = None
        self.folder = None if options.is_fresh else tempfile.TemporaryDirectory()
        self.qmp_lines: Any = None
        self.start(options.words(setup))

    def start(self, words: list[str]) -> None:
        qmp, qmp_of_qemu = socket.socketpair()
        self.com1, com1_of_qemu = socket.socketpair()
        self.com1.setblocking(False)
        words = [
            *words,
            "-qtest",
            "stdio",
            "-qtest-log",
            "/dev/null",
            "-chardev",
            f"socket,id=qmp,fd={qmp_of_qemu.fileno()}",
            "-mon",
            "chardev=qmp,mode=control",
            "-chardev",
            f"socket,id=com1,fd={com1_of_qemu.fileno()}",
            "-serial",
            "chardev:com1",
        ]
        modules = {"QEMU_MODULE_DIR": self.options.modules} if self.options.modules else {}
        try:
            words += self.snapshot_words()
            self.process = subprocess.Popen(
                words,
                stdin=subprocess.PIPE,
                stdout=subprocess.PIPE,
                stderr=subprocess.DEVNULL,
                env={**os.environ, **modules},
                pass_fds=(qmp_of_qemu.fileno(), com1_of_qemu.fileno()),
            )
        except OSError as fault:
            raise MonitorEnded(f"{fault.filename or words[0]}: {fault.strerror}") from None
        finally:
            qmp_of_qemu.close()
            com1_of_qemu.close()
        self.qmp_socket = qmp
        if self.folder:
            self.monitor(f"savevm {SNAPSHOT}")

    def snapshot_words(self) -> list[str]:
        """A drive that no guest sees, which keeps the start."""
        if not self.folder:
            return []
        image = pathlib.Path(self.folder.name) / "begin.qcow2"
        made = subprocess.run(["qemu-img", "create", "-q", "-f", "qcow2", str(image), "1M"], capture_output=True)
        if made.returncode:
            raise MonitorEnded(f"qemu-img: status {made.returncode}")
        return ["-drive", f"file={image},if=none,id=begin,format=qcow2"]

    def back(self) -> bool:
        """Whether it went back to its start. It is closed where it did not."""
        try:
            if self.monitor(f"loadvm {SNAPSHOT}") == "":
                self.drain()
                self.put_refresh_back()
                return True
        except (MonitorEnded, OSError):
            pass
        self.close()
        return False

    def put_refresh_back(self) -> None:
        """Lets bit 4 of port 61h begin as in a new process: QEMU flips it at each read, and `loadvm` does not know it."""
        if self.ask(f"inb 0x{PORT_B:x}") & REFRESH:
            self.ask(f"inb 0x{PORT_B:x}")

    def drain(self) -> None:
        """Takes what the guest sent by COM1, which would else stand still once nobody takes more."""
        try:
            while self.com1.recv(BLOCK):
                pass
        except BlockingIOError:
            pass

    def send_to_com1(self, data: bytes) -> None:
        """Sends bytes to COM1, and waits until they were taken: COM1 takes none while it has no room."""
        self.com1.send(data)
        end = time.monotonic() + SECONDS_TO_TAKE
        while self.unread() and time.monotonic() < end:
            time.sleep(POLL_SECONDS)

    def unread(self) -> int:
        """How many bytes QEMU did not take yet."""
        return int.from_bytes(fcntl.ioctl(self.com1, termios.TIOCOUTQ, bytes(4)), sys.byteorder)

    def close(self) -> None:
        self.process.kill()
        self.process.wait()
        for stream in (self.process.stdin, self.process.stdout, self.qmp_lines, self.qmp_socket, self.com1):
            try:
                if stream:
                    stream.close()
            except OSError:
                pass
        if self.folder:
            self.folder.cleanup()

    # ---- the test protocol

    def put(self, command: str, give: Optional[Callable[[int], None]] = None) -> None:
        """Sends a command with the next flush; give takes the number that it answers."""
        self.queue.append((command, give))

    def flush(self) -> None:
        """Sends what waits, and takes the answers."""
        queue, self.queue = self.queue, []
        if not queue:
            return
        assert self.process.stdin
        try:
            self.process.stdin.write("".join(f"{command}\n" for command, _ in queue).encode())
            self.process.stdin.flush()
        except OSError:
            raise MonitorEnded(f"QEMU ended before {queue[0][0]}") from None
        for command, give in queue:
            answer = self.line(command)
            if answer[:1] != ["OK"]:
                raise MonitorEnded(f"QEMU answers to {command}: {' '.join(answer)}")
            if give:
                give(int(answer[1], 0))

    def ask(self, command: str) -> int:
        """The number that a command answers."""
        found: list[int] = []
        self.put(command, found.append)
        self.flush()
        return found[0]

    def line(self, command: str) -> Sequence[str]:
        """The next answer; what it says of interrupts is none."""
        assert self.process.stdout
        while True:
            while b"\n" not in self.came:
                if not select.select([self.process.stdout], [], [], SECONDS)[0]:
                    raise MonitorEnded(f"QEMU does not answer to {command} for {SECONDS} seconds")
                more = os.read(self.process.stdout.fileno(), BLOCK)
                if not more:
                    raise MonitorEnded(f"QEMU ended at {command}")
                self.came += more
            line, _, self.came = self.came.partition(b"\n")
            words = line.decode().split()
            if words[:1] != ["IRQ"]:
                return words

    # ---- QMP

    def qmp(self, command: str, **arguments: object) -> Any:
        if self.qmp_lines is None:
            self.qmp_lines = self.qmp_socket.makefile("rw", buffering=1)
            self.qmp_lines.readline()  # its greeting
            self.qmp("qmp_capabilities")
        self.qmp_lines.write(json.dumps({"execute": command, "arguments": arguments}) + "\n")
        while line := self.qmp_lines.readline():
            answer = json.loads(line)
            if "return" in answer or "error" in answer:
                return answer.get("return", answer)
        raise MonitorEnded("QEMU ended")

    def monitor(self, line: str) -> Any:
        """What a line of the monitor for people says."""
        return self.qmp("human-monitor-command", **{"command-line": line})

    def interrupt_controllers(self) -> tuple[str, str]:
        """The paths of the master and the slave."""
        if self.pics is None:
            found = {}
            for item in self.qmp("qom-list", path="/machine/unattached"):
                if item["type"] == "child<isa-i8259>":
                    path = f"/machine/unattached/{item['name']}"
                    found[bool(self.qmp("qom-get", path=path, property="master"))] = path
            self.pics = found[True], found[False]
        return self.pics
