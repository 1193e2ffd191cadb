"""Reads a trace as QEMU writes it, and tells each difference when it happens, with the guest's last accesses before it.

    mkfifo trace.pipe
    tools/watch trace.pipe --rom bios.bin &
    qemu-system-i386 -M pc -m 8 .. -msg timestamp=on -trace 'memory_region_ops_*' -trace 'pci_cfg_*' -trace 'pic_*' \\
        -D trace.pipe

SOURCE is a pipe; a socket of the system, which is connected to where it is there, and else made and listened at for one
writer; `-`, standard input; or a file, which is read to its end. The ROM and the disk lie in the folder of --images, or
else in this one. What a trace is made into and which differences there are is that of tools/from-trace and
tools/compare. The trace so far is replayed again each time, so a difference is told some tenths of a second after its
line, and later as the trace grows.

Exit status: 0 the trace ended and no difference counts; 1 one does; 2 the words are wrong, or the trace had nothing to
compare; 3 a line of it is broken; 4 SOURCE or the program cannot be read or run. An interrupt (^C) ends the trace.
"""
import argparse
import collections
import os
import pathlib
import queue
import socket
import stat
import sys
import tempfile
import threading
import time
from io import RawIOBase
from typing import Optional

from shared.board_texts import Board, Entry, end_with_reader, entry_of, stop
from shared.tool_files import say
from traces.comparison import Comparison, Difference, Value, rom_of
from traces.convert import Converter, Full
from traces.convert import Value as Expected
from traces.differences import COUNTED, KINDS
from traces.from_trace import add_setup, check_setup
from traces.lines import LOOKED_FOR, READERS, Broken, Event, check_range

BEFORE = 10
PAUSE, SHARE = 0.1, 3  # at least so long between two replays, and so many times as long as the last one took
PIECE = 1 << 16


# ---- the source


def opened(source: str) -> RawIOBase:
    """The stream of a pipe, a socket, a file or standard input. A socket that is not there is made."""
    path = pathlib.Path(source)
    try:
        if source == "-":
            return open(0, "rb", buffering=0, closefd=False)
        if path.exists() and not stat.S_ISSOCK(path.stat().st_mode):
            return path.open("rb", buffering=0)
        with socket.socket(socket.AF_UNIX) as it:
            if not path.exists():
                return accepted(it, path).makefile("rb", buffering=0)
            it.connect(source)
            return it.makefile("rb", buffering=0)
    except OSError as fault:
        stop(4, f"{source}: {fault.strerror or fault}")


def accepted(listener: socket.socket, path: pathlib.Path) -> socket.socket:
    """The one writer that connects to a socket of this name. The name is there once it is listened at, so that a writer
    that sees it is not refused."""
    hidden = path.with_name(f".{os.getpid()}")
    try:
        listener.bind(str(hidden))
        listener.listen(1)
        hidden.rename(path)
        return listener.accept()[0]
    finally:  # an interrupt may have come on either side of the renaming
        hidden.unlink(missing_ok=True)
        path.unlink(missing_ok=True)


class Lines(threading.Thread):
    """Takes the lines of a stream off it as they come, so that the writer never waits for a replay."""

    def __init__(self, stream: RawIOBase):
        super().__init__(daemon=True)
        self.stream = stream
        self.lines: queue.Queue[Optional[str]] = queue.Queue()

    def run(self) -> None:
        rest = b""
        try:
            while piece := self.stream.read(PIECE):
                *lines, rest = (rest + piece).split(b"\n")
                for line in lines:
                    self.lines.put(line.decode("latin-1"))
        except OSError:
            pass
        finally:  # whatever ends the thread, the other does not wait for ever
            if rest:
                self.lines.put(rest.decode("latin-1"))
            self.lines.put(None)

    def taken(self) -> tuple[list[str], bool]:
        """The lines that have come, at least one unless the stream has ended, and whether it has."""
        lines = [self.lines.get()]
        while not self.lines.empty():
            lines.append(self.lines.get())
        return [line for line in lines if line is not None], lines[-1] is None


# ---- what the guest did


def access_text(event: Event) -> Optional[str]:
    """An event in words, as the guest's last accesses show it."""
    if event.word in ("in", "out", "r", "f", "w"):
        place = f"{event.place:04X}" if event.is_port else f"{event.place:08X}"
        value = "" if event.value is None else f" {'= ' if event.is_read else ''}{event.value:0{2 * event.size}X}"
        name = f" ({event.name})" if event.name else ""
        return f"line {event.line}: cpu {event.cpu} {event.word} {place}{value}{name}"
    if event.word == "ack":
        return f"line {event.line}: ack = {event.value or 0:02X}"
    return None


class Watch:
    """Replays the trace so far, and tells what is new."""

    def __init__(self, words: argparse.Namespace, board: Board):
        self.words, self.board = words, board
        self.reader = READERS[words.form]()
        self.converter = Converter(words, [], is_live=True)
        self.comparison = Comparison(words.memory << 20, words.excepted, rom_of(f"rom {words.rom}", board.folder))
        self.done, self.number, self.understood = 0, 0, 0
        self.last: collections.deque[tuple[int, str]] = collections.deque()  # accesses, with their statement
        self.values = 0  # how many were compared
        self.full: Optional[str] = None

    def take(self, lines: list[str]) -> None:
        for line in lines:
            self.number += 1
            try:
                event = self.reader(self.number, line) if line.strip() or self.words.form == "plain" else None
                if event is not None:
                    check_range(event)
            except Broken as why:
                stop(3, f"line {self.number}: {why}: {line[:120]}")
            if event is not None and self.full is None:
                self.take_event(event)

    def take_event(self, event: Event) -> None:
        self.understood += event.word != "function"
        try:
            self.converter.take(event)
        except Full as why:
            self.full = f"the script ends before line {event.line} of the trace: {why}"
            return
        text = access_text(event)
        if text:
            self.last.append((event.line, text))

    def replay(self) -> None:
        """Compares the statements that are new since the last time."""
        if len(self.converter.statements) == self.done:
            return
        self.converter.version, self.converter.cpus = 2, 8
        with tempfile.NamedTemporaryFile("w", suffix=".script") as it:
            it.write(self.converter.script())
            it.flush()
            run = self.board.run("replay", pathlib.Path(it.name))
        if run.returncode:
            stop(4, f"the program refuses what was made of the trace: {run.stderr.strip() or run.returncode}")
        front = len(self.converter.first_statements())
        lines = run.stdout.splitlines()[1 + front + self.done if self.done else 1 :]
        given = {front + it.statement: it for it in self.converter.values[self.values :]}
        self.values = len(self.converter.values)
        self.done = len(self.converter.statements)
        for line in lines:
            if entry := entry_of(line):  # a log has entries alone
                self.compare(entry, given)

    def compare(self, entry: Entry, given: dict[int, Expected]) -> None:
        it = given.get(entry.number)
        value = Value(f"{it.value:0{2 * it.size}X}", str(it.line), it.why) if it else None
        difference = self.comparison.take(entry, value)
        if it and difference and (self.words.all or difference.kind in COUNTED):
            self.tell(difference, it.line)

    def tell(self, difference: Difference, line: int) -> None:
        before = [text for at, text in self.last if at < line][-BEFORE:]
        item: dict[str, object] = {**difference.item(), "before": before}
        lines = [*difference.texts(), "  the guest's last accesses before it:", *(f"    {it}" for it in before)]
        say(self.words.json, item, lines)
        sys.stdout.flush()

    def forget(self) -> None:
        """Lets go of accesses that no difference will show any more."""
        while len(self.last) > 4 * BEFORE:
            self.last.popleft()


def words_given() -> argparse.Namespace:
    about = argparse.ArgumentParser(description=__doc__, formatter_class=argparse.RawDescriptionHelpFormatter)
    about.add_argument("source", metavar="SOURCE")
    about.add_argument("--form", choices=READERS, default="qemu", help="of the trace, as of tools/from-trace (qemu)")
    add_setup(about)
    about.add_argument("--all", action="store_true", help="tell differences of all kinds, and all count")
    about.add_argument("--stop", action="store_true", help="end at the first difference that counts")
    about.add_argument("--except", action="append", default=[], dest="excepted", metavar="TARGET",
                       help="do not compare what a target that begins so answers")
    about.add_argument("--json", action="store_true", help="a line of JSON for each item")
    Board.add_words(about)
    words = about.parse_args()
    check_setup(about, words)
    words.script, words.trace = pathlib.Path("watched.script"), words.source
    return words


def followed(words: argparse.Namespace, watch: Watch) -> None:
    """Takes the trace to its end."""
    counted, has_ended = KINDS if words.all else COUNTED, False
    try:
        stream = Lines(opened(words.source))
        stream.start()
        while not has_ended:
            lines, has_ended = stream.taken()
            watch.take(lines)
            began = time.monotonic()
            watch.replay()
            watch.forget()
            if words.stop and any(watch.comparison.kinds[kind] for kind in counted) or watch.full:
                return
            if not has_ended:
                time.sleep(max(PAUSE, SHARE * (time.monotonic() - began)))
    except KeyboardInterrupt:
        print("watch: interrupted: what came so far is counted", file=sys.stderr)


def main() -> None:
    end_with_reader()
    words = words_given()
    watch = Watch(words, Board(words))
    followed(words, watch)
    if not watch.understood:
        stop(2, f"{words.source}: no line was understood as {words.form}: looked for {LOOKED_FOR[words.form]}")
    if not watch.comparison.counts:
        stop(2, f"{words.source}: no value: no line tells what a read or an acknowledge of the board gave")
    say(words.json, watch.comparison.count_item(), watch.comparison.count_lines())
    if watch.full:
        print(watch.full, file=sys.stderr)
    counted = KINDS if words.all else COUNTED
    sys.exit(1 if any(watch.comparison.kinds[kind] for kind in counted) else 0)
