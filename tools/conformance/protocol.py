"""Another monitor behind an adapter: a program that reads scripts and answers each statement with a line.

    with Adapter("tools/adapters/qemu") as adapter:
        for answers in adapter.ask([script, other_script]):
            ...

An answer is what was read, in hexadecimal; `-` where nothing is read; `?` where the statement cannot be done; or
`! why` at the statement where the monitor ended or hung, which is the last answer of its script. `end` is answered with
`end`. What is none of these, or does not come in time, is an AdapterFault: it says what was asked and what came.
"""
import collections
import concurrent.futures
import os
import queue
import re
import selectors
import shlex
import subprocess
import time
from types import TracebackType
from typing import Callable, Iterable, Iterator, Optional, TypeVar

from .scripts import END, Script, digits_of

SECONDS = 60.0  # that a script may take
ASKED_AT_ONCE = 32  # scripts that wait at an adapter
SECONDS_TO_END = 5.0
BLOCK = 1 << 16
DONE, CANNOT, ENDED = "-", "?", "!"
LONGEST_SHOWN = 100
Item = TypeVar("Item")
Got = TypeVar("Got")


class AdapterFault(Exception):
    """An adapter ended, does not answer, or answers what is no answer."""


def is_dead(answer: str) -> bool:
    """Whether the monitor ended or hung at the statement that was answered so."""
    return answer.startswith(ENDED)


def fault_of(statement: str, answer: str) -> Optional[str]:
    """Why an answer is none to a statement, or None."""
    if answer in (CANNOT, ENDED) or answer.startswith(ENDED + " "):
        return None
    digits = digits_of(statement)
    if not digits:
        return None if answer == DONE else f"`{DONE}`, `{CANNOT}` or `{ENDED}` is an answer, since nothing is read"
    if re.fullmatch(f"[0-9A-Fa-f]{{1,{digits}}}", answer):
        return None
    return f"1 to {digits} hexadecimal digits, `{CANNOT}` or `{ENDED}` are an answer"


class Waiting:
    """A script that was asked, and its answers so far."""

    def __init__(self, script: Script) -> None:
        self.statements, self.answers = script.statements, list[str]()

    @property
    def is_over(self) -> bool:
        """Whether `end` comes next."""
        return len(self.answers) == len(self.statements) or bool(self.answers) and is_dead(self.answers[-1])

    @property
    def next(self) -> str:
        return END if self.is_over else self.statements[len(self.answers)]

    def take(self, line: str) -> bool:
        """Takes a line; whether it was the last. What is no answer is a fault."""
        if self.is_over and line == END:
            return True
        if self.is_over:
            raise AdapterFault(f"too many answers: {self.asked()}, and `{shown(line)}` came")
        if line == END:
            raise AdapterFault(f"too few answers: {self.asked()}, and `{END}` came")
        why = fault_of(self.next, line)
        if why:
            raise AdapterFault(f"no answer: {self.asked()}, and `{shown(line)}` came, where {why}")
        self.answers.append(
            line if is_dead(line) or line in (DONE, CANNOT) else line.upper().rjust(digits_of(self.next), "0")
        )
        return False

    def asked(self) -> str:
        return f"`{self.next}` was asked as statement {len(self.answers) + 1} of {len(self.statements)}"

    def all_answers(self) -> list[str]:
        """An answer for each statement: those after the monitor's end have that of its end."""
        return self.answers + self.answers[-1:] * (len(self.statements) - len(self.answers))


class Adapter:
    """A process of an adapter, which is started when it is first asked. `seconds` are the most for one script."""

    def __init__(self, command: str, seconds: float = SECONDS) -> None:
        self.command, self.seconds = command, seconds
        self.process: Optional[subprocess.Popen[bytes]] = None
        self.scripts = self.statements = 0  # that were asked
        self.lines: list[str] = []  # the last ones that came, for whoever tells of a fault
        self.came = b""

    def __enter__(self) -> "Adapter":
        return self

    def __exit__(
        self, kind: type[BaseException] | None, fault: BaseException | None, trace: TracebackType | None
    ) -> None:
        self.close()

    def ask(self, scripts: Iterable[Script]) -> list[list[str]]:
        """The answers to each script, one for each statement, in the order of the scripts."""
        return list(self.stream(scripts))

    def stream(self, scripts: Iterable[Script]) -> Iterator[list[str]]:
        """The same as they come; many are asked at once, so nothing else is asked before the last has come."""
        left, waiting = iter(scripts), collections.deque[Waiting]()
        unsent, more = bytearray(), True
        begun = time.monotonic()
        while True:
            while more and len(waiting) < ASKED_AT_ONCE:
                script = next(left, None)
                if script is None:
                    more = False
                    break
                if not waiting:
                    begun = time.monotonic()
                waiting.append(Waiting(script))
                self.scripts, self.statements = self.scripts + 1, self.statements + len(script.statements)
                unsent += "".join(f"{line}\n" for line in script.lines()).encode()
            if not waiting:
                return
            while not self.take_lines(waiting):
                self.move(unsent, waiting[0], begun + self.seconds)
            begun = time.monotonic()
            yield waiting.popleft().all_answers()

    def finish(self) -> None:
        """Lets the adapter end, where a line more than was asked for is a fault."""
        process = self.process
        if process is None:
            return
        assert process.stdin and process.stdout
        process.stdin.close()
        with selectors.DefaultSelector() as ready:
            ready.register(process.stdout, selectors.EVENT_READ)
            while ready.select(SECONDS_TO_END) and (more := os.read(process.stdout.fileno(), BLOCK)):
                self.came += more
        line = self.came.partition(b"\n")[0].decode("ascii", "backslashreplace")
        self.close()
        if line:
            raise AdapterFault(f"too many answers: nothing more was asked, and `{shown(line)}` came")

    def take_lines(self, waiting: "collections.deque[Waiting]") -> bool:
        """Takes the lines that came; whether the first script's answers are whole."""
        while b"\n" in self.came:
            line, _, self.came = self.came.partition(b"\n")
            text = line.decode("ascii", "backslashreplace").rstrip("\r")
            self.lines = [*self.lines[-9:], text]
            try:
                if waiting[0].take(text):
                    return True
            except AdapterFault:
                self.close()
                raise
        return False

    def move(self, unsent: bytearray, first: Waiting, end: float) -> None:
        """Writes what is unsent and reads what comes, whichever can be done first."""
        process = self.running()
        assert process.stdin and process.stdout
        with selectors.DefaultSelector() as ready:
            ready.register(process.stdout, selectors.EVENT_READ)
            if unsent:
                ready.register(process.stdin, selectors.EVENT_WRITE)
            can = {key.fileobj for key, _ in ready.select(max(0.0, end - time.monotonic()))}
        if process.stdout in can:
            more = os.read(process.stdout.fileno(), BLOCK)
            if not more:
                raise self.fault("ended", first)
            self.came += more
        elif process.stdin in can:
            try:
                del unsent[: os.write(process.stdin.fileno(), unsent[:BLOCK])]
            except BrokenPipeError:
                raise self.fault("ended", first) from None
        else:
            raise self.fault(f"does not answer for {self.seconds:g} seconds", first)

    def running(self) -> "subprocess.Popen[bytes]":
        if self.process is None:
            self.came, self.lines = b"", []
            words = shlex.split(self.command)
            try:
                self.process = subprocess.Popen(words, stdin=subprocess.PIPE, stdout=subprocess.PIPE)
            except (OSError, IndexError) as fault:
                raise AdapterFault(f"the adapter `{self.command}` does not start: {fault}") from None
            assert self.process.stdin
            os.set_blocking(self.process.stdin.fileno(), False)
        return self.process

    def fault(self, what: str, first: Waiting) -> AdapterFault:
        """The fault of an adapter that ended or is silent."""
        status = self.close()
        ended = f" with status {status}" if what == "ended" and status is not None else ""
        last = f"its last line was `{shown(self.lines[-1])}`" if self.lines else "it said nothing"
        return AdapterFault(f"the adapter {what}{ended}: {first.asked()}, and {last}")

    def close(self) -> Optional[int]:
        """Lets the adapter end, and gives its exit status, or None where it had to be killed or none ran."""
        process, self.process = self.process, None
        if process is None:
            return None
        assert process.stdin and process.stdout
        status = None
        try:
            process.stdin.close()
        except OSError:
            pass
        try:
            status = process.wait(SECONDS_TO_END)
        except subprocess.TimeoutExpired:
            stop(process)
        process.stdout.close()
        return status


def stop(process: "subprocess.Popen[bytes]") -> None:
    """Ends an adapter that does not end by itself, and lets it end what it began."""
    process.terminate()
    try:
        process.wait(SECONDS_TO_END)
    except subprocess.TimeoutExpired:
        process.kill()
        process.wait()


class Adapters:
    """Several processes of one adapter, each asked by a thread of its own."""

    def __init__(self, command: str, seconds: float = SECONDS, at_once: int = 1) -> None:
        self.all = [Adapter(command, seconds) for _ in range(at_once)]
        self.idle = queue.SimpleQueue[Adapter]()
        for adapter in self.all:
            self.idle.put(adapter)
        self.pool = concurrent.futures.ThreadPoolExecutor(at_once)

    def __enter__(self) -> "Adapters":
        return self

    def __exit__(
        self, kind: type[BaseException] | None, fault: BaseException | None, trace: TracebackType | None
    ) -> None:
        self.pool.shutdown(cancel_futures=True)
        for adapter in self.all:
            adapter.close()

    def map(self, ask: Callable[[Adapter, Item], Got], items: Iterable[Item]) -> Iterator[Got]:
        """What comes of each item with an adapter, in the order of the items."""
        return self.pool.map(lambda item: self.with_one(ask, item), items)

    def with_one(self, ask: Callable[[Adapter, Item], Got], item: Item) -> Got:
        adapter = self.idle.get()
        try:
            return ask(adapter, item)
        finally:
            self.idle.put(adapter)

    def finish(self) -> None:
        """Lets all end, where a line more than was asked for is a fault."""
        for adapter in self.all:
            adapter.finish()


def shown(line: str) -> str:
    return line if len(line) <= LONGEST_SHOWN else f"{line[:LONGEST_SHOWN]}.."
