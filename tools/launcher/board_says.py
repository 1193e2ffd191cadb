"""What the tools behind ./board say, and how they end."""
import os
import signal
import sys
from typing import Callable, NoReturn

NOT_RUN = 125  # the exit status where nothing can be run


class Refused(Exception):
    """Why a tool does not do what it was asked for, in one line, and what another program said before."""

    def __init__(self, why: str, said: str = ""):
        super().__init__(why)
        self.said = said


def say(text: str) -> None:
    """Says a line on standard error. Where that is closed nobody hears it."""
    if sys.stderr is not None:  # else print would take standard output
        print(f"board: {text}", file=sys.stderr, flush=True)


def fault_text(fault: OSError) -> str:
    """What the system said, with the file where it names one."""
    return f"{fault.filename}: {fault.strerror}" if fault.filename else str(fault.strerror or fault)


def die_by(number: int) -> NoReturn:
    """Ends as a program that the signal ended."""
    signal.signal(number, signal.SIG_DFL)
    signal.raise_signal(number)
    sys.exit(128 + number)


def become(words: list[str]) -> NoReturn:
    """Runs a program in the place of this one, with the signals as this one had them."""
    for number in (signal.SIGPIPE, signal.SIGXFSZ):  # which Python ignores
        signal.signal(number, signal.SIG_DFL)
    os.execv(words[0], words)


def end_with(main: Callable[[list[str]], int]) -> NoReturn:
    """Does a tool with its words, and ends with its status, or says in one line why not."""
    try:
        sys.exit(main(sys.argv[1:]))
    except Refused as why:
        if sys.stderr is not None:
            sys.stderr.write(why.said)
        say(str(why))
    except OSError as fault:
        say(fault_text(fault))
    except KeyboardInterrupt:
        die_by(signal.SIGINT)
    sys.exit(NOT_RUN)
