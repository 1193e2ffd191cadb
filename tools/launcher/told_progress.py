"""Says meanwhile how far something is: on a terminal in one line that is written over, elsewhere in a line of its own
where it is a new one, at most each ten seconds."""
import sys
import time

from launcher.board_says import say

WIDTH, SECONDS = 72, 10


class Progress:
    def __init__(self) -> None:
        self.last, self.next = "", 0.0

    def tell(self, text: str) -> None:
        if sys.stderr.isatty():
            if text != self.last:
                print(f"\r{'board: ' + text:<{WIDTH}}", end="", file=sys.stderr, flush=True)
                self.last = text
        elif time.monotonic() >= self.next:
            if text != self.last:
                say(text)
            self.last, self.next = text, time.monotonic() + SECONDS

    def end(self) -> None:
        if sys.stderr.isatty() and self.last:
            print(f"\r{'':<{WIDTH}}\r", end="", file=sys.stderr, flush=True)
