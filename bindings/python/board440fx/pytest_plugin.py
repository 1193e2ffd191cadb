"""A plugin for pytest: the fixture `board`, and failures that say what denied an access.

    def test_shadow(board):
        assert board.read(0xE0000) == 0x55

fails with `r b 000E0000 = FF abort 00.0.5E` and `denied by 00.0.5E (PAM5)`. `@pytest.mark.board(memory=16, rom=..)`
says what the board is opened with. Under a failed test stand the last accesses of it that were denied.
"""
from collections import deque
from typing import Any, Generator, Iterator

import pytest

from .board import Board
from .replies import Answer, Value

MOST_DENIED = 5
_DENIED = pytest.StashKey[deque[str]]()


def _in_words(answer: Answer) -> list[str]:
    """An answer as a line of a log, and what denied it."""
    line = f"{answer.event} = {answer.reply}"
    return [line] + ([f"denied by {answer.denied_by.in_words}"] if answer.denied_by else [])


def pytest_configure(config: pytest.Config) -> None:
    about = "board(memory=8, cards=(), rom=.., disk=..): what the fixture `board` is opened with"
    config.addinivalue_line("markers", about)


@pytest.fixture
def board(request: pytest.FixtureRequest) -> Iterator[Board]:
    """A board as after power-on: 8 MiB, and a ROM of zeros, if the mark `board` says nothing else."""
    marker = request.node.get_closest_marker("board")
    denied: deque[str] = deque(maxlen=MOST_DENIED)
    request.node.stash[_DENIED] = denied

    def note(answer: Answer) -> None:
        if answer.denied_by:
            denied.append(f"{answer.event} = {answer.reply}: denied by {answer.denied_by.in_words}")

    with Board(**(marker.kwargs if marker else {})) as opened:
        opened.watch = note
        yield opened


def _shown(operand: object) -> str:
    return f"{int(operand):#x}" if isinstance(operand, int) else repr(operand)


def pytest_assertrepr_compare(op: str, left: object, right: object) -> list[str] | None:
    """Beside a comparison of what was read stands its line, and what denied it."""
    lines = [line for operand in (left, right) if isinstance(operand, Value) for line in _in_words(operand.answer)]
    return [f"{_shown(left)} {op} {_shown(right)}", *lines] if lines else None


@pytest.hookimpl(hookwrapper=True)
def pytest_runtest_makereport(item: pytest.Item, call: pytest.CallInfo[None]) -> Generator[None, Any, None]:
    """Under a failed test stand its denied accesses."""
    outcome = yield
    report = outcome.get_result()
    denied = item.stash.get(_DENIED, None)
    if report.when == "call" and report.failed and denied:
        report.sections.append((f"the last {len(denied)} accesses that were denied", "\n".join(denied)))
