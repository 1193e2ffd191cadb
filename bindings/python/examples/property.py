"""A monitor of one's own beside the board: hypothesis makes accesses, and shrinks those that tell the two apart.

    BOARD_DIR=DIR python3 -m pytest bindings/python/examples/property.py
"""
from board440fx import Board, Event, strategies
from hypothesis import given, settings


class MyMonitor:
    """Stands for one's own: a board whose ELCR1 keeps bit 0, which the 82371SB has at 0."""

    def __init__(self) -> None:
        self.board, self.bit = Board(memory=1), 0

    def step(self, event: Event) -> int | None:
        answer = self.board.step(event)
        if event.addr == 0x4D0 and event.bytes == 1:
            self.bit = event.value & 1 if answer.value is None else self.bit
            return None if answer.value is None else answer.value | self.bit
        return answer.value


@settings(max_examples=500, deadline=None, derandomize=True, database=None)
@given(strategies.sequences())
def test_as_the_board(events: list[strategies.Step]) -> None:
    mine = MyMonitor()
    with Board(memory=1) as board:
        for event in events:
            if isinstance(event, Event):
                answer = board.step(event)
                assert mine.step(event) == answer.value, answer
