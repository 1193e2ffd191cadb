"""The proved PC board (82441FX, 82371SB, two 8259A, 8254, MC146818, ATA by PIO, a 16550 on COM1) as a module.

    with Board(memory=8, rom=rom) as board:
        board.out(0xCF8, 4, 0x80000058)    # PAM2 of the host bridge: CC000h to CFFFFh
        board.out(0xCFF, 1, 0x20)          # opens for writes alone
        board.write(0xCC000, 1, 2)
        board.read(0xCC000)                # <r b 000CC000 = FF abort 00.0.5B>
        board.denied_by.in_words           # 00.0.5B (PAM2)
"""
from . import errors
from .board import Board
from .cards import Card, Identity
from .errors import BoardError, LibraryError
from .events import Event
from .library import INTERFACE
from .maps import Map, Range, Window
from .replies import Answer, Denial, Look, Now, Part, Register, Reset, Target, Value
from .script import Line, Script, ScriptError, replay
from .transfers import Descriptor, Ended, Transfer, Words
from .watch import Seen, Watch

__version__ = "8.0.0"  # the first number is INTERFACE

__all__ = [
    "INTERFACE", "Answer", "Board", "BoardError", "Card", "Denial", "Descriptor", "Ended", "Event", "Identity",
    "LibraryError", "Line", "Look", "Map", "Now", "Part", "Range", "Register", "Reset", "Script", "ScriptError", "Seen",
    "Target", "Transfer", "Value", "Watch", "Window", "Words", "errors", "replay",
]
