"""Why a call was refused: the statuses of board.h, each an exception."""
from typing import ClassVar


class BoardError(Exception):
    """A call was refused; the board is as it was."""

    status: ClassVar[int] = 0
    by_status: ClassVar[dict[int, type["BoardError"]]] = {}

    def __init_subclass__(cls, *, status: int) -> None:
        cls.status = status
        BoardError.by_status[status] = cls

    def __init__(self, about: object = None, why: str | None = None) -> None:
        text = type(self).__doc__ or type(self).__name__
        super().__init__(text if about is None else f"{about}: {text}")
        self.why = why

    def __str__(self) -> str:
        return f"{super().__str__()}: {self.why}" if self.why else super().__str__()


# made by tools/make-names: statuses
class BadHandle(BoardError, status=1):
    """the handle holds no board; or, where one is opened, it holds one"""


Closed = BadHandle  # its name before this interface; it goes with the next


class NoMemory(BoardError, status=2):
    """memory was refused"""


class BadSize(BoardError, status=3):
    """the guest's memory is not of 1 to 512 MiB"""


class BadCards(BoardError, status=4):
    """a record says no card, or no board can be fitted with the cards"""


class BadRom(BoardError, status=5):
    """the ROM is not of 64, 128, 256 or 512 KiB"""


class BadDisk(BoardError, status=6):
    """the disk is not of 1 to 65,536 whole sectors of 512 bytes"""


class NoEvent(BoardError, status=7):
    """that is no event"""


class Alignment(BoardError, status=8):
    """a port is no multiple of the width"""


class BadValue(BoardError, status=9):
    """a value does not fit the width, or is not 0 where nothing is written"""


class PastLastAddress(BoardError, status=12):
    """an access to memory ends past FFFFFFFFh"""


class BadPulses(BoardError, status=13):
    """a count of pulses is not 1 to 1,000,000"""


class NoDevice(BoardError, status=15):
    """no card has the device number"""


class NoLine(BoardError, status=16):
    """the line cannot be set from outside"""


class NoCycle(BoardError, status=17):
    """the event is no access that one bus cycle makes"""


class NoSector(BoardError, status=18):
    """there is no disk, or it has no such sector"""


class PastEnd(BoardError, status=19):
    """the bytes do not all lie in the installed memory, or in the card's base"""


class NoByte(BoardError, status=20):
    """the clock has 128 bytes"""


class BadLength(BoardError, status=21):
    """not as many bytes as the sector, the memory or the disk has"""


class NoReply(BoardError, status=22):
    """that is no reply"""


class NoRoom(BoardError, status=23):
    """the text, or the saved board, does not fit"""


class SerialFull(BoardError, status=24):
    """COM1 can receive no byte: its queue is full, or loopback is on"""


class NoTime(BoardError, status=25):
    """the clock stands: SET is 1, or its registers say no date or time"""


class BadImage(BoardError, status=26):
    """the bytes are no saved board"""


class OtherVersion(BoardError, status=27):
    """another version saved these bytes"""


class NoTransfer(BoardError, status=28):
    """the numbers are those of no transfer of a bus master"""
# end of what is made


class OtherStatus(BoardError, status=-1):
    """a status that this module has no name for"""


class LibraryError(OSError):
    """The library was not found, or has another interface."""


def check(status: int, about: object = None) -> None:
    """Raises the exception of a status that is not BOARD_OK."""
    if status:
        known = BoardError.by_status.get(status)
        raise known(about) if known else OtherStatus(status)
