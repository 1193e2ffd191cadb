"""The clock's date as a trace tells it. QEMU's clock begins with the whole second of the machine's start, which lies
before the first line by as long as the start took: so the clock stands behind the times of the lines by less than a
second, and each read of it says more exactly by how much."""
import datetime
import math
from typing import Iterator, Optional

SECOND, SECOND_ALARM, MINUTE, MINUTE_ALARM, HOUR, HOUR_ALARM = range(6)
WEEKDAY, DAY, MONTH, YEAR = 6, 7, 8, 9
TIME_BYTES = (SECOND, MINUTE, HOUR, WEEKDAY, DAY, MONTH, YEAR)
CLOCK_A, CLOCK_B, CLOCK_C = 0x0A, 0x0B, 0x0C
PERIODIC, IN_HALVES, BINARY = 0x40, 0x02, 0x04  # bits of B: its 24 hours are not in halves of a day
NOON, ANY = 0x80, 0xC0  # an hour after noon, and an alarm that heeds no byte
LONGEST_DELAY = 1.0  # of a line after its access, where the machine was busy
LEAST, MOST = -1.0, 0.0


def at(second: int) -> datetime.datetime:
    return datetime.datetime.fromtimestamp(second, datetime.timezone.utc)


class TraceClock:
    """Bounds of how far the clock stands from the times of the trace, and its format."""

    def __init__(self) -> None:
        self.least, self.most = LEAST, MOST
        self.format = IN_HALVES
        self.alarm: dict[int, int] = {}

    def write(self, index: int, value: int) -> None:
        if index == CLOCK_B:
            self.format = value
        elif index in (SECOND_ALARM, MINUTE_ALARM, HOUR_ALARM):
            self.alarm[index] = value

    @property
    def is_periodic(self) -> bool:
        """Whether the clock asks for its periodic interrupt alone, which the board does not have."""
        return self.format & 0x70 == PERIODIC

    def shown(self, index: int, second: int) -> int:
        """The byte that the clock shows at this index in this second since 1970."""
        moment = at(second)
        number = {
            SECOND: moment.second,
            MINUTE: moment.minute,
            HOUR: moment.hour,
            WEEKDAY: moment.isoweekday() % 7 + 1,
            DAY: moment.day,
            MONTH: moment.month,
            YEAR: moment.year % 100,
        }[index]
        after_noon = 0
        if index == HOUR and not self.format & IN_HALVES:
            after_noon, number = NOON * (number >= 12), number % 12 or 12
        return after_noon | (number if self.format & BINARY else number // 10 << 4 | number % 10)

    def seconds(self, first: float, last: float) -> Iterator[int]:
        """The seconds that the clock may have shown between these times of the trace."""
        return iter(range(math.floor(first + self.least), math.floor(last + self.most) + 1))

    def likely(self, first: float, last: float) -> int:
        """The second in the middle of what may have been."""
        return math.floor((first + last + self.least + self.most) / 2)

    def read(self, index: int, value: int, first: float, last: float) -> Optional[int]:
        """The second in which this byte was read between these times, which narrows the bounds. None where no second
        within them shows it."""
        fitting = [it for it in self.seconds(first, last) if self.shown(index, it) == value]
        if not fitting:
            return None
        self.least = max(self.least, min(fitting) - last)
        self.most = min(self.most, max(fitting) + 1 - first)
        likely = self.likely(first, last)
        return min(fitting, key=lambda it: abs(it - likely))

    def alarmed(self, after: Optional[int], last: float) -> int:
        """The second in which the alarm came, or else the likely one."""
        first = math.floor(last + self.least) if after is None else after + 1
        for second in range(max(first, math.floor(last) - 2), math.floor(last + self.most) + 1):
            if all(value >= ANY or value == self.shown(index - 1, second) for index, value in self.alarm.items()):
                return second
        return self.likely(last, last)
