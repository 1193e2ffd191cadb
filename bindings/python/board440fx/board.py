"""The board itself."""
import datetime
import threading
from types import TracebackType
from typing import Any, Callable, Iterable, NoReturn

from . import records
from .cards import Card
from .errors import BadSize, BadValue, NoByte, NoCycle, NoEvent, NoMemory, NoReply, NoRoom, NoSector, PastEnd, check
from .events import Event, Kind, why_none
from .library import library
from .maps import Map, Window, range_of
from .replies import Answer, Denial, Look, Now, Part, Value, answer_of, now_of, part_of
from .transfers import Transfer

PORTS = 0x10000
U32 = 1 << 32
DEFAULT_ROM_BYTES = 65536


class Board:
    """A PC board as after power-on.

    It is closed at the end of its `with`, by close(), or where nobody has it any more. Threads may share it: a call
    waits for the one before it.
    """

    def __init__(
        self, memory: int = 8, cards: Iterable[Card | str] = (), rom: bytes | None = None, disk: bytes = b""
    ) -> None:
        """A board of so many MiB of memory, 1 to 512, with copies of a ROM and a disk. Where no ROM is given it is one of
        64 KiB of zeros; no bytes are no disk."""
        self._begin()
        if not 0 <= memory < U32:
            raise BadSize(memory)
        fitted = [Card.parse(card) if isinstance(card, str) else card for card in cards]
        cards_said = [card.record() for card in sorted(fitted, key=lambda card: card.device)]
        array = (records.CardRecord * (len(cards_said) + 1))(*cards_said)  # good for one also where there is none
        rom, disk = bytes(DEFAULT_ROM_BYTES) if rom is None else bytes(rom), bytes(disk)
        check(self._library.board_open(self._handle, memory, array, len(cards_said), rom, len(rom), disk, len(disk)))

    def _begin(self) -> None:
        """A closed handle."""
        self.last: Answer | None = None
        self.watch: Callable[[Answer], object] | None = None  # is told each answer
        self._handle = records.HandleRecord()
        self._reply = records.ReplyRecord()
        self._lock = threading.RLock()
        self._library = library()

    @classmethod
    def load(cls, image: bytes, *, dram: bytes = b"", fitted: bytes = b"", sectors: bytes = b"") -> "Board":
        """The board that save gave these bytes of: it goes on as that one would. `last` is not in them.

        Bytes that save left out are given here: those of the DRAM, of the disk as it was fitted, and of its sectors as they
        stand. BadLength where they are not as many as the board has."""
        board = cls.__new__(cls)
        board._begin()
        given = [bytes(each) for each in (image, dram, fitted, sectors)]
        check(board._library.board_load_with(board._handle, *(word for each in given for word in (each, len(each)))))
        return board

    # ---- its end

    def close(self) -> None:
        """Frees the board. What is asked of it from then on raises BadHandle."""
        with self._lock:
            self._library.board_close(self._handle)

    def __enter__(self) -> "Board":
        return self

    def __exit__(
        self, kind: type[BaseException] | None, fault: BaseException | None, trace: TracebackType | None
    ) -> None:
        self.close()

    def __del__(self) -> None:
        if hasattr(self, "_library"):
            self.close()

    def __reduce__(self) -> NoReturn:
        raise TypeError("a board cannot be copied")

    def __repr__(self) -> str:
        return f"<Board {self.last!r}>" if self._handle.open else "<Board closed>"

    # ---- its steps

    def step(self, event: Event) -> Answer:
        """Does an event, and tells the reply."""
        record = event.record()
        with self._lock:
            status = self._library.board_step(self._handle, record, self._reply)
            if status == NoEvent.status:
                raise NoEvent(event, why_none(event))
            check(status, event)
            answer = answer_of(event, self._reply)
            self.last = answer
        if self.watch:
            self.watch(answer)
        return answer

    @property
    def denied_by(self) -> Denial | None:
        """What denied the last access."""
        return self.last.denied_by if self.last else None

    def fetch(self, addr: int, bytes: int = 1, *, smm: bool = False) -> Value:
        """Fetches code of 1, 2, 4 or 8 bytes, aligned or not."""
        return Value(self.step(Event.fetch(addr, bytes, smm=smm)))

    def read(self, addr: int, bytes: int = 1, *, smm: bool = False) -> Value:
        """Reads memory of 1, 2, 4 or 8 bytes, aligned or not."""
        return Value(self.step(Event.read(addr, bytes, smm=smm)))

    def write(self, addr: int, bytes: int, value: int, *, smm: bool = False) -> Answer:
        """Writes memory of 1, 2, 4 or 8 bytes, aligned or not."""
        return self.step(Event.write(addr, bytes, value, smm=smm))

    def in_(self, port: int, bytes: int = 1) -> Value:
        """Reads a port of 1, 2 or 4 bytes. One that is not aligned is cut into cycles, as the bus cuts it; the answer
        then has a part for each, the strongest reset of them, and what stands after the last one."""
        return Value(self._port_access(Event.in_(port, bytes)))

    def out(self, port: int, bytes: int, value: int) -> Answer:
        """Writes a port of 1, 2 or 4 bytes, cut and answered as in_ is."""
        return self._port_access(Event.out(port, bytes, value))

    def _port_access(self, event: Event) -> Answer:
        """The answer to an access to ports, aligned or not. ctypes would cut a number that does not fit."""
        port, count = event.addr, event.bytes
        if count not in (1, 2, 4) or not 0 <= port <= PORTS - count:
            why = "an access to a port has 1, 2 or 4 bytes, the last of them at FFFF or below"
            raise NoEvent(f"{count} bytes at port {port:#x}", why)
        if not 0 <= event.value < U32:
            raise BadValue(f"{event.value:#x}")
        with self._lock:
            if event.kind == records.KindNumber.READ:
                status = self._library.board_in_cycles(self._handle, port, count, self._reply)
            else:
                status = self._library.board_out_cycles(self._handle, port, count, event.value, self._reply)
            check(status, event)
            answer = answer_of(event, self._reply)
            self.last = answer
        if self.watch:
            self.watch(answer)
        return answer

    def in_many(self, port: int, bytes: int, count: int) -> list[int]:
        """Reads a port of 1, 2 or 4 bytes so many times, until the processor is asked for."""
        values = (records.U32 * max(count, 1))()
        return list(values[: self._many("board_in_many", Event.in_(port, bytes), values, count)])

    def out_many(self, port: int, bytes: int, values: list[int]) -> int:
        """Writes each of the values to a port of 1, 2 or 4 bytes, until the processor is asked for: how many."""
        words = (records.U32 * max(len(values), 1))(*values)
        return self._many("board_out_many", Event.out(port, bytes, 0), words, len(values))

    def _many(self, call: str, event: Event, values: Any, count: int) -> int:
        """How many accesses were made; the last answer is the last one's."""
        record, done = event.record(), records.SIZE()
        with self._lock:
            check(getattr(self._library, call)(self._handle, record.addr, record.bytes, values, count, done, self._reply))
            if done.value:
                at = done.value - 1
                is_out = call == "board_out_many"
                event = Event.out(record.addr, record.bytes, values[at]) if is_out else event
                self.last = answer_of(event, self._reply)
        return int(done.value)

    def look(self, kind: Kind, addr: int, *, smm: bool = False) -> Look:
        """Looks where a fetch (`f`), a read (`r`) or a write (`w`) would land. Nothing happens."""
        look = self.step(Event.look(kind, addr, smm=smm)).look
        if look is None:
            raise NoReply
        return look

    def acknowledge(self) -> Value:
        """Acknowledges the interrupt: the vector."""
        return Value(self.step(Event.acknowledge()))

    def pulse(self, count: int) -> Answer:
        """Gives the 8254 1 to 1,000,000 pulses of its clock, 1.193182 MHz."""
        return self.step(Event.pulse(count))

    def time(self, moment: datetime.datetime) -> Answer:
        """Gives the clock a moment to show."""
        return self.step(Event.time(moment))

    def second(self) -> Answer:
        """Lets the clock go on one second from the one that it shows: NoTime where SET holds it, or it shows none."""
        record = records.EventRecord()
        with self._lock:
            check(self._library.board_second(self._handle, record, self._reply))
            moment = datetime.datetime.strptime(f"{record.value:014}", "%Y%m%d%H%M%S")
            self.last = answer_of(Event.time(moment), self._reply)
            return self.last

    def wire(self, device: int, level: bool) -> Answer:
        """Sets INTA# of the card at a device."""
        return self.step(Event.wire(device, level))

    def irq(self, line: int, level: bool) -> Answer:
        """Sets an interrupt request line: 1, 3 to 7, 9 to 12 or 15."""
        return self.step(Event.irq(line, level))

    def bad_sector(self, sector: int) -> Answer:
        """Lets a sector of the disk go bad."""
        return self.step(Event.bad_sector(sector))

    def receive(self, byte: int) -> Answer:
        """COM1 receives a byte: SerialFull where serial_room of the last answer is not set."""
        return self.step(Event.receive(byte))

    # ---- what is asked between two steps: the board stays as it is

    def _ask(self, call: str, *words: Any) -> None:
        with self._lock:
            check(getattr(self._library, call)(self._handle, *words))

    def decode(self, event: Event) -> Part:
        """Where an access of one bus cycle would land, and what would deny it."""
        part = records.PartRecord()
        self._ask("board_decode", event.record(), part)
        return part_of(part)

    @property
    def map(self) -> Map:
        """The memory map: a list of ranges."""
        found = records.MapRecord()
        ranges = (records.RangeRecord * records.MOST_RANGES)()
        windows = (records.WindowRecord * records.MOST_WINDOWS)()
        self._ask("board_ranges", found, ranges, len(ranges), windows, len(windows))
        changed = [Window(window.lo, window.hi) for window in windows[: found.windows]]
        return Map(found.version, found.mib, map(range_of, ranges[: found.ranges]), changed)

    @property
    def pulses_to_rise(self) -> int | None:
        """After how many pulses of the 8254's clock line 0 next rises; None: not unless something is written."""
        pulses = records.U32()
        self._ask("board_pulses_to_rise", pulses)
        return pulses.value or None

    @property
    def lines(self) -> int:
        """The levels of the sixteen interrupt lines, as they reached the pair of 8259A last: bit k is that of line k."""
        lines = records.U16()
        self._ask("board_lines", lines)
        return lines.value

    @property
    def serial_state(self) -> dict[str, Any]:
        """What COM1 holds: the bytes that came and were not read, and what reads of its registers would give."""
        state = records.Com1Record()
        self._ask("board_serial_state", state)
        registers = {name: getattr(state, name) for name, *_ in state._fields_ if name not in ("received", "count", "reserved")}
        return {"received": bytes(state.received[: state.count]), **registers}

    def dram_read(self, addr: int, count: int) -> bytes:
        """Bytes of the memory that the board keeps: FFh past the installed memory."""
        if not 0 <= addr < U32 or not 0 <= count <= U32 - addr:
            raise PastEnd(f"{addr:#x}")
        try:
            into = (records.U8 * max(count, 1))()
        except MemoryError:
            raise NoMemory(count) from None
        self._ask("board_dram_read", addr, into, count)
        return bytes(into[:count])

    def disk_read(self, sector: int) -> bytes:
        """The 512 bytes of a sector, also of one that is bad."""
        if not 0 <= sector < U32:
            raise NoSector(sector)
        into = (records.U8 * records.SECTOR)()
        self._ask("board_disk_read", sector, into, len(into))
        return bytes(into)

    def cmos_read(self, address: int) -> int:
        """What a read of port 71h would give of the clock, 0 to 127; nothing is cleared."""
        byte = records.U8()
        self._ask("board_cmos_read", _byte(address, NoByte), byte)
        return byte.value

    def save(self, *, dram: bool = True, disk: bool = True) -> bytes:
        """The running board as bytes: what it was opened with, and all that it holds; without dram or disk all but the
        bytes of the DRAM, or those of the disk, as it was fitted and as its sectors stand, which load is then given."""
        count = records.SIZE()
        save = self._library.board_save_without
        with self._lock:
            status = save(self._handle, not dram, not disk, (records.U8 * 1)(), 0, count)
            if status != NoRoom.status:
                check(status)
            into = (records.U8 * count.value)()
            check(save(self._handle, not dram, not disk, into, len(into), count))
        return bytes(into)

    def decode_master(self, addr: int, width: int, is_write: bool) -> Part:
        """Where an access of a bus master of 1, 2 or 4 bytes would land, and what would deny it: never SMRAM."""
        if not 0 <= addr < U32 or width not in (1, 2, 4):
            raise NoCycle(f"{addr:#x}")
        part = records.PartRecord()
        self._ask("board_decode_master", addr, width, is_write, part)
        return part_of(part)

    def card_read(self, device: int, base: int, offset: int, count: int) -> bytes:
        """Bytes of a card from an offset in one of its bases on: base 0 to 5, 6 for its expansion ROM, or 7 for the window
        of a VGA adapter."""
        if not 0 <= offset < U32 or not 0 <= count <= U32 - offset:
            raise PastEnd(f"{offset:#x}")
        into = (records.U8 * max(count, 1))()
        self._ask("board_card_read", _byte(device, PastEnd), _byte(base, PastEnd), offset, into, count)
        return bytes(into[:count])

    def transfer(self, table: int, lba: int, sectors: int, *, readable: int | None = None, to_memory: bool) -> Transfer:
        """A transfer of the bus master in pieces, by the table of descriptors at an address, over memory and a disk that the
        caller keeps; the first `readable` of the sectors are there and can be read, all where nothing is said."""
        return Transfer(self._ask, self._library, (table, lba, sectors, sectors if readable is None else readable), to_memory)

    # ---- bytes that the guest did not write; no reply

    def dram_write(self, addr: int, data: bytes) -> None:
        """Puts bytes into the memory that the board keeps, whatever the map says."""
        if not 0 <= addr < U32:
            raise PastEnd(f"{addr:#x}")
        self._ask("board_dram_write", addr, bytes(data), len(data))

    def cmos_write(self, address: int, byte: int) -> None:
        """Writes a byte of the clock, 0 to 127, as writes of ports 70h and 71h would. That of register B may raise INT:
        what stands after the step of `last` is asked again."""
        with self._lock:
            self._ask("board_cmos_write", _byte(address, NoByte), _byte(byte, BadValue))
            if self.last:
                self.last = self.last.as_of(self.now)

    @property
    def now(self) -> Now:
        """What stands now, without a step: after a load, or where nothing was asked yet."""
        reply = records.ReplyRecord()
        self._ask("board_now", reply)
        return now_of(reply)

    def card_write(self, device: int, base: int, offset: int, data: bytes) -> None:
        """Puts bytes into a card from an offset in one of its bases on, wherever the base lies, or into its expansion ROM, base
        6: those are not in what save gives."""
        if not 0 <= offset < U32:
            raise PastEnd(f"{offset:#x}")
        self._ask("board_card_write", _byte(device, PastEnd), _byte(base, PastEnd), offset, bytes(data), len(data))


def _byte(number: int, refusal: type[Exception]) -> int:
    """A number that fits a byte: ctypes would cut it."""
    if not 0 <= number <= 0xFF:
        raise refusal(number)
    return number
