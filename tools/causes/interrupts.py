"""The two 8259A: what was written to them, and what is in service by the acknowledges that were given."""
from dataclasses import dataclass, field
from typing import TYPE_CHECKING, Callable, Optional

from .row import CHOICE, DATASHEET, OTHER, Row

if TYPE_CHECKING:
    from traces.difference_state import Byte

ICW1, NEEDS_ICW4, SINGLE = 0x10, 0x01, 0x02
ICW4_AUTO, ICW4_NESTED = 0x02, 0x10
OCW3, POLL, READ, READ_SERVICE, SPECIAL_SET, SPECIAL_ON = 0x08, 0x04, 0x02, 0x01, 0x40, 0x20
END, SPECIFIC, ROTATE = 0x20, 0x40, 0x80
CASCADE, SPURIOUS, BASE_BITS, LEVELS = 2, 7, 0xF8, 8
TIMER_LINE, COM1_LINE, CLOCK_LINE, DISK_LINE = 0, 4, 8, 14
EDGES = "8259A, Edge and Level Triggered Modes"
REGISTERS, ACKNOWLEDGES = "pic[01]", "vec[01]|spur[01]"


@dataclass
class Chip:
    """An 8259A."""

    is_masked: bool = False  # its mask was set, and the next read of its odd port gives it
    words: list[str] = field(default_factory=list)  # of the initialization that are awaited
    base: Optional[int] = None
    is_begun_anew: bool = False  # ICW1 came while words were awaited
    automatic: bool = False
    nested: bool = False  # specially
    special_mask: bool = False
    mask: int = 0
    reads_service: bool = False
    polls: bool = False
    is_poll_kept: bool = False  # OCW3 came without the poll bit while a poll was asked for
    polled: Optional[int] = None  # what the last poll gave
    in_service: int = 0
    lowest: int = SPURIOUS  # the level of the lowest priority
    is_rotated_openly: bool = False  # a rotation came at the end of a level that was not in service
    was_ended: bool = False
    asks_since: int = 0  # lines of it that rose since its ICW1, as bits

    def write(self, is_odd: bool, value: int) -> None:
        if is_odd:
            self.write_odd(value)
        elif value & ICW1:
            self.begin(value)
        elif value & OCW3:
            self.operate(value)
        else:
            self.end(value)

    def write_odd(self, value: int) -> None:
        if not self.words:
            self.mask = value
            return
        word = self.words.pop(0)
        if word == "ICW2":
            self.base = value & BASE_BITS
        elif word == "ICW4":
            self.automatic, self.nested = bool(value & ICW4_AUTO), bool(value & ICW4_NESTED)

    def begin(self, value: int) -> None:
        self.is_begun_anew = bool(self.words)
        self.words = ["ICW2", *["ICW3"] * (not value & SINGLE), *["ICW4"] * (value & NEEDS_ICW4)]
        self.is_masked, self.mask, self.in_service, self.lowest = True, 0, 0, SPURIOUS
        self.automatic = self.nested = self.special_mask = self.reads_service = self.polls = False
        self.is_poll_kept = self.is_rotated_openly = self.was_ended = False
        self.asks_since = 0

    def operate(self, value: int) -> None:
        if value & SPECIAL_SET:
            self.special_mask = bool(value & SPECIAL_ON)
        if value & READ:
            self.reads_service = bool(value & READ_SERVICE)
        self.is_poll_kept = self.polls and not value & POLL
        if value & POLL:
            self.polls = True

    def end(self, value: int) -> None:
        level = value & 7
        if value & END:
            self.was_ended = True
            ended = level if value & SPECIFIC else self.highest()
            if value & ROTATE and (ended is None or not self.in_service >> ended & 1):
                self.is_rotated_openly = True
            if ended is not None:
                self.in_service &= ~(1 << ended)
                self.lowest = ended if value & ROTATE else self.lowest
        elif value & SPECIFIC and value & ROTATE:
            self.lowest = level

    def highest(self) -> Optional[int]:
        """The level in service of the highest priority, which a special mask passes over."""
        for k in range(1, LEVELS + 1):
            level = self.lowest + k & 7
            if self.in_service >> level & 1 and not (self.special_mask and self.mask >> level & 1):
                return level
        return None

    def serve(self, level: int) -> None:
        if not self.automatic:
            self.in_service |= 1 << level

    def read(self, value: int) -> None:
        """Notes what a read of this board gave."""
        if self.polls:
            self.polled, self.polls, self.is_poll_kept = value, False, False
            if value & 0x80:
                self.serve(value & 7)


@dataclass
class Interrupts:
    chips: tuple[Chip, Chip] = field(default_factory=lambda: (Chip(), Chip()))
    levels: int = 0  # of the script's lines
    rose: int = 0  # lines that a script or a device may have raised
    fell: int = 0  # lines of a script that fell since they rose
    elcr: int = 0
    elcr_changed: int = 0  # lines whose sense was changed after they moved
    rose_as_levels: int = 0
    is_cascade_fallen: bool = False  # a line of the slave fell after it rose
    has_wires: bool = False  # a card has asked
    is_begun_under_request: bool = False  # ICW1 came to the master while the slave's lines were high

    def set_line(self, line: int, level: bool) -> None:
        bit = 1 << line
        if level and not self.levels & bit:
            self.rose |= bit
            self.fell &= ~bit
            self.rose_as_levels = self.rose_as_levels | bit if self.elcr & bit else self.rose_as_levels & ~bit
        elif not level and self.levels & bit:
            self.fell |= bit
            self.is_cascade_fallen = self.is_cascade_fallen or line >= LEVELS
        self.elcr_changed &= ~bit
        self.levels = self.levels | bit if level else self.levels & ~bit

    def write(self, number: int, is_odd: bool, value: int) -> None:
        if number == 0 and not is_odd and value & ICW1:
            self.is_begun_under_request = bool(self.rose >> LEVELS)
        self.chips[number].write(is_odd, value)

    def write_elcr(self, at: int, value: int) -> None:
        shift = LEVELS * at
        before, self.elcr = self.elcr, self.elcr & ~(0xFF << shift) | value << shift
        self.elcr_changed |= before ^ self.elcr

    def acknowledge(self, target: str, vector: int) -> None:
        """Notes an acknowledge as this board gave it."""
        kind, number = target[:-1], int(target[-1])
        if number == 1:
            self.chips[0].serve(CASCADE)
        if kind == "vec":
            self.chips[number].serve(vector & 7)

    def raise_line(self, line: int) -> None:
        """A device of the board may have raised its line, and let it fall again."""
        self.rose |= 1 << line
        self.fell |= 1 << line


def chip_number(byte: "Byte") -> int:
    return int(byte.target[-1])


def chip_of(byte: "Byte") -> Chip:
    return byte.state.interrupts.chips[chip_number(byte)]


def chip_at_issue(byte: "Byte") -> Chip:
    """The chip that answered otherwise: of two vectors the slave where both are its own, and else the master."""
    master, slave = byte.state.interrupts.chips
    if byte.target in ("pic0", "pic1"):
        return chip_of(byte)
    is_slave = chip_number(byte) == 1 and slave.base is not None and byte.given & BASE_BITS == slave.base
    return slave if is_slave else master


def at_issue(wanted: Callable[[Chip], bool]) -> Callable[["Byte"], bool]:
    """Whether the chip that answered otherwise is so. What asks, in IRR, hangs on none of its modes."""
    return lambda byte: wanted(chip_at_issue(byte)) and not (byte.target in ("pic0", "pic1") and is_request(byte))


def is_even(byte: "Byte") -> bool:
    return not byte.place & 1


def is_poll(byte: "Byte") -> bool:
    return chip_of(byte).polls


def is_request(byte: "Byte") -> bool:
    return is_even(byte) and not is_poll(byte) and not chip_of(byte).reads_service


def lines_more(byte: "Byte") -> int:
    """The lines that ask in the other alone, as bits of sixteen."""
    return (byte.given & ~byte.ours) << LEVELS * chip_number(byte)


def lines_differing(byte: "Byte") -> int:
    return byte.differing << LEVELS * chip_number(byte)


def is_fallen(byte: "Byte") -> bool:
    """Whether the other's request is of a line that fell before it was acknowledged, or of the slave for such a one."""
    interrupts = byte.state.interrupts
    fallen = interrupts.fell & ~interrupts.elcr
    if chip_number(byte) == 0 and lines_more(byte) & 1 << CASCADE:
        return bool(fallen >> LEVELS)
    return bool(lines_more(byte) & fallen)


def is_fallen_at_poll(byte: "Byte") -> bool:
    """Whether the other's poll gave the level of a line that fell."""
    fallen = byte.state.interrupts.fell & ~byte.state.interrupts.elcr
    return byte.given >> 7 == 1 and bool(fallen >> LEVELS * chip_number(byte) + (byte.given & 7) & 1)


def is_fallen_at_acknowledge(byte: "Byte") -> bool:
    """Whether the other gave the vector of a line that fell before it was acknowledged."""
    interrupts = byte.state.interrupts
    fallen = interrupts.fell & ~interrupts.elcr
    for number, chip in enumerate(interrupts.chips):
        if chip.base is not None and byte.given & BASE_BITS == chip.base:
            return bool(fallen >> LEVELS * number + (byte.given & 7) & 1)
    return False


def is_line(line: int) -> Callable[["Byte"], bool]:
    """Whether the request of a line differs: that of a device of the board."""
    return lambda byte: is_request(byte) and bool(lines_differing(byte) & 1 << line)


def is_routed(byte: "Byte") -> bool:
    """Whether a card asks, and the request of a line differs that nothing else raised."""
    interrupts = byte.state.interrupts
    return is_request(byte) and interrupts.has_wires and bool(lines_differing(byte) & ~interrupts.rose)


def is_changed_sense(byte: "Byte") -> bool:
    return is_request(byte) and bool(lines_differing(byte) & byte.state.interrupts.elcr_changed)


def is_level_latched(byte: "Byte") -> bool:
    """Whether this board shows a rise that came while the line was level triggered."""
    interrupts = byte.state.interrupts
    shown = (byte.ours & ~byte.given) << LEVELS * chip_number(byte)
    return is_request(byte) and bool(shown & interrupts.rose_as_levels & ~interrupts.elcr)


def is_renewed(byte: "Byte") -> bool:
    """Whether the master was initialized while the slave asked, and the slave's request is what differs."""
    if not byte.state.interrupts.is_begun_under_request:
        return False
    return byte.target in ("vec1", "spur1") or byte.target == "pic0" and bool(byte.ours & ~byte.given & 1 << CASCADE)


def is_cascade_poll(byte: "Byte") -> bool:
    return byte.state.interrupts.chips[0].polled == 0x80 | CASCADE


def is_cascade_fallen(byte: "Byte") -> bool:
    """Whether the slave's INT fell, and this board keeps its request in the master."""
    kept = byte.target == "spur1" or byte.target == "pic0" and bool(byte.ours & ~byte.given & 1 << CASCADE)
    return byte.state.interrupts.is_cascade_fallen and kept


def is_foreign_base(byte: "Byte") -> bool:
    return byte.given & BASE_BITS not in [chip.base for chip in byte.state.interrupts.chips]


def is_spurious(byte: "Byte") -> bool:
    return byte.target in ("spur0", "spur1")


BOTH = f"{REGISTERS}|{ACKNOWLEDGES}"
IN_MODES = "8259A, Fully Nested Mode"
ROWS = [
    Row(
        "soft-reset",
        DATASHEET,
        "82371SB, RC: Reset Control Register",
        "a soft reset, 04, resets the processor alone: the registers and the devices keep what they have",
        BOTH,
        when=lambda it: 0 < it.state.pic_set_up < it.state.soft_reset,
    ),
    Row(
        "pic-begun-anew",
        CHOICE,
        "Interrupt controllers",
        "ICW1 in the middle of a sequence begins the sequence anew",
        BOTH,
        when=at_issue(lambda it: it.is_begun_anew),
    ),
    Row(
        "poll-kept",
        CHOICE,
        "Interrupt controllers",
        "OCW3 with the poll bit at 0 leaves a poll that was asked for",
        REGISTERS,
        when=lambda it: chip_of(it).is_poll_kept,
    ),
    Row(
        "mask",
        DATASHEET,
        "8259A, Operation Command Word 1 (OCW1)",
        "the odd port gives the mask",
        REGISTERS,
        when=lambda it: not is_even(it) and not is_poll(it) and chip_of(it).is_masked,
    ),
    Row(
        "mask-first",
        CHOICE,
        "Interrupt controllers",
        "a reset clears everything: the mask too",
        REGISTERS,
        when=lambda it: not is_even(it) and not is_poll(it),
    ),
    Row(
        "vector-base",
        DATASHEET,
        "8259A, Initialization Command Words 1 and 2 (ICW1, ICW2)",
        "bits 7 to 3 of a vector are those of ICW2",
        ACKNOWLEDGES,
        bits=BASE_BITS,
        when=is_foreign_base,
    ),
    Row(
        "icw1-under-request",
        OTHER,
        "8259A, Initialization Command Words 1 and 2 (ICW1, ICW2)",
        "ICW1 resets the edge sense circuit: an input has to rise anew; this board latches the slave's request at once",
        f"pic0|{ACKNOWLEDGES}",
        when=is_renewed,
    ),
    Row(
        "timer-line",
        DATASHEET,
        "8254, Mode Definitions: Out",
        "line 0 is the output of counter 0, as its mode has it",
        "pic0",
        when=lambda it: is_line(TIMER_LINE)(it) and it.state.timer.counters[0].is_set_up,
    ),
    Row(
        "fallen-edge",
        DATASHEET,
        EDGES,
        "an input has to stay high until the first acknowledge, and a request that fell is none",
        REGISTERS,
        when=lambda it: is_request(it) and is_fallen(it) or is_poll(it) and is_fallen_at_poll(it),
    ),
    Row(
        "spurious",
        DATASHEET,
        EDGES,
        "where the request went before it was acknowledged the answer is level 7",
        ACKNOWLEDGES,
        when=is_fallen_at_acknowledge,
    ),
    Row(
        "poll-of-cascade",
        CHOICE,
        "Interrupt controllers",
        "a poll of the master that finds level 2 acknowledges the master alone, and the slave keeps its request",
        BOTH,
        when=is_cascade_poll,
    ),
    Row(
        "cascade-kept",
        CHOICE,
        "Interrupt controllers",
        "a fall of the slave's INT leaves that of input 2",
        BOTH,
        when=is_cascade_fallen,
    ),
    Row(
        "poll",
        DATASHEET,
        "8259A, Poll Command",
        "the next read after it gives bit 7 and the level of the highest priority that asks, and acknowledges it",
        REGISTERS,
        when=is_poll,
    ),
    Row(
        "special-nested",
        DATASHEET,
        "8259A, The Special Fully Nested Mode",
        "a slave in service lets its own higher levels through, and blocks the lower levels of the master",
        BOTH,
        when=lambda it: it.state.interrupts.chips[0].nested,
    ),
    Row(
        "special-mask",
        DATASHEET,
        "8259A, Special Mask Mode",
        "a masked level in service blocks no other, and a non-specific end of interrupt passes over it",
        BOTH,
        when=at_issue(lambda it: it.special_mask),
    ),
    Row(
        "rotation-at-end",
        CHOICE,
        "Interrupt controllers",
        "a rotating specific end of interrupt makes its level the lowest also where it was not in service; a "
        "non-specific one that finds none does nothing",
        BOTH,
        when=at_issue(lambda it: it.is_rotated_openly),
    ),
    Row(
        "elcr-sense",
        DATASHEET,
        "82371SB, ELCR: Edge/Level Control Registers",
        "its bit tells at each moment whether a line is an edge or a level",
        REGISTERS,
        when=is_changed_sense,
    ),
    Row(
        "level-latched",
        CHOICE,
        "Interrupt controllers",
        "a rise sets the latch also while the line is level triggered, and shows when it is made edge triggered",
        REGISTERS,
        when=is_level_latched,
    ),
    Row(
        "pirq",
        DATASHEET,
        "82371SB, PIRQRC: PIRQx Route Control Registers",
        "a card's request goes to the line of bits 3 to 0 while bit 7 is 0, and nowhere by a reserved value",
        REGISTERS,
        when=is_routed,
    ),
    Row(
        "spurious",
        DATASHEET,
        EDGES,
        "where the request went before it was acknowledged the answer is level 7",
        ACKNOWLEDGES,
        when=is_spurious,
    ),
    Row(
        "clock-line",
        DATASHEET,
        "MC146818, IRQ",
        "line 8 is high while a flag of register C and its enable in B are both 1",
        "pic1",
        when=is_line(CLOCK_LINE),
    ),
    Row(
        "disk-line",
        DATASHEET,
        "ATA/ATAPI-4, INTRQ",
        "line 14 is high from the end of a command or of a sector until the status " "is read",
        "pic1",
        when=is_line(DISK_LINE),
    ),
    Row(
        "com1-line",
        DATASHEET,
        "PC16550D, 8.6: Interrupt Identification Register",
        "line 4 is high while an interrupt that IER enables is pending, and OUT2 lets it out",
        "pic0",
        when=lambda it: is_line(COM1_LINE)(it) and it.state.com1.is_used,
    ),
    Row(
        "requests",
        DATASHEET,
        "8259A, Interrupt Request Register (IRR)",
        "it shows the inputs that ask and are not in service",
        REGISTERS,
        when=is_request,
    ),
    Row(
        "automatic-end",
        DATASHEET,
        "8259A, Automatic End of Interrupt (AEOI) Mode",
        "a level leaves service at the end of its acknowledge",
        BOTH,
        when=at_issue(lambda it: it.automatic),
    ),
    Row(
        "rotation",
        DATASHEET,
        "8259A, Automatic Rotation and Specific Rotation",
        "a rotation moves the lowest priority",
        BOTH,
        when=at_issue(lambda it: it.lowest != SPURIOUS),
    ),
    Row(
        "in-service",
        DATASHEET,
        "8259A, In-Service Register (ISR)",
        "it shows the levels that were acknowledged and not ended",
        REGISTERS,
    ),
    Row(
        "acknowledge",
        DATASHEET,
        IN_MODES,
        "an acknowledge gives the level of the highest priority that asks, and the slave's "
        "vector where it is the slave that asks",
        ACKNOWLEDGES,
    ),
]
