"""COM1, a PC16550D: what its registers were given."""
from dataclasses import dataclass, field
from typing import TYPE_CHECKING

from .row import CHOICE, DATASHEET, EITHER, OTHER, Row

if TYPE_CHECKING:
    from traces.difference_state import Byte

COM1 = 0x3F8
RBR, IER, IIR, LCR, MCR, LSR, MSR, SCR = range(8)
DLAB, LOOP, OUT_2 = 0x80, 0x10, 0x08
EMPTY = 0x60
CHANGES, LINES, TIMEOUT, IDENTITY, FIFOS, EMPTY_CAUSE = 0x0F, 0xF0, 0x0C, 0x0F, 0xC0, 0x02
FIFO_ON, CLEAR_RECEIVER = 0x01, 0x02
AFTER_RESET = "PC16550D, 8.0: UART Reset Configuration"


@dataclass
class Com1:
    written: dict[int, int] = field(default_factory=dict)  # by register, the divisor's by -2 and -1
    is_used: bool = False
    waiting: int = 0  # bytes looped back since one was read, at least
    was_full: bool = False  # one came while one waited, without FIFOs

    @property
    def is_divisor(self) -> bool:
        return bool(self.written.get(LCR, 0) & DLAB)

    @property
    def is_looped(self) -> bool:
        return bool(self.written.get(MCR, 0) & LOOP)

    @property
    def has_fifos(self) -> bool:
        return bool(self.written.get(IIR, 0) & FIFO_ON)

    def write(self, port: int, value: int) -> None:
        register = port - COM1
        self.is_used = True
        if register in (RBR, IER) and self.is_divisor:
            self.written[register - 2] = value
            return
        if register == RBR and self.is_looped:
            self.was_full = self.was_full or self.waiting > 0 and not self.has_fifos
            self.waiting += 1
        elif register == IIR and (value & CLEAR_RECEIVER or value & FIFO_ON != self.written.get(IIR, 0) & FIFO_ON):
            self.waiting, self.was_full = 0, False
        self.written[register] = value

    def receive(self) -> None:
        self.is_used, self.waiting = True, self.waiting + 1

    def read(self, port: int) -> None:
        if port == COM1 and not self.is_divisor:
            self.waiting = max(0, self.waiting - 1)
            self.was_full = self.was_full and self.waiting > 0


def register_of(byte: "Byte") -> int:
    return byte.place - COM1


def is_register(register: int) -> "When":
    return lambda byte: register_of(byte) == register and not (register in (RBR, IER) and byte.state.com1.is_divisor)


def is_divisor(byte: "Byte") -> bool:
    return register_of(byte) in (RBR, IER) and byte.state.com1.is_divisor


def is_first(byte: "Byte") -> bool:
    """Whether nobody wrote the register, which a read gives as it is."""
    register = register_of(byte)
    return register in (IER, LCR, MCR) and register not in byte.state.com1.written


def is_timeout(byte: "Byte") -> bool:
    return is_register(IIR)(byte) and byte.given & IDENTITY == TIMEOUT


def is_not_empty(byte: "Byte") -> bool:
    """Whether the other has bytes that are not sent yet: the empty bits of LSR, or the cause of THR in IIR."""
    if is_register(LSR)(byte):
        return bool(byte.ours & ~byte.given & EMPTY) and not byte.differing & ~EMPTY
    return is_register(IIR)(byte) and byte.ours & IDENTITY == EMPTY_CAUSE


def is_overrun(byte: "Byte") -> bool:
    return is_register(RBR)(byte) and byte.state.com1.was_full


if TYPE_CHECKING:
    from typing import Callable

    When = Callable[[Byte], bool]

ROWS = [
    Row(
        "soft-reset",
        DATASHEET,
        "82371SB, RC: Reset Control Register",
        "a soft reset, 04, resets the processor alone: the registers and the devices keep what they have",
        "uart",
        when=lambda it: 0 < it.state.com1_written < it.state.soft_reset,
    ),
    Row(
        "com1-divisor-first",
        EITHER,
        AFTER_RESET,
        "the divisor is none of what a reset sets",
        "uart",
        when=lambda it: is_divisor(it) and register_of(it) - 2 not in it.state.com1.written,
    ),
    Row(
        "com1-divisor",
        DATASHEET,
        "PC16550D, 8.3: Programmable Baud Generator",
        "the divisor latch keeps what is written",
        "uart",
        when=is_divisor,
    ),
    Row("com1-reset", DATASHEET, AFTER_RESET, "a reset clears IER, LCR and MCR", "uart", when=is_first),
    Row(
        "com1-overrun",
        OTHER,
        "PC16550D, 8.4: Line Status Register",
        "without FIFOs a byte that comes while one waits destroys it; this board keeps the first and loses the new one",
        "uart",
        when=is_overrun,
    ),
    Row(
        "com1-no-byte",
        CHOICE,
        "A serial port",
        "a read of RBR where no byte waits gives 00",
        "uart",
        when=lambda it: is_register(RBR)(it) and not it.state.com1.waiting,
    ),
    Row(
        "com1-received",
        DATASHEET,
        "PC16550D, 8.8: Modem Control Register",
        "in loopback a byte that is sent is received, the first one first",
        "uart",
        when=is_register(RBR),
    ),
    Row(
        "com1-line-rate",
        CHOICE,
        "A serial port",
        "a byte is sent as it is written: THR is always empty",
        "uart",
        when=is_not_empty,
    ),
    Row(
        "com1-timeout",
        CHOICE,
        "A serial port",
        "there is no time-out interrupt, and no trigger level",
        "uart",
        when=is_timeout,
    ),
    Row(
        "com1-line-status",
        DATASHEET,
        "PC16550D, 8.4: Line Status Register",
        "DR is 1 while a byte waits, and OE from a byte that was lost until it is read",
        "uart",
        when=is_register(LSR),
    ),
    Row(
        "com1-fifos",
        DATASHEET,
        "PC16550D, 8.6: Interrupt Identification Register",
        "bits 7 and 6 tell whether the FIFOs are on",
        "uart",
        bits=FIFOS,
        when=is_register(IIR),
    ),
    Row(
        "com1-interrupt",
        DATASHEET,
        "PC16550D, 8.6: Interrupt Identification Register",
        "it gives the first of the pending interrupts: line status, data, empty THR, modem",
        "uart",
        when=is_register(IIR),
    ),
    Row(
        "com1-modem-lines",
        DATASHEET,
        "PC16550D, 8.8: Modem Control Register",
        "in loopback CTS, DSR, RI and DCD are RTS, DTR, OUT1 and OUT2",
        "uart",
        bits=LINES,
        when=lambda it: is_register(MSR)(it) and it.state.com1.is_looped,
    ),
    Row(
        "com1-modem-changes",
        DATASHEET,
        "PC16550D, 8.9: Modem Status Register",
        "bits 3 to 0 tell which of the lines changed since it was read",
        "uart",
        bits=CHANGES,
        when=lambda it: is_register(MSR)(it) and it.state.com1.is_looped,
    ),
    Row(
        "com1-modem",
        CHOICE,
        "A serial port",
        "outside loopback a modem is there and does not ring; a change is marked where a " "write of MCR moves a line",
        "uart",
        when=is_register(MSR),
    ),
    Row(
        "com1-scratch-first",
        EITHER,
        AFTER_RESET,
        "SCR is none of what a reset sets",
        "uart",
        when=lambda it: is_register(SCR)(it) and SCR not in it.state.com1.written,
    ),
    Row(
        "com1-keeps",
        DATASHEET,
        "PC16550D, 8.0: Registers",
        "IER keeps bits 3 to 0, LCR and SCR all and MCR bits 4 to 0 of what is written",
        "uart",
    ),
]
