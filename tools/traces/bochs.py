"""What the debugger of Bochs prints of its accesses: `event at t=N IO ..` and `event at t=N IRQ ..`, which its flags
bx_guard.report.io and .irq turn on, and `[CPU0 RD]: ..` and `[CPU0 WR]: ..`, which `trace-mem on` does. The lines of
the interrupt controller come from its log, by `debug: action=ignore, pic=report`. All other lines tell nothing."""
import re
from dataclasses import replace
from typing import Optional

from traces.lines import Broken, Event, fields

PORT = r"event at t=\d+ IO addr=(0x[0-9a-f]+) size=([124]) op=(read|write) val=(0x[0-9a-f]+)"
VECTOR = r"event at t=\d+ IRQ irq=(\d+) vec=([0-9a-f]+)"
MEMORY = (
    r"\[CPU(\d+) (\w+)\]: (?:LIN 0x[0-9a-f]+ )?PHY (0x[0-9a-f]+) \(len=(\d+), [^)]*\)"
    r"(?:: ((?:0x[0-9A-Fa-f]+ ?)+))?.*"
)
LINE = re.compile(r"\d+d\[PIC\s*\] IRQ line (\d+) now (high|low)")
MOST_AT_ONCE = 8


def bochs(number: int, line: str) -> Optional[Event]:
    event = bochs_event(line)
    return event and replace(event, line=number)


def bochs_event(line: str) -> Optional[Event]:
    level = LINE.fullmatch(line)
    if level:
        return Event(0, "line", place=int(level[1]), value=int(level[2] == "high"))
    if re.match(r"event at t=-?\d+ IO ", line):
        port, size, word, value = fields(PORT, line, "an IO event")
        number = int(value, 16) % (1 << 8 * int(size))
        return Event(0, "in" if word == "read" else "out", 0, int(port, 16), int(size), number)
    if re.match(r"event at t=-?\d+ IRQ ", line):
        _, vector = fields(VECTOR, line, "an IRQ event")
        return Event(0, "ack", value=int(vector, 16))
    if line.startswith("[CPU"):
        return memory(line)
    if re.match(r"event at t=?$|event( at?)?$", line):
        raise Broken("not the form of an event")
    return None


def memory(line: str) -> Optional[Event]:
    """An access to memory. Those of more than eight bytes, and those whose value is not told, tell nothing."""
    cpu, word, address, size, value = fields(MEMORY, line, "an access to memory")
    if word not in ("RD", "WR") or value is None or int(size) not in range(1, MOST_AT_ONCE + 1):
        return None
    digits = "".join(part[2:] for part in value.split())  # eight bytes stand as two words, the high one first
    if len(digits) != 2 * int(size):
        raise Broken("a value of other bytes than are accessed")
    return Event(0, "r" if word == "RD" else "w", int(cpu), int(address, 16), int(size), int(digits, 16))
