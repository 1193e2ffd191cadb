"""A row of the table of causes, and the kinds of differences: who is right."""
import re
from dataclasses import dataclass, field
from typing import TYPE_CHECKING, Callable, Optional

if TYPE_CHECKING:
    from traces.difference_state import Byte

DATASHEET = "by a datasheet"  # the section says what this board answers
CHOICE = "a choice of this board"  # no datasheet is known to ask for it; the heading is of docs/DECISIONS.md
OTHER = "the other by a datasheet"  # the section says what the other answered
EITHER = "left open by a datasheet"  # the section says that both may be
ABSENT = "not modelled here"
VIEW = "the view of the tool"  # it comes of the way in which the other was asked
DATE = "a date"
KINDS = (DATASHEET, CHOICE, OTHER, EITHER, ABSENT, VIEW, DATE)
COUNTED = (DATASHEET, CHOICE)  # these make the exit status 1
ALWAYS_COUNTED_UP = (DATASHEET, CHOICE, ABSENT, DATE)  # the others are named in the counts where there are some

QTEST = "qtest"  # QEMU's test protocol, which reads and writes as a bus master and not as a processor


@dataclass(frozen=True)
class Row:
    name: str
    kind: str
    by: str  # the document and its section, the heading in docs/DECISIONS.md, or nothing
    what: str
    target: str  # what answered, as in a log: a pattern of it up to its first colon
    function: str = ""  # of a register of configuration space: a pattern
    offsets: tuple[int, ...] = ()
    bits: int = 0xFF
    denial: str = ""  # a pattern
    when: Optional[Callable[["Byte"], bool]] = field(default=None, compare=False)

    def fits(self, byte: "Byte") -> bool:
        return bool(
            re.fullmatch(self.target, byte.target)
            and (not self.function or re.fullmatch(self.function, byte.function))
            and (not self.offsets or byte.offset in self.offsets)
            and byte.differing & self.bits
            and (not self.denial or re.fullmatch(self.denial, byte.denial))
            and (self.when is None or self.when(byte))
        )
