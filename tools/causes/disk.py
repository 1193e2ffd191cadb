"""The disk: which command was given for which sectors, and how many words were moved."""
from dataclasses import dataclass, field
from typing import TYPE_CHECKING, Optional

from .row import ABSENT, CHOICE, DATASHEET, EITHER, OTHER, Row

if TYPE_CHECKING:
    from traces.difference_state import Byte

DATA, ERROR, COUNT, SECTOR, CYLINDER_LOW, CYLINDER_HIGH, DEVICE, STATUS, OTHER_STATUS = *range(0x1F0, 0x1F8), 0x3F6
READ, WRITE, VERIFY, DIAGNOSTIC, GEOMETRY, FLUSH, IDENTIFY, FEATURES = 0x20, 0x30, 0x40, 0x90, 0x91, 0xE7, 0xEC, 0xEF
COMMANDS = (READ, WRITE, VERIFY, DIAGNOSTIC, GEOMETRY, FLUSH, IDENTIFY, FEATURES)
MOVERS, TRANSFER_MODE = (READ, WRITE, IDENTIFY), 0x03
WORDS_OF_A_SECTOR, HEADS, SECTORS_OF_A_TRACK = 256, 16, 63
DRIVE_1, LBA, HELD_RESET = 0x10, 0x40, 0x04
BSY, DRQ, DSC, INDEX_MARK, ERR = 0x80, 0x08, 0x10, 0x02, 0x01
IDNF, ABRT = 0x10, 0x04  # of the error register
TASK_FILE = range(COUNT, DEVICE + 1)


@dataclass
class Disk:
    command: Optional[int] = None
    words: int = 0  # of the command, that were moved
    wanted: int = 0  # words that it moves in all
    is_drive_1: bool = False  # is chosen, which is not there
    is_cut: bool = False  # a command came in the middle of a sector
    is_held: bool = False  # in reset
    is_reset: bool = True  # no command came since
    first: Optional[int] = None  # the sector at which the command begins, where its address is one of the drive
    written: set[int] = field(default_factory=set)  # sectors
    registers: dict[int, int] = field(default_factory=lambda: dict.fromkeys(range(ERROR, STATUS), 0))
    features: int = 0
    sectors: Optional[int] = None  # that the drive has, where that is known

    def move(self, words: int, is_write: bool) -> None:
        if is_write and self.command == WRITE and self.first is not None:
            self.written.add(self.first + self.words // WORDS_OF_A_SECTOR)
        self.words += words

    def write(self, port: int, value: int) -> None:
        if port == STATUS:
            self.begin(value)
        elif port == OTHER_STATUS:
            if value & HELD_RESET:
                self.is_cut, self.command, self.words, self.is_reset = False, None, 0, True
            self.is_held = bool(value & HELD_RESET)
        else:
            self.registers[port] = value
            self.is_drive_1 = bool(self.registers[DEVICE] & DRIVE_1)

    def begin(self, command: int) -> None:
        is_within = self.words % WORDS_OF_A_SECTOR != 0 if self.sectors is None else self.is_moving
        self.is_cut = self.is_cut or is_within
        self.command, self.words, self.is_reset = command, 0, False
        self.features, self.first = self.registers[ERROR], self.address()
        self.wanted = WORDS_OF_A_SECTOR * self.sectors_moved(command)

    def sectors_moved(self, command: int) -> int:
        """The sectors of words that a command moves."""
        if command not in MOVERS or command == IDENTIFY:
            return int(command == IDENTIFY)
        asked = self.registers[COUNT] or 256
        if self.sectors is None:
            return asked
        return 0 if self.first is None else min(asked, max(0, self.sectors - self.first))

    def address(self) -> Optional[int]:
        sector, head = self.registers[SECTOR], self.registers[DEVICE] & 0xF
        cylinder = self.registers[CYLINDER_HIGH] << 8 | self.registers[CYLINDER_LOW]
        if self.registers[DEVICE] & LBA:
            return head << 24 | cylinder << 8 | sector
        return (
            (cylinder * HEADS + head) * SECTORS_OF_A_TRACK + sector - 1 if 1 <= sector <= SECTORS_OF_A_TRACK else None
        )

    @property
    def takes(self) -> bool:
        """Whether this board takes the last command."""
        return self.command is None or self.command in COMMANDS

    @property
    def is_moving(self) -> bool:
        return self.words < self.wanted

    @property
    def is_identifying(self) -> bool:
        return self.command == IDENTIFY and self.words < WORDS_OF_A_SECTOR


def is_status(byte: "Byte") -> bool:
    return byte.place in (STATUS, OTHER_STATUS)


def is_at_words(byte: "Byte") -> bool:
    return byte.place == DATA


def is_busy(byte: "Byte") -> bool:
    """Whether both are busy, so that only bit 7 means something; or whether the registers are asked meanwhile."""
    if is_status(byte):
        return bool(byte.given & byte.ours & BSY)
    return byte.state.disk.is_held


def is_written_sector(byte: "Byte") -> bool:
    disk = byte.state.disk
    return disk.first is not None and disk.first + disk.words // WORDS_OF_A_SECTOR in disk.written


def is_command(*commands: int) -> "When":
    return lambda byte: byte.state.disk.command in commands


def is_bad_mode(byte: "Byte") -> bool:
    """Whether SET FEATURES asked for a transfer mode, and the other aborts it where this board takes it."""
    return byte.state.disk.command == FEATURES and byte.state.disk.features == TRANSFER_MODE


def is_error(byte: "Byte") -> bool:
    return byte.place == ERROR


def is_aborted_address(byte: "Byte") -> bool:
    """Whether a sector that is not there ends the command with IDNF here, and with ABRT there."""
    return is_error(byte) and byte.ours == IDNF and byte.given == ABRT


def is_error_of_none(byte: "Byte") -> bool:
    """Whether the error register is read after a command that was taken and ended without an error."""
    disk = byte.state.disk
    return is_error(byte) and disk.command is not None and disk.takes and not (byte.ours or byte.given & ABRT)


def is_absent(byte: "Byte") -> bool:
    """Whether the absent drive 1 answers, or what a command to it left."""
    return byte.state.disk.is_drive_1


if TYPE_CHECKING:
    from typing import Callable

    When = Callable[[Byte], bool]

READ_SECTION, WRITE_SECTION = "ATA/ATAPI-4, READ SECTOR(S)", "ATA/ATAPI-4, WRITE SECTOR(S)"
VERIFY_SECTION = "ATA/ATAPI-4, READ VERIFY SECTOR(S)"
STATUS_SECTION = "ATA/ATAPI-4, Status register"
ROWS = [
    Row(
        "bus-master-status",
        DATASHEET,
        "82371SB, BMISX: Bus Master IDE Status Register",
        "bit 2 is 1 after the transfer, bit 1 where it went wrong, and bit 0 while its regions have room left",
        "ata",
        when=lambda it: it.entry.words[0] == "bus_master",
    ),
    Row(
        "soft-reset",
        DATASHEET,
        "82371SB, RC: Reset Control Register",
        "a soft reset, 04, resets the processor alone: the registers and the devices keep what they have",
        "ata",
        when=lambda it: 0 < it.state.disk_written < it.state.soft_reset,
    ),
    Row(
        "disk-absent",
        CHOICE,
        "Disk",
        "the registers of an absent drive are those of the channel",
        "ata",
        when=is_absent,
    ),
    Row(
        "disk-busy",
        EITHER,
        STATUS_SECTION,
        "while BSY is 1 the other bits of the status, and the other registers, tell nothing",
        "ata",
        when=is_busy,
    ),
    Row(
        "disk-reset",
        DATASHEET,
        "ATA/ATAPI-4, Device Control register",
        "BSY is 1 while SRST is",
        "ata",
        bits=BSY,
        when=lambda it: is_status(it) and it.state.disk.is_held,
    ),
    Row(
        "disk-cut",
        CHOICE,
        "Disk",
        "a command in the middle of a transfer ends it and is done",
        "ata",
        when=lambda it: it.state.disk.is_cut,
    ),
    Row(
        "another-disk",
        ABSENT,
        "",
        "another disk: its names, numbers and abilities in IDENTIFY DEVICE",
        "ata",
        when=lambda it: is_at_words(it) and it.state.disk.is_identifying,
    ),
    Row(
        "disk-no-word",
        CHOICE,
        "Disk",
        "a word that is read where none is to move gives FFFF",
        "ata",
        when=lambda it: is_at_words(it) and not it.state.disk.is_moving,
    ),
    Row(
        "disk-index",
        ABSENT,
        "",
        "the index mark, bit 1 of the status",
        "ata",
        bits=INDEX_MARK,
        when=lambda it: is_status(it) and it.differing == INDEX_MARK,
    ),
    Row(
        "disk-features",
        OTHER,
        "ATA/ATAPI-4, SET FEATURES",
        "a transfer mode that is none of the drive is aborted; this board accepts each",
        "ata",
        when=lambda it: is_bad_mode(it) and (is_status(it) and bool(it.given & ERR) or is_error(it)),
    ),
    Row(
        "disk-abort",
        CHOICE,
        "Disk",
        "a command that ends with an error leaves status 51, with DSC",
        "ata",
        when=lambda it: is_status(it) and bool(it.given & it.ours & ERR),
    ),
    Row(
        "disk-command",
        CHOICE,
        "Disk",
        "it takes eight commands, and aborts every other",
        "ata",
        when=lambda it: not it.state.disk.takes,
    ),
    Row(
        "disk-seek",
        CHOICE,
        "Disk",
        "DSC is 1 whenever the disk is ready",
        "ata",
        bits=DSC,
        when=lambda it: is_status(it) and it.differing == DSC,
    ),
    Row(
        "disk-geometry",
        CHOICE,
        "Disk",
        "the geometry is 16 heads of 63 sectors, and 91h takes no other",
        "ata",
        when=is_command(GEOMETRY),
    ),
    Row(
        "disk-not-there",
        EITHER,
        "ATA/ATAPI-4, READ SECTOR(S): Error outputs",
        "an address outside the drive ends the command with IDNF, or with ABRT, in the error register",
        "ata",
        when=is_aborted_address,
    ),
    Row(
        "disk-error-kept",
        CHOICE,
        "Disk",
        "a command that is taken clears the error register, which tells nothing while ERR is 0",
        "ata",
        when=is_error_of_none,
    ),
    Row(
        "disk-diagnostic",
        DATASHEET,
        "ATA/ATAPI-4, EXECUTE DEVICE DIAGNOSTIC",
        "it is done for both drives, leaves 01 in the error register and the signature in the others",
        "ata",
        when=is_command(DIAGNOSTIC),
    ),
    Row(
        "disk-verify",
        DATASHEET,
        VERIFY_SECTION,
        "it looks at each sector and moves no word; one that is not there ends it with IDNF",
        "ata",
        when=is_command(VERIFY),
    ),
    Row(
        "disk-signature",
        DATASHEET,
        "ATA/ATAPI-4, Signature and persistence",
        "after a reset the error register has 01, the count and the sector number 01, and the others 00",
        "ata",
        when=lambda it: it.state.disk.is_reset and not is_status(it),
    ),
    Row(
        "disk-transfer",
        CHOICE,
        "Disk",
        "the count and the address while a sector moves, and after one that moved last",
        "ata",
        when=lambda it: it.place in TASK_FILE and is_command(READ, WRITE)(it),
    ),
    Row(
        "disk-task-file",
        DATASHEET,
        "ATA/ATAPI-4, I/O register descriptions",
        "the registers of the task file keep what is written until a command changes them",
        "ata",
        when=lambda it: it.place in TASK_FILE,
    ),
    Row(
        "disk-words",
        DATASHEET,
        READ_SECTION,
        "a sector has the words that were written to it last",
        "ata",
        when=lambda it: is_at_words(it) and is_written_sector(it),
    ),
    Row(
        "disk-contents",
        ABSENT,
        "",
        "another disk than the script names: sectors that nobody wrote",
        "ata",
        when=is_at_words,
    ),
    Row(
        "disk-write",
        DATASHEET,
        WRITE_SECTION,
        "a sector that is not there ends the command with IDNF before a word is asked for",
        "ata",
        when=is_command(WRITE),
    ),
    Row(
        "disk-data",
        DATASHEET,
        STATUS_SECTION,
        "DRQ is 1 while words are to move",
        "ata",
        bits=DRQ,
        when=lambda it: is_status(it) and not (it.given | it.ours) & (BSY | ERR),
    ),
    Row(
        "disk-read",
        DATASHEET,
        READ_SECTION,
        "a sector that is not there ends the command with IDNF in the error register",
        "ata",
        when=is_command(READ),
    ),
    Row(
        "disk-error",
        DATASHEET,
        "ATA/ATAPI-4, Error register",
        "ABRT tells of a command that is not taken, and of no other",
        "ata",
        when=is_error,
    ),
    Row(
        "disk-status",
        DATASHEET,
        STATUS_SECTION,
        "DRDY is 1 and BSY, DF, CORR and ERR are 0 after a command that is done",
        "ata",
    ),
]
