"""The bus master of the disk as one statement: `bus_master in|out TABLE LBA COUNT` answers bits 2 to 0 of the bus
master's status register. What the registers of the disk hold after it is not told: such a statement stands where
nothing asks."""
from dataclasses import dataclass

from board440fx import Board, Descriptor, Ended, Words, errors

SECTOR, DWORD = 512, 4
WRITE_SECTORS, LBA_MODE = 0x30, 0xE0
DATA, SECTOR_COUNT, LBA_LOW, LBA_MIDDLE, LBA_HIGH, DEVICE, COMMAND = 0x1F0, 0x1F2, 0x1F3, 0x1F4, 0x1F5, 0x1F6, 0x1F7


@dataclass(frozen=True)
class Asked:
    """What a statement asks for."""

    to_memory: bool
    table: int
    lba: int
    sectors: int

    @staticmethod
    def of(statement: str) -> "Asked":
        _, direction, table, lba, sectors = statement.split(" ")
        return Asked(direction == "in", int(table, 16), int(lba), int(sectors))


def done_by(board: Board, statement: str) -> int:
    """Does a transfer over the memory and the disk of a board, piece by piece: bits 2 to 0 of the status."""
    asked = Asked.of(statement)
    disk = sectors_of(board, asked)
    written = bytearray()
    transfer = board.transfer(
        asked.table, asked.lba, asked.sectors, readable=len(disk) // SECTOR, to_memory=asked.to_memory
    )
    for piece in transfer:
        if isinstance(piece, Descriptor):
            base, count = (board.dram_read(piece.addr + at, DWORD) for at in (0, DWORD))
            transfer.region(int.from_bytes(base, "little"), int.from_bytes(count, "little"))
        elif isinstance(piece, Words) and asked.to_memory:
            at = piece.disk - asked.lba * SECTOR
            if is_dram(piece):
                board.dram_write(piece.addr, disk[at : at + piece.count])
        elif isinstance(piece, Words):
            written += board.dram_read(piece.addr, piece.count)
        elif isinstance(piece, Ended):
            write_sectors(board, asked.lba, bytes(written))
            return piece.status
    raise AssertionError("a transfer ends")


def is_dram(piece: Words) -> bool:
    return piece.part.target.partition(":")[0] in ("dram", "shadow")


def sectors_of(board: Board, asked: Asked) -> bytes:
    """The sectors that are there, from the first that is asked for on."""
    found = b""
    for number in range(asked.sectors):
        try:
            found += board.disk_read(asked.lba + number)
        except errors.NoSector:
            break
    return found


def write_sectors(board: Board, lba: int, data: bytes) -> None:
    """Puts bytes on the disk by its own ports; what is left of the last sector stays what it was."""
    into_last = len(data) % SECTOR
    if into_last:
        data += board.disk_read(lba + len(data) // SECTOR)[into_last:]
    for number in range(len(data) // SECTOR):
        at = lba + number
        for port, value in (
            (SECTOR_COUNT, 1),
            (LBA_LOW, at & 0xFF),
            (LBA_MIDDLE, at >> 8 & 0xFF),
            (LBA_HIGH, at >> 16 & 0xFF),
            (DEVICE, LBA_MODE),
            (COMMAND, WRITE_SECTORS),
        ):
            board.out(port, 1, value)
        words = data[number * SECTOR : (number + 1) * SECTOR]
        board.out_many(DATA, DWORD, [int.from_bytes(words[k : k + DWORD], "little") for k in range(0, SECTOR, DWORD)])
