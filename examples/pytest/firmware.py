"""What firmware does to the chips, as the tests here need it."""
from board440fx import Board

CONFIG_ADDRESS, CONFIG_DATA = 0xCF8, 0xCFC
CMOS_INDEX, CMOS_DATA = 0x70, 0x71

# Registers in configuration space: device * 800h + function * 100h + offset.
PAM0, SMRAM = 0x59, 0x72          # of the host bridge, 00.0
IDE_COMMAND, IDETIM = 0x904, 0x941  # of the IDE function, 01.1; of IDETIM the high byte


def configure(board: Board, register: int, value: int) -> None:
    """Writes a byte of configuration space."""
    board.out(CONFIG_ADDRESS, 4, 0x80000000 | register & ~3)
    board.out(CONFIG_DATA + register % 4, 1, value)


def configured(board: Board, register: int) -> int:
    """Reads one."""
    board.out(CONFIG_ADDRESS, 4, 0x80000000 | register & ~3)
    return board.in_(CONFIG_DATA + register % 4)


def set_up_interrupts(board: Board) -> None:
    """Both 8259A: vectors from 08h and from 70h on, the slave at level 2, nothing masked."""
    for first, base, cascade in ((0x20, 0x08, 0x04), (0xA0, 0x70, 0x02)):
        board.out(first, 1, 0x11)  # ICW1: edges, two controllers, ICW4 follows
        for word in (base, cascade, 0x01, 0x00):
            board.out(first + 1, 1, word)


def set_clock(board: Board, address: int, value: int) -> None:
    """Writes a byte of the MC146818."""
    board.out(CMOS_INDEX, 1, address)
    board.out(CMOS_DATA, 1, value)
