"""A shadow window that is open for writes alone: the write reaches the DRAM behind it, the read nobody, and PAM2 is why."""
import pathlib
import sys

sys.path.insert(0, str(pathlib.Path(__file__).resolve().parents[1]))  # where the module is not installed

from board440fx import Board

with Board(memory=8, rom=bytes(65536)) as board:
    board.out(0xCF8, 4, 0x80000058)  # registers 58h to 5Bh of the host bridge
    board.out(0xCFF, 1, 0x20)        # 5Bh is PAM2: bit 5 opens CC000h to CFFFFh for writes
    print(board.write(0xCC000, 1, 2))
    print(board.read(0xCC000).answer)
