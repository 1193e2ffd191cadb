"""Boards that are saved and loaded."""
import pytest

from board440fx import Board, Card, errors

# The 82371SB's function 1 lets the IDE channel answer: bit 0 of PCICMD, and bit 15 of IDETIM.
ENABLE_IDE = ((0xCF8, 4, 0x80000904), (0xCFC, 2, 0x0001), (0xCF8, 4, 0x80000940), (0xCFC, 2, 0x8000))
# A sector by WRITE SECTORS: one of it, the second, drive 0 by LBA.
WRITE_SECTOR_1 = ((0x1F2, 1, 1), (0x1F3, 1, 1), (0x1F6, 1, 0xE0), (0x1F7, 1, 0x30))


def test_a_loaded_board_goes_on():
    with Board(memory=16, cards=[Card.parse("2 vga m24")], disk=bytes(1024)) as board:
        board.write(0x1234, 4, 0x89ABCDEF)
        board.out(0x43, 1, 0x34)
        board.out(0x40, 1, 0x10)
        board.out(0x40, 1, 0x27)
        board.pulse(99)
        board.receive(0x41)
        image = board.save()
        with Board.load(image) as other:
            assert other.save() == image
            assert other.last is None
            assert other.read(0x1234, 4) == 0x89ABCDEF
            assert other.pulses_to_rise == board.pulses_to_rise
            assert other.serial_state == board.serial_state
            assert other.map.mib == 16


def test_pages_of_zeros_take_a_byte():
    with Board(memory=64) as board:
        board.write(0, 1, 1)
        assert len(board.save()) < 64 * 256 + 2 * 4096


def test_bytes_that_are_left_out_are_given():
    fitted = bytes(range(256)) * 4
    with Board(memory=1, disk=fitted) as board:
        board.write(0x1234, 4, 0x89ABCDEF)
        for port, width, value in (*ENABLE_IDE, *WRITE_SECTOR_1):
            board.out(port, width, value)
        for word in range(256):
            board.out(0x1F0, 2, word)
        whole, image = board.save(), board.save(dram=False, disk=False)
        own = {"dram": board.dram_read(0, 1 << 20), "fitted": fitted, "sectors": board.disk_read(0) + board.disk_read(1)}
    written = b"".join(word.to_bytes(2, "little") for word in range(256))
    assert own["sectors"] == fitted[:512] + written and len(image) < len(whole) - 2 * 512
    with Board.load(image, **own) as other:
        assert other.save() == whole
    with Board.load(image) as other:
        assert other.read(0x1234, 4) == 0 and other.disk_read(1) == bytes(512)
    for name, given in own.items():
        with pytest.raises(errors.BadLength):
            Board.load(image, **{name: given[:-1]})


@pytest.mark.parametrize("image, refusal", [
    (b"", errors.BadImage),
    (b"BOARDRUN", errors.BadImage),
    (b"BOARDRUN\xFF\xFF", errors.OtherVersion),
])
def test_other_bytes_are_refused(image, refusal):
    with pytest.raises(refusal):
        Board.load(image)


def test_each_byte_too_few_or_too_many_is_refused():
    with Board(memory=1) as board:
        image = board.save()
    for bad in (image[:-1], image + b"\0", image[1:]):
        with pytest.raises(errors.BadImage):
            Board.load(bad)


def test_a_closed_board_is_not_saved():
    board = Board()
    board.close()
    with pytest.raises(errors.BadHandle):
        board.save()
