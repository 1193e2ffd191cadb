"""The board from Python. Expected values are those of the datasheets, or worked out by hand."""
import copy
import datetime
import pickle
import threading

import pytest

from board440fx import Board, Card, Descriptor, Ended, Event, Reset, Words, errors

CONFIG_ADDRESS, CONFIG_DATA, RESET_CONTROL = 0xCF8, 0xCFC, 0xCF9
AFTER_RESET = """\
00000000 0009FFFF dram:0 dram:0 dram:0 dram:0 dram:0 dram:0
000A0000 000EFFFF abort abort abort abort abort abort
000F0000 000FFFFF rom rom rom rom rom rom
00100000 007FFFFF dram:0 dram:0 dram:0 dram:0 dram:0 dram:0
00800000 FFFEFFFF abort abort abort abort abort abort
FFFF0000 FFFFFFFF rom rom rom rom rom rom
"""


@pytest.fixture
def board():
    with Board() as opened:
        yield opened


def configure(board, register, value):
    """Writes a byte of a register of a function: device * 800h + function * 100h + offset."""
    board.out(CONFIG_ADDRESS, 4, 0x80000000 | register & ~3)
    board.out(CONFIG_DATA + register % 4, 1, value)


def set_up_interrupts(board):
    """Both 8259A with their vectors at 08h and 70h, all levels open."""
    for first, base, cascade in ((0x20, 0x08, 0x04), (0xA0, 0x70, 0x02)):
        board.out(first, 1, 0x11)
        for word in (base, cascade, 0x01, 0x00):
            board.out(first + 1, 1, word)


def test_a_fetch_reaches_the_rom():
    rom = bytearray(65536)
    rom[0xFFF0:0xFFF4] = b"\xEA\x5B\xE0\x00"
    with Board(rom=bytes(rom)) as board:
        value = board.fetch(0xFFFFFFF0, 4)
        assert (value, value.target) == (0x00E05BEA, "rom:0FFF0")
        assert (value.target.offset, value.denied_by) == (0xFFF0, None)


def test_memory_keeps_what_is_written(board):
    assert board.write(0x1003, 8, 0x8877665544332211).reply == "- dram:0 - dram:0 - dram:0 - dram:0 -"
    assert [board.read(0x1003), board.read(0x1004, 2), board.read(0x1007, 4)] == [0x11, 0x3322, 0x88776655]
    assert board.read(0x1003, 8) == 0x8877665544332211


def test_a_shut_window_is_denied_by_its_register(board):
    configure(board, 0x5A, 0x02)
    assert board.write(0xC0000, 1, 0x5A).target == "shadow:0"
    configure(board, 0x5A, 0x01)
    assert board.read(0xC0000) == 0x5A
    assert board.denied_by is None
    denial = board.write(0xC0000, 1, 0).denied_by
    assert (denial, denial.name, denial.in_words) == ("00.0.5A", "PAM1", "00.0.5A (PAM1)")
    assert denial.register == (0, 0, 0x5A)
    assert board.denied_by == denial


def test_smram_answers_in_its_mode_alone(board):
    configure(board, 0x72, 0x0A)
    assert board.read(0xA8000).denied_by.name == "SMRAM"
    assert board.read(0xA8000, smm=True).target == "smram"
    assert board.decode(Event.read(0xA8000)).denied_by == "00.0.72"


def test_smram_answers_no_bus_master(board):
    configure(board, 0x72, 0x48)
    assert board.read(0xA8000).target == "smram"
    assert board.decode_master(0xA8000, 4, False).denied_by == "00.0.72"
    assert board.decode_master(0x9FFFC, 4, True).target == "dram:0"


def test_bytes_of_a_card_go_in_and_out():
    with Board(cards=[Card(3, bases=("m12",))]) as board:
        board.card_write(3, 0, 0xFFC, b"\x11\x22\x33\x44")
        configure(board, 0x1813, 0xF0)
        configure(board, 0x1804, 2)
        assert board.read(0xF0000FFC, 4) == 0x44332211
        board.write(0xF0000FFD, 1, 0x5A)
        assert board.card_read(3, 0, 0xFFC, 4) == b"\x11\x5A\x33\x44"


def test_an_expansion_rom_has_bytes():
    with Board(cards=[Card(3, rom=15)]) as board:
        configure(board, 0x1832, 0xF0)
        configure(board, 0x1830, 1)
        configure(board, 0x1804, 2)
        assert board.read(0x00F00010, 4) == 0x16151413
        board.card_write(3, 6, 0, b"\x55\xAA\x40")
        assert board.read(0x00F00000, 4) == 0x0640AA55
        board.write(0x00F00001, 1, 0)
        assert board.read(0x00F00001) == 0xAA
        assert board.card_read(3, 6, 1, 3) == b"\xAA\x40\x06"


def test_a_transfer_in_pieces(board):
    memory = {0x1000: (0x2000, 0x200), 0x1008: (0x9FFFE, 0x80000200)}
    transfer = board.transfer(0x1000, 5, 2, to_memory=True)
    pieces = []
    for piece in transfer:
        pieces.append(piece)
        if isinstance(piece, Descriptor):
            transfer.region(*memory[piece.addr])
    dram = board.decode_master(0x2000, 2, True)
    assert str(dram.target) == "dram:0"
    assert pieces == [
        Descriptor(0x1000, dram, dram), Words(0x2000, 5 * 512, 512, dram),
        Descriptor(0x1008, dram, dram), Words(0x9FFFE, 6 * 512, 2, dram),
        Ended("aborted", 2, 514, 0xA0000, 0, board.decode_master(0xA0000, 2, True).denied_by),
    ]
    assert transfer.table == 0x1010


def test_what_is_read_is_a_number_and_a_line(board):
    value = board.read(0xCC000)
    assert repr(value) == "<r b 000CC000 = FF abort 00.0.5B>"
    assert (str(value), f"{value:02X}", value + 1, value == 0xFF) == ("255", "FF", 256, True)
    assert repr(board.last) == repr(value)


def test_the_timer_interrupts(board):
    set_up_interrupts(board)
    for port, value in ((0x43, 0x34), (0x40, 5), (0x40, 0)):
        board.out(port, 1, value)
    assert board.pulses_to_rise == 6  # one loads the count, and five count it down
    assert not board.pulse(5).interrupt
    assert board.pulse(1).interrupt
    vector = board.acknowledge()
    assert (vector, vector.target) == (0x08, "vec0")


def test_the_clock_shows_a_moment(board):
    board.time(datetime.datetime(2024, 2, 29, 12, 34, 56))
    assert [board.cmos_read(address) for address in (4, 2, 0)] == [0x12, 0x34, 0x56]
    board.cmos_write(0x40, 0x5A)
    board.out(0x70, 1, 0x40)
    assert board.in_(0x71) == 0x5A


def test_an_answer_prints_with_its_event_and_what_denied_it(board):
    denied = board.step(Event.read(0xCC000, 2))
    assert str(denied) == "r w 000CC000 = FFFF abort 00.0.5B, denied by 00.0.5B (PAM2)"
    assert (repr(denied), denied.reply) == ("<r w 000CC000 = FFFF abort 00.0.5B>", "FFFF abort 00.0.5B")
    assert str(board.write(0x1000, 1, 0x5A)) == "w b 00001000 5A = - dram:0 -"
    assert str(board.read(0xE0000000).answer) == "r b E0000000 = FF abort none, denied by none"


def test_a_byte_of_the_clock_may_raise_the_interrupt(board):
    set_up_interrupts(board)
    board.time(datetime.datetime(2024, 2, 29, 12, 34, 56))  # the update sets UF
    before = board.write(0x1000, 1, 0x5A)
    board.cmos_write(0x0B, 0x12)  # UIE and 24 hours: IRQF is 1, so that line 8 rises
    assert (before.interrupt, board.last.interrupt) == (False, True)
    assert (board.last.event, board.last.reply) == (before.event, before.reply)
    assert board.acknowledge() == 0x70


def test_a_byte_of_the_clock_is_no_answer():
    with Board() as board:
        board.cmos_write(0x40, 0x5A)
        assert board.last is None


def test_a_sector_is_read():
    disk = b"".join(bytes([sector]) * 512 for sector in range(1, 5))
    with Board(disk=disk) as board:
        configure(board, 0x904, 1)
        configure(board, 0x941, 0x80)
        for port, value in ((0x1F6, 0xE0), (0x1F2, 1), (0x1F3, 2), (0x1F4, 0), (0x1F5, 0), (0x1F7, 0x20)):
            board.out(port, 1, value)
        assert board.in_(0x1F7) == 0x58
        assert board.in_(0x1F0, 2) == 0x0303
        assert board.disk_read(2) == bytes([3]) * 512


def test_com1_sends_and_receives(board):
    answer = board.out(0x3F8, 1, ord("H"))
    assert (answer.sent, answer.target, answer.serial_room) == (ord("H"), "uart", True)
    board.receive(ord("k"))
    assert board.in_(0x3F8) == ord("k")
    board.out(0x3FC, 1, 0x10)  # loopback
    with pytest.raises(errors.SerialFull):
        board.receive(ord("k"))


def test_a_port_that_is_not_aligned_is_cut(board):
    set_up_interrupts(board)
    board.out(0x21, 2, 0x115A)  # 21h is the mask, 22h nobody's
    assert board.in_(0x21) == 0x5A
    assert repr(board.in_(0x21, 2)) == "<in w 0021 = FF5A pic0 - abort none>"
    assert board.in_(0x20, 2) == 0xFFFF  # aligned, and nobody's in this width
    board.out(RESET_CONTROL, 1, 2)
    answer = board.out(RESET_CONTROL, 2, 6)
    assert (answer.reset, answer.target) == (Reset.HARD, "reset")


def test_the_map_after_a_reset(board):
    assert str(board.map) == AFTER_RESET
    assert (len(board.map), board.map.version, board.map.at(0xF8000).area("r")) == (6, 0, "rom")
    configure(board, 0x59, 0x30)
    assert str(board.look("w", 0xF8000)) == "1 000F0000 000FFFFF shadow:0"
    assert board.map.version == board.last.version == 1
    assert any(window.lo <= 0xF0000 and 0xFFFFF <= window.hi for window in board.map.windows)


def test_each_kind_of_access_has_its_area(board):
    configure(board, 0x59, 0x20)  # PAM0: writes alone
    bios = board.map.at(0xF8000)
    assert (bios.area("f"), bios.area("r"), bios.area("w")) == ("rom", "rom", "shadow:0")
    configure(board, 0x72, 0x2A)  # SMRAME and DCLS: code alone
    smram = board.map.at(0xA8000)
    assert (smram.area("f", smm=True), smram.area("r", smm=True)) == ("smram", "abort")
    assert smram.area("f") == smram.area("r") == "abort"


def test_a_card_answers_where_it_is_placed():
    with Board(cards=["3 plain", Card(2, bases=("m12", "i4"))]) as board:
        configure(board, 0x1013, 0xE0)
        configure(board, 0x1015, 0x60)
        assert board.in_(0x6000).denied_by == "02.0.04"
        configure(board, 0x1004, 3)
        assert board.write(0xE0000010, 1, 0x77).target == "card:2.0:00000010"
        assert board.read(0xE0000010) == 0x77
        assert board.in_(0x6000).target == "card:2.1:00000000"
        assert board.wire(2, True).target == "wires"


def test_bytes_are_put_and_told_whatever_the_map_says(board):
    board.dram_write(0xA0000, b"\x01\x02\x03")
    assert board.dram_read(0x9FFFF, 4) == b"\x00\x01\x02\x03"
    assert board.dram_read(8 << 20, 2) == b"\xFF\xFF"
    assert board.dram_read(0, 0) == b""


def test_threads_share_a_board(board):
    def write(first):
        for addr in range(first, first + 2000):
            board.write(addr, 1, first >> 12)

    threads = [threading.Thread(target=write, args=(first << 12,)) for first in range(1, 5)]
    for thread in threads:
        thread.start()
    for thread in threads:
        thread.join()
    for first in range(1, 5):
        assert board.dram_read(first << 12, 2000) == bytes([first]) * 2000


def test_a_board_is_not_copied_and_not_used_after_its_end(board):
    for copied in (copy.copy, copy.deepcopy, pickle.dumps):
        with pytest.raises(TypeError):
            copied(board)
    board.close()
    board.close()
    for call in (lambda: board.read(0), lambda: board.map, lambda: board.cmos_read(0)):
        with pytest.raises(errors.BadHandle):
            call()
    assert repr(board) == "<Board closed>"
