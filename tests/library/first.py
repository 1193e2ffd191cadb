"""README's first example in Python, by ctypes over libboard.so: a shadow window that is open for writes alone.

    first.py LIBRARY     writes its log
"""
import ctypes as c
import sys

U8, U32, U64 = c.c_uint8, c.c_uint32, c.c_uint64


class Board(c.Structure):
    _fields_ = [("at", c.c_void_p), ("open", c.c_bool)]


class Event(c.Structure):
    _fields_ = [("value", U64), ("addr", U32), ("what", U8), ("kind", U8), ("bytes", U8), ("smm", U8), ("reserved", U64)]


class Part(c.Structure):
    _fields_ = [("offset", U32)] + [(name, U8) for name in (
        "target", "unit", "base", "denial", "denial_dev", "denial_fun", "denial_off", "reserved")]


class Reply(c.Structure):
    _fields_ = [("value", U64), ("version", U32), ("seen", U32), ("lo", U32), ("hi", U32), ("form", U8), ("has_value", U8),
                ("parts", U8), ("interrupt", U8), ("reset", U32), ("part", Part * 4), ("sent", U8), ("has_sent", U8),
                ("irq4", U8), ("serial_room", U8), ("reserved", U32)]


class Base(c.Structure):
    _fields_ = [("kind", U8), ("bits", U8)]


class Card(c.Structure):
    _fields_ = [("device", U8), ("vga", U8), ("rom", U8), ("bases", U8), ("base", Base * 6), ("reserved", U64)]


MEMORY, PORT = 1, 2
READ, WRITE = 2, 3
LONGEST_LINE = 256
EVENTS = ((PORT, WRITE, 0xCF8, 4, 0x80000058), (PORT, WRITE, 0xCFF, 1, 0x20),
          (MEMORY, WRITE, 0xCC000, 1, 2), (MEMORY, READ, 0xCC000, 1, 0))


def declared(path):
    """The library, with the types of what its calls take."""
    lib = c.CDLL(path)
    lib.board_open.argtypes = [c.POINTER(Board), U32, c.POINTER(Card), c.c_size_t,
                               c.c_char_p, c.c_size_t, c.c_char_p, c.c_size_t]
    lib.board_step.argtypes = [c.POINTER(Board), c.POINTER(Event), c.POINTER(Reply)]
    lib.board_text.argtypes = [c.POINTER(Event), c.POINTER(Reply), U64, U8, U32, c.c_char_p, c.c_size_t, c.POINTER(c.c_size_t)]
    lib.board_close.argtypes = [c.POINTER(Board)]
    lib.board_open.restype = lib.board_step.restype = lib.board_text.restype = U32
    lib.board_close.restype = None
    return lib


def main():
    lib = declared(sys.argv[1])
    board, reply, rom = Board(), Reply(), bytes(65536)
    line, length = c.create_string_buffer(LONGEST_LINE), c.c_size_t()
    if lib.board_open(board, 8, Card(), 0, rom, len(rom), rom, 0):
        sys.exit("not opened")
    print("access log 1")
    for number, (what, kind, addr, size, value) in enumerate(EVENTS, 1):
        event = Event(value, addr, what, kind, size)
        if lib.board_step(board, event, reply) or lib.board_text(event, reply, number, 0, number, line, len(line), length):
            sys.exit("refused")
        print(line.raw[:length.value].decode(), end="")
    lib.board_close(board)


main()
