"""The records and numbers of board.h, as they are there."""
import ctypes as c
from enum import IntEnum

U8, U16, U32, U64, SIZE = c.c_uint8, c.c_uint16, c.c_uint32, c.c_uint64, c.c_size_t

MOST_BASES = 6
SECTOR = 512

# made by tools/make-names: numbers
MOST_RANGES = 142
MOST_WINDOWS = 64


class What(IntEnum):
    MEMORY = 1
    PORT = 2
    LOOK = 3
    ACK = 4
    PULSE = 5
    TIME = 6
    WIRE = 7
    IRQ = 8
    BAD_SECTOR = 9
    SERIAL = 10


class KindNumber(IntEnum):
    FETCH = 1
    READ = 2
    WRITE = 3


class TargetNumber(IntEnum):
    DRAM = 1
    SHADOW = 2
    SMRAM = 3
    ROM = 4
    CARD = 5
    IS_DEVICE = 6
    CONFIG = 7
    ABORT = 8


class DeviceNumber(IntEnum):
    CONFADD = 1
    RESET_CONTROL = 2
    PIC0 = 3
    PIC1 = 4
    PIT = 5
    SYSTEM = 6
    KEYBOARD = 7
    CLOCK = 8
    ELCR = 9
    ATA = 10
    WIRES = 11
    VECTOR0 = 12
    VECTOR1 = 13
    SPURIOUS0 = 14
    SPURIOUS1 = 15
    UART = 16


class DenialNumber(IntEnum):
    NOT_DENIED = 0
    BY_REGISTER = 1
    BY_CONFADD = 2
    BY_NO_REGISTER = 3


class Form(IntEnum):
    BUS_REPLY = 1
    PARTS_REPLY = 2
    LOOK_REPLY = 3


class ResetNumber(IntEnum):
    NO_RESET = 0
    SOFT_RESET = 1
    HARD_RESET = 2


class BaseNumber(IntEnum):
    MEMORY_BASE = 1
    IO_BASE = 2
    OUTSIDE = 3


class PieceNumber(IntEnum):
    DESCRIPTOR = 1
    WORDS = 2
    ENDED = 3


class EndNumber(IntEnum):
    EXACT = 1
    LONGER = 2
    SHORTER = 3
    ABORTED = 4
    MISSING = 5


NUMBERS: list[type[IntEnum]] = [
    What, KindNumber, TargetNumber, DeviceNumber, DenialNumber, Form, ResetNumber, BaseNumber, PieceNumber, EndNumber,
]
# end of what is made


class HandleRecord(c.Structure):
    _fields_ = [("at", c.c_void_p), ("open", c.c_bool)]


class EventRecord(c.Structure):
    _fields_ = [("value", U64), ("addr", U32), ("what", U8), ("kind", U8), ("bytes", U8), ("smm", U8),
                ("reserved", U64)]


class PartRecord(c.Structure):
    _fields_ = [("offset", U32), ("target", U8), ("unit", U8), ("base", U8), ("denial", U8), ("denial_dev", U8),
                ("denial_fun", U8), ("denial_off", U8), ("reserved", U8)]


class ReplyRecord(c.Structure):
    _fields_ = [("value", U64), ("version", U32), ("seen", U32), ("lo", U32), ("hi", U32), ("form", U8),
                ("has_value", U8), ("parts", U8), ("interrupt", U8), ("reset", U32), ("part", PartRecord * 4),
                ("sent", U8), ("has_sent", U8), ("irq4", U8), ("serial_room", U8), ("lines", U16), ("rose", U16)]


class AreaRecord(c.Structure):
    _fields_ = [("target", U8), ("unit", U8), ("base", U8), ("reserved", U8)]


class RangeRecord(c.Structure):
    _fields_ = [("lo", U32), ("hi", U32), ("area", AreaRecord * 6)]


class WindowRecord(c.Structure):
    _fields_ = [("lo", U32), ("hi", U32)]


class MapRecord(c.Structure):
    _fields_ = [("ranges", U64), ("windows", U64), ("version", U32), ("mib", U32)]


class Com1Record(c.Structure):
    _fields_ = [("received", U8 * 16), ("count", U8), ("ier", U8), ("iir", U8), ("lcr", U8), ("mcr", U8), ("lsr", U8),
                ("msr", U8), ("scr", U8), ("dll", U8), ("dlm", U8), ("emptied", U8), ("irq4", U8), ("reserved", U32)]


class BaseRecord(c.Structure):
    _fields_ = [("kind", U8), ("bits", U8)]


class CardRecord(c.Structure):
    _fields_ = [("device", U8), ("vga", U8), ("rom", U8), ("bases", U8), ("base", BaseRecord * MOST_BASES),
                ("class_code", U32), ("vendor_id", U16), ("device_id", U16), ("subsystem_vendor_id", U16),
                ("subsystem_id", U16), ("revision_id", U8), ("interrupt_pin", U8), ("reserved", U16)]


class TransferRecord(c.Structure):
    _fields_ = [("table", U32), ("addr", U32), ("left", U32), ("moved", U32), ("words", U32), ("lba", U32), ("readable", U32),
                ("is_last", U8), ("to_memory", U8), ("reserved", U16)]


class PieceRecord(c.Structure):
    _fields_ = [("disk", U64), ("addr", U32), ("bytes", U32), ("sector", U32), ("part", PartRecord * 2), ("what", U8),
                ("end", U8), ("status", U8), ("reserved", U8)]


RECORDS: dict[str, type[c.Structure]] = {
    "board": HandleRecord, "board_event": EventRecord, "board_part": PartRecord, "board_reply": ReplyRecord,
    "board_area": AreaRecord, "board_range": RangeRecord, "board_window": WindowRecord, "board_map": MapRecord,
    "board_com1": Com1Record, "board_base": BaseRecord, "board_card": CardRecord,
    "board_transfer": TransferRecord, "board_piece": PieceRecord,
}

_HANDLE, _BYTES, _SIZE = c.POINTER(HandleRecord), c.POINTER(U8), c.c_size_t

# What each call takes.
CALLS: dict[str, list[type]] = {
    "board_open": [_HANDLE, U32, c.POINTER(CardRecord), _SIZE, c.c_char_p, _SIZE, c.c_char_p, _SIZE],
    "board_step": [_HANDLE, c.POINTER(EventRecord), c.POINTER(ReplyRecord)],
    "board_in_cycles": [_HANDLE, U16, U8, c.POINTER(ReplyRecord)],
    "board_out_cycles": [_HANDLE, U16, U8, U32, c.POINTER(ReplyRecord)],
    "board_second": [_HANDLE, c.POINTER(EventRecord), c.POINTER(ReplyRecord)],
    "board_in_many": [_HANDLE, U16, U8, c.POINTER(U32), _SIZE, c.POINTER(_SIZE), c.POINTER(ReplyRecord)],
    "board_out_many": [_HANDLE, U16, U8, c.POINTER(U32), _SIZE, c.POINTER(_SIZE), c.POINTER(ReplyRecord)],
    "board_close": [_HANDLE],
    "board_save": [_HANDLE, _BYTES, _SIZE, c.POINTER(_SIZE)],
    "board_load": [_HANDLE, c.c_char_p, _SIZE],
    "board_save_without": [_HANDLE, c.c_bool, c.c_bool, _BYTES, _SIZE, c.POINTER(_SIZE)],
    "board_load_with": [_HANDLE, *(c.c_char_p, _SIZE) * 4],
    "board_ranges": [_HANDLE, c.POINTER(MapRecord), c.POINTER(RangeRecord), _SIZE, c.POINTER(WindowRecord), _SIZE],
    "board_decode": [_HANDLE, c.POINTER(EventRecord), c.POINTER(PartRecord)],
    "board_pulses_to_rise": [_HANDLE, c.POINTER(U32)],
    "board_lines": [_HANDLE, c.POINTER(U16)],
    "board_now": [_HANDLE, c.POINTER(ReplyRecord)],
    "board_serial_state": [_HANDLE, c.POINTER(Com1Record)],
    "board_dram_read": [_HANDLE, U32, _BYTES, _SIZE],
    "board_disk_read": [_HANDLE, U32, _BYTES, _SIZE],
    "board_cmos_read": [_HANDLE, U8, c.POINTER(U8)],
    "board_decode_master": [_HANDLE, U32, U8, c.c_bool, c.POINTER(PartRecord)],
    "board_card_read": [_HANDLE, U8, U8, U32, _BYTES, _SIZE],
    "board_dram_write": [_HANDLE, U32, c.c_char_p, _SIZE],
    "board_cmos_write": [_HANDLE, U8, U8],
    "board_card_write": [_HANDLE, U8, U8, U32, c.c_char_p, _SIZE],
    "board_transfer_begin": [c.POINTER(TransferRecord), U32, U32, U32, U32, c.c_bool],
    "board_transfer_next": [_HANDLE, c.POINTER(TransferRecord), c.POINTER(PieceRecord)],
    "board_transfer_region": [c.POINTER(TransferRecord), U32, U32],
}
