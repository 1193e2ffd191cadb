"""A script that each row of the table of causes must tell, and one that it must not. Of each the statements, and what
another monitor gave at the last one, made wrong by hand as the row says."""
from typing import NamedTuple

DISK_WORDS = 256


class Case(NamedTuple):
    name: str
    tells: list[str]
    given: str
    tells_not: list[str]
    other_given: str
    setup: str = "plain"  # or disk, card, or of 128 or 256 KiB ROM
    view: str = ""  # of the first script; the second one is asked without it


def at(function: str, offset: int) -> str:
    device, number = function.split(".")
    return f"out d 0CF8 {0x80000000 | int(device, 16) << 11 | int(number) << 8 | offset & 0xFC:08X}"


def put(function: str, offset: int, value: int, width: str = "b") -> list[str]:
    digits = {"b": 2, "w": 4, "d": 8}[width]
    return [at(function, offset), f"out {width} {0xCFC + offset % 4:04X} {value:0{digits}X}"]


def get(function: str, offset: int, width: str = "b") -> list[str]:
    return [at(function, offset), f"in {width} {0xCFC + offset % 4:04X}"]


def out(port: int, *values: int) -> list[str]:
    return [f"out b {port:04X} {value:02X}" for value in values]


def read(port: int) -> list[str]:
    return [f"in b {port:04X}"]


def chips(icw4: int = 1, slave: int = 1) -> list[str]:
    return [*out(0x20, 0x11), *out(0x21, 0x20, 4, icw4, 0), *out(0xA0, 0x11), *out(0xA1, 0x70, 2, slave, 0)]


def requests(chip: int = 0) -> list[str]:
    port = (0x20, 0xA0)[chip]
    return [*out(port, 0x0A), *read(port)]


def service(chip: int = 0) -> list[str]:
    port = (0x20, 0xA0)[chip]
    return [*out(port, 0x0B), *read(port)]


def timer(number: int, mode: int, low: int, high: int = 0, bcd: int = 0) -> list[str]:
    return [*out(0x43, number << 6 | 0x30 | mode << 1 | bcd), *out(0x40 + number, low, high), "pulse 1"]


def clock(register: int, *value: int) -> list[str]:
    return [*out(0x70, register), *(out(0x71, *value) if value else read(0x71))]


def ata(command: int, lba: int = 0, count: int = 1, feature: int = 0, device: int = 0xE0) -> list[str]:
    return [
        *out(0x1F1, feature),
        *out(0x1F2, count),
        *out(0x1F3, lba & 255),
        *out(0x1F4, lba >> 8 & 255),
        *out(0x1F5, lba >> 16),
        *out(0x1F6, device),
        *out(0x1F7, command),
    ]


DATE = [
    *clock(0x0A, 0x26),
    *clock(0x0B, 0x86),
    *clock(0, 10),
    *clock(2, 20),
    *clock(4, 12),
    *clock(6, 1),
    *clock(7, 3),
    *clock(8, 4),
    *clock(9, 24),
    *clock(0x0B, 0x06),
]
IDE = [*put("01.1", 4, 5), *put("01.1", 0x40, 0x8000, "w")]
SOFT, HARD = out(0xCF9, 4), out(0xCF9, 2, 6)
OPEN_C0000, LOOP = put("00.0", 0x5A, 0x03), [*out(0x3FB, 3), *out(0x3FC, 0x18)]
WORDS = ["in w 01F0"] * DISK_WORDS

REGISTERS = [
    Case(
        "soft-reset",
        [*put("00.0", 0x5A, 0x33), *SOFT, *get("00.0", 0x5A)],
        "00",
        [*SOFT, *put("00.0", 0x5A, 0x33), *get("00.0", 0x5A)],
        "00",
    ),
    Case("ids", get("00.0", 0, "w"), "1234", get("00.0", 4, "w"), "1234"),
    Case(
        "reset",
        [*put("00.0", 0x60, 4), *HARD, *get("00.0", 0x60)],
        "04",
        [*put("00.0", 0x60, 4), *get("00.0", 0x60)],
        "01",
    ),
    Case("command-on", get("00.0", 4, "w"), "0000", get("00.0", 4, "w"), "0106"),
    Case("command-on", get("01.0", 4, "w"), "0000", get("01.0", 4, "w"), "0107"),
    Case("command-ide", [*put("01.1", 4, 0xFFFF, "w"), *get("01.1", 4, "w")], "0007", get("01.1", 4, "w"), "0100"),
    Case("command", get("00.0", 4, "w"), "0106", get("00.0", 4, "w"), "0002"),
    Case("status-timing", get("00.0", 6, "w"), "0080", get("01.0", 6, "w"), "0200"),
    Case("status-timing", get("00.0", 6, "w"), "0200", get("00.0", 6, "w"), "2280"),
    Case("status", get("01.0", 6, "w"), "0200", get("00.0", 6, "w"), "0200"),
    Case("revision", get("00.0", 8), "02", get("00.0", 9), "02"),
    Case("class", get("00.0", 8, "d"), "06800000", get("00.0", 8, "d"), "06000001"),
    Case("header", get("01.0", 14), "00", get("01.0", 13), "40"),
    Case("header-rest", get("00.0", 13), "40", get("01.0", 14), "00"),
    Case("bus-master", get("01.1", 0x20, "d"), "00000001", get("00.0", 0x20, "d"), "00000001"),
    Case("unimplemented", get("00.0", 0x2C, "d"), "11001AF4", get("00.0", 0x40), "11"),
    Case(
        "pam",
        [*put("00.0", 0x5A, 0x33), *get("00.0", 0x5A)],
        "03",
        [*put("00.0", 0x5A, 0xFF), *get("00.0", 0x5A)],
        "FF",
    ),
    Case("drb", get("00.0", 0x63), "00", get("00.0", 0x68), "80"),
    Case(
        "fdhc",
        [*put("00.0", 0x68, 0x80), *get("00.0", 0x68)],
        "00",
        [*put("00.0", 0x68, 0x81), *get("00.0", 0x68)],
        "81",
    ),
    Case(
        "smram-lock",
        [*put("00.0", 0x72, 0x1A), *put("00.0", 0x72, 0x4A), *get("00.0", 0x72)],
        "4A",
        [*put("00.0", 0x72, 0x4A), *get("00.0", 0x72)],
        "0A",
    ),
    Case(
        "smram",
        [*put("00.0", 0x72, 0x4A), *get("00.0", 0x72)],
        "02",
        [*put("00.0", 0x72, 0x1A), *put("00.0", 0x72, 0x4A), *get("00.0", 0x72)],
        "4A",
    ),
    Case(
        "smram-under-lock",
        [*put("00.0", 0x72, 0x1A), *put("00.0", 0x72, 0x32), *get("00.0", 0x72)],
        "1A",
        [*put("00.0", 0x72, 0x2A), *get("00.0", 0x72)],
        "0A",
    ),
    Case(
        "xbcs",
        [*put("01.0", 0x4E, 0x43), *get("01.0", 0x4E)],
        "03",
        [*put("01.0", 0x4E, 0xFF), *get("01.0", 0x4E)],
        "F7",
    ),
    Case(
        "xbcs-rest",
        [*put("01.0", 0x4E, 0x30), *get("01.0", 0x4E)],
        "30",
        [*put("01.0", 0x4E, 0x40), *get("01.0", 0x4E)],
        "00",
    ),
    Case("xbcs-rest", [*put("01.0", 0x4F, 1), *get("01.0", 0x4F)], "01", get("01.0", 0x4F), "02"),
    Case("pirqrc", get("01.0", 0x60), "00", [*put("01.0", 0x60, 0xFF), *get("01.0", 0x60)], "FF"),
    Case(
        "idetim",
        [*put("01.1", 0x40, 0x8000, "w"), *get("01.1", 0x40, "w")],
        "0000",
        [*put("01.1", 0x40, 0xFFFF, "w"), *get("01.1", 0x40, "w")],
        "F3FF",
    ),
    Case(
        "reserved-bits",
        [*put("00.0", 0x59, 0xFF), *get("00.0", 0x59)],
        "FF",
        [*put("00.0", 0x59, 0x30), *get("00.0", 0x59)],
        "00",
    ),
    Case("other-register", get("00.0", 0x50), "40", get("00.0", 0x5A), "03"),
    Case("card-base-kind", get("02.0", 0x10, "d"), "00000008", get("02.0", 0x10, "d"), "10000000", "card"),
    Case(
        "card-base-size",
        [*put("02.0", 0x14, 0xFFFFFFFF, "d"), *get("02.0", 0x14, "d")],
        "FFFC0000",
        [*put("02.0", 0x14, 0x12345678, "d"), *get("02.0", 0x14, "d")],
        "77345000",
        "card",
    ),
    Case(
        "card-base",
        [*put("02.0", 0x14, 0x12345678, "d"), *get("02.0", 0x14, "d")],
        "77345000",
        [*put("02.0", 0x14, 0xFFFFFFFF, "d"), *get("02.0", 0x14, "d")],
        "FFFC0000",
        "card",
    ),
    Case("card-line", [*put("02.0", 0x3C, 0x0B), *get("02.0", 0x3C)], "00", get("02.0", 0x3C), "0B", "card"),
    Case("card", get("02.0", 8), "05", [*put("02.0", 0x3C, 0x0B), *get("02.0", 0x3C)], "00", "card"),
    Case(
        "confadd-reset",
        ["out d 0CF8 80000058", *HARD, "in d 0CF8"],
        "80000058",
        ["out d 0CF8 80000058", "in d 0CF8"],
        "00000000",
    ),
    Case(
        "soft-reset",
        ["out d 0CF8 80000058", *SOFT, "in d 0CF8"],
        "00000000",
        ["out d 0CF8 80000058", "in d 0CF8"],
        "00000000",
    ),
    Case(
        "confadd-narrow",
        ["out d 0CF8 80000058", "out b 0CF8 60", "in d 0CF8"],
        "80000060",
        ["out d 0CF8 80000058", "in d 0CF8"],
        "80000060",
    ),
    Case(
        "confadd-reserved",
        ["out d 0CF8 FFFFFFFF", "in d 0CF8"],
        "FFFFFFFF",
        ["out d 0CF8 FFFFFFFF", "in d 0CF8"],
        "80FFFF00",
    ),
    Case("confadd", ["out d 0CF8 80000058", "in d 0CF8"], "80000000", ["out d 0CF8 80000058", "in d 0CF8"], "80000059"),
]
READ_ONLY_WRITE = [*put("00.0", 0x5A, 0x01), "w b 000C0000 5A", *OPEN_C0000, "r b 000C0000"]
MEMORY = [
    Case(
        "soft-reset",
        [*OPEN_C0000, "w b 000C0000 5A", *SOFT, "r b 000C0000"],
        "FF",
        [*OPEN_C0000, "w b 000C0000 5A", *SOFT, *OPEN_C0000, "r b 000C0000"],
        "00",
    ),
    Case(
        "reset",
        [*OPEN_C0000, "w b 000C0000 5A", *HARD, "r b 000C0000"],
        "5A",
        [*HARD, "w b 000C0000 5A", "r b 000C0000"],
        "5A",
    ),
    Case(
        "pam-read",
        [*put("00.0", 0x5A, 2), "w b 000C0000 5A", "r b 000C0000"],
        "5A",
        [*put("00.0", 0x5A, 2), "w b 000C0000 5A", "r b 000C0000"],
        "77",
    ),
    # DRAM that was written while the window was shut was not written
    Case(
        "pam-read",
        ["w b 000F4543 E7", *put("00.0", 0x59, 0x20), "r b 000F4543"],
        "00",
        ["w b 000F4543 E7", "r b 000F4543"],
        "11",
    ),
    Case("pam-write", READ_ONLY_WRITE, "5A", READ_ONLY_WRITE, "5B", view="qtest"),
    Case(
        "pam-write",
        ["w b 000C0000 5A", *OPEN_C0000, "r b 000C0000"],
        "5A",
        [*OPEN_C0000, "w b 000C0000 5A", "r b 000C0000"],
        "00",
    ),
    Case(
        "smram-write",
        ["w b 000A0000 11", *put("00.0", 0x72, 0x4A), "r b 000A0000"],
        "11",
        [*put("00.0", 0x72, 0x4A), "w b 000A0000 11", "r b 000A0000"],
        "00",
    ),
    Case(
        "hole-write",
        [*put("00.0", 0x68, 0x40), "w b 00080000 07", *put("00.0", 0x68, 0), "r b 00080000"],
        "07",
        ["w b 00080000 07", "r b 00080000"],
        "00",
    ),
    Case(
        "top-write",
        ["w b 00800000 08", *put("00.0", 0x67, 2), "r b 00800000"],
        "08",
        [*put("00.0", 0x67, 2), "w b 00800000 08", "r b 00800000"],
        "00",
    ),
    Case("smram-shut", ["w b 000A0000 11", "r b 000A0000"], "11", ["r b 000A0000"], "00"),
    Case(
        "hole",
        ["w b 00080000 07", *put("00.0", 0x68, 0x40), "r b 00080000"],
        "07",
        [*put("00.0", 0x68, 0x40), "r b 00080000"],
        "00",
    ),
    Case("top-of-dram", ["w b 00800000 08", "r b 00800000"], "08", ["r b 00800000"], "00"),
    Case("lower-bios", ["r b FFFE0012"], "12", ["r b D0000012"], "12"),
    Case("nobody", ["r d D0000000"], "00000000", ["r d D0000000"], "11111111"),
    Case("nobody", ["r b 000CC000"], "00", ["r b 000CC000"], "05"),
    Case("other-memory", ["r b 000CC000"], "05", ["r b 000CC000"], "00"),
    Case("rom-repeats", [*put("01.0", 0x4E, 0x43), "r b 000E0001"], "00", ["r b FFFFFFF0"], "00"),
    Case("other-rom", ["r b FFFFFFF0"], "00", [*put("01.0", 0x4E, 0x43), "r b 000E0001"], "00"),
    Case("past-memory", [*put("00.0", 0x67, 4), "r b 01000000"], "00", ["r b 00001000"], "55"),
    Case("pam-open", [*OPEN_C0000, "w b 000C0000 5A", "r b 000C0000"], "FF", [*OPEN_C0000, "r b 000C0000"], "55"),
    Case(
        "smram-open",
        [*put("00.0", 0x72, 0x0A), "w b 000A0000 5A smm", "r b 000A0000 smm"],
        "FF",
        [*put("00.0", 0x72, 0x0A), "r b 000A0000 smm"],
        "55",
    ),
    Case("zeros", ["r b 00001000"], "FF", ["w b 00001000 5A", "r b 00001000"], "FF"),
    Case("dram-keeps", ["w b 00001000 5A", "r b 00001000"], "00", ["r b 00001000"], "FF"),
    Case(
        "card-keeps",
        [*put("02.0", 0x10, 0xE0000000, "d"), *put("02.0", 4, 3), "w b E0000000 5A", "r b E0000000"],
        "00",
        [*put("02.0", 0x10, 0xE0000000, "d"), *put("02.0", 4, 3), "r b E0000000"],
        "55",
        "card",
    ),
]
PORTS = [
    Case("confadd-narrow", ["in b 0CF8"], "00", ["in b 0CFC"], "00"),
    Case("disabled-config", ["in d 0CFC"], "00000000", ["in d 0100"], "00000000"),
    Case("other-function", get("03.0", 0, "w"), "8139", ["in w 0100"], "8139"),
    Case("ide-shut", [*put("01.1", 4, 5), "in b 01F7"], "50", ["in b 0100"], "50", "disk"),
    Case("ide-shut", ["in b 01F7"], "50", ["in b 0100"], "50", "disk"),
    Case("chip-select", [*put("01.0", 0x4E, 0), "in b 0070"], "00", ["in b 0070"], "00"),
    Case("shut-card", [*put("02.0", 0x18, 0x1001, "d"), "in b 1000"], "00", ["in b 1000"], "00", "card"),
    Case("wide-port", ["in w 0040"], "1234", ["in w 0100"], "1234"),
    Case("other-port", ["in b 0092"], "02", ["in w 0040"], "1234"),
    Case("keyboard", ["in b 0064"], "1C", ["in b 0092"], "1C"),
    Case("soft-reset", [*out(0x4D0, 0x20), *SOFT, *read(0x4D0)], "00", [*out(0x4D0, 0x20), *read(0x4D0)], "00"),
    Case("elcr", [*out(0x4D0, 0xFF), *read(0x4D0)], "00", [*out(0x4D0, 0xFF), *read(0x4D0)], "FF"),
    Case("elcr-reserved", [*out(0x4D0, 0xFF), *read(0x4D0)], "FF", [*out(0x4D0, 0xFF), *read(0x4D0)], "00"),
    Case("reset-control", [*out(0xCF9, 2), *read(0xCF9)], "00", [*out(0xCF9, 2), *read(0xCF9)], "12"),
    Case("reset-reserved", [*out(0xCF9, 2), *read(0xCF9)], "12", [*out(0xCF9, 2), *read(0xCF9)], "00"),
    Case("port-61-reset", [*out(0x61, 3), *HARD, *read(0x61)], "23", [*out(0x61, 3), *read(0x61)], "20"),
    Case("port-61", [*out(0x61, 3), *read(0x61)], "20", [*out(0x61, 3), *HARD, *read(0x61)], "23"),
    Case("port-61-out-2", [*timer(2, 0, 5), *read(0x61)], "20", read(0x61), "00"),
    Case("port-61-first", read(0x61), "00", [*timer(2, 0, 5), *read(0x61)], "20"),
    Case("port-61-refresh", read(0x61), "30", read(0x61), "21"),
    Case("port-61-rest", read(0x61), "A0", read(0x61), "30"),
    Case("wide-written", ["out w 0040 1234", *read(0x40)], "34", read(0x40), "34"),
]
SFNM = [*chips(0x11), "irq 10 1", "ack", "irq 5 1"]
PICS = [
    Case(
        "soft-reset",
        [*chips(), *out(0x21, 0x55), *SOFT, *read(0x21)],
        "00",
        [*chips(), *out(0x21, 0x55), *read(0x21)],
        "00",
    ),
    Case(
        "pic-begun-anew",
        [
            *out(0x20, 0x11),
            *out(0x21, 0x20),
            *chips(),
            *out(0x20, 0x11),
            *out(0x20, 0x11),
            *out(0x21, 0x20, 4, 1, 0xFE),
            *read(0x21),
        ],
        "00",
        [*chips(), *out(0x21, 0xFE), *read(0x21)],
        "00",
    ),
    Case(
        "poll-kept",
        [*chips(), "irq 5 1", *out(0x20, 0x0C, 0x0A), *read(0x20)],
        "20",
        [*chips(), "irq 5 1", *requests()],
        "00",
    ),
    Case("mask", [*chips(), *out(0x21, 0xA5), *read(0x21)], "00", [*out(0x21, 0xA5), *read(0x21)], "00"),
    Case("mask-first", read(0x21), "FF", [*chips(), *out(0x21, 0xA5), *read(0x21)], "00"),
    Case("vector-base", [*chips(), "irq 5 1", "ack"], "55", [*chips(), "irq 5 1", "ack"], "24"),
    Case(
        "icw1-under-request",
        [*chips(), "irq 10 1", *out(0x20, 0x11), *out(0x21, 0x20, 4, 1, 0), "ack"],
        "27",
        [*chips(), "irq 10 1", "ack"],
        "27",
    ),
    Case(
        "poll-of-cascade",
        [*chips(), "irq 10 1", *out(0x20, 0x0C), *read(0x20), *out(0x20, 0x20), *requests(1)],
        "00",
        [*chips(), "irq 10 1", *requests(1)],
        "00",
    ),
    Case(
        "cascade-kept", [*chips(), "irq 10 1", "irq 10 0", *requests()], "00", [*chips(), "irq 10 1", *requests()], "00"
    ),
    Case("poll", [*chips(), "irq 5 1", *out(0x20, 0x0C), *read(0x20)], "20", [*chips(), "irq 5 1", *requests()], "00"),
    Case("special-nested", [*SFNM, *service()], "24", [*chips(), "irq 10 1", "ack", "irq 5 1", *service()], "24"),
    Case(
        "special-mask",
        [*chips(), "irq 3 1", "ack", *out(0x21, 8), *out(0x20, 0x68), "irq 5 1", "ack", *out(0x20, 0x20), *service()],
        "20",
        [*chips(), "irq 3 1", "ack", *out(0x20, 0x20), *service()],
        "08",
    ),
    Case(
        "rotation-at-end",
        [*chips(), *out(0x20, 0xE3), "irq 3 1", "irq 5 1", "ack"],
        "23",
        [*chips(), *out(0x20, 0xC3), "irq 3 1", "irq 5 1", "ack"],
        "23",
    ),
    Case(
        "elcr-sense",
        [*out(0x4D0, 0x20), *chips(), "irq 5 1", "ack", *out(0x20, 0x20), *out(0x4D0, 0), *requests()],
        "20",
        [*chips(), "irq 5 1", *requests()],
        "00",
    ),
    Case(
        "level-latched",
        [
            *out(0x4D0, 0x20),
            *chips(),
            *out(0x4D0, 0),
            "irq 6 1",
            *out(0x4D0, 0x40),
            "irq 6 0",
            "irq 6 1",
            *out(0x4D0, 0),
            "irq 6 1",
            *requests(),
        ],
        "00",
        [*chips(), "irq 6 1", *requests()],
        "00",
    ),
    Case("timer-line", [*chips(), *timer(0, 0, 5), *requests()], "01", [*chips(), *requests()], "01"),
    Case("fallen-edge", [*chips(), "irq 5 1", "irq 5 0", *requests()], "20", [*chips(), *requests()], "20"),
    Case("spurious", [*chips(), "irq 5 1", "irq 5 0", "ack"], "25", [*chips(), "irq 5 1", "ack"], "24"),
    Case("spurious", [*chips(), "ack"], "20", [*chips(), "irq 5 1", "ack"], "20"),
    Case(
        "pirq",
        [*put("01.0", 0x60, 8), *chips(), "wire 3 1", *requests(1)],
        "01",
        [*put("01.0", 0x60, 8), *chips(), *requests(1)],
        "01",
        "slot",
    ),
    Case(
        "clock-line",
        [*chips(), *DATE, *clock(0x0B, 0x16), "second", *requests(1)],
        "00",
        [*chips(), "irq 9 1", *requests(1)],
        "00",
    ),
    Case(
        "disk-line", [*IDE, *chips(), *ata(0xE7), *requests(1)], "00", [*chips(), "irq 9 1", *requests(1)], "00", "disk"
    ),
    Case(
        "com1-line",
        [*chips(), *out(0x3FC, 8), *out(0x3F9, 2), *requests()],
        "00",
        [*chips(), "irq 4 1", *requests()],
        "00",
    ),
    Case("requests", [*chips(), "irq 5 1", *requests()], "00", [*chips(), "irq 5 1", *service()], "20"),
    Case("automatic-end", [*chips(3), "irq 3 1", "ack", *service()], "08", [*chips(), "irq 3 1", *service()], "08"),
    Case(
        "rotation",
        [*chips(), *out(0x20, 0xC3), "irq 3 1", "irq 5 1", "ack"],
        "23",
        [*chips(), "irq 3 1", "irq 5 1", "ack"],
        "25",
    ),
    Case("in-service", [*chips(), "irq 3 1", "ack", *service()], "00", [*chips(), "irq 3 1", *requests()], "00"),
    Case("acknowledge", [*chips(), "irq 3 1", "irq 5 1", "ack"], "25", [*chips(), "irq 3 1", "irq 3 0", "ack"], "23"),
]
TIMERS = [
    Case("timer-control", read(0x43), "00", read(0x40), "11"),
    Case("timer-first", read(0x40), "11", [*timer(0, 2, 5), *read(0x40)], "11"),
    Case("timer-digit", [*timer(0, 2, 0x1A, 0, 1), *read(0x40)], "1A", [*timer(0, 2, 0x19, 0, 1), *read(0x40)], "1A"),
    Case("timer-one", [*timer(0, 2, 1), *read(0x40)], "01", [*timer(0, 2, 3), *read(0x40)], "01"),
    Case(
        "timer-early-trigger",
        [*out(0x43, 0xB2), *out(0x61, 1), *out(0x42, 5, 0), "pulse 1", *read(0x42)],
        "00",
        [*timer(2, 1, 5), *out(0x61, 1), "pulse 1", *read(0x42)],
        "00",
    ),
    Case(
        "timer-half-latch",
        [*timer(0, 2, 5), *out(0x43, 0), *read(0x40), *out(0x43, 0xE2), *read(0x40)],
        "00",
        [*timer(0, 2, 5), *out(0x43, 0xE2), *read(0x40)],
        "00",
    ),
    Case(
        "timer-status",
        [*timer(0, 2, 5), *out(0x43, 0xE2), *read(0x40)],
        "80",
        [*timer(0, 2, 5), *out(0x43, 0xE2), *read(0x40)],
        "34",
    ),
    Case(
        "timer-null-count",
        [*timer(0, 2, 5), *out(0x43, 0xE2), *read(0x40)],
        "F4",
        [*timer(0, 2, 5), *out(0x43, 0xE2), *read(0x40)],
        "34",
    ),
    Case(
        "timer-out",
        [*timer(0, 2, 5), *out(0x43, 0xE2), *read(0x40)],
        "34",
        [*timer(0, 2, 5), *out(0x43, 0xE2), *read(0x40)],
        "F4",
    ),
    Case(
        "timer-one-shot",
        [*timer(1, 1, 5), "pulse 1", *read(0x41)],
        "04",
        [*timer(1, 2, 5), "pulse 1", *read(0x41)],
        "05",
    ),
    Case(
        "timer-decimal",
        [*timer(1, 2, 0x10, 0, 1), "pulse 1", *read(0x41)],
        "0F",
        [*timer(1, 2, 0x10), "pulse 1", *read(0x41)],
        "10",
    ),
    Case(
        "timer-gate",
        [*timer(2, 0, 5), "pulse 2", *read(0x42)],
        "03",
        [*out(0x61, 1), *timer(2, 0, 5), "pulse 2", *read(0x42)],
        "05",
    ),
    Case(
        "timer-square", [*timer(1, 3, 5), "pulse 1", *read(0x41)], "04", [*timer(1, 2, 5), "pulse 1", *read(0x41)], "03"
    ),
    Case(
        "timer-new-count",
        [*timer(1, 2, 9), *out(0x41, 3, 0), "pulse 1", *read(0x41)],
        "03",
        [*timer(1, 2, 9), *read(0x41)],
        "08",
    ),
    Case(
        "timer-latch",
        [*timer(1, 2, 9), *out(0x43, 0x40), "pulse 2", *read(0x41)],
        "07",
        [*timer(1, 2, 9), *read(0x41)],
        "07",
    ),
    Case(
        "timer-not-loaded",
        [*timer(1, 2, 9)[:-1], *read(0x41)],
        "09",
        [*timer(1, 2, 9), *read(0x41)],
        "08",
    ),
    Case(
        "timer-count", [*timer(1, 2, 9), "pulse 2", *read(0x41)], "09", [*timer(1, 3, 9), "pulse 2", *read(0x41)], "09"
    ),
]
CLOCKS = [
    Case("soft-reset", [*clock(0x0B, 0x12), *SOFT, *clock(0x0B)], "02", [*clock(0x0B, 0x12), *clock(0x0B)], "02"),
    Case("clock-index", [*out(0x70, 5), *read(0x70)], "05", [*clock(0), *read(0x71)], "05"),
    Case("clock-reset", [*clock(0x0B, 0x12), *HARD, *clock(0x0B)], "12", [*clock(0x0B, 0x12), *clock(0x0B)], "02"),
    Case(
        "clock-held", [*DATE, *clock(0x0B, 0x86), "second", *clock(0x0C)], "10", [*DATE, "second", *clock(0x0C)], "00"
    ),
    Case("clock-flags", [*DATE, "second", *clock(0x0C)], "00", [*DATE, *clock(0x0C)], "10"),
    Case("clock-date", [*DATE, *clock(9)], "24", [*DATE, *clock(0)], "0B"),
    Case("date", clock(0), "17", [*out(0x70, 0), *read(0x70)], "17"),
    Case("clock-d", clock(0x0D), "00", clock(0x0A), "00"),
    Case("clock-update", clock(0x0A), "A6", [*clock(0x0A, 0x2F), *clock(0x0A)], "26"),
    Case("clock-a", [*clock(0x0A, 0x2F), *clock(0x0A)], "26", clock(0x0A), "2F"),
    Case("clock-b", [*clock(0x0B, 0x12), *clock(0x0B)], "02", clock(0x0B), "12"),
    Case("clock-memory", [*clock(0x20, 0x2F), *clock(0x20)], "00", clock(0x20), "2F"),
    Case("clock-first", clock(0x20), "26", [*clock(0x20, 0x2F), *clock(0x20)], "00"),
]
SECTOR = [*IDE, *ata(0x30, 3), *["out w 01F0 A55A"] * DISK_WORDS]
# a table at 2000h with one region of a sector, at 3000h
TABLE_2000 = ["w d 00002000 00003000", "w d 00002004 80000200"]
DISKS = [
    Case(
        "bus-master-status",
        [*IDE, *TABLE_2000, "bus_master in 00002000 5 1"],
        "05",
        [*IDE, *ata(0xE7), *read(0x1F7)],
        "51",
        "disk",
    ),
    Case(
        "bus-master-moves",
        [*IDE, *TABLE_2000, "bus_master in 00002000 5 1", "r b 00003000"],
        "77",
        ["r b 00003000"],
        "77",
        "disk",
    ),
    Case(
        "soft-reset",
        [*IDE, *out(0x1F2, 7), *SOFT, *read(0x1F2)],
        "01",
        [*IDE, *ata(0xE7), *out(0x1F2, 7), *read(0x1F2)],
        "01",
        "disk",
    ),
    Case("disk-busy", [*IDE, *out(0x3F6, 4), *read(0x1F7)], "D0", [*IDE, *out(0x3F6, 4), *read(0x1F7)], "50", "disk"),
    Case("disk-reset", [*IDE, *out(0x3F6, 4), *read(0x1F7)], "50", [*IDE, *read(0x1F7)], "D0", "disk"),
    Case(
        "disk-cut",
        [*IDE, *ata(0x20), "in w 01F0", *out(0x1F7, 0xE7), *read(0x1F7)],
        "58",
        [*IDE, *ata(0xE7), *read(0x1F7)],
        "58",
        "disk",
    ),
    Case("another-disk", [*IDE, *ata(0xEC), "in w 01F0"], "1234", [*IDE, *ata(0x20), "in w 01F0"], "1234", "disk"),
    Case(
        "disk-absent",
        [*IDE, *out(0x1F6, 0xB0), *read(0x1F4)],
        "FF",
        [*IDE, *out(0x1F6, 0xA0), *read(0x1F4)],
        "FF",
        "disk",
    ),
    Case("disk-no-word", [*IDE, "in w 01F0"], "0000", [*IDE, *ata(0x20), "in w 01F0"], "1234", "disk"),
    Case("disk-index", [*IDE, *ata(0xE7), *read(0x1F7)], "52", [*IDE, *ata(0xE7), *read(0x1F7)], "58", "disk"),
    Case(
        "disk-features",
        [*IDE, *ata(0xEF, 0, 0x7F, 3), *read(0x1F7)],
        "51",
        [*IDE, *ata(0xEF, 0, 0, 0x82), *read(0x1F7)],
        "51",
        "disk",
    ),
    Case("disk-abort", [*IDE, *ata(0xA1), *read(0x1F7)], "41", [*IDE, *ata(0xE7), *read(0x1F7)], "40", "disk"),
    Case("disk-command", [*IDE, *ata(0xC6), *read(0x1F7)], "50", [*IDE, *ata(0xE7), *read(0x1F7)], "51", "disk"),
    Case("disk-seek", [*IDE, *ata(0xE7), *read(0x1F7)], "40", [*IDE, *ata(0xE7), *read(0x1F7)], "48", "disk"),
    Case(
        "disk-geometry",
        [*IDE, *ata(0x91, 0, 17, 0, 0xA7), *read(0x1F7)],
        "50",
        [*IDE, *ata(0xE7), *read(0x1F7)],
        "51",
        "disk",
    ),
    Case("disk-diagnostic", [*IDE, *ata(0x90), *read(0x1F1)], "00", [*IDE, *ata(0xE7), *read(0x1F1)], "01", "disk"),
    Case(
        "disk-verify",
        [*IDE, *ata(0x40, 100000), *read(0x1F7)],
        "50",
        [*IDE, *ata(0x20, 100000), *read(0x1F7)],
        "50",
        "disk",
    ),
    Case("disk-signature", [*IDE, *read(0x1F1)], "00", [*IDE, *ata(0xE7), *read(0x1F1)], "01", "disk"),
    Case(
        "disk-transfer",
        [*IDE, *ata(0x20, 0, 3), *read(0x1F2)],
        "02",
        [*IDE, *ata(0xE7, 0, 3), *read(0x1F2)],
        "02",
        "disk",
    ),
    Case(
        "disk-task-file",
        [*IDE, *ata(0xE7), *out(0x1F2, 7), *read(0x1F2)],
        "01",
        [*IDE, *ata(0x20), *read(0x1F2)],
        "02",
        "disk",
    ),
    Case(
        "disk-words", [*SECTOR, *ata(0x20, 3), "in w 01F0"], "0000", [*IDE, *ata(0x20, 3), "in w 01F0"], "1234", "disk"
    ),
    Case(
        "disk-contents",
        [*IDE, *ata(0x20, 3), "in w 01F0"],
        "1234",
        [*SECTOR, *ata(0x20, 3), "in w 01F0"],
        "0000",
        "disk",
    ),
    Case(
        "disk-write",
        [*IDE, *ata(0x30, 100000), *read(0x1F7)],
        "58",
        [*IDE, *ata(0x20, 100000), *read(0x1F7)],
        "50",
        "disk",
    ),
    Case("disk-data", [*IDE, *ata(0x20), *read(0x1F7)], "50", [*IDE, *ata(0x20), *read(0x1F7)], "51", "disk"),
    Case(
        "disk-read",
        [*IDE, *ata(0x20, 100000), *read(0x1F1)],
        "00",
        [*IDE, *ata(0x30, 100000), *read(0x1F1)],
        "00",
        "disk",
    ),
    Case(
        "disk-not-there",
        [*IDE, *ata(0x20, 100000), *read(0x1F1)],
        "04",
        [*IDE, *ata(0x20, 100000), *read(0x1F1)],
        "00",
        "disk",
    ),
    Case("disk-error-kept", [*IDE, *ata(0xE7), *read(0x1F1)], "01", [*IDE, *ata(0xE7), *read(0x1F1)], "04", "disk"),
    Case("disk-error", [*IDE, *ata(0xE7), *read(0x1F1)], "04", [*IDE, *ata(0x20, 100000), *read(0x1F1)], "04", "disk"),
    Case("disk-status", [*IDE, *ata(0xE7), *read(0x1F7)], "70", [*IDE, *ata(0x20), *read(0x1F7)], "70", "disk"),
]
LOST = [*LOOP, *out(0x3F8, 0x41, 0x42)]
SERIAL = [
    Case("soft-reset", [*out(0x3FB, 3), *SOFT, *read(0x3FB)], "00", [*out(0x3FB, 3), *read(0x3FB)], "00"),
    Case(
        "com1-divisor-first",
        [*out(0x3FB, 0x83), *read(0x3F8)],
        "0C",
        [*out(0x3FB, 0x83), *out(0x3F8, 1), *read(0x3F8)],
        "0C",
    ),
    Case(
        "com1-divisor", [*out(0x3FB, 0x83), *out(0x3F8, 1), *read(0x3F8)], "0C", [*out(0x3FB, 0x83), *read(0x3F8)], "0C"
    ),
    Case("com1-reset", read(0x3FC), "08", [*out(0x3FC, 3), *read(0x3FC)], "0B"),
    Case("com1-overrun", [*LOST, *read(0x3F8)], "42", [*LOOP, *out(0x3F8, 0x41), *read(0x3F8)], "42"),
    Case("com1-no-byte", read(0x3F8), "11", [*LOOP, *out(0x3F8, 0x41), *read(0x3F8)], "42"),
    Case("com1-received", [*LOOP, *out(0x3F8, 0x41), *read(0x3F8)], "42", [*LOST, *read(0x3F8)], "42"),
    Case("com1-line-rate", [*out(0x3F8, 0x41), *read(0x3FD)], "00", read(0x3FD), "61"),
    Case("com1-timeout", [*out(0x3FA, 1), *out(0x3F9, 1), *read(0x3FA)], "CC", read(0x3FA), "02"),
    Case("com1-line-status", [*LOOP, *out(0x3F8, 0x41), *read(0x3FD)], "60", [*out(0x3F8, 0x41), *read(0x3FD)], "00"),
    Case("com1-fifos", [*out(0x3FA, 1), *read(0x3FA)], "01", read(0x3FA), "02"),
    Case(
        "com1-interrupt",
        [*LOOP, *out(0x3F9, 1), *out(0x3F8, 0x41), *read(0x3FA)],
        "01",
        [*out(0x3FA, 1), *read(0x3FA)],
        "01",
    ),
    Case("com1-modem-lines", [*LOOP, *read(0x3FE)], "00", read(0x3FE), "00"),
    Case("com1-modem-changes", [*LOOP, *read(0x3FE)], "80", read(0x3FE), "BF"),
    Case("com1-modem", read(0x3FE), "00", [*LOOP, *read(0x3FE)], "00"),
    Case("com1-scratch-first", read(0x3FF), "FF", [*out(0x3FF, 0x5A), *read(0x3FF)], "00"),
    Case("com1-keeps", [*out(0x3FF, 0x5A), *read(0x3FF)], "00", read(0x3FF), "FF"),
]
CASES = [*REGISTERS, *MEMORY, *PORTS, *PICS, *TIMERS, *CLOCKS, *DISKS, *SERIAL]
