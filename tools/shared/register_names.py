"""The registers of configuration space as the tools have them: each with its first offset and its bytes, how one that
denies an access would let it in, and the fields: name, bits from high to low, and a text for each value or a formula."""
from typing import Union

# made by tools/make-names: registers
ANY_FUNCTION: list[tuple[str, int, int]] = [
    ("vendor id", 0x00, 2),
    ("device id", 0x02, 2),
    ("command", 0x04, 2),
    ("status", 0x06, 2),
    ("revision id", 0x08, 1),
    ("class code", 0x09, 3),
    ("header type", 0x0E, 1),
    ("base 0", 0x10, 4),
    ("base 1", 0x14, 4),
    ("base 2", 0x18, 4),
    ("base 3", 0x1C, 4),
    ("base 4", 0x20, 4),
    ("base 5", 0x24, 4),
    ("subsystem vendor id", 0x2C, 2),
    ("subsystem id", 0x2E, 2),
    ("expansion ROM base", 0x30, 4),
    ("interrupt line", 0x3C, 1),
    ("interrupt pin", 0x3D, 1),
]
OF_FUNCTION: dict[str, list[tuple[str, int, int]]] = {
    "00.0": [
        ("PAM0", 0x59, 1),
        ("PAM1", 0x5A, 1),
        ("PAM2", 0x5B, 1),
        ("PAM3", 0x5C, 1),
        ("PAM4", 0x5D, 1),
        ("PAM5", 0x5E, 1),
        ("PAM6", 0x5F, 1),
        ("DRB0", 0x60, 1),
        ("DRB1", 0x61, 1),
        ("DRB2", 0x62, 1),
        ("DRB3", 0x63, 1),
        ("DRB4", 0x64, 1),
        ("DRB5", 0x65, 1),
        ("DRB6", 0x66, 1),
        ("DRB7", 0x67, 1),
        ("FDHC", 0x68, 1),
        ("SMRAM", 0x72, 1),
    ],
    "01.0": [
        ("XBCS", 0x4E, 2),
        ("PIRQRCA", 0x60, 1),
        ("PIRQRCB", 0x61, 1),
        ("PIRQRCC", 0x62, 1),
        ("PIRQRCD", 0x63, 1),
    ],
    "01.1": [
        ("BMIBA", 0x20, 4),
        ("IDETIM", 0x40, 2),
    ],
}
HINTS = {
    "command": "bit 0 enables ports, bit 1 memory",
    "expansion ROM base": "bit 0 enables the ROM",
    "DRB7": "DRAM ends at this number times 8 MiB",
    "FDHC": "bits 7:6 are 01 for the hole at 512 KiB, 10 for that at 15 MiB, 00 for none",
    "SMRAM": "SMRAME, bit 3, opens A0000 to BFFFF in SMM, with DOPEN, bit 6, everywhere; DCLS, bit 5, to code alone",
    "XBCS": "bit 6 selects E0000 to EFFFF and FFFE0000 to FFFEFFFF, bit 7 FFF80000 to FFFDFFFF, bit 2 writes to the ROM, bit 1 ports 60 and 64, bit 0 ports 70 and 71",
    "IDETIM": "bit 15 enables the channel of the disk",
}
DENYING_BITS = {
    "expansion ROM base": "bit 0",
    "DRB7": "bits 7:0",
    "FDHC": "bits 7:6",
    "SMRAM": "bits 6:3",
    "IDETIM": "bit 15",
}
IDENTITY = [
    "vendor id",
    "device id",
    "status",
    "revision id",
    "class code",
    "header type",
    "subsystem vendor id",
    "subsystem id",
]
ABSENT = [
    "BMIBA",
]
FIELD_ROWS: dict[str, list[tuple[str, int, int, Union[str, tuple[str, ...]]]]] = {
    "interrupt line": [
        ("line", 7, 0, "number"),
    ],
    "interrupt pin": [
        ("pin", 2, 0, ("none", "INTA#", "INTB#", "INTC#", "INTD#", "reserved", "reserved", "reserved")),
    ],
    "FDHC": [
        ("HEN", 7, 6, ("none", "80000 to 9FFFF", "F00000 to FFFFFF", "reserved")),
    ],
    "SMRAM": [
        ("DOPEN", 6, 6, ("in SMM alone", "open outside SMM too")),
        ("DCLS", 5, 5, ("code and data", "closed to data")),
        ("DLCK", 4, 4, ("not locked", "locked")),
        ("SMRAME", 3, 3, ("SMRAM disabled", "SMRAM enabled")),
        ("DBASESEG", 2, 0, ("reserved", "reserved", "A0000", "reserved", "reserved", "reserved", "reserved", "reserved")),
    ],
    "XBCS": [
        ("Extended BIOS Enable", 7, 7, ("FFF80000 to FFFDFFFF is not", "FFF80000 to FFFDFFFF is ROM")),
        ("Lower BIOS Enable", 6, 6, ("E0000 to EFFFF is not", "E0000 to EFFFF is ROM")),
        ("BIOSCS# Write Protect Enable", 2, 2, ("writes kept out", "writes let through")),
        ("Keyboard Controller Address Location Enable", 1, 1, ("not decoded", "ports 60, 64")),
        ("RTC Address Location Enable", 0, 0, ("not decoded", "ports 70, 71")),
    ],
    "PIRQRCA": [
        ("IRQ Routing Enable", 7, 7, ("routed", "not routed")),
        ("IRQ Routing", 3, 0, "routed line"),
    ],
    "PIRQRCB": [
        ("IRQ Routing Enable", 7, 7, ("routed", "not routed")),
        ("IRQ Routing", 3, 0, "routed line"),
    ],
    "PIRQRCC": [
        ("IRQ Routing Enable", 7, 7, ("routed", "not routed")),
        ("IRQ Routing", 3, 0, "routed line"),
    ],
    "PIRQRCD": [
        ("IRQ Routing Enable", 7, 7, ("routed", "not routed")),
        ("IRQ Routing", 3, 0, "routed line"),
    ],
    "IDETIM": [
        ("IDE Decode Enable", 15, 15, ("not decoded", "ports decoded")),
        ("SITRE", 14, 14, ("one timing", "slave timing apart")),
        ("ISP", 13, 12, "clocks from 5"),
        ("reserved", 11, 10, "number"),
        ("RCT", 9, 8, "clocks from 4"),
        ("DTE1", 7, 7, ("0", "1")),
        ("PPE1", 6, 6, ("0", "1")),
        ("IE1", 5, 5, ("0", "1")),
        ("TIME1", 4, 4, ("0", "1")),
        ("DTE0", 3, 3, ("0", "1")),
        ("PPE0", 2, 2, ("0", "1")),
        ("IE0", 1, 1, ("0", "1")),
        ("TIME0", 0, 0, ("0", "1")),
    ],
}
# end of what is made
