"""The images of the cases, as in examples: ROMs whose byte at each offset is the offset's low byte, and a disk of four sectors
of 01, 02, 03 and 04."""
import pathlib

SECTOR = 512
ROMS = {"r64": 1 << 16, "r256": 1 << 18}
DISKS = {"d4": 4}


def write_images(folder: pathlib.Path) -> pathlib.Path:
    """Writes them all into a folder."""
    for name, size in ROMS.items():
        (folder / name).write_bytes(bytes(range(256)) * (size // 256))
    for name, sectors in DISKS.items():
        (folder / name).write_bytes(b"".join(bytes([number]) * SECTOR for number in range(1, sectors + 1)))
    return folder
