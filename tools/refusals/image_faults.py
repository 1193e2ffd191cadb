"""What is wrong with the ROM and the disk that a script names, and with other files that the program reads."""
import os
import pathlib
import re
from dataclasses import dataclass
from typing import Optional

SECTOR = 512
ROM_SIZES = (65_536, 131_072, 262_144, 524_288)
LIMITS = {"script": 16 << 20, "rom": 512 << 10, "disk": 32 << 20, "log": 64 << 20, "image": 40 << 20, "input": 1 << 20}
ALLOWED = {
    "rom": "a ROM has 65536, 131072, 262144 or 524288 bytes",
    "disk": "a disk has 1 to 65536 sectors of 512 bytes",
}
OTHER_FORMS = {
    b"QFI\xfb": "it is a qcow2 image: `qemu-img convert -O raw` makes it a plain one",
    b"KDMV": "it is a VMDK image: `qemu-img convert -O raw` makes it a plain one",
    b"\x1f\x8b": "it is packed by gzip: gunzip it first",
    b"conectix": "it is a VHD image: `qemu-img convert -O raw` makes it a plain one",
    b"BOARDIMG": "it is an image that `board save` wrote",
}
MAGIC, VERSION, HEAD = b"BOARDIMG", 1, 26  # of an image of a board, with the bytes up to its cards


@dataclass
class Named:
    """A file that a script names."""

    line: int
    name: str
    file: pathlib.Path

    @staticmethod
    def of(lines: list[str], word: str, folder: pathlib.Path) -> Optional["Named"]:
        for number, line in enumerate(lines, 1):
            if re.fullmatch(f"{word} [A-Za-z0-9_][A-Za-z0-9._-]*", line):
                name = line.split(" ")[1]
                return Named(number, name, folder / name)
        return None


def size_of(file: pathlib.Path) -> Optional[int]:
    """The bytes of a file that can be read, or None."""
    try:
        return file.stat().st_size if file.is_file() and os.access(file, os.R_OK) else None
    except OSError:
        return None


def unreadable(named: Named, which: str) -> str:
    """Why a file cannot be read."""
    folder = named.file.parent
    if named.file.is_dir():
        return f"{named.file} is a folder"
    if named.file.exists():
        return f"the file {named.file} cannot be read: its rights do not let it be"
    if not folder.is_dir():
        return f"the folder {folder} is not there"
    found = next((it.name for it in folder.iterdir() if it.name.lower() == named.name.lower()), None)
    if found:
        return f"the folder {folder} has no file {named.name}, but {found}: capital letters count"
    fitting = sorted(it.name for it in folder.iterdir() if which == "rom" and size_of(it) in ROM_SIZES)
    more = f"; of a ROM's size it has {', '.join(fitting[:5])}" if fitting else ""
    return f"the folder {folder} has no file {named.name}: the images lie where board is started{more}"


def wrong_size(named: Named, which: str) -> str:
    """What is wrong with the length of an image."""
    size = size_of(named.file) or 0
    text = f"{named.file} has {size} bytes, and {ALLOWED[which]}"
    if size == 0:
        return f"{text}: it is empty"
    with named.file.open("rb") as it:
        first = it.read(8)
    form = next((what for magic, what in OTHER_FORMS.items() if first.startswith(magic)), None)
    if form:
        return f"{text}: {form}"
    if which != "disk" or size is None:
        return text
    return f"{text}: {size // SECTOR} sectors" + (f" and {size % SECTOR} bytes more" if size % SECTOR else "")


def of_image(said: str, lines: list[str], folder: pathlib.Path) -> Optional[str]:
    """What is wrong with the ROM or the disk, where the program said so."""
    match = re.fullmatch("(read fault|bad image|too long): (rom|disk)", said)
    named = Named.of(lines, match[2], folder) if match else None
    if match is None or named is None:
        return None
    head = f"line {named.line} names the {match[2].replace('rom', 'ROM')} `{named.name}`"
    if match[1] == "read fault":
        return f"{head}: {unreadable(named, match[2])}"
    return f"{head}: {wrong_size(named, match[2])}"


def of_file(said: str, file: Optional[pathlib.Path]) -> Optional[str]:
    """What is wrong with a script, a log, an image or an input."""
    match = re.fullmatch("(read fault|too long): (script|log|image|input)", said)
    if not match:
        return None
    what = f"the {match[2]} {file or ''}".strip()
    if match[1] == "too long":
        size = size_of(file) if file else None
        return f"{what} has {f'{size:,}' if size else 'more'} bytes, and at most {LIMITS[match[2]]:,} are read"
    if file is not None and file.is_dir():
        return f"{what} is a folder"
    return f"{what} is not there" if file is not None and not file.exists() else f"{what} cannot be read"


# ---- images of boards


def of_board_image(file: pathlib.Path) -> str:
    """What is wrong with the head of an image of a board, as far as that can be seen."""
    data = file.read_bytes()
    if not data:
        return f"the image {file} is empty"
    if data[:8] != MAGIC:
        return f"the image {file} does not begin with BOARDIMG: it is not what `board save` writes"
    if len(data) < HEAD:
        return f"the image {file} is cut off: it has {len(data)} bytes, and its head has {HEAD}"
    version = int.from_bytes(data[8:10], "little")
    if version != VERSION:
        return f"the image {file} has version {version}, and there is version 1 alone"
    rom, disk = (int.from_bytes(data[at : at + 4], "little") for at in (14, 18))
    if len(data) < HEAD + rom + disk:
        return (f"the image {file} is cut off: it has {len(data)} bytes, and its ROM and disk alone need "
                f"{HEAD + rom + disk}")
    return f"the image {file} has a field that no board has, or bytes after its last step"


def other_board(file: pathlib.Path, lines: list[str]) -> str:
    """In what the image of a board and a script differ."""
    data = file.read_bytes()
    memory = next((line.split(" ")[1] for line in lines if line.startswith("memory ")), "?")
    cards = sorted(line for line in lines if line.startswith("card "))
    has_disk = any(line.startswith("disk ") for line in lines)
    found = []
    if data[10] != int(memory):
        found.append(f"the image has memory {data[10]}, the script memory {memory}")
    if bool(data[12]) != has_disk:
        one, other = ("image", "script") if data[12] else ("script", "image")
        found.append(f"the {one} has a disk, the {other} has none")
    if data[11] != len(cards):
        found.append(f"the image has {data[11]} cards, the script {len(cards)}")
    return "; ".join(found) or "the cards differ in their devices, kinds or bases"
