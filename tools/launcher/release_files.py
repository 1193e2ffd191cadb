"""The files of release/: an archive of what --install puts below a folder, the sum of each of its files, and the
sources that they were made of."""
import io
import gzip
import pathlib
import tarfile
import zlib
from dataclasses import dataclass
from typing import IO, Optional, cast

from launcher.board_says import Refused
from launcher.crate_sources import LIBRARY, PARTS, PROGRAM, Crates, Parts, Sources, sum_of

NAME = "board-x86_64-linux"
ARCHIVE, SUMS, SOURCES = f"release/{NAME}.tar.gz", "release/sums", "release/sources"
THE_PROGRAM = "bin/board"
WHAT = {PROGRAM: "program", LIBRARY: "library"}
MARKS = {PROGRAM: THE_PROGRAM, LIBRARY: "lib/libboard.a"}  # the file without which an archive does not have it
HEAD = "# What the program and the library were made of: lines of crates.txt, and then sha256sum -c checks the files."


@dataclass
class Member:
    """A file of the archive, or a link."""

    data: bytes = b""
    is_run: bool = False
    link: str = ""


def why_not_packed(crates: Crates, top: str, parts: Parts = PARTS) -> Optional[str]:
    """Why the packed program or library is not that of the sources in these folders, or None where it is."""
    if not (crates.root / ARCHIVE).is_file() or not (crates.root / SUMS).is_file():
        return f"release/ has no {WHAT[top]}"
    if MARKS[top] not in noted_sums(crates.root):
        return f"release/ has no {WHAT[top]}"
    packed = packed_sources(crates, top)
    change: Optional[str] = "release/sources is missing"
    if packed:
        change = Sources.now(crates, top, parts).change_since(packed.of_parts(parts))
    return f"the packed {WHAT[top]} is not of these sources: {change}" if change else None


def packed_sources(crates: Crates, top: str) -> Optional[Sources]:
    """The sources that the packed program or library was made of, as far as they are its crates' now."""
    try:
        lines = (crates.root / SOURCES).read_text().splitlines()[1:]
    except FileNotFoundError:
        return None
    needed, files = set(crates.needed(top)), set(crates.files(top))
    said = [line[2:] for line in lines if line.startswith("# ")]
    pairs = (line.split("  ", 1) for line in lines if not line.startswith("#"))
    sums = {name: it for it, name in pairs}
    is_of = lambda name: name in files or name.split("/")[0] == "crates" and name.split("/")[1] in needed
    return Sources([line for line in said if line.split(":")[0].split()[0] in needed],
                   {name: it for name, it in sums.items() if is_of(name)})


def write_sources(crates: Crates) -> None:
    """Notes the sources of now."""
    lines, sums = {}, {}
    for top in WHAT:
        now = Sources.now(crates, top)
        lines.update(dict.fromkeys(now.lines))
        sums.update(now.sums)
    in_order = [line for line in crates.lines.values() if line in lines]
    text = [HEAD, *(f"# {line}" for line in in_order), *(f"{it}  {name}" for name, it in sorted(sums.items()))]
    (crates.root / SOURCES).write_text("\n".join(text) + "\n")


def noted_sums(root: pathlib.Path) -> dict[str, str]:
    """The sum that release/sums notes of each file of the archive."""
    lines = (root / SUMS).read_text().splitlines()
    return {name.removeprefix(NAME + "/"): it
            for it, _, name in (line.partition("  ") for line in lines if not line.startswith("#"))}


def members(root: pathlib.Path) -> dict[str, Member]:
    """The files of the archive, each the one whose sum is noted."""
    found: dict[str, Member] = {}
    try:
        with tarfile.open(root / ARCHIVE) as tar:
            for entry in tar:
                data = tar.extractfile(entry)
                found[entry.name.removeprefix(NAME + "/")] = Member(
                    data.read() if data else b"", bool(entry.mode & 0o100), entry.linkname)
    except (tarfile.TarError, EOFError, zlib.error, gzip.BadGzipFile) as fault:
        raise Refused(f"{ARCHIVE} is damaged: git checkout -- release brings it back") from fault
    for name, it in noted_sums(root).items():
        if name not in found or sum_of(found[name].data) != it:
            raise Refused(f"{ARCHIVE} is damaged: its {name} is not the one that {SUMS} notes")
    return found


def write_archive(root: pathlib.Path, files: dict[str, Member], kit: str) -> None:
    """Packs files, so that the same files make the same archive, and notes their sums and the kit."""
    (root / "release").mkdir(exist_ok=True)
    packed = io.BytesIO()
    with (gzip.GzipFile("", "wb", 9, packed, mtime=0) as pressed,
          tarfile.open(fileobj=cast(IO[bytes], pressed), mode="w") as tar):
        for name, it in sorted(files.items()):
            about = tarfile.TarInfo(f"{NAME}/{name}")
            about.mode = 0o755 if it.is_run or it.link else 0o644
            about.size, about.linkname = len(it.data), it.link
            about.type = tarfile.SYMTYPE if it.link else tarfile.REGTYPE
            tar.addfile(about, io.BytesIO(it.data))
    (root / ARCHIVE).write_bytes(packed.getvalue())
    lines = [f"{sum_of(it.data)}  {NAME}/{name}" for name, it in sorted(files.items()) if not it.link]
    (root / SUMS).write_text("\n".join([f"# by {kit}", *lines]) + "\n")
