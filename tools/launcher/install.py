"""Puts the program, the tools, the library, the man page and the completion of bash below a folder.

    ./board --install PREFIX             below PREFIX: bin, libexec/board, lib, include, lib/pkgconfig, share; where
                                         DESTDIR is set below DESTDIR/PREFIX, as for a package
    ./board --prove --install PREFIX     proves and builds them first

bin has `board`, and the tools as board-explain, board-compare, board-from-trace and so on. Without Python `board` runs
as well, and explains nothing. PREFIX/share/board/installed lists what was put there, for ./board --uninstall PREFIX. A
file that something else put there is not written over. Exit status: 0, or 125 with a line that says why not.
"""

from launcher.board_says import Refused, say
from launcher.crate_sources import PROGRAM, Crates
from launcher.found_program import found
from launcher.installed_list import LIST, Installed, place_of
from launcher.installed_tools import PLACE, with_tools
from launcher.library_files import PC, library, pc_text
from launcher.proved_builds import build
from launcher.put_files import put_file, want_folder
from launcher.release_layout import layout

SYSTEM = "/usr"  # below which the system's loader finds a library


def main(words: list[str]) -> int:
    is_proved_here = words[-1:] == ["--prove"]
    words = words[: len(words) - is_proved_here]
    if words == ["--help"]:
        print(__doc__.strip())
        return 0
    if len(words) != 1 or not words[0]:
        raise Refused("--install wants a folder")
    crates = Crates()
    place = place_of(words[0])
    want_folder(place)
    files = library(crates, is_proved_here)
    files[PC].data = pc_text(crates.root, "/../..", "/lib", "/include", is_found=words[0].rstrip("/") == SYSTEM)
    program = build(crates, PROGRAM).data if is_proved_here else found(crates)[0]
    files = with_tools(crates.root, layout(crates.root, program, files))
    installed = Installed(place)
    installed.want_own(files)
    for name, it in files.items():
        installed.make_folder(name)
        put_file(place / name, it)
    installed.write(files)
    shown = [name for name in sorted(files) if not name.startswith(f"{PLACE}/")]
    say(f"installed below {place}: {', '.join(shown)}, and what they need in {PLACE}; {LIST} lists all")
    return 0
