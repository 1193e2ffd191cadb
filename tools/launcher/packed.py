"""Says whether the program and the library in release/ are those of the sources, those that were noted, and those that
were built here, where they were.

    ./board --packed

Exit status: 0 they are; 1 they are not, or release/ is damaged.
"""

from launcher.board_says import Refused
from launcher.crate_sources import LIBRARY, PROGRAM, Crates, Sources
from launcher.library_files import STATIC, linked
from launcher.proved_builds import built
from launcher.release_files import THE_PROGRAM, WHAT, members, why_not_packed


def compared(crates: Crates, top: str) -> str:
    """What is said of the packed program or library beside that which was built here."""
    why = why_not_packed(crates, top)
    if why is not None:
        return why
    files = members(crates.root)
    said = f"release/ has the {WHAT[top]} of these sources"
    data = built(crates, top, Sources.now(crates, top))
    if not data:
        return said
    name = THE_PROGRAM if top == PROGRAM else STATIC
    is_same = files[name].data == (data if top == PROGRAM else linked(crates, data)[STATIC].data)
    return f"{said}, {'the same as was built here' if is_same else 'and another was built here'}"


def main(_: list[str]) -> int:
    crates = Crates()
    is_right = True
    try:
        for top in (PROGRAM, LIBRARY):
            said = compared(crates, top)
            print(said)
            is_right &= said.startswith("release/ has the ") and not said.endswith("another was built here")
    except (Refused, FileNotFoundError) as why:
        print(why if isinstance(why, Refused) else "release/ has no archive")
        is_right = False
    return 0 if is_right else 1
