"""Takes away what ./board --install PREFIX put below a folder, and nothing else.

    ./board --uninstall PREFIX       below DESTDIR where it is set

Exit status: 0, or 125 with a line that says why not.
"""

from launcher.board_says import Refused, say
from launcher.installed_list import LIST, Installed, place_of


def main(words: list[str]) -> int:
    if words == ["--help"]:
        print(__doc__.strip())
        return 0
    if len(words) != 1 or not words[0]:
        raise Refused("--uninstall wants a folder")
    place = place_of(words[0])
    installed = Installed(place)
    if not installed.names:
        raise Refused(f"{place / LIST} is not there, so nothing is known of what --install put there")
    say(f"{installed.remove()} files removed below {place}")
    return 0
