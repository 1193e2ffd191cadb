"""The list of what --install put below a folder, which lies there."""
import os
import pathlib
from typing import Iterable

from launcher.board_says import Refused
from launcher.board_state import put

LIST = "share/board/installed"


def place_of(prefix: str) -> pathlib.Path:
    """The folder for a prefix, below DESTDIR where it is set."""
    prefix = os.path.abspath(prefix)
    return pathlib.Path(os.environ.get("DESTDIR", "") + prefix)


class Installed:
    """Files, and the folders that had to be made for them, by their names below a place."""

    def __init__(self, place: pathlib.Path):
        self.place = place
        try:
            self.names = (place / LIST).read_text().splitlines()
        except FileNotFoundError:
            self.names = []

    def want_own(self, files: Iterable[str]) -> None:
        """Refuses where a file is there that --install did not put there."""
        for name in files:
            if name not in self.names and os.path.lexists(self.place / name):
                raise Refused(f"{self.place / name} is there, and --install did not put it there")

    def make_folder(self, name: str) -> None:
        """Makes the folder of a file, and notes each that was not there."""
        for folder in reversed(pathlib.PurePath(name).parents[:-1]):
            if not (self.place / folder).is_dir():
                (self.place / folder).mkdir()
                self.names.append(f"{folder}/")

    def write(self, files: Iterable[str]) -> None:
        """Notes files beside those of before, and this list."""
        self.make_folder(LIST)
        self.names = list(dict.fromkeys([*self.names, *files, LIST]))
        put(self.place / LIST, ("\n".join(self.names) + "\n").encode())

    def remove(self) -> int:
        """Removes all that is on the list, and the folders where nothing else is. How many files that were."""
        files = [name for name in self.names if not name.endswith("/")]
        for name in files:
            (self.place / name).unlink(missing_ok=True)
        for name in sorted((it for it in self.names if it.endswith("/")), reverse=True):
            try:
                (self.place / name).rmdir()
            except OSError:  # something else lies there
                pass
        return len(files)
