"""Puts files into folders, each at once."""
import os
import pathlib
import tempfile

from launcher.board_says import Refused
from launcher.board_state import put
from launcher.release_files import Member


def want_folder(folder: pathlib.Path) -> None:
    """Makes a folder where it is not there, and sees that it can be written."""
    try:
        folder.mkdir(parents=True, exist_ok=True)
        with tempfile.TemporaryFile(dir=folder):
            pass
    except OSError as fault:
        raise Refused(f"the folder {folder} cannot be written: {fault.strerror}") from fault


def put_file(file: pathlib.Path, it: Member) -> None:
    try:
        if it.link:
            place = file.parent / f".{file.name}.{os.getpid()}"
            os.symlink(it.link, place)
            os.replace(place, file)
        else:
            put(file, it.data, 0o755 if it.is_run else 0o644)
    except OSError as fault:
        raise Refused(f"{file} cannot be written: {fault.strerror}") from fault
