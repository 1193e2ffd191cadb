"""The records and numbers beside those of board.h, and which libraries are refused."""
import os
import pathlib
import re
import shutil
import subprocess
import sys

import pytest

from board440fx import INTERFACE, LibraryError, errors, library, records

SOURCES = pathlib.Path(__file__).resolve().parents[2]
CC = os.environ.get("CC", "cc")


def header_folder():
    """Where the board.h of the tested library lies."""
    return pathlib.Path(os.environ.get("BOARD_DIR", SOURCES.parent / "include"))


def in_c(folder):
    """What the C program prints of board.h."""
    if not shutil.which(CC):
        pytest.skip(f"no {CC}")
    program = folder / "layout"
    subprocess.run([CC, "-I", header_folder(), SOURCES / "layout.c", "-o", program], check=True)
    return set(subprocess.run([program], capture_output=True, text=True, check=True).stdout.splitlines())


def here():
    yield f"BOARD_INTERFACE {INTERFACE}"
    yield f"BOARD_MOST_RANGES {records.MOST_RANGES}"
    yield f"BOARD_MOST_WINDOWS {records.MOST_WINDOWS}"
    for name, record in records.RECORDS.items():
        yield f"{name} {records.c.sizeof(record)}"
        for field, *_ in record._fields_:
            place = getattr(record, field)
            yield f"{name}.{field} {place.offset} {place.size}"
    for numbers in records.NUMBERS:
        for number in numbers:
            yield f"BOARD_{number.name} {number.value}"


def test_records_and_numbers_are_those_of_board_h(tmp_path):
    assert set(here()) == in_c(tmp_path)


def test_each_status_has_its_exception():
    text = (header_folder() / "board.h").read_text()
    body = re.search(r"enum board_status \{(.*?)\};", text, re.S)[1]
    statuses = {int(number) for name, number in re.findall(r"^\s*BOARD_(\w+) = (\d+)", body, re.M) if name != "OK"}
    assert statuses == set(errors.BoardError.by_status) - {errors.OtherStatus.status}


def test_a_status_without_a_name():
    with pytest.raises(errors.OtherStatus, match="1000"):
        errors.check(1000)


def made(folder, source, header=None):
    """A library of a C source."""
    if not shutil.which(CC):
        pytest.skip(f"no {CC}")
    (folder / "made.c").write_text(source)
    subprocess.run([CC, "-shared", "-fPIC", folder / "made.c", "-o", folder / "libboard.so"], check=True)
    if header:
        (folder / "board.h").write_text(header)
    return folder / "libboard.so"


@pytest.mark.parametrize("source, header, fault", [
    ("unsigned board_version(void) { return 1; }", None, "has the interface 1, and this module is for 8"),
    ("int nothing;", "#define BOARD_INTERFACE 9u\n", "has the interface 9, and this module is for 8"),
    ("int nothing;", "int nothing;\n", "has no BOARD_INTERFACE"),
    ("int nothing;", None, "does not say its interface"),
])
def test_another_library_is_refused(tmp_path, source, header, fault):
    path = made(tmp_path, source, header)
    with pytest.raises(LibraryError, match=fault):
        library.load(path, [path.with_name("board.h")])


def test_what_is_no_library_is_refused(tmp_path):
    path = tmp_path / "libboard.so"
    path.write_text("no library")
    with pytest.raises(LibraryError, match="cannot be loaded"):
        library.load(path, [])


def test_a_folder_without_a_library_is_said(tmp_path):
    asked = [sys.executable, "-c", "import board440fx; board440fx.Board()"]
    environment = {**os.environ, "BOARD_DIR": str(tmp_path), "PYTHONPATH": str(SOURCES / "python")}
    said = subprocess.run(asked, env=environment, capture_output=True, text=True).stderr
    assert said.splitlines()[-1].endswith(f"BOARD_DIR: {tmp_path} has no libboard.so")


def test_threads_that_ask_at_once_get_one_library():
    """In a process of its own, in which nobody asked before."""
    program = ("import concurrent.futures as futures\n"
               "from board440fx.library import library\n"
               "with futures.ThreadPoolExecutor(8) as pool:\n"
               "    found = list(pool.map(lambda _: library(), range(8)))\n"
               "print(len({id(it) for it in found}))\n")
    environment = {**os.environ, "PYTHONPATH": str(pathlib.Path(__file__).resolve().parents[1])}
    done = subprocess.run([sys.executable, "-c", program], env=environment, capture_output=True, text=True)
    assert (done.stdout, done.returncode) == ("1\n", 0), done.stderr
