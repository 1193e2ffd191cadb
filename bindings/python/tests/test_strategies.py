"""The strategies find a planted fault and shrink it."""
import os
import pathlib
import re
import subprocess
import sys

import pytest

pytest.importorskip("hypothesis")
PYTHON = pathlib.Path(__file__).resolve().parents[1]


def test_a_planted_fault_shrinks_to_a_write_and_a_read(tmp_path: pathlib.Path) -> None:
    example = PYTHON / "examples/property.py"
    words = [sys.executable, "-m", "pytest", "-q", "-p", "no:cacheprovider", "--rootdir", tmp_path, example]
    environment = {**os.environ, "PYTHONPATH": str(PYTHON)}
    said = subprocess.run(words, cwd=tmp_path, env=environment, capture_output=True, text=True).stdout
    shrunk = re.search(r"events=\[(.*)\]", said)
    assert shrunk and shrunk[1] == "<out b 04D0 01>, <in b 04D0>", said
