"""The module as a package: what it says of itself, its types, and a wheel that needs no repository."""
import os
import pathlib
import pydoc
import shutil
import subprocess
import sys
import zipfile

import pytest

import board440fx
from board440fx import Board

PYTHON = pathlib.Path(__file__).resolve().parents[1]
MYPY = "/usr/bin/mypy"  # Debian's
USED = "from board440fx import Board; print(repr(Board(rom=bytes(65536)).read(0xCC000)))"


def test_the_help_is_text() -> None:
    text = pydoc.plain(pydoc.render_doc(Board))
    assert "\\x00" not in text and max(map(len, text.splitlines())) < 300


def test_the_version_begins_with_the_interface() -> None:
    assert board440fx.__version__.split(".")[0] == str(board440fx.INTERFACE)


def test_the_types_are_strict(tmp_path: pathlib.Path) -> None:
    if not pathlib.Path(MYPY).exists():
        pytest.skip(f"no {MYPY}")
    checked = subprocess.run([MYPY, "--cache-dir", tmp_path], cwd=PYTHON, capture_output=True, text=True)
    assert checked.returncode == 0, checked.stdout + checked.stderr


def python_of_wheels() -> str:
    """A Python that builds wheels without the network."""
    for python in (sys.executable, "/usr/bin/python3"):
        asked = [python, "-c", "import setuptools, wheel.bdist_wheel, pip"]
        if subprocess.run(asked, capture_output=True).returncode == 0:
            return python
    pytest.skip("no pip with setuptools and wheel")


def test_a_wheel_needs_no_repository(tmp_path: pathlib.Path) -> None:
    here = tmp_path / "repository/bindings/python"
    shutil.copytree(PYTHON, here, ignore=shutil.ignore_patterns("build", "*.egg-info", "__pycache__"))
    (tmp_path / "repository/release").symlink_to(PYTHON.parents[1] / "release")
    environment = {name: value for name, value in os.environ.items() if name not in ("BOARD_DIR", "PYTHONPATH")}
    words = ["-m", "pip", "-q", "wheel", "--no-build-isolation", "--no-deps", "--no-index", "-w", tmp_path, here]
    made = subprocess.run([python_of_wheels(), *words], env=environment, capture_output=True, text=True)
    assert made.returncode == 0, made.stdout + made.stderr
    wheel, = tmp_path.glob("*.whl")
    assert wheel.name.startswith(f"board440fx-{board440fx.__version__}-py3-none-linux_")
    with zipfile.ZipFile(wheel) as packed:
        packed.extractall(tmp_path / "site")
    shutil.rmtree(tmp_path / "repository")
    environment |= {"PYTHONPATH": str(tmp_path / "site"), "PKG_CONFIG_PATH": "", "PKG_CONFIG_LIBDIR": str(tmp_path)}
    said = subprocess.run([sys.executable, "-c", USED], cwd=tmp_path, env=environment, capture_output=True, text=True)
    assert said.stdout == "<r b 000CC000 = FF abort 00.0.5B>\n", said.stderr
