"""The BIOS of the agent, agent.asm: its bytes are kept in agent.hex, so that nobody needs nasm to use it. And the
adapter of a monitor that boots it."""
import pathlib
import shlex
import sys

from shared.board_texts import ROOT

SOURCE, KEPT = (pathlib.Path(__file__).resolve().parent / f"agent.{kind}" for kind in ("asm", "hex"))
SIZE = 1 << 16


class AgentFault(Exception):
    """The BIOS cannot be made."""


def bios() -> bytes:
    """Its 64 KiB."""
    image = bytearray(SIZE)
    for line in KEPT.read_text(encoding="ascii").splitlines():
        if line.startswith("#"):
            continue
        offset, _, digits = line.partition(" ")
        at, code = int(offset, 16), bytes.fromhex(digits)
        image[at : at + len(code)] = code
    if len(image) != SIZE:
        raise AgentFault(f"{KEPT}: it has {len(image)} bytes")
    return bytes(image)


def build(file: pathlib.Path) -> pathlib.Path:
    """Writes it to a file."""
    file.write_bytes(bios())
    return file


def adapter_of(monitor: str, folder: pathlib.Path) -> tuple[str, pathlib.Path]:
    """The command of the adapter that asks a monitor, by the monitor's own, and the BIOS that stands for each ROM."""
    command = shlex.join([sys.executable, str(ROOT / "tools/adapters/agent"), monitor])
    return command, build(folder / "agent.bin")
