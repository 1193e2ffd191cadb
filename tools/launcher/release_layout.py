"""What a release has, and what --install puts below a folder: the program, the library, the man page and the completion
of a shell, by their names."""
import pathlib
import subprocess
import tempfile

from launcher.board_says import Refused
from launcher.release_files import THE_PROGRAM, Member

MAN, COMPLETION = "share/man/man1/board.1", "share/bash-completion/completions/board"


def layout(root: pathlib.Path, program: bytes, library: dict[str, Member]) -> dict[str, Member]:
    help_text = said(program, "--help")
    return {
        THE_PROGRAM: Member(program, is_run=True),
        **library,
        MAN: Member(man_page(help_text, said(program, "--version")).encode()),
        COMPLETION: Member((root / "tools/launcher/completion.bash").read_bytes()),
    }


def said(program: bytes, word: str) -> str:
    """What the program writes where it is given one word."""
    with tempfile.TemporaryDirectory() as folder:
        file = pathlib.Path(folder) / "board"
        file.write_bytes(program)
        file.chmod(0o755)
        run = subprocess.run([file, word], stdout=subprocess.PIPE, text=True)
    if run.returncode:
        raise Refused(f"the program ends with {run.returncode} after {word}")
    return run.stdout


def man_page(help_text: str, version: str) -> str:
    """The man page of the help text."""
    title, _, rest = help_text.partition("\n")
    return "\n".join([
        f'.TH BOARD 1 "" "{plain(version.strip())}" "User Commands"',
        ".SH NAME",
        plain(title.strip().replace(": ", " - ", 1)),
        ".SH SYNOPSIS",
        ".B board",
        r"\fICOMMAND\fR \fIWORDS\fR",
        ".SH DESCRIPTION",
        ".nf",
        *(plain(line) for line in rest.strip("\n").split("\n")),
        ".fi",
        ".SH FILES",
        "A ROM and a disk that a script names are looked for in the folder in which",
        ".B board",
        "is started.",
        "",
    ])


def plain(line: str) -> str:
    """A line as roff prints it."""
    line = line.replace("\\", r"\e").replace("-", r"\-")
    return rf"\&{line}" if line[:1] in (".", "'") else line
