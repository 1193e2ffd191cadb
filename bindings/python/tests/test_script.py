"""Statements, cards and scripts as texts, and the logs of the repository's examples."""
import pathlib
import re

import pytest

from board440fx import Card, Event, Script, ScriptError, errors, replay

EXAMPLES = pathlib.Path(__file__).resolve().parents[3] / "examples"
# A script that reaches COM1: its replay has no serial port, and a board here has one.
COM1 = re.compile(r"^\d+ (in|out) b 03F[89A-F]", re.M)
SCRIPTS = sorted(
    path for path in EXAMPLES.glob("*.script")
    if path.with_suffix(".log").exists() and not COM1.search(path.read_text())
)

STATEMENTS = [
    "r b 000A0000", "f d FFFFFFF0", "w q 00001003 8877665544332211", "w b 000A0000 77 smm", "r w 000A0000 smm",
    "in b 0070", "out d 0CF8 80000058", "look f 000A0000", "look w 000A0000 smm", "ack", "pulse 1000000",
    "moment 2024-02-29T12:35:00", "wire 2 1", "irq 15 0", "bad 65535", "receive 41",
]
NO_STATEMENTS = [
    "", "r", "r b A0000", "r x 000A0000", "r b 000A0000 00", "r  b 000A0000", "w b 000A0000 177", "w b 000A0000 +7",
    "in b 70", "in b 0070 smm", "out q 0070 0000000100000000", "look x 000A0000", "ack 0", "pulse -1",
    "moment 2024-02-29 12:35:00", "moment 2024-02-29T12:35:0", "irq 1 2", "é", "ack\n",
]
HEAD = "board 1\ncpus 1\nmemory 8\nrom r64\n"


@pytest.mark.parametrize("statement", STATEMENTS)
def test_statements_are_read_and_written(statement):
    assert str(Event.parse(statement)) == statement


@pytest.mark.parametrize("statement", NO_STATEMENTS)
def test_what_is_no_statement_is_refused(statement):
    with pytest.raises(errors.NoEvent):
        Event.parse(statement)


@pytest.mark.parametrize("statement, why", [
    ("", "'': that is no event: a statement begins with f, r, w, in, out, look, ack, pulse, moment, wire, irq, bad, receive, "
         "not ''"),
    ("inb 0070", "a statement begins with .*, not 'inb'"),
    ("r", "a field of `r` is missing: its width"),
    ("r b", "a field of `r` is missing: its address"),
    ("r x 000A0000", "the width is missing or none of b, w and d, .*: `x` is none"),
    ("in q 0070", "a port has no width q: cut the access"),
    ("r b A0000", "the address has 5 digits and not 8, as 000A0000"),
    ("in b 70", "the port has 2 digits and not 4, as 0070"),
    ("r b 000A0000 00", "`r` has a field too many, `00`"),
    ("in b 0070 smm", "smm stands at accesses to memory alone"),
    ("w b 000A0000 177", "the value has 3 digits and not 2"),
    ("out d 0CF8 5A", "the value has 2 digits and not 8"),
    ("pulse 007", "the number of pulses, the decimal number 007, has a leading zero"),
    ("moment 2024-02-29", "a moment is written YYYY-MM-DDTHH:MM:SS, with a T"),
    ("irq 1 2", "the level is 0 or 1, not 2"),
])
def test_what_is_no_statement_says_why(statement, why):
    with pytest.raises(errors.NoEvent, match=why) as refused:
        Event.parse(statement)
    assert refused.value.why and str(refused.value).startswith(f"{statement!r}: that is no event: ")


@pytest.mark.parametrize("card", ["2 vga", "3 plain m24 i6 m4", "9 plain i8 x11"])
def test_cards_are_read_and_written(card):
    assert str(Card.parse(card)) == card


@pytest.mark.parametrize("script", SCRIPTS, ids=lambda path: path.stem)
def test_the_log_of_an_example(script):
    disk = Script.parse(script.read_text()).disk
    if disk and not (EXAMPLES / disk).exists():
        pytest.skip(f"{disk} is not in the repository")
    lines = script.with_suffix(".log").read_text().splitlines()
    assert [str(line) for line in replay(script)] == lines[1:]


def test_the_lines_of_a_log_are_objects():
    *_, last = replay(EXAMPLES / "window.script")
    assert (last.number, last.processor, last.statement, last.event) == (4, 0, 4, Event.read(0xCC000))
    assert (last.answer.value, last.answer.target, last.answer.denied_by.name) == (0xFF, "abort", "PAM2")
    assert repr(last) == "<4 0.4 r b 000CC000 = FF abort 00.0.5B>"


@pytest.mark.parametrize("text, fault", [
    ("", "line 1"),
    ("cpus 1\n", "line 1"),
    (HEAD + "phase\n0 ack 0\n", "line 6: 0 ack 0: .*`ack` has a field too many: `0`"),
    (HEAD.replace("r64", "roms/r64") + "phase\n", "line 4: rom roms/r64: a path stands for the name"),
    (HEAD + "phase\nx ack\n", "line 6"),
    (HEAD + "cpus 2\nphase\n", "line 5"),
    (HEAD + "card 2\nphase\n", "line 5"),
    (HEAD + "0 ack\n", "line 5"),
    (HEAD + "phase\n1 ack\n", "a processor is not below 1"),
    ("board 1\ncpus 1\nmemory 8\nphase\n", "the setup: 'rom'"),
])
def test_what_is_no_script_is_refused(text, fault):
    with pytest.raises(ScriptError, match=fault):
        Script.parse(text)
