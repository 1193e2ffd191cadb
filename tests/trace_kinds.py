"""Tests of the kinds of differences, the clock's offset, files, recorded traces, watch, and what explain says of
statuses and denials. tests/trace-tools runs them."""
import argparse
import errno
import gzip
import json
import os
import resource
import signal
import socket
import subprocess
import sys
import threading
import time
from typing import Callable

from trace_case import EXAMPLES, PROGRAM, ROOT, SETUP, TOOLS, TRACES, Case
from traces import ask_qemu
from traces import clock as trace_clock
from traces import differences
from traces.differences import ABSENT, CHOICE, DATASHEET, DATE

SELECT = "0 out d 0CF8 {}\n"


class Kinds(Case):
    # Each difference: the statements before it, the one that differs, what the other gave, and its kind with the
    # section or the heading. By hand from the datasheets and docs/DECISIONS.md.
    ROWS = [
        (SELECT.format("80000000"), "0 in w 0CFE", "7190", DATASHEET, "82441FX, VID and DID"),
        (SELECT.format("80000004"), "0 in w 0CFC", "0000", DATASHEET, "82441FX, PCICMD"),
        (SELECT.format("80000004"), "0 in w 0CFC", "0106", CHOICE, "Registers"),
        (SELECT.format("80000004"), "0 in w 0CFE", "0000", DATASHEET, "82441FX, PCISTS"),
        (SELECT.format("80000004"), "0 in w 0CFE", "2280", CHOICE, "Registers"),
        (SELECT.format("80000008"), "0 in b 0CFC", "02", ABSENT, "revision"),
        (SELECT.format("80000008"), "0 in d 0CFC", "06800002", DATASHEET, "82441FX, CLASSC"),
        (SELECT.format("8000002C"), "0 in d 0CFC", "11001AF4", DATASHEET, "PCI Local Bus 2.1, 6.1"),
        (SELECT.format("80000050"), "0 in b 0CFC", "40", ABSENT, "does not have"),
        (SELECT.format("80000058") + "0 out b 0CFD 30\n", "0 in b 0CFD", "00", DATASHEET, "82441FX, PAM"),
        (SELECT.format("80000058") + "0 out b 0CFD FF\n", "0 in b 0CFD", "FF", CHOICE, "Registers"),
        (SELECT.format("80000060"), "0 in b 0CFC", "00", DATASHEET, "82441FX, DRB"),
        (SELECT.format("80000068") + "0 out b 0CFC 80\n", "0 in b 0CFC", "00", DATASHEET, "82441FX, FDHC"),
        (SELECT.format("80000068") + "0 out b 0CFC FF\n", "0 in b 0CFC", "FF", CHOICE, "Registers"),
        (SELECT.format("80000070") + "0 out b 0CFE 1A\n0 out b 0CFE 4A\n", "0 in b 0CFE", "4A", DATASHEET,
         "82441FX, SMRAM"),
        (SELECT.format("80000070") + "0 out b 0CFE 1A\n0 out b 0CFE 32\n", "0 in b 0CFE", "1A", CHOICE, "Registers"),
        (SELECT.format("80000804"), "0 in w 0CFC", "0000", DATASHEET, "82371SB, function 0, PCICMD"),
        (SELECT.format("80000804"), "0 in w 0CFE", "0200", CHOICE, "Registers"),
        (SELECT.format("8000080C"), "0 in b 0CFE", "00", DATASHEET, "82371SB, function 0, HEDT"),
        (SELECT.format("8000084C") + "0 out b 0CFE FF\n", "0 in b 0CFE", "F7", ABSENT, "XBCS"),
        (SELECT.format("8000084C") + "0 out b 0CFE 43\n", "0 in b 0CFE", "03", DATASHEET, "82371SB, XBCS"),
        (SELECT.format("80000860"), "0 in b 0CFC", "00", DATASHEET, "82371SB, PIRQRC"),
        (SELECT.format("80000860") + "0 out b 0CFC FF\n", "0 in b 0CFC", "FF", CHOICE, "Registers"),
        (SELECT.format("80000904") + "0 out w 0CFC FFFF\n", "0 in w 0CFC", "0507", DATASHEET,
         "82371SB, function 1, PCICMD"),
        (SELECT.format("80000920"), "0 in d 0CFC", "00000001", ABSENT, "BMIBA"),
        (SELECT.format("80000940") + "0 out w 0CFC 8000\n", "0 in w 0CFC", "0000", DATASHEET, "82371SB, IDETIM"),
        (SELECT.format("FFFFFFFF"), "0 in d 0CF8", "FFFFFFFF", DATASHEET,
         "PCI Local Bus 2.1, Configuration Mechanism #1"),
        (SELECT.format("80000058") + "0 out b 0CFF 31\n0 out b 0CF9 06\n" + SELECT.format("80000058"), "0 in b 0CFF",
         "31",
         DATASHEET, "82371SB, RC"),
        ("0 out b 0CF9 02\n", "0 in b 0CF9", "00", DATASHEET, "82371SB, RC"),
        ("0 out b 0CF9 02\n", "0 in b 0CF9", "12", CHOICE, "Registers"),
        (SELECT.format("80001800"), "0 in w 0CFC", "8139", ABSENT, "a function of PCI that the other has"),
        ("", "0 in d 0CFC", "00000000", CHOICE, "Ports"),
        # memory
        (SELECT.format("80000058") + "0 out b 0CFF 20\n0 w b 000CC000 02\n", "0 r b 000CC000", "02", DATASHEET,
         "82441FX, PAM"),
        (SELECT.format("80000058") + "0 out b 0CFF 10\n0 w b 000CC000 03\n", "0 r b 000CC000", "03", DATASHEET,
         "82441FX, PAM"),
        ("0 w b 000CC000 03\n", "0 r b 000CC000", "05", ABSENT, "memory of a card"),
        ("", "0 r b 000CC000", "00", DATASHEET, "PCI Local Bus 2.1, 3.3.3.1"),
        ("0 w b 000A0000 11\n", "0 r b 000A0000", "11", DATASHEET, "82441FX, SMRAM"),
        (SELECT.format("80000068") + "0 out b 0CFC 40\n0 w b 00080000 07\n", "0 r b 00080000", "07", DATASHEET,
         "82441FX, FDHC"),
        ("0 w b 00800000 08\n", "0 r b 00800000", "08", DATASHEET, "82441FX, DRB"),
        (SELECT.format("80000058") + "0 out b 0CFF 20\n", "0 r b 000CC000", "7F", ABSENT, "memory of a card"),
        ("", "0 r d D0000000", "00000000", DATASHEET, "PCI Local Bus 2.1, 3.3.3.1"),
        ("", "0 r d FFFFFFF0", "00000000", ABSENT, "another ROM"),
        ("", "0 r b FFFE0012", "12", DATASHEET, "82371SB, XBCS"),
        ("", "0 r b 00001000", "FF", CHOICE, "Memory"),
        ("0 w b 00001000 5A\n", "0 r b 00001000", "00", DATASHEET, "82441FX, DRB"),
        # what was written while it was shut did not reach the DRAM
        ("0 w b 000F4543 E7\n" + SELECT.format("80000058") + "0 out b 0CFD 20\n", "0 r b 000F4543", "00", DATASHEET,
         "82441FX, PAM"),
        ("0 w b 000A0000 11\n" + SELECT.format("80000070") + "0 out b 0CFE 4A\n", "0 r b 000A0000", "11", DATASHEET,
         "82441FX, SMRAM"),
        ("0 w b 00800000 08\n" + SELECT.format("80000064") + "0 out b 0CFF 02\n", "0 r b 00800000", "08", DATASHEET,
         "82441FX, DRB"),
        (SELECT.format("8000084C") + "0 out b 0CFE 43\n", "0 r b 000E0001", "00", DATASHEET, "82371SB, XBCS"),
        # ports
        ("", "0 in b 0CF8", "00", DATASHEET, "PCI Local Bus 2.1, Configuration Mechanism #1"),
        ("", "0 in b 0070", "17", CHOICE, "Clock"),
        ("", "0 in b 0092", "02", ABSENT, "a device that the other has at this port"),
        ("", "0 in b 0064", "1C", ABSENT, "keyboard"),
        (SELECT.format("8000084C") + "0 out b 0CFE 00\n", "0 in b 0070", "00", DATASHEET, "82371SB, XBCS"),
        ("0 out b 04D0 FF\n", "0 in b 04D0", "00", DATASHEET, "82371SB, ELCR"),
        ("0 out b 04D0 FF\n", "0 in b 04D0", "FF", CHOICE, "Registers"),
        ("0 out b 0061 03\n", "0 in b 0061", "20", DATASHEET, "82371SB, NMISC"),
        # the 8259A, the timer and the clock
        ("0 out b 0020 11\n0 out b 0021 08\n0 out b 0021 04\n0 out b 0021 01\n0 out b 0021 FE\n", "0 in b 0021", "00",
         DATASHEET, "8259A, Operation Command Word 1"),
        ("0 out b 0020 11\n0 out b 0021 08\n0 out b 0021 04\n0 out b 0021 01\n0 out b 0021 FF\n", "0 ack", "08",
         DATASHEET,
         "8259A, Edge and Level Triggered Modes"),
        ("0 out b 0020 11\n0 out b 0021 08\n0 out b 0021 04\n0 out b 0021 01\n0 irq 5 1\n", "0 ack", "25", DATASHEET,
         "8259A, Initialization Command Words"),
        ("0 irq 5 1\n", "0 in b 0020", "00", DATASHEET, "8259A, Interrupt Request Register"),
        ("0 out b 0043 34\n0 out b 0043 E2\n", "0 in b 0040", "F0", DATASHEET, "8254, Read-Back Command"),
        ("0 out b 0070 0D\n", "0 in b 0071", "00", DATASHEET, "MC146818, Register D"),
        ("0 out b 0070 0A\n0 out b 0071 2F\n", "0 in b 0071", "26", DATASHEET, "MC146818, Register A"),
        ("0 out b 0070 20\n0 out b 0071 2F\n", "0 in b 0071", "26", DATASHEET, "MC146818, Address Map"),
        ("0 out b 0070 20\n", "0 in b 0071", "26", CHOICE, "Clock"),
        ("0 out b 0070 0A\n", "0 in b 0071", "00", CHOICE, "Clock"),
        ("0 moment 2024-02-29T12:00:05\n0 out b 0070 00\n", "0 in b 0071", "07", DATE, "the date"),
    ]
    ENABLED = SELECT.format("80000904") + "0 out b 0CFC 01\n" + SELECT.format("80000940") + "0 out w 0CFC 8000\n"
    OF_A_DISK = [
        ("0 out b 01F7 A1\n", "0 in b 01F7", "41", CHOICE, "Disk"),
        ("0 out b 01F7 C6\n", "0 in b 01F7", "50", CHOICE, "Disk"),
        ("0 out b 01F6 E0\n0 out b 01F2 01\n0 out b 01F7 20\n", "0 in b 01F7", "50", DATASHEET,
         "ATA/ATAPI-4, Status register"),
        ("0 out b 01F7 E7\n", "0 in b 01F7", "52", ABSENT, "index mark"),
        ("0 out b 01F7 E7\n", "0 in b 01F7", "40", CHOICE, "Disk"),
        ("0 out b 01F7 EC\n", "0 in w 01F0", "0041", ABSENT, "another disk"),
        ("0 out b 01F6 B0\n", "0 in b 01F4", "FF", CHOICE, "Disk"),
        ("0 out b 01F7 EC\n0 in w 01F0\n0 out b 01F7 EC\n", "0 in w 01F0", "0041", CHOICE, "Disk"),
    ]

    def difference(self, setup, before, last, given):
        """The item of --json of the last statement of a script."""
        script = self.file("it.script", setup + before + last + "\n")
        number = len((before + last).split("\n"))
        values = self.file("it.values", f"{number} {given} @7\n")
        run = self.run_tool("compare", script, values, "--all", "--json")
        self.assertEqual(run.returncode, 1, (before, last, run.stderr))
        return json.loads(run.stdout.splitlines()[0])

    def check(self, setup, rows):
        for before, last, given, kind, by in rows:
            it = self.difference(setup, before, last, given)
            first = it["reasons"][0]
            self.assertEqual(first["kind"], kind, (before, last, given, it["reasons"]))
            self.assertIn(by, f"{first['by']}: {first['what']}", (before, last, given))

    def test_the_first_two_kinds_count(self):
        for row in (self.ROWS[0], self.ROWS[2], self.ROWS[5], self.ROWS[-1]):
            before, last, given, kind, _ = row
            self.difference(SETUP, before, last, given)
            status = self.run_tool("compare", "it.script", "it.values").returncode
            self.assertEqual(status, int(kind in (DATASHEET, CHOICE)), row)

    def test_each_kind(self):
        self.check(SETUP, self.ROWS)

    def test_each_kind_of_a_disk(self):
        (self.folder / "d4").write_bytes((EXAMPLES / "d4").read_bytes())
        setup = SETUP.replace("phase", "disk d4\nphase")
        self.check(setup, [(self.ENABLED + before, *rest) for before, *rest in self.OF_A_DISK])
        shut = SELECT.format("80000904") + "0 out b 0CFC 01\n"
        self.check(setup, [(shut, "0 in b 01F7", "50", DATASHEET, "82371SB, IDETIM"),
                           ("", "0 in b 01F7", "50", DATASHEET, "82371SB, function 1, PCICMD")])
        self.check(SETUP, [("", "0 in b 01F7", "50", ABSENT, "a device that the other has")])

    def test_a_rom_that_is_shadowed_is_no_dram(self):
        """A byte that was read there before it was written came from a ROM on PCI, also after the same was written."""
        lines = SELECT.format("80000058") + "0 out b 0CFF 20\n0 r b 000CC000\n0 w b 000CC000 55\n0 r b 000CC000\n"
        values = self.file("it.values", "3 55\n5 55\n")
        run = self.run_tool("compare", self.file("it.script", SETUP + lines), values)
        self.assertIn("differences: 0 by a datasheet, 0 a choice of this board, 2 not modelled here", run.stdout)

    def test_a_vector_of_the_slave(self):
        """The other gave the slave's vector where this board's master has none: its bits 7 to 3 are of an ICW2."""
        lines = "".join(f"0 out b {port} {byte}\n" for port, byte in (
            ("0020", "11"), ("0021", "08"), ("0021", "04"), ("0021", "01"), ("0021", "00"),
            ("00A0", "11"), ("00A1", "70"), ("00A1", "02"), ("00A1", "01"), ("00A1", "00")))
        it = self.difference(SETUP, lines, "0 ack", "76")
        self.assertEqual(it["reasons"][0]["name"], "spurious")

    def test_words_of_identify_are_one_difference(self):
        (self.folder / "d4").write_bytes((EXAMPLES / "d4").read_bytes())
        setup = SETUP.replace("phase", "disk d4\nphase")
        before = self.ENABLED + "0 out b 01F7 EC\n"
        script = self.file("it.script", setup + before + "0 in w 01F0\n" * 4)
        first = before.count("\n") + 1
        values = "".join(f"{first + k} {value}\n" for k, value in enumerate(("0041", "FFFF", "0000", "FFFF")))
        run = self.run_tool("compare", script, self.file("it.values", values), "--all")
        self.assertIn(f"statement {first} on: not modelled here: another disk", run.stdout)
        self.assertIn("words 0, 1, 3\n", run.stdout)
        counts = "differences: 0 by a datasheet, 0 a choice of this board, 1 not modelled here, 0 a date\n"
        self.assertIn(counts, run.stdout)

    def test_rows_and_documents_say_the_same(self):
        """Each row of QEMU.md and BOCHS.md has a kind, and a section where it is by a datasheet, of the table; each
        heading of a choice is one of DECISIONS.md."""
        decisions = (ROOT / "docs/DECISIONS.md").read_text()
        chips = [*differences.CHIPS.values(), ""]
        sections = {row.by.format(chip=chip) for row in differences.TABLE if row.kind == DATASHEET for chip in chips}
        headings = {row.by for row in differences.TABLE if row.kind == CHOICE}
        for heading in headings:
            self.assertIn(f"\n## {heading}\n", decisions)
        for page in ("QEMU.md", "BOCHS.md"):
            rows = [line.strip("| ").split(" | ") for line in (ROOT / "docs" / page).read_text().splitlines()]
            told = [row for row in rows if len(row) == 5 and row[3] in differences.KINDS]
            self.assertGreaterEqual(len(told), 7)
            for row in told:
                if row[3] == DATASHEET:
                    self.assertIn(row[4], sections, row)
                elif row[3] == CHOICE:
                    self.assertIn(row[4].partition(":")[0], headings, row)

    def test_the_table_is_printed(self):
        run = subprocess.run([sys.executable, TOOLS / "differences"], capture_output=True, text=True)
        self.assertEqual(len(run.stdout.splitlines()), 2 + len(differences.TABLE))
        self.assertIn("| `drb` | by a datasheet | 82441FX, DRB: DRAM Row Boundary Registers |", run.stdout)


class Clock(Case):
    INDEX = "7@{:.6f}:memory_region_ops_write cpu 0 mr 0x1 addr 0x70 value 0x{:x} size 1 name 'rtc-index'\n"
    READ = "7@{:.6f}:memory_region_ops_read cpu 0 mr 0x1 addr 0x71 value 0x{:x} size 1 name 'rtc'\n"
    NOON = 1709208000  # 2024-02-29T12:00:00

    def kinds_of(self, reads):
        """The kinds of differences of reads of the seconds, each with its time after noon and its value."""
        text = "".join(self.INDEX.format(self.NOON + at - 0.0001, 0) + self.READ.format(self.NOON + at, value)
                       for at, value in reads)
        trace = self.file("trace", text)
        run = self.run_tool("from-trace", "qemu", trace, "made.script", "made.values", "--rom", "r64")
        self.assertEqual(run.returncode, 0, run.stderr)
        run = self.run_tool("compare", "made.script", "made.values", "--json", "--all")
        return [json.loads(line)["kind"] for line in run.stdout.splitlines()[:-1]]

    def test_offsets_of_a_busy_machine(self):
        """QEMU's clock stands behind by the start and by the fraction of its second: each from 0 to 0.95 gives no
        difference, though the first line comes 0.2 to 0.65 seconds after the start."""
        for behind in (0.0, 0.05, 0.2, 0.35, 0.5, 0.65, 0.8, 0.95):
            reads = [(at / 10, int(at / 10 - behind) % 60 // 10 << 4 | int(at / 10 - behind) % 60 % 10)
                     for at in range(10, 900, 7)]
            self.assertEqual(self.kinds_of(reads), [], behind)

    def test_a_read_that_no_offset_explains(self):
        """At 2.5 the clock may show 1 or 2. It showed 2, so it is less than half a second behind, and 2 at 3.6 is not
        possible; nor is 5 at 4.0."""
        self.assertEqual(self.kinds_of([(2.5, 2), (3.6, 2)]), [DATE])
        self.assertEqual(self.kinds_of([(2.5, 2), (3.4, 2), (3.6, 3)]), [])
        self.assertEqual(self.kinds_of([(2.5, 2), (4.0, 5)]), [DATE])

    def test_bytes_of_the_calendar(self):
        """2024-02-29T12:34:56 is a Thursday, the fifth day of the week from Sunday on."""
        clock = trace_clock.TraceClock()
        second = self.NOON + 34 * 60 + 56
        rows = [(0, 0x56), (2, 0x34), (4, 0x12), (6, 0x05), (7, 0x29), (8, 0x02), (9, 0x24)]
        self.assertEqual([(index, clock.shown(index, second)) for index, _ in rows], rows)
        clock.write(trace_clock.CLOCK_B, 0x04)  # binary, in halves of a day
        self.assertEqual([clock.shown(index, second) for index in (0, 2, 4, 9)], [56, 34, 0x80 | 12, 24])
        self.assertEqual(clock.shown(4, self.NOON + 12 * 3600), 12)

    def test_periodic_interrupts_are_left_out(self):
        words = "0 out b a0 11\n0 out b a1 70\n0 out b a1 2\n0 out b a1 1\n"
        said = self.convert("plain", words + "0 out b 70 b\n0 out b 71 42\n0 ack = 70\n0 in b a1 = 0\n")[2]
        periodic = "acknowledges of the clock's periodic interrupt, which the board has not"
        self.assertIn(f"left out: 1 of {periodic} (0071)\n", said)


class Files(Case):
    TRACE = "0 in b 21 = 0\n"

    def given(self, *words):
        self.file("t", self.TRACE)
        return self.run_tool("from-trace", "plain", *words)

    def test_names_that_are_one_file(self):
        os.symlink("t", self.folder / "link")
        for words in (("t", "t", "v"), ("t", "s", "t"), ("t", "s", "s"), ("t", "./t", "v"), ("t", "link", "v"),
                      ("t", "r64", "v", "--rom", "r64"), ("t", "s", "r64", "--rom", "r64"), ("t", "s", "./s")):
            run = self.given(*words)
            self.assertEqual(run.returncode, 2, words)
            self.assertIn("are one file", run.stderr)
            self.assertEqual((self.folder / "t").read_text(), self.TRACE)
            self.assertFalse((self.folder / "s").exists())
        script = self.file("asked.script", SETUP + "0 in b 0021\n")
        for trace in (script, "r64"):
            self.assertEqual(self.run_tool("ask-qemu", script, trace, "--qemu", "false").returncode, 2)
            self.assertEqual((self.folder / "r64").stat().st_size, 65536)

    def test_nothing_understood(self):
        rows = [("qemu", "5@1.5:other_event x 1\n",
                 "no line was understood as qemu: looked for lines `memory_region_ops"),
                ("kvm", "# tracer: nop\n", "looked for lines `kvm_pio"),
                ("bochs", "Next at t=0\n", "looked for lines `event at t="),
                ("plain", "", "looked for lines `0 in b 71 = 26`"),
                ("plain", "0 in b 92 = 2\n", "no statement: no access reaches a device of the board"),
                ("plain", "0 out b 21 5\n", "no value: ")]
        for form, text, part in rows:
            run = self.run_tool("from-trace", form, self.file("trace", text), "s", "v")
            self.assertEqual(run.returncode, 2, text)
            self.assertIn(part, run.stderr)
            self.assertFalse((self.folder / "s").exists())

    def test_a_rom_in_a_folder(self):
        (self.folder / "roms").mkdir()
        (self.folder / "roms/b.bin").write_bytes(b"x" * 65536)
        run = self.given("t", "s", "v", "--rom", "roms/b.bin")
        self.assertEqual(run.returncode, 0, run.stderr)
        self.assertIn("copied: roms/b.bin to b.bin\n", run.stdout)
        self.assertIn("rom b.bin\n", (self.folder / "s").read_text())
        self.assertEqual(self.run_tool("compare", "s", "v").returncode, 0)
        self.assertEqual(self.given("t", "s", "v", "--rom", "./r64").returncode, 0)
        (self.folder / "b.bin").write_bytes(b"y" * 65536)
        run = self.given("t", "s", "v", "--rom", "roms/b.bin")
        self.assertEqual(run.returncode, 2)
        self.assertIn("is there with other bytes: rename one", run.stderr)
        self.assertEqual(self.given("t", "s", "v", "--rom", "roms/none.bin").returncode, 4)
        run = self.given("t", "s", "v", "--rom", "roms/my bios.bin")
        self.assertIn("rename the file", run.stderr)

    def test_a_full_disk(self):
        run = self.given("t", "/dev/full", "v")
        wrong = "from-trace: /dev/full: No space left on device: nothing is left of it\n"
        self.assertEqual((run.returncode, run.stderr), (4, wrong))
        self.assertFalse((self.folder / "v").exists())
        self.file("long", self.TRACE * 3000)
        words = [sys.executable, str(TOOLS / "from-trace"), "plain", "long", "s", "v"]
        least = resource.RLIMIT_FSIZE
        run = subprocess.run(words, cwd=self.folder, capture_output=True, text=True,
                             preexec_fn=lambda: resource.setrlimit(least, (4096, 4096)))
        self.assertEqual(run.returncode, 4)
        self.assertEqual(len(run.stderr.splitlines()), 1, run.stderr)
        self.assertEqual(sorted(it.name for it in self.folder.iterdir()), ["long", "r64", "t"])
        with open("/dev/full", "w") as full:
            run = subprocess.run([sys.executable, TOOLS / "from-trace", "plain", "t", "s", "v"], cwd=self.folder,
                                 stdout=full,
                                 stderr=subprocess.PIPE, text=True)
        self.assertEqual((run.returncode, run.stderr), (4, "from-trace: standard output: No space left on device\n"))


class Recorded(Case):
    """Boots that were recorded on a busy machine. In each the differences are those of docs/QEMU.md and BOCHS.md."""

    def counts(self, trace, *words):
        form = trace.split(".")[1]
        run = self.run_tool("from-trace", form, TRACES / trace, "s", "v", "--rom", "r64", *words)
        self.assertEqual(run.returncode, 0, run.stderr)
        run = self.run_tool("compare", "s", "v", "--json", "--all")
        items = [json.loads(line) for line in run.stdout.splitlines()]
        by = [it["reasons"][0]["by"] for it in items if it.get("kind") == DATASHEET]
        return {kind: count for kind, count in items[-1]["differences"].items() if count}, by

    def make_disk(self):
        subprocess.run([sys.executable, EXAMPLES / "disk", self.folder / "d"], check=True)

    def test_qemu_without_a_disk(self):
        counts, by = self.counts("busy.qemu.gz")
        self.assertEqual(counts, {DATASHEET: 4, ABSENT: 3})
        self.assertEqual(by, ["PCI Local Bus 2.1, 6.1: Configuration Space Organization"] * 2
                         + ["82441FX, PCICMD: PCI Command Register",
                            "82371SB, function 0, PCICMD: PCI Command Register"])

    def test_qemu_with_a_disk(self):
        self.make_disk()
        counts, by = self.counts("busy-disk.qemu.gz", "--memory", "32", "--disk", "d")
        self.assertEqual(counts, {DATASHEET: 4, CHOICE: 4, ABSENT: 4})
        self.assertEqual(by[2:], ["82441FX, PCICMD: PCI Command Register",
                                  "82371SB, function 0, PCICMD: PCI Command Register"])

    def test_bochs(self):
        self.make_disk()
        counts, by = self.counts("boot.bochs.gz", "--memory", "32", "--disk", "d")
        self.assertEqual(by, ["82371SB, function 1, PCICMD: PCI Command Register"])
        self.assertEqual((counts[DATASHEET], DATE in counts), (1, False))

    def test_forms_of_bochs(self):
        lines = ("(0) [0x0000fffffff0] f000:fff0 (unk. ctxt): jmpf 0xf000:e05b          ; ea5be000f0\n"
                 "event at t=282 IO addr=0x71 size=1 op=read val=0x26\n"
                 "event at t=283 IO addr=0x70 size=1 op=write val=0x8f\n"
                 "[CPU0 RD]: LIN 0x00000000000f0012 PHY 0x0000000f0012 (len=1, UC): 0x12\n"
                 "[CPU1 WR]: LIN 0x0000000000001000 PHY 0x000000001000 (len=2, WB): 0x1234\n"
                 "[CPU0 RD]: LIN 0x00000000000f0000 PHY 0x0000000f0000 (len=8, UC): 0x07060504 0x03020100\n"
                 "00000224799d[PIC   ] IRQ line 4 now high\n00000224799i[BIOS  ] Starting\n")
        statements, values, _ = self.convert("bochs", lines)
        self.assertEqual(statements, ["0 in b 0071", "0 out b 0070 8F", "0 r b 000F0012", "1 w w 00001000 1234",
                                      "0 r q 000F0000", "0 irq 4 1"])
        self.assertEqual(values, ["1 26 @2 ? date", "3 12 @4", "5 0706050403020100 @6"])
        for line in ("event at t=1 IO addr=0x71 size=3 op=read val=0x0", "event at t=1 IO addr=0x7", "[CPU0 RD]: PHY",
                     "event at t=5 IRQ irq=0", "[CPU0 RD]: PHY 0x000000001000 (len=2, WB): 0x12"):
            run = self.run_tool("from-trace", "bochs", self.file("trace", lines + line + "\n"), "s", "v")
            self.assertEqual(run.returncode, 3, line)
            self.assertIn("line 9: ", run.stderr)
        vector = "event at t=835185 IRQ irq=4 vec=c\n"
        setup = "".join(f"event at t=1 IO addr=0x{port:x} size=1 op=write val=0x{byte:x}\n"
                        for port, byte in ((0x20, 0x11), (0x21, 8), (0x21, 4), (0x21, 1)))
        statements, values, _ = self.convert("bochs", setup + "00000224799d[PIC   ] IRQ line 4 now high\n" + vector)
        self.assertEqual((statements[-2:], values), (["0 irq 4 1", "0 ack"], ["6 0C @6"]))


class Watch(Case):
    SECONDS = 120  # for all that one waits for; it takes half a second where nothing else runs

    def trace(self):
        return gzip.decompress((TRACES / "busy.qemu.gz").read_bytes())

    def started(self, *words):
        """A watch of its own. It is killed where it takes too long, so that no read or write of a test waits for it."""
        call = [sys.executable, TOOLS / "watch", *words, "--rom", "r64", "--program", PROGRAM]
        said = (self.folder / "said").open("w")
        heeds = lambda: signal.signal(signal.SIGINT, signal.SIG_DFL)  # which a shell's background job does not
        watch = subprocess.Popen(call, cwd=self.folder, stdout=subprocess.PIPE, stderr=said, text=True,
                                 preexec_fn=heeds)
        alarm = threading.Timer(self.SECONDS, watch.kill)
        alarm.start()
        assert watch.stdout is not None
        steps: list[Callable[[], object]] = [said.close, watch.stdout.close, watch.wait, watch.kill, alarm.cancel]
        for step in steps:  # the last one first
            self.addCleanup(step)
        return watch

    def why(self, watch):
        """What to say where a watch has not done what was waited for."""
        said = (self.folder / "said").read_text()
        return f"the watch: status {watch.poll()} (-9: killed after {self.SECONDS} s), and said: {said!r}"

    def until(self, watch, take):
        """What `take` gives, once that is not None, while the watch runs."""
        while (it := take()) is None:
            self.assertIsNone(watch.poll(), self.why(watch))
            time.sleep(0.001)
        return it

    def pipe_of(self, pipe):
        """A pipe's end to write to; None where nobody reads it yet."""
        try:
            number = os.open(pipe, os.O_WRONLY | os.O_NONBLOCK)
        except OSError as fault:
            self.assertEqual(fault.errno, errno.ENXIO)
            return None
        os.set_blocking(number, True)
        return open(number, "wb")

    def test_a_file(self):
        self.file("trace", self.trace().decode("latin-1"))
        run = self.run_tool("watch", "trace", "--rom", "r64", "--json", "--all")
        items = [json.loads(line) for line in run.stdout.splitlines()]
        self.assertEqual((run.returncode, [it["line"] for it in items[:-1]]), (1, [184, 187, 489, 823, 829, 949, 1088]))
        self.assertEqual(len(items[0]["before"]), 10)
        self.assertIn("out 0CF8 8000002C (pci-conf-idx)", items[0]["before"][-1])
        counts = {kind: count for kind, count in items[-1]["differences"].items() if count}
        self.assertEqual(counts, {DATASHEET: 4, ABSENT: 3})

    def test_it_tells_while_the_pipe_is_open(self):
        """The first difference is told before the writer writes on."""
        pipe = self.folder / "pipe"
        os.mkfifo(pipe)
        watch = self.started(pipe)
        lines = self.trace().split(b"\n")
        with self.until(watch, lambda: self.pipe_of(pipe)) as it:
            it.write(b"\n".join(lines[:184]) + b"\n")
            it.flush()
            self.assertIn("line 184 of the trace: 0 in w 0CFC\n", watch.stdout.readline(), self.why(watch))
            it.write(b"\n".join(lines[184:300]) + b"\n")
        rest = watch.stdout.read()
        self.assertEqual(watch.wait(), 1, self.why(watch))
        self.assertIn("line 187 of the trace: 0 in w 0CFE\n", rest)
        self.assertIn("  the guest's last accesses before it:\n", rest)

    def test_a_socket(self):
        """A socket that is not there is made, and its writer told from. It is listened at once its name is there."""
        place = self.folder / "socket"
        watch = self.started(place, "--stop")
        self.until(watch, lambda: place.exists() or None)
        with socket.socket(socket.AF_UNIX) as it:
            it.connect(str(place))
            it.sendall(b"\n".join(self.trace().split(b"\n")[:184]) + b"\n")
            text = watch.stdout.read()
        self.assertEqual(watch.wait(), 1, self.why(watch))
        self.assertIn("line 184 of the trace", text)
        self.assertFalse(place.exists())

    def test_an_interrupt_before_the_writer_comes(self):
        place = self.folder / "socket"
        watch = self.started(place)
        self.until(watch, lambda: place.exists() or None)
        watch.send_signal(signal.SIGINT)
        self.assertEqual((watch.stdout.read(), watch.wait()), ("", 2), self.why(watch))
        self.assertIn("watch: interrupted: what came so far is counted\n", (self.folder / "said").read_text())
        self.assertFalse(place.exists())

    def test_other_endings(self):
        self.assertEqual(self.run_tool("watch", self.file("t", "5@1.5:other x\n"), "--rom", "r64").returncode, 2)
        self.assertEqual(self.run_tool("watch", self.file("t", "{}\n"), "--rom", "r64").returncode, 3)
        self.assertEqual(self.run_tool("watch", "absent/socket", "--rom", "r64").returncode, 4)
        self.assertEqual(self.run_tool("watch").returncode, 2)
        trace = self.file("t", "0 in b 21 = 0\n")
        self.assertEqual(self.run_tool("watch", trace, "--rom", "r64", "--form", "plain").returncode, 0)


class Statuses(Case):
    def explain(self, text, *words):
        return self.run_tool("explain", self.file("it.script", text), *words)

    def test_images(self):
        """A ROM or a disk that is missing or has a wrong size: its name, its folder, the size and those allowed."""
        disk = SETUP.replace("phase", "disk d\nphase")
        absent = SETUP.replace("r64", "R64")
        rows: list[tuple[str, dict[str, bytes], str]] = [
            (absent, {},
             f"line 4 names the ROM `R64`: the folder {self.folder} has no file R64, but r64: capital letters"),
            (SETUP.replace("r64", "bios"), {},
             f"the folder {self.folder} has no file bios: .*of a ROM's size it has r64"),
            (SETUP, {"r64": b"short"}, "r64 has 5 bytes, and a ROM has 65536, 131072, 262144 or 524288 bytes"),
            (SETUP, {"r64": b""}, "r64 has 0 bytes, .* it is empty"),
            (SETUP, {"r64": b"\x1f\x8b" + bytes(70000)}, "packed by gzip"),
            (SETUP, {"r64": bytes(600000)}, "r64 has 600000 bytes, and a ROM has"),
            (disk, {}, f"line 5 names the disk `d`: the folder {self.folder} has no file d"),
            (disk, {"d": bytes(1000)},
             "d has 1000 bytes, and a disk has 1 to 65536 sectors of 512 bytes: 1 sectors and 488"),
            (disk, {"d": b""}, "d has 0 bytes, and a disk has 1 to 65536 sectors of 512 bytes: it is empty"),
            (disk, {"d": b"QFI\xfb" + bytes(995)}, "qcow2"),
        ]
        rom = (self.folder / "r64").read_bytes()
        for text, files, part in rows:
            for name, data in {"r64": rom, **files}.items():
                (self.folder / name).write_bytes(data)
            run = self.explain(text)
            self.assertEqual(run.returncode, 3, text)
            self.assertRegex(run.stdout, f"the cause: .*{part}", text)
            for name in files:
                (self.folder / name).unlink()
        (self.folder / "d").mkdir()
        (self.folder / "r64").write_bytes(rom)
        self.assertIn(f"{self.folder}/d is a folder", self.explain(disk).stdout)

    def test_said(self):
        """Every text of the program is explained without running it."""
        rows = [
            ("usage: board replay FILE, ..", "the words are no command of board"),
            ("no memory", "the system refused memory"),
            ("write fault", "standard output did not take the text"),
            ("too long: script", "bytes, and at most 16,777,216 are read"),
            ("read fault: input", "the input cannot be read"),
            ("bad image: image", "not what `board save` writes"),
            ("other board", "memory, cards or the presence of a disk differ"),
            ("bad script: line 6: reason 9", "processor 1 is not there"),
        ]
        for said, part in rows:
            run = self.explain(SETUP + "1 ack\n", "--said", said)
            self.assertEqual((run.returncode, run.stderr), (0, ""), said)
            self.assertIn(part, run.stdout)
        self.assertEqual(self.explain(SETUP, "--said", "nonsense").returncode, 2)

    def test_images_of_boards(self):
        saved = subprocess.run([PROGRAM, "save", self.file("it.script", SETUP)], cwd=self.folder,
                               capture_output=True).stdout
        rows = [
            (b"", SETUP, "is empty"),
            (b"not an image", SETUP, "does not begin with BOARDIMG"),
            (saved[:20], SETUP, "is cut off: it has 20 bytes, and its head has 26"),
            (saved[:30000], SETUP, "is cut off: it has 30000 bytes"),
            (saved[:8] + b"\x02\x00" + saved[10:], SETUP, "has version 2"),
            (saved, SETUP.replace("memory 8", "memory 16"), "the image has memory 8, the script memory 16"),
            (saved, SETUP.replace("phase", "card 2 vga\nphase"), "the image has 0 cards, the script 1"),
        ]
        for data, text, part in rows:
            (self.folder / "image").write_bytes(data)
            run = self.explain(text, "--image", "image")
            self.assertEqual(run.returncode, 3, (part, run.stdout, run.stderr))
            self.assertIn(part, run.stdout)
        (self.folder / "image").write_bytes(saved)
        self.assertEqual(self.explain(SETUP, "--image", "image").returncode, 0)

    def test_files_in_place_of_a_log(self):
        script = SETUP + "0 in b 0021\n"
        good = "access log 1\n1 0.1 in b 0021 = 00 pic0 -\n"
        rows = [
            ("", "the log is empty: it has 0 bytes"),
            (script, "it is a script, and no log"),
            ("00000000 0009FFFF dram:0 dram:0 dram:0 dram:0 dram:0 dram:0\n", "it is a map"),
            (good.replace("\n", "\r\n"), "CRLF"),
            ("\xef\xbb\xbf" + good, "byte order mark"),
            ("".join(f"{it}\x00" for it in good), "UTF-16"),
            (good.replace("log 1", "log 2"), "the script is of version 1, and the log of another"),
        ]
        for log, part in rows:
            run = self.explain(script, self.file("it.log", log))
            self.assertEqual(run.returncode, 1, log)
            self.assertRegex(run.stdout, f"the cause: .*{part}", log)
        self.assertEqual(self.explain(script, self.file("it.log", good)).returncode, 0)

    def test_denials_by_nobody(self):
        """A device reached in a width that it has not, no disk, a function that is not there, and the ROM chip."""
        rows = [
            ("0 in w 0070", "the clock hears one byte at 70h, not two"),
            ("0 in d 0020", "the master 8259A hears one byte at 20h, not four"),
            ("0 in w 00A0", "the slave 8259A hears one byte at A0h, not two"),
            ("0 out d 0040 00000000", "the 8254 hears one byte at 40h, not four"),
            ("0 in w 0060",
             "port B of the system hears one byte at 61h|the keyboard controller's socket hears one byte at 60h"),
            ("0 in w 04D0", "edge and level control hears one byte at 4D0h, not two"),
            ("0 in w 0CF8", "the configuration address hears four bytes at CF8h, not two at CF8h"),
            ("0 in b 0CFA", "the configuration address hears four bytes at CF8h, not one byte at CFAh"),
            ("0 in b 01F0", "the disk's data hears two or four bytes at 1F0h, not one byte"),
            ("0 in w 01F2", "the disk hears one byte at 1F2h, not two"),
            ("0 in b 01F7", "no disk is fitted: the script has no line `disk NAME`"),
            ("0 in d 01F0", "no disk is fitted"),
            ("0 in b 0092", "nobody is there: the board has no port 92"),
            ("0 in b 0402", "no register keeps it out: nobody is there"),
            ("0 r d D0000000", "no register keeps it out: nobody is there"),
            (SELECT.format("80001800") + "0 in w 0CFC",
             "function 00:03.0 is not there: a line `card 3 vga` or `card 3 plain`"),
            (SELECT.format("80000B00") + "0 in w 0CFC", "function 00:01.3 is not there: the board has 00:00.0"),
            (SELECT.format("8000084C") + "0 out b 0CFE 07\n0 w b 000F0000 00", "the ROM chip itself cannot be written"),
        ]
        for lines, part in rows:
            run = self.explain(SETUP + lines + "\n")
            self.assertEqual(run.returncode, 0, lines)
            self.assertRegex(run.stdout, part, lines)
        run = self.explain(SETUP + "0 in w 0070\n", "--json")
        denied, total = map(json.loads, run.stdout.splitlines())
        self.assertEqual((denied["item"], denied["statement"], denied["cause"]),
                         ("denied", 1, "the clock hears one byte at 70h, not two"))
        self.assertEqual(total, {"item": "denials", "denied": 1, "parts": 1, "statements": 1})
        refused = json.loads(self.explain(SETUP + "0 ack 0\n", "--json").stdout)
        self.assertEqual((refused["item"], refused["line"], refused["reason"], refused["text"]), ("refused", 6, 3,
                                                                                                  "0 ack 0"))
        status = json.loads(self.explain(SETUP.replace("r64", "none"), "--json").stdout)
        self.assertEqual((status["item"], status["status"], status["said"]), ("status", 2, "read fault: rom"))


class DrawMap(Case):
    def test_help(self):
        rows: list[tuple[list[str], int]] = [(["--help"], 0), ([], 2), (["absent"], 1)]
        for words, status in rows:
            run = subprocess.run([sys.executable, ROOT / "docs/draw-map", *words], capture_output=True, text=True)
            self.assertEqual(run.returncode, status, run.stderr)
        script = self.file("it.script", SETUP)
        run = subprocess.run([sys.executable, ROOT / "docs/draw-map", script, PROGRAM], capture_output=True, text=True)
        self.assertTrue(run.stdout.startswith("<svg "), run.stderr)


class BusyDisk(Case):
    # Speaks QEMU's test protocol, writes what it was asked, and has a disk that is busy for two polls after a command.
    FAKE = """#!{}
import sys
busy = 0
for line in sys.stdin:
    print(line.strip(), file=open("asked", "a"))
    if line.startswith("outb 0x01F7"):
        busy = 2
    elif line.startswith("inb 0x3f6"):
        busy -= 1
    answer = 0x80 if line.startswith("inb 0x3f6") and busy >= 0 else 0x1258
    print("OK" + (" 0x%x" % answer if line.startswith("in") else ""), flush=True)
"""

    def test_a_busy_disk_is_waited_for(self):
        fake = self.file("fake", self.FAKE.format(sys.executable))
        fake.chmod(0o755)
        (self.folder / "d").write_bytes(bytes(512))
        lines = ["0 out b 01F7 EC", "0 in w 01F0", "0 in b 01F7", "0 out b 03F6 04", "0 in b 01F7", "0 in b 0021"]
        script = self.file("it.script", SETUP.replace("phase", "disk d\nphase") + "\n".join(lines) + "\n")
        run = self.run_tool("ask-qemu", script, "trace", "--qemu", fake)
        self.assertEqual((run.returncode, run.stdout), (0, "6 statements\n"), run.stderr)
        asked = ["outb 0x01F7 0xEC", *["inb 0x3f6"] * 3, "inw 0x01F0", "inb 0x01F7", "outb 0x03F6 0x04", "inb 0x01F7",
                 "inb 0x0021"]
        self.assertEqual((self.folder / "asked").read_text().splitlines(), asked)
        self.assertIn("0 in w 01F0 = 1258\n", (self.folder / "trace").read_text())


class Cards(Case):
    def test_what_reaches_a_card_is_left_out(self):
        """The statements that ask-qemu leaves out: the card's registers, its base, also shut, and its window."""
        lines = ["0 out d 0CF8 80001010", "0 out d 0CFC E0000000", "0 r b E0000000", "0 out d 0CF8 80001004",
                 "0 out b 0CFC 03", "0 r b E0000000", "0 in b 0021", "0 r b 000A0000"]
        script = self.file("it.script", SETUP.replace("phase", "card 2 vga m20\nphase") + "\n".join(lines) + "\n")
        words = argparse.Namespace(script=script, images=None, program=PROGRAM)
        found = ask_qemu.card_statements(words, ["2"])
        self.assertEqual(found, {2: "2", 3: "2", 5: "2", 6: "2", 8: "2"})
