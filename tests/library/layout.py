"""Compares include/board.h with the Rattle side: prints a C program that compiles exactly where each record has the size,
and each field the offset and the size, that `repr(C)` gives it in the crates, and each number of board.h is theirs.

    layout.py ROOT >layout.c     ROOT is the repository
"""
import pathlib
import re
import sys

SIZES = {"u8": 1, "bool": 1, "u16": 2, "u32": 4, "u64": 8, "usize": 8, "*mut u8": 8, "Global": 0}
# what a record is called in board.h
STRUCTS = {"Handle": "board", "EventRecord": "board_event", "PartRecord": "board_part", "ReplyRecord": "board_reply",
           "AreaRecord": "board_area", "RangeRecord": "board_range", "WindowRecord": "board_window", "MapRecord": "board_map",
           "BaseRecord": "board_base", "CardRecord": "board_card", "SerialRecord": "board_com1",
           "TransferRecord": "board_transfer", "PieceRecord": "board_piece"}
# fields that have another name there
FIELDS = {("Handle", "full"): "open", ("RangeRecord", "areas"): "area",
          **{(record, f"part{k}"): f"part[{k}]" for record in ("ReplyRecord", "PieceRecord") for k in range(4)}}
# numbers that have a name of their own there
NUMBERS = {"DEVICE_TARGET": "BOARD_IS_DEVICE",
           "RESET_DEVICE": "BOARD_RESET_CONTROL", "OUTSIDE_BASE": "BOARD_OUTSIDE",
           "ABORT_END": "BOARD_ABORTED", "SECTOR_END": "BOARD_MISSING"}
STIMULI = {"Pulses": "BOARD_PULSE", "Wire": "BOARD_WIRE", "Line": "BOARD_IRQ", "BadSector": "BOARD_BAD_SECTOR"}
# statuses of events that no record says, which have no name there
NOT_GIVEN = {"BYTES", "ALIGNED", "DATE"}


def structs(text):
    """The records of a source: name, and the name and type of each field."""
    for name, body in re.findall(r"#\[repr\(C\)\]\n(?:#\[[^\n]*\]\n)*pub struct (\w+) \{\n(.*?)\n\}", text, re.S):
        yield name, [re.findall(r"^\s*(?:pub(?:\(crate\))? )?(\w+): (.*),$", line)[0] for line in body.split("\n")
                     if line.strip() and not line.strip().startswith(("//", "ghost"))]


class Layout:
    """Sizes and alignments by the rules of C."""

    def __init__(self, records):
        self.records = records

    def of(self, type_name):
        array = re.fullmatch(r"\[(.+); (\d+)\]", type_name)
        if array:
            size, align = self.of(array[1])
            return size * int(array[2]), align
        if type_name in self.records:
            size, align, _ = self.of_record(type_name)
            return size, align
        return SIZES[type_name], max(1, SIZES[type_name])

    def of_record(self, name):
        at, widest, fields = 0, 1, []
        for field, type_name in self.records[name]:
            size, align = self.of(type_name)
            at = -(-at // align) * align
            fields.append((field, at, size))
            at, widest = at + size, max(widest, align)
        return -(-at // widest) * widest, widest, fields


def in_c(constant, is_status):
    """The name in board.h of a number of the Rattle side."""
    if constant in NUMBERS:
        return NUMBERS[constant]
    if is_status:
        return "BOARD_" + constant
    if constant.endswith("_DENIAL"):
        return "BOARD_BY_" + constant.removesuffix("_DENIAL")
    return "BOARD_" + re.sub(r"_(EVENT|KIND|TARGET|DEVICE|PIECE|END)$", "", constant)


def main():
    root = pathlib.Path(sys.argv[1])
    crates = root / "crates"
    sources = [crates / "board_c/src/handle.rt"]
    for crate in ("machine_records", "transfer_records"):
        sources += sorted((crates / crate / "src").glob("*.rt"))
    texts = [source.read_text() for source in sources]
    records = {name: fields for text in texts for name, fields in structs(text)}
    if set(records) != set(STRUCTS):
        sys.exit(f"layout: other records than those of board.h: {sorted(set(records) ^ set(STRUCTS))}")
    layout = Layout(records)
    print('#include "board.h"')
    for name, struct in STRUCTS.items():
        size, _, fields = layout.of_record(name)
        print(f'_Static_assert(sizeof({struct}) == {size}, "{struct}");')
        for field, at, size in fields:
            if size:
                c = FIELDS.get((name, field), field)
                print(f'_Static_assert(offsetof({struct}, {c}) == {at} && sizeof((({struct} *)0)->{c}) == {size}, "{struct}.{c}");')
    count = 0
    for source in ("machine_records/src/numbers.rt", "machine_records/src/status.rt", "transfer_records/src/piece.rt"):
        is_status = source.endswith("status.rt")
        for constant, value in re.findall(r"^pub const (\w+): u\d+ = (\d+);", (crates / source).read_text(), re.M):
            if is_status and constant in NOT_GIVEN:
                continue
            c = in_c(constant, is_status)
            print(f'_Static_assert({c} == {value}, "{constant}");')
            count += 1
    for stimulus, value in re.findall(r"Stimulus::(\w+) => (\d+),", (crates / "board_spec/src/stimulus.rt").read_text()):
        print(f'_Static_assert({STIMULI[stimulus]} == {value}, "{stimulus}");')
        count += 1
    if count < 74:
        sys.exit(f"layout: only {count} numbers were found")
    print("int main(void) { return 0; }")


main()
