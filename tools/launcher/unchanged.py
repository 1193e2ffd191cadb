"""The small program by which ./board sees that nothing of what its program was made of has changed: unchanged.asm, with
its list."""
import os
import struct

# What nasm makes of unchanged.asm, so that nobody needs nasm to use it; tests/board-script compares them.
CODE = bytes.fromhex("""
7F454C4602010100000000000000000002003E00010000007800400000000000400000000000000000000000000000000000000040003800
0100000000000000010000000500000000000000000000000000400000000000000040000000000000000000000000000000000000000000
001000000000000048833C2403757A4C8B642410488B7C24184881EC9000000031DBE870000000751048817C2430000010007605BB0A0000
004C89E7B8500000000F0585C0754249BC1601400000000000498D7C2408803F007433E8370000007527486944246800CA9A3B4803442470
493B04247513498D7C240831C0B9FFFFFFFFF2AE4989FCEBC8BB0100000089DFB83C0000000F05488D742408B8040000000F0585C0C3
""")
SIZES_AT = 96  # where the system's loader looks for the bytes of the file, twice
END = bytes(9)  # a time and no name


def unchanged(times: dict[str, int]) -> bytes:
    """The program for these files and folders, each with the time of its last change in nanoseconds."""
    rows = [struct.pack("<q", time) + os.fsencode(name) + b"\0" for name, time in times.items()]
    whole = bytearray(b"".join([CODE, *rows, END]))
    struct.pack_into("<QQ", whole, SIZES_AT, len(whole), len(whole))
    return bytes(whole)
