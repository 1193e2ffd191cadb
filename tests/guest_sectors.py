"""SeaBIOS and boot sectors on the monitors of examples/, for tests/monitor."""
import os
import pathlib
import re
import shutil
import signal
import struct
import subprocess
from typing import Any

from running_guest import END, HERE, RUST_KVM, SECTOR, STARVED, Failed, Guest, indented

BOARD = os.environ.get("BOARD", str(HERE.parent / "board"))
HEAD = 64  # bytes before the parts of a saved guest, of which the last eight are their sum
STRING_SECTORS = 60  # that string.asm reads
STRADDLE_SAVES = 60
ONE_ENDS = b"\x1d"  # Ctrl-], which ends a monitor of one file
BOCHS_BIOSES = [pathlib.Path("/usr/share/bochs") / name for name in ("BIOS-bochs-latest", "BIOS-bochs-legacy")]


def sector(out: pathlib.Path, processor: str) -> None:
    """SeaBIOS to the boot sector, whose script and log `board check` accepts."""
    front = out / f"sector-{processor}"
    words = ["--disk", out / "sector.img", "--log", front, "--explain", "--timing", "--seconds", STARVED * SECTOR]
    guest = Guest(out, front.name, processor, *words)
    try:
        for text in ("SeaBIOS", "boot sector: running", "this is sector 1", "written and read back", "the timer ticks"):
            seconds = guest.wait(text, SECTOR)
        guest.process.wait(STARVED * END)
    finally:
        figures = guest.end()
    check = subprocess.run([BOARD, "check", f"{front.name}.script", f"{front.name}.log"], cwd=out, capture_output=True, text=True)
    if check.returncode:
        raise Failed(f"board check of {front.name}: {check.stderr.strip()}")
    print(f"passed: SeaBIOS and a boot sector on {processor} in {seconds:.1f} s; board check: {check.stdout.strip()}")
    print(indented("\n".join(line for line in figures.splitlines() if "[explain]" not in line)))


def clock(out: pathlib.Path, processor: str) -> None:
    """A date that the guest sets goes on over midnight, and is not the host's a second later."""
    guest = Guest(out, f"clock-{processor}", processor, "--disk", out / "clock.img", "--seconds", STARVED * SECTOR)
    try:
        guest.wait("after 9 July 2011 comes 20110710", SECTOR)
    finally:
        guest.end()
    print(f"passed: on {processor} the date that a guest sets goes on")


def keyboard(out: pathlib.Path, processor: str) -> None:
    """The tests of the keyboard controller pass, and FEh restarts the processor: the firmware, in a resume, resets the
    board by CF9h in protected mode, and boots the sector again."""
    guest = Guest(out, f"keyboard-{processor}", processor, "--disk", out / "keyboard.img", "--keyboard", "--seconds", STARVED * SECTOR)
    try:
        guest.wait("keyboard: 55 00 DF 02", SECTOR)
        guest.wait("In resume", SECTOR)
        guest.wait("SeaBIOS (version", SECTOR)
        guest.wait("keyboard: 55 00 DF 02", SECTOR)
    finally:
        guest.end()
    print(f"passed: on {processor} the keyboard controller's tests, a restart by it and the next boot")


def typed(out: pathlib.Path, processor: str) -> None:
    """What is typed are keys of the 8042's keyboard: SeaBIOS gives each by its character and its code of set 1."""
    words = ["--disk", out / "typed.img", "--keyboard", "--type-keys", "--quiet", "--seconds", STARVED * SECTOR]
    guest = Guest(out, f"typed-{processor}", processor, *words)
    try:
        guest.wait("typed: ", SECTOR)
        guest.press(b"aZ1~\r\x03")
        guest.wait("a1E Z2C 102 ~29 \r1C \x032E ", SECTOR)
    finally:
        guest.end()
    print(f"passed: on {processor} keys typed at the terminal come by the keyboard controller")


def reset(out: pathlib.Path, processor: str) -> None:
    """After a reset by CF9h nothing more of the instructions behind it is done, and the sector boots again."""
    guest = Guest(out, f"reset-{processor}", processor, "--disk", out / "reset.img", "--seconds", STARVED * SECTOR)
    try:
        guest.wait("reset: by CF9h", SECTOR)
        guest.wait("reset: by CF9h", SECTOR)
    finally:
        guest.end()
    if "by CF9h\r\n!" in guest.text:
        raise Failed(f"reset-{processor}: it went on behind the reset")
    print(f"passed: on {processor} a guest that resets by CF9h boots again")


def virtio_ring(out: pathlib.Path, processor: str) -> None:
    """A virtio card does nothing of 1,000 requests in a ring of 128, and after its reset one, and 128."""
    (out / "ring.img").write_bytes(bytes(2**20))
    words = ["--disk", out / "virtio.img", "--virtio", out / "ring.img", "--seconds", STARVED * SECTOR]
    guest = Guest(out, f"virtio-ring-{processor}", processor, *words)
    try:
        guest.wait("virtio: 0000 FF 0001 00 0080 00", SECTOR)
    finally:
        guest.end()
    print(f"passed: on {processor} a virtio card refuses a ring that is none, until it is reset")


def virtio_ends(out: pathlib.Path, processor: str) -> None:
    """A monitor that is asked to end amid 128 requests of a virtio card does none of the others (tests/second_read.c)."""
    shim = out / "second_read.so"
    subprocess.run([os.environ.get("CC", "cc"), "-shared", "-fPIC", HERE / "second_read.c", "-o", shim], check=True)
    (out / "ring.img").write_bytes(bytes(2**20))
    os.environ["LD_PRELOAD"] = str(shim)
    guest = Guest(out, f"virtio-ends-{processor}", processor, "--disk", out / "virtio.img", "--virtio", out / "ring.img")
    del os.environ["LD_PRELOAD"]
    try:
        guest.process.wait(STARVED * SECTOR)
    finally:
        guest.end()
    if "preads: 2" not in guest.figures.read_text(errors="replace").splitlines():
        raise Failed(f"virtio-ends-{processor}: {guest.figures.read_text(errors='replace')[-100:]!r}")
    print(f"passed: on {processor} a monitor ends amid the requests of a virtio card")


def strings(out: pathlib.Path, processor: str) -> None:
    """Strings of 32 bits at the disk's data port go to the board in one call: 60 sectors by fewer calls than words."""
    guest = Guest(out, f"string-{processor}", processor, "--disk", out / "string.img", "--seconds", STARVED * SECTOR)
    try:
        guest.wait(f"string: {sum_of_string():04X}", SECTOR)
        steps, calls = guest.steps()
    finally:
        guest.end()
    if processor != "unicorn" and steps - calls < STRING_SECTORS * 100:  # Unicorn tells each value by itself
        raise Failed(f"string-{processor}: {steps} steps in {calls} calls")
    print(f"passed: on {processor} 60 sectors by strings of 32 bits, {steps} steps in {calls} calls")


def sum_of_string() -> int:
    """What string.asm says: the sum of the bytes of its sectors 1 to 60, each the one before times 5 and 17."""
    total = byte = 0
    for _ in range(STRING_SECTORS * 512):
        total, byte = total + byte, (byte * 5 + 17) % 256
    return total % 65536


def in_one_file(out: pathlib.Path, processor: str) -> None:
    """The monitor of one file boots a sector of a disk's file, which it writes, takes keys, is saved and goes on."""
    disk, file = out / f"hello-{processor}.img", out / f"one-saved-{processor}"
    disk.write_bytes((out / "hello.img").read_bytes())
    words = ["/usr/share/seabios/bios.bin", disk, "8", file]
    byte = disk.read_bytes()[512]
    guest = Guest(out, f"one-{processor}", f"{processor}-one", *words, program=f"{processor}-one")
    try:
        seconds = guest.wait(f"hello: the disk's byte is {byte + 1:02X}\r\n01 ", SECTOR)
        guest.press(b"x")
        guest.wait("xx", SECTOR)
        guest.process.send_signal(signal.SIGUSR1)
        guest.wait("06 ", SECTOR)
        guest.press(ONE_ENDS)
        guest.process.wait(STARVED * END)
    finally:
        guest.end()
    if disk.read_bytes()[512] != byte + 1:
        raise Failed(f"one-{processor}: the disk's file is as it was")
    guest = Guest(out, f"one-loaded-{processor}", f"{processor}-one", *words, file, program=f"{processor}-one")
    try:
        guest.wait("08 ", SECTOR)
        guest.press(b"yz")
        guest.wait("yy", SECTOR)
        guest.wait("zz", SECTOR)
    finally:
        guest.end()
    if "hello" in guest.text or not re.match("x?x?0[2-6] ", guest.text):
        raise Failed(f"one-loaded-{processor}: it did not go on from where it was saved: {guest.text[:200]!r}")
    whole, wrong, head = file.read_bytes(), out / f"one-wrong-{processor}", 8 << 20
    image = len(whole) - struct.unpack_from("<Q", whole, head + 8)[0]  # behind the memory: MiB, bytes of the board
    without_mib, without_board = bytes(8) + whole[head + 8 :], bytes(len(whole) - image)
    for place, rest in ((0, b""), (len(whole) - 1, b""), (head, without_mib), (image, without_board)):
        wrong.write_bytes(whole[:place] + rest)
        program = [str(word) for word in (out / f"{processor}-one", *words, wrong)]
        done = subprocess.run(program, stdin=subprocess.DEVNULL, capture_output=True, text=True, timeout=STARVED * END)
        if done.returncode != 1 or not done.stderr:
            raise Failed(f"one-{processor}: a wrong file gives {done.returncode}, {done.stderr!r}")
    print(f"passed: examples/{processor}.c boots a sector in {seconds:.1f} s, writes its disk, is saved and goes on")


def in_kernel(out: pathlib.Path) -> None:
    """The monitor over KVM's own pair of 8259A boots a sector, which ticks and takes keys by the lines that rose."""
    disk = out / "hello-irqchip.img"
    disk.write_bytes((out / "hello.img").read_bytes())
    byte = disk.read_bytes()[512]
    words = ["/usr/share/seabios/bios.bin", disk, "8"]
    guest = Guest(out, "irqchip", "kvm-irqchip", *words, program="kvm-irqchip-one")
    try:
        seconds = guest.wait(f"hello: the disk's byte is {byte + 1:02X}\r\n01 ", SECTOR)
        guest.press(b"x")
        guest.wait("xx", SECTOR)
        guest.wait("06 ", SECTOR)
        guest.press(ONE_ENDS)
        guest.process.wait(STARVED * END)
    finally:
        guest.end()
    if disk.read_bytes()[512] != byte + 1:
        raise Failed("irqchip: the disk's file is as it was")
    print(f"passed: examples/kvm-irqchip.c boots a sector in {seconds:.1f} s, ticks, and writes its disk")


def rust(out: pathlib.Path, library: pathlib.Path) -> None:
    """Rust's example for KVM boots a sector of a disk's file, which it writes, and takes keys."""
    target, folder, disk = out / "rust", HERE.parent / "bindings/rust", out / "hello-rust.img"
    settings = {**os.environ, "CARGO_TARGET_DIR": str(target), "BOARD_DIR": str(library)}
    words = ["cargo", "build", "-q", "--locked", "--offline", "--example", "kvm"]
    if shutil.which("cargo"):
        subprocess.run(words, cwd=folder, env=settings, check=True)
    disk.write_bytes((out / "hello.img").read_bytes())
    byte = disk.read_bytes()[512]
    guest = Guest(out, "rust", "kvm", "/usr/share/seabios/bios.bin", disk, "8", program=RUST_KVM)
    try:
        seconds = guest.wait(f"hello: the disk's byte is {byte + 1:02X}\r\n01 ", SECTOR)
        guest.press(b"x")
        guest.wait("xx", SECTOR)
        guest.wait("06 ", SECTOR)
        guest.press(ONE_ENDS)
        guest.process.wait(STARVED * END)
    finally:
        guest.end()
    if disk.read_bytes()[512] != byte + 1:
        raise Failed("rust: the disk's file is as it was")
    print(f"passed: Rust's example for KVM boots a sector in {seconds:.1f} s, and writes its disk")


def straddle(out: pathlib.Path, processor: str) -> None:
    """Saved again and again, a guest of instructions with two exits each loses none of their writes."""
    file = out / f"straddle-{processor}"
    words = ["--disk", out / "straddle.img", "--save", file, "--seconds", STARVED * SECTOR]
    guest = Guest(out, file.name, processor, *words)
    try:
        guest.wait("straddle: ", SECTOR)
        for saves in range(1, STRADDLE_SAVES + 1):
            guest.process.send_signal(signal.SIGUSR1)
            guest.figure("saved in", SECTOR, times=saves)  # two signals at once would be one save
            guest.wait("." * 3, SECTOR)
    finally:
        guest.end()
    lost = guest.text.rpartition("straddle: ")[2].count("!")
    if lost:
        raise Failed(f"straddle-{processor}: {lost} writes lost in {STRADDLE_SAVES} saves")
    print(f"passed: on {processor} no write lost in {STRADDLE_SAVES} saves amid instructions with two exits")


def fw_cfg(out: pathlib.Path, processor: str) -> None:
    """SeaBIOS finds 24 MiB and the disk by fw_cfg, with nothing in the clock; with --text it speaks on COM1."""
    words = ["--disk", out / "fw_cfg.img", "--memory", "24", "--fw-cfg", "--seconds", STARVED * SECTOR]
    guest = Guest(out, f"fw_cfg-{processor}", processor, *words)
    try:
        guest.wait("qemu/e820: addr 0x0000000000000000 len 0x0000000001800000 [RAM]", SECTOR)
        guest.wait("1: /pci@i0cf8/ide@1,1/drive@0/disk@0", SECTOR)
        guest.wait("fw_cfg: QEMU, memory 000080010000000000, clock 0000, SeaBIOS 3C00", SECTOR)
    finally:
        guest.end()
    guest = Guest(out, f"fw_cfg-text-{processor}", processor, *words, "--text", "--quiet")
    try:
        guest.wait("Booting from Hard Disk", SECTOR)
    finally:
        guest.end()
    print(f"passed: on {processor} SeaBIOS finds memory and disk by fw_cfg, and speaks on COM1")


def counts_in(text: str) -> list[int]:
    """The numbers that the counting boot sector has said in whole lines."""
    return [int(number, 16) for number in re.findall(r"count: ([0-9A-F]{2})\r\n", text)]


def saved(out: pathlib.Path, processor: str) -> None:
    """A boot sector that counts is saved, goes on, and goes on in a fresh process from where it was saved."""
    file = out / f"saved-{processor}"
    guest = Guest(out, f"saving-{processor}", processor, "--disk", out / "count.img", "--save", file, "--seconds", STARVED * SECTOR)
    try:
        guest.wait("count: 04", SECTOR)
        size = guest.save(file)
        guest.wait("count: 09", SECTOR)
    finally:
        guest.end()
    first = len(counts_in(guest.text))
    guest = Guest(out, f"loaded-{processor}", processor, "--load", file, "--seconds", STARVED * SECTOR)
    try:
        guest.wait("count: 0C", SECTOR)
    finally:
        guest.end()
    counts = counts_in(guest.text)
    if "SeaBIOS" in guest.text or counts != list(range(counts[0], counts[0] + len(counts))) or not 5 <= counts[0] <= first:
        raise Failed(f"loaded-{processor}: it did not go on from where it was saved: {guest.text[:200]!r}")
    refused_files(out, processor, file)
    print(f"passed: on {processor} a boot sector saved at 4 in {size} bytes goes on from {counts[0]} in a fresh process; files that are damaged are refused")


def with_machine(whole: bytes, place: int, number: int) -> bytes:
    """A saved guest with another number in its machine's part, which begins with now, time, pulses and second."""
    data = bytearray(whole)
    data[HEAD + place : HEAD + place + 8] = struct.pack("<Q", number)
    total = 0xCBF29CE484222325  # FNV-1a
    for byte in data[HEAD:]:
        total = (total ^ byte) * 0x100000001B3 % 2**64
    data[HEAD - 8 : HEAD] = struct.pack("<Q", total)
    return bytes(data)


def refused_files(out: pathlib.Path, processor: str, file: pathlib.Path) -> None:
    """Files that are none, are cut short, damaged, of another version or processor, and another ROM are refused."""
    whole = file.read_bytes()
    wrong = out / f"wrong-{processor}"
    tried: list[tuple[bytes, list[Any], str]] = [
        (whole[:0], [], "no saved guest"),
        (whole[:40], [], "no saved guest"),
        (b"N" + whole[1:], [], "no saved guest"),
        (whole[:8] + b"\377" + whole[9:], [], "another version"),
        (whole[:12] + b"\11" + whole[13:], [], "another processor"),
        (whole[:-1], [], "cut short or damaged"),
        (whole + b"0", [], "cut short or damaged"),
        (whole[:16] + b"\xff" * 8 + whole[24:], [], "cut short or damaged"),
        (whole[: len(whole) // 2] + bytes([whole[len(whole) // 2] ^ 1]) + whole[len(whole) // 2 + 1 :], [], "cut short or damaged"),
        (with_machine(whole, 0, 2**63), [], "damaged"),
        (with_machine(whole, 8, 0), [], "damaged"),
        (with_machine(whole, 16, 2**50), [], "damaged"),
        (with_machine(whole, 24, 2**40), [], "damaged"),
        (whole, ["--rom", "/usr/share/seabios/bios-256k.bin"], "another ROM"),
        (whole, ["--virtio", out / "count.img"], "without a virtio card"),
    ]
    for data, words, why in tried:
        wrong.write_bytes(data)
        program = [str(out / f"monitor-{processor}"), "--load", str(wrong), *map(str, words)]
        done = subprocess.run(program, stdin=subprocess.DEVNULL, capture_output=True, text=True, timeout=STARVED * END)
        if done.returncode != 1 or why not in done.stderr:
            raise Failed(f"{processor}: {why!r} was wanted of a wrong file, not {done.returncode}, {done.stderr!r}")


def bochs_bios(out: pathlib.Path, processor: str) -> None:
    """Both BIOSes of Bochs boot the sector, with what they take for given."""
    for rom in BOCHS_BIOSES:
        words = ["--rom", rom, "--disk", out / "sector.img", "--keyboard", "--bochs-bios", "--seconds", STARVED * SECTOR]
        guest = Guest(out, f"{rom.name}-{processor}", processor, *words)
        try:
            guest.wait("Booting from 0000:7c00", SECTOR)
            guest.wait("the timer ticks", SECTOR)
        finally:
            guest.end()
        print(f"passed: on {processor} {rom.name} boots the sector")
