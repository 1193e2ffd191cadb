"""The disk's file, and what the devices of examples/monitor give boot sectors, for tests/monitor."""
import pathlib
import subprocess

from running_guest import END, RUST_KVM, SECTOR, STARVED, Failed, Guest, make

DISK_SECTOR = 512
WRITTEN = {2: 0xC1, 3: 0xC2, 5: 0x51}  # by flush.asm: sectors, and the first byte of each


def flushed_sector(first: int) -> bytes:
    """A sector as flush.asm writes it: words of which both bytes are the first one, and each is one more."""
    return b"".join((first * 0x101 + k).to_bytes(2, "little") for k in range(256))


def killed_amid(guest: Guest, before: bytes, kept: pathlib.Path) -> None:
    """Kills the monitor of flush.asm: the disk's file has what the guest flushed, and is else as before."""
    try:
        guest.wait("flush: written", SECTOR)
    finally:
        guest.kill()
    wanted = bytearray(before)
    for sector, first in WRITTEN.items():
        wanted[sector * DISK_SECTOR : (sector + 1) * DISK_SECTOR] = flushed_sector(first)
    if kept.read_bytes() != bytes(wanted):
        raise Failed(f"{guest.name}: the disk's file is not what the guest flushed")


def killed(out: pathlib.Path, processor: str) -> None:
    """What a guest flushed is in the disk's file when the monitor is killed, and nothing else has changed there."""
    before, kept = (out / "flush.img").read_bytes(), out / f"killed-{processor}.img"
    kept.unlink(missing_ok=True)
    words = ["--disk", out / "flush.img", "--keep-disk", kept, "--seconds", STARVED * SECTOR]
    killed_amid(Guest(out, f"killed-{processor}", processor, *words), before, kept)
    print(f"passed: on {processor} what a guest flushed is in the disk's file of a monitor that was killed")


def own_disk_killed(out: pathlib.Path, name: str, processor: str, program: str) -> None:
    """The same of a monitor that has its disk's file as its second word."""
    before, disk = (out / "flush.img").read_bytes(), out / f"{name}.img"
    disk.write_bytes(before)
    words = ["/usr/share/seabios/bios.bin", disk, "8"]
    killed_amid(Guest(out, name, processor, *words, program=program), before, disk)


def one_killed(out: pathlib.Path, processor: str) -> None:
    """The same of the monitor of one file."""
    own_disk_killed(out, f"one-killed-{processor}", processor, f"{processor}-one")
    print(f"passed: what a guest flushed is in the disk's file of examples/{processor}.c that was killed")


def rust_killed(out: pathlib.Path) -> None:
    """The same of Rust's example for KVM."""
    own_disk_killed(out, "rust-killed", "kvm", RUST_KVM)
    print("passed: what a guest flushed is in the disk's file of Rust's example for KVM that was killed")


def dma_sum(sector: bytes) -> int:
    """The sum that dma.asm says of a sector."""
    total = 0
    for byte in sector:
        total = (total * 3 + byte) % 65536
    return total


def dma(out: pathlib.Path, processor: str) -> None:
    """A sector is read by DMA into two regions and written to another; one past the disk's end fails."""
    kept, disk = out / f"dma-{processor}.img", (out / "dma.img").read_bytes()
    words = ["--disk", out / "dma.img", "--keep-disk", kept, "--bus-master", "--seconds", STARVED * SECTOR]
    guest = Guest(out, f"dma-{processor}", processor, *words)
    second = disk[2 * DISK_SECTOR : 3 * DISK_SECTOR]
    try:  # interrupt, and of the drive DRDY and DSC; at last also the error of both
        guest.wait(f"dma: 0450 0450 0651 {dma_sum(second):04X} 0407", SECTOR)
    finally:
        guest.end()
    if kept.read_bytes() != disk[: 4 * DISK_SECTOR] + second + disk[5 * DISK_SECTOR :]:
        raise Failed(f"dma-{processor}: the disk's file is not what the bus master wrote")
    print(f"passed: on {processor} the bus master reads a sector into two regions, and writes it to another")


def power(out: pathlib.Path, processor: str) -> None:
    """The tables of ACPI are found, the power button interrupts, and the guest takes the power away."""
    words = ["--disk", out / "acpi.img", "--fw-cfg", "--acpi", "--power", "--seconds", STARVED * SECTOR]
    guest = Guest(out, f"power-{processor}", processor, *words)
    try:  # sums of RSDP, RSDT, FADT and DSDT; the line, the control register, and the type of S5
        guest.wait("acpi: 00 00 00 00 09060405 waits", SECTOR)
        guest.key("p")
        guest.wait("acpi: the button", SECTOR)
        guest.process.wait(STARVED * END)
    finally:
        figures = guest.end()
    if "the guest has taken the power away" not in figures or guest.process.returncode:
        raise Failed(f"power-{processor}: it did not end: {figures[-300:]!r}")
    print(f"passed: on {processor} ACPI's tables, its power button, and the guest takes the power away")


def modern(out: pathlib.Path, processor: str) -> None:
    """A virtio card's capabilities lead to the registers of virtio 1.0, by which a sector is read."""
    sectors = 0x12345
    with open(out / "modern-file.img", "wb") as file:
        file.truncate(sectors * DISK_SECTOR)
        file.seek(3 * DISK_SECTOR)
        file.write(bytes([0x5A]) + bytes(DISK_SECTOR - 2) + bytes([0xA5]))
    words = ["--disk", out / "modern.img", "--virtio", out / "modern-file.img", "--virtio-modern"]
    guest = Guest(out, f"modern-{processor}", processor, *words, "--seconds", STARVED * SECTOR)
    try:  # types; VERSION_1; the status that was written; a queue of 128; one used, its status and the sector; the ISR
        guest.wait("modern: 12345 00000001 0B 80 01005AA5 0100 00012345 01", SECTOR)
    finally:
        guest.end()
    print(f"passed: on {processor} a virtio card's capabilities, and a sector by the transport of virtio 1.0")


def left_out(out: pathlib.Path, library: pathlib.Path, processor: str) -> None:
    """A monitor without the files of its devices is built, boots, and refuses their words."""
    small = out / "without"
    small.mkdir(exist_ok=True)
    if not make(small, library, f"monitor-{processor}", WITHOUT="bus_master power acpi virtio_modern"):
        raise Failed("left out: a monitor without devices could not be built")
    program = small / f"monitor-{processor}"
    for word in ("--bus-master", "--power", "--acpi", "--virtio-modern"):
        done = subprocess.run([program, word], stdin=subprocess.DEVNULL, capture_output=True, text=True)
        if done.returncode != 2 or not done.stderr.startswith(f"monitor: {word}\n"):
            raise Failed(f"left out: {word} gives {done.returncode}, {done.stderr[:100]!r}")
    words = ["--disk", out / "flush.img", "--seconds", STARVED * SECTOR]
    guest = Guest(small, f"left-out-{processor}", processor, *words)
    try:
        guest.wait("flush: written", SECTOR)
    finally:
        guest.end()
    print(f"passed: on {processor} a monitor without the files of its devices boots, and refuses their words")


DEVICES = (killed, one_killed, dma, power, modern)
DEVICE_SECTORS = ("flush", "dma", "acpi", "modern")
