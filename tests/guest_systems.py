"""GRUB, memtest86+, Linux and the ROMs of cards on the monitors of examples/, for tests/monitor."""
import hashlib
import os
import pathlib
import re
import subprocess
import sys
import time

from guest_sectors import ONE_ENDS, refused_files
from running_guest import END, MONITOR, SECTOR, SHELL, STARVED, Failed, Guest, indented

LINUX = 1800  # seconds of each part of Linux's boot, of a processor that an emulated KVM has
DEVICE_FLAGS = ("--bus-master", "--fw-cfg", "--acpi", "--power", "--virtio-modern")
DEVICE_BYTES = 256 << 10  # that Linux writes on both
PARTITION = 2048 * 512  # where the guests' disk has it


def one_linux(out: pathlib.Path, processor: str) -> None:
    """The monitor of one file boots GRUB, and by it Linux to its shell, which writes the disk's file."""
    disk = out / f"linux-{processor}.img"
    disk.write_bytes((out / "disk.img").read_bytes())
    words = ["/usr/share/seabios/bios.bin", disk, "64"]
    guest = Guest(out, f"one-linux-{processor}", processor, *words, program=f"{processor}-one")
    try:
        prompt = guest.wait("grub> ", LINUX)
        guest.type("configfile /boot/linux.cfg")
        guest.wait("Linux version", LINUX)
        shell = guest.wait(SHELL, LINUX)
        guest.do("uname -m", "i686", LINUX)
        guest.do("echo by the monitor of one file > /disk/message; sync; umount /disk; echo do''ne", "done", LINUX)
        guest.press(ONE_ENDS)
        guest.process.wait(STARVED * END)
    finally:
        figures = guest.end()
    if b"by the monitor of one file" not in disk.read_bytes():
        raise Failed(f"one-linux-{processor}: the disk's file has no message: {figures}")
    print(f"passed: examples/{processor}.c: GRUB's prompt after {prompt:.1f} s, Linux's shell after {shell:.1f} s")


def one_grub(out: pathlib.Path, processor: str) -> None:
    """The monitor of one file boots GRUB to its prompt, which does a command."""
    disk = out / f"grub-{processor}.img"
    disk.write_bytes((out / "disk.img").read_bytes())
    words = ["/usr/share/seabios/bios.bin", disk, "64"]
    guest = Guest(out, f"one-grub-{processor}", processor, *words, program=f"{processor}-one")
    try:
        prompt = guest.wait("grub> ", SECTOR)
        guest.type("ls (hd0,msdos1)/boot/")
        guest.wait("vmlinuz", SECTOR)
        guest.wait("grub> ", SECTOR)
    finally:
        guest.end()
    print(f"passed: examples/{processor}.c: GRUB's prompt after {prompt:.1f} s, and a command")


def grub(out: pathlib.Path) -> None:
    """GRUB's prompt, with commands typed; a date that it sets goes on."""
    guest = Guest(out, "grub", "bochs", "--disk", out / "disk.img", "--timing")
    try:
        seconds = guest.wait("grub> ", 300)
        guest.type("ls (hd0,msdos1)/boot/")
        guest.wait("vmlinuz", 60)
        guest.wait("grub> ", 60)
        guest.type("cat (hd0,msdos1)/note")
        guest.wait("a file of the guests' disk", 60)
        guest.wait("grub> ", 60)
        guest.type("date 2011-07-09 12:00:00")
        guest.wait("grub> ", 60)
        guest.type("sleep 3")
        guest.wait("grub> ", 60)
        guest.type("date")
        guest.wait("Saturday", 60)
        if "2011-07-09 12:00:0" not in guest.text[-80:]:
            raise Failed(f"grub: another date than was set: {guest.text[-80:]!r}")
    finally:
        figures = guest.end()
    print(f"passed: GRUB on Bochs's processor, its prompt after {seconds:.1f} s")
    print(indented(figures))


def memtest(out: pathlib.Path) -> None:
    """A whole pass of memtest86+ over 8 MiB."""
    guest = Guest(out, "memtest", "bochs", "--disk", out / "disk.img", "--speed", "5", "--timing")
    try:
        guest.wait("grub> ", 300)
        guest.type("configfile /boot/memtest.cfg")
        guest.wait("Memtest86+", 120)
        seconds = guest.wait("Pass:  1        Errors: 0 ", 3600)
    finally:
        figures = guest.end()
    print(f"passed: a pass of memtest86+ over 8 MiB after {seconds:.1f} s")
    print(indented(figures))


def linux(out: pathlib.Path) -> None:
    """Linux to its shell; its disk written, read back, and read again after `reboot -f`."""
    kept = out / "kept.img"
    guest = Guest(out, "linux", "bochs", "--disk", out / "disk.img", "--memory", "64", "--keep-disk", kept, "--timing")
    try:
        guest.wait("grub> ", 300)
        guest.type("configfile /boot/linux.cfg")
        seconds = guest.wait(SHELL, 1200)
        guest.do("uname -m", "i686")
        guest.do("dd if=/dev/urandom of=/disk/random bs=4k count=64 && echo wr''itten", "written", 300)
        guest.do("cat /disk/random > /tmp.copy; sync; umount /disk && echo un''mounted", "unmounted", 300)
        guest.do("mount -t ext2 /dev/sda1 /disk && cmp /tmp.copy /disk/random && echo sa''me", "same", 300)
        guest.do("echo survived the reset > /disk/message; sync; umount /disk; echo do''ne", "done", 300)
        before = guest.memory()
        guest.do("dd if=/dev/sda of=/dev/null bs=64k count=64 && echo a million wo''rds", "a million words", 600)
        guest.do("sleep 600; echo ten minu''tes", "ten minutes", 1200)
        after = guest.memory()
        guest.type("reboot -f")
        guest.wait("SeaBIOS", 300)
        guest.wait("grub> ", 300)
        guest.type("configfile /boot/linux.cfg")
        guest.wait(SHELL, 1200)
        guest.do("cat /disk/message", "survived the reset", 300)
    finally:
        figures = guest.end()
    if b"survived the reset" not in kept.read_bytes():
        raise Failed("linux: the disk that was kept has no message")
    if after != before:
        raise Failed(f"linux: a million disk words and ten idle minutes took {after - before} KiB")
    print(f"passed: Linux on Bochs's processor, its shell after {seconds:.1f} s; a disk written and read; reboot -f and again")
    print(f"    a million disk words and ten minutes of an idle guest left the monitor at {after} KiB of data, as before")
    print(indented(figures))


def linux_saved(out: pathlib.Path) -> None:
    """Linux saved at its shell, with a command that sleeps, goes on in a fresh process, and restarts there."""
    file = out / "saved-linux"
    words = ["--disk", out / "disk.img", "--memory", "64", "--save", file]
    guest = Guest(out, "linux-saving", "bochs", *words)
    try:
        guest.wait("grub> ", 300)
        guest.type("configfile /boot/linux.cfg")
        guest.wait(SHELL, 1200)
        guest.do("kept=what; echo the shell kept it > /disk/kept; echo wr''itten", "written", 300)
        guest.do("sh -c 'sleep 20; echo wo''ke' & echo wa''its", "waits")
        size = guest.save(file)
        guest.wait("woke", 300)
    finally:
        guest.end()
    guest = Guest(out, "linux-loaded", "bochs", "--load", file, "--keep-disk", out / "kept-loaded.img")
    try:
        seconds = guest.wait("woke", 300)
        guest.do("echo it is $kept", "it is what")
        guest.do("cat /disk/kept", "the shell kept it")
        guest.do("uname -m; dd if=/dev/sda of=/dev/null bs=64k count=16 && echo re''ad", "read", 300)
        guest.do("echo and after > /disk/after; sync; umount /disk; echo do''ne", "done", 300)
        guest.type("reboot -f")
        guest.wait("SeaBIOS", 300)
        guest.wait("grub> ", 300)
    finally:
        guest.end()
    if "SeaBIOS" in guest.text[: guest.text.find("woke")]:
        raise Failed("linux-loaded: it began anew")
    for said in (b"the shell kept it", b"and after"):
        if said not in (out / "kept-loaded.img").read_bytes():
            raise Failed(f"linux-loaded: its disk has no {said!r}")
    refused_files(out, "bochs", file)
    print(f"passed: Linux saved at its shell in {size} bytes goes on in a fresh process after {seconds:.1f} s, and reboot -f")


def roms(out: pathlib.Path) -> None:
    """SeaBIOS runs SGABIOS and iPXE out of the expansion ROMs of two cards: the first is the screen of the second."""
    words = ["--disk", out / "sector.img", "--memory", "32", "--card", f"rom={out}/sgabios.rom"]
    guest = Guest(out, "roms", "bochs", *words, "--card", f"rom={out}/roms/pxe-e1000.rom", "--seconds", STARVED * SECTOR)
    try:
        guest.wait("Serial Graphics Adapter", SECTOR)
        guest.wait("iPXE (http", SECTOR)
        guest.wait("the timer ticks", SECTOR)
    finally:
        guest.end()
    print("passed: SeaBIOS runs SGABIOS and iPXE out of cards' expansion ROMs")


def rates(guest: Guest, words: str, answer: str, mib: int, what: str) -> None:
    """Does a command over so many MiB, and says what it cost."""
    before, used, clock = guest.steps(), guest.used(), time.monotonic()
    guest.do(words, answer, 3600)
    used, clock = guest.used() - used, time.monotonic() - clock
    steps, calls = (now - then for now, then in zip(guest.steps(), before))
    rate = f"{mib * 2**20 / used / 1e6:.2f} MB/s, {steps / mib:.0f} steps in {calls / mib:.0f} calls a MiB"
    print(f"    {what}: {mib} MiB in {used:.1f} s of a processor ({clock:.1f} s): {rate}")
    sys.stdout.flush()


def sum_in(guest: Guest, file: str, mib: int, what: str) -> str:
    """The sum of a file, as the guest reads it."""
    rates(guest, f"md5sum {file}; echo su''mmed", "summed", mib, what)
    return re.findall(r"([0-9a-f]{32})  " + re.escape(file), guest.text)[-1]


def to_shell(guest: Guest) -> None:
    guest.wait("grub> ", 300)
    guest.type("configfile /boot/linux.cfg")
    guest.wait("/dev/vda is the root", 1200)
    guest.wait(SHELL, 300)


def clean_sum(image: pathlib.Path, file: str) -> str:
    """Has e2fsck find a file system clean, and gives the sum of a file in it, both from outside."""
    tools = {"PATH": os.environ["PATH"] + ":/usr/sbin:/sbin"}
    done = subprocess.run(["e2fsck", "-fn", str(image)], capture_output=True, text=True, env=tools)
    if done.returncode:
        raise Failed(f"virtio: e2fsck: {done.stdout} {done.stderr}")
    words = ["debugfs", "-R", f"cat {file}", str(image)]
    total = hashlib.md5()
    with subprocess.Popen(words, stdout=subprocess.PIPE, stderr=subprocess.DEVNULL, env=tools) as data:
        while data.stdout and (part := data.stdout.read(1 << 20)):
            total.update(part)
    return total.hexdigest()


def virtio(out: pathlib.Path, mib: int) -> None:
    """Linux with its root on a virtio card: a file written, its sum read again, fsck from outside, and again after a restart."""
    root = out / "virtio.img"
    subprocess.run(["cp", "--sparse=always", out / "root.img", root], check=True)
    guest = Guest(out, "virtio", "bochs", "--disk", out / "disk.img", "--memory", "64", "--virtio", root)
    piece = min(mib, 16)
    try:
        to_shell(guest)
        rates(guest, "dd if=/dev/sda of=/dev/null bs=64k count=256 && echo re''ad", "read", 16, "ATA by PIO, read")
        rates(guest, f"dd if=/dev/urandom of=/piece bs=1M count={piece} && sync && echo ma''de", "made", piece, "virtio, random bytes written")
        rates(guest, "echo 3 > /proc/sys/vm/drop_caches; dd if=/piece of=/dev/null bs=64k && echo re''ad", "read", piece, "virtio, read")
        pieces = f"k=0; while [ $k -lt {mib // piece} ]; do echo $k; cat /piece; k=$((k+1)); done > /file; sync; echo wr''itten"
        rates(guest, pieces, "written", mib, "virtio, copied into one file")
        first = sum_in(guest, "/file", mib, "virtio, read and summed")
        guest.do("mount -o remount,ro / && echo qu''iet", "quiet", 300)
        outside = clean_sum(root, "/file")
        guest.type("reboot -f")
        guest.wait("SeaBIOS", 300)
        to_shell(guest)
        again = sum_in(guest, "/file", mib, "after the restart, read and summed")
        guest.do("mount -o remount,ro / && echo qu''iet", "quiet", 300)
    finally:
        figures = guest.end()
    if not first == outside == again == clean_sum(root, "/file"):
        raise Failed(f"virtio: the sums differ: {first}, {outside}, {again}")
    print(f"passed: Linux with its root on a virtio card: {mib} MiB written and read, sum {first}, e2fsck clean, restarted, the same sum")
    print(indented("\n".join(figures.splitlines()[-3:])))


def said_of_devices(text: str) -> None:
    """What Linux says of the disk's bus master, and of the virtio card's features: bit 32 is VERSION_1."""
    if not re.search(r"ata1: PATA max MWDMA2 cmd 0x1f0 ctl 0x3f6 bmdma 0x[0-9a-f]+ irq 14", text):
        raise Failed("linux-devices: it says of no bus master")
    if "XFER_MW_DMA_2" not in text or "falling back to PIO" in text:
        raise Failed("linux-devices: its disk has no DMA")
    if "ACPI: button: Power Button [PWRF]" not in text or "ACPI Error" in text:
        raise Failed("linux-devices: it says of no power button")
    features = re.findall(r"\b[01]{64}\b", text)
    if not features or features[-1][32] != "1":
        raise Failed(f"linux-devices: the virtio card has features {features}, without VERSION_1")


def linux_devices(out: pathlib.Path, processor: str) -> None:
    """Linux drives the monitor's devices: the disk's bus master and a card of virtio 1.0, on which it writes the same
    bytes; it hears the power button, and takes the power away."""
    kept, card = out / "devices-disk.img", out / "devices-card.img"
    card.write_bytes(bytes(DEVICE_BYTES))
    words = ["--disk", out / "disk.img", "--keep-disk", kept, "--memory", "64", "--virtio", card, *DEVICE_FLAGS]
    guest = Guest(out, f"linux-devices-{processor}", processor, *words)
    try:
        guest.wait("grub> ", LINUX)
        guest.type("configfile /boot/linux.cfg")
        seconds = guest.wait(SHELL, LINUX)
        guest.do("cat /sys/class/ata_device/dev1.0/xfer_mode /sys/bus/virtio/devices/virtio0/features; echo fea''tures", "features", LINUX)
        said_of_devices(guest.text)
        guest.do(f"dd if=/dev/urandom of=/bytes bs=4k count={DEVICE_BYTES // 4096} && echo ma''de", "made", LINUX)
        guest.do("cat /bytes > /disk/bytes; cat /bytes > /dev/vda; sync; umount /disk && echo un''mounted", "unmounted", LINUX)
        guest.do("mount -t ext2 /dev/sda1 /disk && cmp /bytes /disk/bytes && cmp /bytes /dev/vda && echo sa''me", "same", LINUX)
        guest.do("umount /disk; exec 3</dev/input/event0; echo op''ened", "opened", LINUX)
        guest.type("dd bs=24 count=1 <&3 >/dev/null && echo pre''ssed && poweroff -f")
        guest.key("p")
        guest.wait("pressed", LINUX)
        guest.process.wait(STARVED * END)
    finally:
        figures = guest.end()
    if "the guest has taken the power away" not in figures:
        raise Failed(f"linux-devices: it did not take the power away: {figures[-300:]!r}")
    with open(out / "devices-partition.img", "wb") as file:
        file.write(kept.read_bytes()[PARTITION:])
    if clean_sum(out / "devices-partition.img", "/bytes") != hashlib.md5(card.read_bytes()).hexdigest():
        raise Failed("linux-devices: the disk's file and the card's have not the same bytes")
    print(f"passed: on {processor} Linux, at its shell after {seconds:.1f} s, with the disk's bus master, virtio 1.0 and ACPI's power")


def default_restart(out: pathlib.Path) -> None:
    """Linux with a keyboard controller, and memory by fw_cfg: its restart is FEh at port 64h."""
    lines = (MONITOR / "guests/linux.cfg").read_text().splitlines()
    words = ["--disk", out / "disk.img", "--memory", "64", "--keyboard", "--fw-cfg", "--timing"]
    guest = Guest(out, "default_restart", "bochs", *words)
    try:
        guest.wait("grub> ", 300)
        for line in lines:
            guest.type(line)
            guest.wait("grub> " if line != "boot" else "BIOS-e820: [mem 0x0000000000100000-0x0000000003ffffff] usable", 300)
        seconds = guest.wait(SHELL, 1200)
        guest.type("reboot -f")
        guest.wait("In resume", 300)
        guest.wait("SeaBIOS (version", 300)
        guest.wait("grub> ", 300)
    finally:
        figures = guest.end()
    print(f"passed: Linux with fw_cfg and a keyboard controller, its shell after {seconds:.1f} s, restarts by FEh")
    print(indented(figures))
