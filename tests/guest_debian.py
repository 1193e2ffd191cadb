"""A Debian with systemd on a virtio card, for tests/monitor --debian."""
import pathlib
import re
import subprocess

from guest_systems import clean_sum
from running_guest import END, STARVED, Failed, Guest

PROMPT = "root@board:~# "
BOOT = 7200  # seconds of a processor, for each part of a boot
MIB = 8  # that are written
SPEED = 200  # of Bochs's instructions a microsecond: a unit's limit of 90 s is none for a slow processor


def to_systemd(guest: Guest) -> None:
    """GRUB's prompt, and by it Linux, until systemd begins."""
    guest.wait("grub> ", BOOT)
    guest.type("configfile /boot/linux.cfg")
    guest.wait("/dev/vda is the root", BOOT)
    guest.wait("Welcome to", BOOT)


def to_prompt(guest: Guest) -> float:
    """Root's shell, and the whole system running."""
    guest.wait(PROMPT, BOOT)
    guest.type("echo it i''s $(systemctl is-system-running --wait); systemctl --failed --no-pager --plain | cat")
    seconds = guest.wait("it is ", BOOT)
    said = guest.seen
    guest.wait(PROMPT, BOOT)
    if not guest.text.startswith("running", said):
        raise Failed(f"{guest.name}: the system is {guest.text[said : said + 600]!r}")
    return seconds


def do(guest: Guest, command: str, answer: str) -> None:
    """Types a command and waits for its answer, which the command does not contain, and the prompt."""
    guest.type(command)
    guest.wait(answer, BOOT)
    guest.wait(PROMPT, BOOT)


def begin(out: pathlib.Path, processor: str, root: pathlib.Path, file: pathlib.Path) -> None:
    """Boots until systemd begins, and there saves and ends the guest, between the same two instructions."""
    words = ["--disk", out / "disk.img", "--memory", "256", "--virtio", root, "--save", file, "--speed", SPEED]
    guest = Guest(out, "debian-saving", processor, *words)
    try:
        to_systemd(guest)
        guest.press(b"\x01s\x01x")
        guest.process.wait(STARVED * END)
    finally:
        figures = guest.end()
    if f"saved in {file}" not in figures:
        raise Failed(f"debian-saving: it was not saved: {figures[-300:]!r}")
    print("    saved in the middle of the boot", flush=True)


def go_on(out: pathlib.Path, processor: str, root: pathlib.Path, file: pathlib.Path) -> str:
    """Goes on in a fresh process to the whole system, writes a file and boots once more: the file's sum."""
    guest = Guest(out, "debian", processor, "--load", file, "--virtio", root, "--speed", SPEED)
    try:
        print(f"    running after {to_prompt(guest):.0f} s more", flush=True)
        do(guest, f"dd if=/dev/urandom of=/written bs=1M count={MIB} && sync && echo wr''itten", "written")
        do(guest, "md5sum /written > /sum && echo su''mmed", "summed")
        guest.type("systemctl reboot")
        guest.wait("SeaBIOS", BOOT)
        to_systemd(guest)
        to_prompt(guest)
        do(guest, "md5sum -c /sum", "/written: OK")
        do(guest, "cat /sum", "  /written")
        guest.type("systemctl poweroff")
        guest.wait("reboot: ", BOOT)  # Power down, or System halted where no one takes the power away
    finally:
        guest.end()
    return re.findall(r"([0-9a-f]{32})  /written", guest.text)[-1]


def debian(out: pathlib.Path, processor: str) -> None:
    """A Debian is saved amid its boot, goes on in a fresh process until systemd says that it runs, writes 8 MiB, boots
    once more with the same bytes, and leaves a file system that e2fsck finds clean."""
    root, file = out / "debian-run.img", out / "saved-debian"
    subprocess.run(["cp", "--sparse=always", out / "debian.img", root], check=True)
    begin(out, processor, root, file)
    inside = go_on(out, processor, root, file)
    if clean_sum(root, "/written") != inside:
        raise Failed("debian: the file's sum from outside is another")
    print(f"passed: on {processor} Debian runs, was saved amid its boot, and booted again with the {MIB} MiB that it had written")
