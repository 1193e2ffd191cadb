"""What --install puts beside the program: the tools, and the script `board` that explains why it refused its words."""
import os
import pathlib
import re

from launcher.release_files import THE_PROGRAM, Member
from launcher.unchanged import unchanged

# As board-explain and so on, where they are there.
TOOLS = ("explain", "compare", "from-trace", "show", "conform", "hunt")
BEHIND = ("launch", "launcher/__init__.py", "launcher/say_why.py", "launcher/running.sh")  # what the script calls
PLACE = "libexec/board"
ASKING = ("conform", "hunt")  # other monitors, over the installed library
# Of launcher/, in the place of links.
SCRIPTS = {"board": "installed-board", **{f"board-{name}": "installed-asking" for name in ASKING}}
# What a tool needs and does not import, below the root.
BESIDE = {name: ("tools/adapters", "bindings/python/board440fx") for name in ASKING}
IMPORT = re.compile(r"^\s*(?:from|import)\s+(\w+)(?:\.(\w+))?", re.M)


def with_tools(root: pathlib.Path, files: dict[str, Member]) -> dict[str, Member]:
    """The files with the tools beside them, and with the script in the place of the program, which it runs."""
    named = [name for name in TOOLS if (root / "tools" / name).is_file()]
    names = [f"tools/{name}" for name in needed(root / "tools", [*named, *BEHIND])]
    names += [it for name in named for place in BESIDE.get(name, ()) for it in files_below(root, place)]
    found = {**files, f"{PLACE}/board": files[THE_PROGRAM], f"{PLACE}/unchanged": Member(unchanged({}), is_run=True)}
    found.update((f"{PLACE}/{name}", member(root / name)) for name in names)
    for name in ("board", *(f"board-{name}" for name in named)):
        link = Member(link=f"../{PLACE}/tools/{name.removeprefix('board-')}")
        found[f"bin/{name}"] = member(root / "tools/launcher" / SCRIPTS[name]) if name in SCRIPTS else link
    return found


def needed(tools: pathlib.Path, names: list[str]) -> list[str]:
    """These files of a folder, and all there that they import: of launcher/ single modules, else whole packages."""
    found, rest = set(names), list(names)
    while rest:
        for package, module in IMPORT.findall((tools / rest.pop()).read_text(errors="replace")):
            is_single = package == "launcher"
            # None where it is Python's own.
            new = [f"{package}/{module}.py"] if is_single else files_below(tools, package)
            rest += [name for name in new if name not in found]
            found.update(new)
    return sorted(found)


def files_below(root: pathlib.Path, name: str) -> list[str]:
    """A file, or all files of a folder, by their names below the root; none where there is neither."""
    place = root / name
    files = [place] if place.is_file() else sorted(place.rglob("*"))
    return [str(it.relative_to(root)) for it in files if it.is_file() and "__pycache__" not in it.parts]


def member(file: pathlib.Path) -> Member:
    return Member(file.read_bytes(), is_run=os.access(file, os.X_OK))
