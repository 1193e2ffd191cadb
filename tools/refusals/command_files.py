"""Which words of a command name files, as the usage text of the program has them."""
# By the command, what each of its words is, but for those that name no file.
FILES: dict[str, list[str]] = {
    "replay": ["script"],
    "run": ["script"],
    "map": ["script"],
    "blame": ["script"],
    "save": ["script"],
    "check": ["script", "log"],
    "resume": ["image", "script"],
    "serial": ["script", "input"],
    "dma": ["script"],
    "make": [],
}


def files_of(words: list[str]) -> dict[str, str]:
    """The files that the words of a command name, by what they are."""
    return dict(zip(FILES.get(words[0], []) if words else [], words[1:]))
