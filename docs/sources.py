"""What the scripts of docs/ read of the repository: its files, and crates.txt."""
import os

TOP = os.path.dirname(os.path.dirname(os.path.abspath(__file__)))
NAME = r"[A-Za-z_][A-Za-z0-9_]*"


def text_of(path):
    with open(os.path.join(TOP, path), encoding="utf-8", errors="surrogateescape") as file:
        return file.read()


def files_below(directory, ending):
    for at, directories, names in os.walk(os.path.join(TOP, directory)):
        directories[:] = sorted(set(directories) - {"out", ".git"})
        for name in sorted(names):
            if name.endswith(ending):
                yield os.path.relpath(os.path.join(at, name), TOP)


def stands_on():
    """The crates by their names, each with those that it depends on."""
    lines = (line.partition("#")[0].partition(":") for line in text_of("crates.txt").splitlines())
    return {name.split()[0]: below.split() for name, colon, below in lines if colon}


def in_order():
    """The crates, each after those that it depends on, and otherwise as crates.txt has them."""
    below, order = stands_on(), []

    def add(name):
        if name in below and name not in order:
            for one in below[name]:
                add(one)
            order.append(name)

    for name in below:
        add(name)
    return order


def paragraph(lines, mark):
    """The first paragraph of the comment that begins some lines, without its marks."""
    found = []
    for line in lines:
        rest = line.strip()
        if not rest.startswith(mark) or not rest[len(mark) :].strip():
            break
        found.append(rest[len(mark) :].strip())
    return " ".join(found)


def about(crate):
    """What a crate's root file says of it."""
    for root in ("lib.rt", "main.rt"):
        path = f"crates/{crate}/src/{root}"
        if os.path.isfile(os.path.join(TOP, path)):
            return paragraph(text_of(path).splitlines(), "//!")
    return ""
