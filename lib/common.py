"""What the scripts share: where the programs are, how foreign text is printed, the codes and what controls do with them
in words, and the files below a root, of which no link leads out.

Texts are decoded as file names are (`os.fsdecode`), so each is written again byte by byte, and none is refused in any
locale.
"""
import os
import re
import shlex
import stat
import sys

import codes

# The return codes, as service files and reports name them.
CODES, NAMES = codes.CODES, codes.NAMES
TYPES = ("auth", "account", "password", "session")
CALLS = {
    "authenticate": "auth",
    "acct_mgmt": "account",
    "setcred": "auth",
    "open_session": "session",
    "close_session": "session",
    "chauthtok": "password",
}

# The longest file that pamsess reads for a module, and the longest that holds rules.
MOST = 1048576
MOST_OF_RULES = 65536

TOP = os.path.dirname(os.path.dirname(os.path.realpath(__file__)))


def shown(text):
    """A text that comes from a file, or a file's name, as the reports print it: a byte that isn't printable is `\\x`
    and two digits."""
    return "".join(
        "\\\\" if byte == 0x5C else chr(byte) if 0x20 <= byte <= 0x7E else f"\\x{byte:02x}"
        for byte in os.fsencode(text)
    )


def as_word(text):
    """A word of a command line that can be copied to a shell; quoted as `shown` does if it isn't printable."""
    return shlex.quote(text) if shown(text) == text.replace("\\", "\\\\") else shown(text)


def say(name, why):
    print(f"{name}: {why}", file=sys.stderr)


def usage_of(doc):
    """The usage lines of a script, as its docstring has them."""
    return re.search(r"(?m)^usage: .*(?:\n {7}\S.*)*", doc)[0]


def asks_for_help(words):
    return words[:1] in (["--help"], ["-h"])


def place_of(crate, name, variable):
    """Where a program is: as a variable names it, or else in this checkout, or installed."""
    built = f"{TOP}/crates/{crate}/out/{crate}" if os.path.isdir(f"{TOP}/crates") else f"{TOP}/{name}"
    return os.path.abspath(os.environ.get(variable) or built)


def program(script, crate="pam_session_cli", name="pamsess", variable="PAMSESS", is_needed=True):
    """A program, as `place_of` says; None, with a line that says so, if it isn't built."""
    path = place_of(crate, name, variable)
    if os.path.isfile(path) and os.access(path, os.X_OK):
        return path
    if not is_needed:
        return None
    say(
        script,
        (
            "the program isn't built: run ./build"
            if crate == "pam_session_cli"
            else f"the program isn't built: ./build {crate} builds it"
        ),
    )
    return None


def sibling(name):
    """How another script is called, beside the one that is running."""
    here, own = os.path.split(sys.argv[0])
    name = f"pamsess-{name}" if own.startswith("pamsess-") else name
    return as_word(os.path.join(here, name) if here else name)


# What actions do, in words


def words_of(action):
    """What an action does with a code."""
    plain = {
        "ignore": "ignored",
        "ok": "counts",
        "done": "counts, ends the list if nothing failed",
        "bad": "fails the stack",
        "die": "fails the stack, ends the list",
        "reset": "undoes what this list did",
    }
    return plain.get(action) or f"skips {action}"


# Files below a root


class Unread(Exception):
    """Why a file isn't read."""


class Below:
    """The files below a root. A link, and `..`, is resolved below it, so that nothing outside is read."""

    def __init__(self, root):
        self.root = root
        self.fd = os.open(root, os.O_RDONLY | os.O_DIRECTORY | os.O_CLOEXEC)

    def find(self, path, follow=True):
        """The directory in which a file is, opened, and the file's name there; and its real path, as a list of names.
        The name is `.` for a directory to which a link or `..` leads."""
        at, real, todo, links = [os.dup(self.fd)], [], [name for name in path.split("/") if name not in ("", ".")], 0
        try:
            while todo:
                name = todo.pop(0)
                if name == "..":
                    if real:
                        os.close(at.pop())
                        real.pop()
                    continue
                try:
                    target = os.readlink(name, dir_fd=at[-1]) if todo or follow else None
                except OSError as fault:
                    if fault.errno != 22:
                        raise
                    target = None
                if target is not None:
                    links += 1
                    if links > 40:
                        raise Unread("there are too many links on the way")
                    if target.startswith("/"):
                        while len(at) > 1:
                            os.close(at.pop())
                        real.clear()
                    todo = [name for name in target.split("/") if name not in ("", ".")] + todo
                elif todo:
                    at.append(os.open(name, os.O_RDONLY | os.O_DIRECTORY | os.O_NOFOLLOW | os.O_CLOEXEC, dir_fd=at[-1]))
                    real.append(name)
                else:
                    return at.pop(), name, [*real, name]
            return at.pop(), ".", real
        finally:
            for each in at:
                os.close(each)

    def status(self, path):
        """What is at a path, links followed, and its real path; None if nothing is."""
        try:
            at, name, real = self.find(path)
        except (OSError, Unread):
            return None
        try:
            return os.stat(name, dir_fd=at, follow_symlinks=False), "/" + "/".join(real)
        except OSError:
            return None
        finally:
            os.close(at)

    def is_file(self, path):
        found = self.status(path)
        return found is not None and stat.S_ISREG(found[0].st_mode)

    def is_directory(self, path):
        found = self.status(path)
        return found is not None and stat.S_ISDIR(found[0].st_mode)

    def names(self, path):
        """The names in a directory, in order; none if it can't be read."""
        try:
            at, name, _ = self.find(path)
        except (OSError, Unread):
            return []
        try:
            opened = os.open(name, os.O_RDONLY | os.O_DIRECTORY | os.O_NOFOLLOW | os.O_CLOEXEC, dir_fd=at)
        except OSError:
            return []
        finally:
            os.close(at)
        try:
            return sorted(os.listdir(opened))
        finally:
            os.close(opened)

    def read(self, path, most=MOST):
        """The text of a regular file. Nothing else is opened, and of a longer file nothing is read."""
        try:
            at, name, _ = self.find(path)
        except OSError as fault:
            raise Unread(fault.strerror) from None
        try:
            what = os.stat(name, dir_fd=at, follow_symlinks=False)
            if not stat.S_ISREG(what.st_mode):
                raise Unread("it isn't a regular file")
            opened = os.open(name, os.O_RDONLY | os.O_NOFOLLOW | os.O_NONBLOCK | os.O_NOCTTY | os.O_CLOEXEC, dir_fd=at)
        except OSError as fault:
            raise Unread(fault.strerror) from None
        finally:
            os.close(at)
        with os.fdopen(opened, "rb") as file:
            what = os.fstat(opened)
            if not stat.S_ISREG(what.st_mode):
                raise Unread("it isn't a regular file")
            try:
                text = file.read(most + 1)
            except OSError as fault:
                raise Unread(fault.strerror) from None
        if len(text) > most:
            raise Unread(f"it has more than {most:,} bytes")
        return os.fsdecode(text)

    def text(self, path, most=MOST):
        """The text of a file, empty if it can't be read."""
        try:
            return self.read(path, most)
        except Unread:
            return ""


def unquoted(text):
    """A text that was printed as reports print it."""
    raw = re.sub(
        rb"\\(?:x([0-9a-f]{2})|(\\))",
        lambda it: b"\\" if it[2] else bytes([int(it[1], 16)]),
        text.encode("latin-1", "replace"),
    )
    return os.fsdecode(raw)
