"""What the audits run: trees, scripts, and what must come of them; and how a run, a tree and a shim are handled."""
import os
import re
import resource
import shutil
import stat
import subprocess
import sys
import tempfile

sys.path.insert(0, os.path.dirname(os.path.dirname(os.path.realpath(__file__))))
import harness
from harness import PROGRAM, TOP

# What makes a directory a stored row or example, and all that one has beside its tree.
RUNS = ("cases", "checked", "script", "words")
PARTS = (
    "README.md", "after", "cases", "checked", "client", "fails", "input", "input.hex", "links", "modes", "output",
    "output.hex", "pads", "runs", "script", "status", "words",
)

# How long a run may take, and how long one of a case that is run hundreds of times, in seconds.
SECONDS = 60
SLOW = 0.2

# Empty files that are locked while others are replaced; they stay. The third is removed once the lock is taken, and
# stays only if that fails, until the lock is taken again.
LOCKS = re.compile(r"\.pwd\.lock(-wal)?|\..+:pamsess-lock")

# Files that are larger are compared by their size alone.
LARGE = 16 << 20

# The modules whose rows are run beside the cases below.
MODULES = (b"pam_unix", b"pam_faillock", b"set=")

PASSWD = "joe:x:1000:1000:Joe:/home/joe:/bin/sh\n"
HASH = "$5$saltstring$5B8vYYiY.CVt1RlTTf8KbXBH3hsxY/GNooZaBBGWEc5"  # of `Hello world!`
HASH_OF_N = "$5$........$4zTYzAsACN1wal/SbhzqpI05l/imxkHiy5WI8MV9yx2"  # of `n`, as openssl passwd -5 has it


def shadow(password, change=19000):
    return f"joe:{password}:{change}:0:99999:7:::\n"


class Case:
    """A run: its name, the files and directories of its tree, the arguments, the script, and the expected results."""

    def __init__(self, name, files, script, output, status=0, after=(), words=("run", "ROOT")):
        self.name = name
        self.files = {path: bytes_of(text) for path, text in files.items()}
        self.script, self.output, self.status = bytes_of(script), bytes_of(output), status
        self.after = {**self.files, **{path: bytes_of(text) for path, text in dict(after).items()}}
        self.words, self.is_stored = words, False

    def lay(self, root):
        """Writes the tree; a stored one has the directory of the tallies if it is wanted."""
        if not self.is_stored:
            os.makedirs(f"{root}/var/run/faillock", exist_ok=True)
        for path, text in self.files.items():
            os.makedirs(os.path.dirname(f"{root}/{path}"), exist_ok=True)
            with open(f"{root}/{path}", "wb") as file:
                file.write(text)
            if path == "etc/shadow":
                os.chmod(f"{root}/{path}", 0o640)

    def words_for(self, root):
        return [root + word[4:] if word == "ROOT" or word.startswith("ROOT/") else word for word in self.words]

    def is_whole(self, path, text):
        """Whether a file is one that was written whole, old or new."""
        if path.startswith("var/run/faillock/"):
            return re.fullmatch(rb"faillock [12]\n(\d{1,13}( U| [RTS] [!-~]+)?\n)*", text) is not None
        old, new = self.files.get(path), self.after.get(path)
        if text in (old, new):
            return True
        # Of two lines that set a token each writes the file whole, with a hash of its own.
        return (
            path == "etc/shadow"
            and None not in (text, new)
            and HASHES.sub(b"HASH", text) == HASHES.sub(b"HASH", bytes_of(new))
        )


# a hash of SHA-crypt as a field
HASHES = re.compile(rb"(?<=:)\$(5\$[^$:\n]{1,16}\$[./0-9A-Za-z]{43}|6\$[^$:\n]{1,16}\$[./0-9A-Za-z]{86})(?=:)")


def bytes_of(text):
    return text if isinstance(text, bytes) else text.encode()


COMMON_AUTH = """auth [success=1 default=ignore] pam_unix.so nullok
auth requisite pam_deny.so
auth required pam_permit.so
"""
DEBIAN = {
    "etc/pam.d/t": "@include common-auth\n",
    "etc/pam.d/common-auth": COMMON_AUTH,
    "etc/passwd": PASSWD,
    "etc/shadow": shadow(HASH),
}
LOCKING = """auth required pam_faillock.so preauth deny=3
auth sufficient pam_unix.so nodelay
auth [default=die] pam_faillock.so authfail deny=3
"""
TALLY = "var/run/faillock/joe"
FAILED = """{0} say 1 Password: 
{0} line 1 pam_faillock SUCCESS 0
{0} line 2 pam_unix AUTH_ERR 7
{0} line 3 pam_faillock IGNORE 25
{1}{0} authenticate PERM_DENIED 6
"""
LOCKED = """{0} say 1 Password: 
{0} line 1 pam_faillock AUTH_ERR 7
{0} line 2 pam_unix SUCCESS 0
{0} line 3 pam_faillock AUTH_ERR 7
{1}{0} authenticate AUTH_ERR 7
"""
CLEAN = "{} clean {} {} 1 pam_unix unix_setcred_return\n"


def own_cases():
    yield Case(
        "data that replace one another",
        {"etc/pam.d/t": "auth required pam_probe.so set=a:x set=a:yy set=a:zzz\n"},
        "start 1 t joe\nauthenticate 1\nend 1 0x40000007\n",
        (
            "1 start SUCCESS 0\n1 line 1 pam_probe SUCCESS 0\n1 clean 0 20000000 256 pam_probe a\n"
            "1 clean 1 20000000 512 pam_probe a\n1 authenticate SUCCESS 0\n1 clean 2 40000007 775 pam_probe a\n"
            "1 end SUCCESS 0\n"
        ),
    )
    yield Case(
        "pam_unix, the password",
        DEBIAN,
        "start 1 t joe\nreply 1 Hello world!\nauthenticate 1\nend 1 0\n",
        (
            "1 start SUCCESS 0\n1 say 1 Password: \n1 line 1 pam_unix SUCCESS 0\n1 line 3 pam_permit SUCCESS 0\n"
            "1 authenticate SUCCESS 0\n"
            + CLEAN.format(1, 0, "00000000")
            + "1 end SUCCESS 0\n"
        ),
    )
    yield Case(
        "pam_unix, another password",
        DEBIAN,
        "start 1 t joe\nreply 1 hello\nauthenticate 1\nend 1 0\n",
        (
            "1 start SUCCESS 0\n1 say 1 Password: \n1 line 1 pam_unix AUTH_ERR 7\n1 line 2 pam_deny AUTH_ERR 7\n"
            "1 wait AUTH_ERR 7 2000000 2000000\n1 authenticate AUTH_ERR 7\n" + CLEAN.format(
                1, 0, "00000000"
            ) + "1 end SUCCESS 0\n"
        ),
    )
    replaced = [CLEAN.format(number, datum, "20000000") for number, datum in ((1, 0), (2, 1), (1, 2), (1, 4))]
    yield Case(
        "pam_faillock, three failures and after",
        {"etc/pam.d/t": LOCKING, "etc/passwd": PASSWD, "etc/shadow": shadow(HASH)},
        (
            "start 1 t joe\nstart 2 t joe\nreply 1 a\nat 100\nauthenticate 1\nreply 2 b\nat 110\nauthenticate 2\n"
            "reply 1 c\nat 120\nauthenticate 1\n"
            "at 121\nreply 2 Hello world!\nauthenticate 2\nat 719\nreply 1 Hello world!\nauthenticate 1\n"
            "at 720\nreply 1 Hello world!\nauthenticate 1\nend 1 0\nend 2 0\n"
        ),
        (
            "1 start SUCCESS 0\n2 start SUCCESS 0\n"
            + FAILED.format(1, "")
            + FAILED.format(2, "")
            + FAILED.format(1, replaced[0])
            + LOCKED.format(2, replaced[1])
            + LOCKED.format(1, replaced[2])
            + "1 say 1 Password: \n1 line 1 pam_faillock SUCCESS 0\n1 line 2 pam_unix SUCCESS 0\n"
            + replaced[3]
            + "1 authenticate SUCCESS 0\n"
            + CLEAN.format(1, 5, "00000000")
            + "1 end SUCCESS 0\n"
            + CLEAN.format(2, 3, "00000000")
            + "2 end SUCCESS 0\n"
        ),
        after={TALLY: "faillock 2\n100 S t\n110 S t\n120 S t\n"},
    )
    yield Case(
        "pam_unix, a change of password",
        {
            "etc/pam.d/t": "password required pam_unix.so sha256\nauth required pam_unix.so nodelay\n",
            "etc/passwd": PASSWD,
            "etc/shadow": shadow(HASH),
        },
        "start 1 t joe\ncaller 0\nreply 1 n\nreply 1 n\nreply 1 n\nchauthtok 1\nauthenticate 1\nend 1 0\n",
        (
            "1 start SUCCESS 0\n1 say 1 New password: \n1 say 1 Retype new password: \n1 line 1 pam_unix SUCCESS 0\n"
            "1 line 1 pam_unix SUCCESS 0\n"
            "1 chauthtok SUCCESS 0\n1 say 1 Password: \n1 line 1 pam_unix SUCCESS 0\n1 authenticate SUCCESS 0\n"
            + CLEAN.format(1, 0, "00000000")
            + "1 end SUCCESS 0\n"
        ),
        after={"etc/shadow": shadow(HASH_OF_N, 0)},
    )


def read(path, missing=b""):
    if not os.path.isfile(path):
        return missing
    with open(path, "rb") as file:
        return file.read()


def read_part(path):
    """The bytes that a stored part means: its own; or if its name ends in .hex, those that it spells."""
    text = read(path)
    if not path.endswith(".hex"):
        return text
    lines = [line for line in text.splitlines(keepends=True) if not line.startswith(b"#")]
    return b"".join(line[1:] if line.startswith(b"|") else spelled(line.decode()) for line in lines)


def spelled(line):
    """The bytes that a line spells in hexadecimal, as often as a number before an `x` says."""
    times, cross, byte = line.rpartition(" x ")
    return bytes.fromhex(byte) * (int(times) if cross else 1)


def files_below(folder, left_out=()):
    found = {}
    for at, folders, names in os.walk(folder):
        inner = os.path.relpath(at, folder)
        if inner == ".":
            folders[:] = [name for name in folders if name not in left_out]
            names = [name for name in names if name not in left_out]
        for name in names:
            found[os.path.normpath(f"{inner}/{name}")] = read(f"{at}/{name}")
    return found


def stored_case(name, folders):
    """The case in the files of these directories, which the last one overrides, and their merged trees."""

    def part(*names, missing=b""):
        return next(
            (read_part(f"{it}/{one}") for it in folders[::-1] for one in names if os.path.isfile(f"{it}/{one}")),
            missing,
        )

    files = {}
    for folder in folders:
        files.update(files_below(folder, PARTS))
    after = next((files_below(f"{it}/after") for it in folders[::-1] if os.path.isdir(f"{it}/after")), {})
    words = part("words", missing=b"run\nROOT\n").decode("utf-8", "surrogateescape").splitlines()
    given, output = part("script", "input", "input.hex"), part("output", "output.hex")
    case = Case(name, files, given, output, int(part("status", missing=b"0")), after, words)
    case.is_stored = True
    if after:
        case.after = dict(after)
    return case


def rows_below(top):
    """The directories below one that have runs, in the order of their paths."""
    for name in sorted(os.listdir(top)) if os.path.isdir(top) else []:
        folder = f"{top}/{name}"
        if any(os.path.exists(f"{folder}/{part}") for part in RUNS):
            yield folder
        elif os.path.isdir(folder):
            yield from rows_below(folder)


def is_usual(*folders):
    """Whether no front end is run, no input or output fails, and the files are stored whole."""
    parts = ("fails", "links", "modes", "pads", "runs")
    return not any(os.path.isfile(f"{folder}/{part}") for folder in folders for part in parts)


def stored_cases(top):
    """The rows or examples below a directory, if it is there; of a row with cases the first two that are usual."""
    for folder in rows_below(top):
        name = os.path.relpath(folder, os.path.dirname(top))
        cases = sorted(os.listdir(f"{folder}/cases")) if os.path.isdir(f"{folder}/cases") else []
        for inner in [it for it in cases if is_usual(folder, f"{folder}/cases/{it}")][:2]:
            yield stored_case(f"{name}, {inner}", [folder, f"{folder}/cases/{inner}"])
        if not cases and is_usual(folder) and any(os.path.isfile(f"{folder}/{part}") for part in ("script", "words")):
            yield stored_case(name, [folder])
        for service in sorted(os.listdir(f"{folder}/checked")) if os.path.isdir(f"{folder}/checked") else []:
            output = read(f"{folder}/checked/{service}")
            words = ("check", "ROOT", service)
            status = 3 if output.startswith(b"refused ") else 0
            yield Case(f"{name}, service {service}", files_below(folder, PARTS), "", output, status, (), words)


def has_modules(case):
    texts = [text for path, text in case.files.items() if "/pam.d/" in f"/{path}"]
    return any(module in text for module in MODULES for text in texts)


def all_cases(names):
    """The cases of this file, the examples, and the rows whose services name the modules above; or those of a name."""
    found = [*own_cases(), *stored_cases(f"{TOP}/examples"), *filter(has_modules, stored_cases(f"{TOP}/tests/cases"))]
    return [case for case in found if not names or any(name in case.name for name in names)]


class Ran:
    def __init__(self, status, output, said, tree):
        self.status, self.output, self.said, self.tree = status, output, said, tree


def tree_of(root):
    """What a directory contains: kind, mode, owner and group of each, and a file's bytes or a link's text. Lock files
    as they should be, empty and their owner's alone, are left out."""
    found = {}
    for at, folders, names in os.walk(root):
        for name in folders + names:
            path = f"{at}/{name}"
            told = os.lstat(path)
            if LOCKS.fullmatch(name) and told.st_mode == stat.S_IFREG | 0o600 and told.st_size == 0:
                continue
            text = None
            if stat.S_ISREG(told.st_mode):
                text = read(path) if told.st_size <= LARGE else b"%d bytes" % told.st_size
            elif stat.S_ISLNK(told.st_mode):
                text = os.readlink(path).encode()
            found[os.path.relpath(path, root)] = (told.st_mode, told.st_uid, told.st_gid, text)
    return found


def run(case, room, **environment):
    """Runs a case in a fresh copy of its tree, below an existing directory."""
    root = tempfile.mkdtemp(dir=room)
    try:
        case.lay(root)
        ran = subprocess.run(
            [PROGRAM, *case.words_for(root)],
            input=case.script,
            capture_output=True,
            cwd=room,
            env=environment,
            timeout=SECONDS,
            check=False,
        )
        return Ran(ran.returncode, ran.stdout, ran.stderr, tree_of(root))
    except subprocess.TimeoutExpired as late:
        return Ran("none", late.stdout or b"", b"not ended in %d seconds" % SECONDS, tree_of(root))
    finally:
        shutil.rmtree(root)


def wrong_plainly(case, room):
    """How a plain run differs from what is stored, or nothing; and whether it takes too long to be swept over."""
    before = resource.getrusage(resource.RUSAGE_CHILDREN).ru_utime
    ran = run(case, room)
    is_slow = resource.getrusage(resource.RUSAGE_CHILDREN).ru_utime - before > SLOW
    return difference(case, ran), is_slow


def difference(case, ran):
    # A login asks on standard error.
    said = b"" if case.words[:1] == ["login"] else ran.said
    if (ran.status, ran.output, said) != (case.status, case.output, b""):
        return f"status {ran.status}, output {ran.output!r} {ran.said!r}"
    given = {path: text for path, (mode, _, _, text) in ran.tree.items() if stat.S_ISREG(mode)}
    if given != case.after:
        return (
            "the files "
            f"{sorted(path for path in given.keys() | case.after.keys() if given.get(path) != case.after.get(path))}"
        )
    return None


def wrong_tree(case, tree):
    """A file of a tree that is neither as before nor one that the case's run writes, whole; or nothing."""
    given = {path: text for path, (mode, _, _, text) in tree.items() if stat.S_ISREG(mode)}
    for path in sorted(given.keys() | case.files.keys()):
        if given.get(path) == case.files.get(path):
            continue
        if case.after.get(path) == case.files.get(path):
            return f"/{path} is changed, which the run doesn't change"
        if path not in given and path in case.after:
            return f"/{path} is gone"
        if path not in given:
            continue
        if not case.is_whole(path, given[path]):
            return f"/{path} is half: {given[path]!r}"
    return None


def build_shim(name, room):
    """Builds a library of this directory, which is preloaded into the program."""
    made = f"{room}/{name}.so"
    if not shutil.which("gcc"):
        sys.exit(f"{sys.argv[0]}: there is no gcc")
    subprocess.run(["gcc", "-O2", "-shared", "-fPIC", "-o", made, f"{TOP}/tests/stress/{name}.c", "-ldl"], check=True)
    return made


def begin(doc):
    """Prints the usage if that is asked for, and ends if the program isn't built."""
    harness.help_if_asked(doc)
    if not os.access(PROGRAM, os.X_OK):
        sys.exit(f"{sys.argv[0]}: the program isn't built: run ./build, or name one by PAMSESS")


def end(runs, wrong):
    """Prints the last line. The exit status."""
    print(f"{runs - wrong} passed, {wrong} failed")
    return 1 if wrong else 0
