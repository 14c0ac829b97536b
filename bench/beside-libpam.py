#!/usr/bin/env python3
"""Measures the built program beside the installed libpam, which a small driver calls in the same order (libpam.c) and
whose report it prints, and beside pamtester. Prints the tables of docs/speed.md.

  bench/beside-libpam.py [--page] [--rounds N] [TABLE..]    all tables, or those named: transactions, processes, memory,
                                                            counts, calls, parts

With --page the tables also take the place of those in docs/speed.md; its sentences have to be read again then.

The two sides run in turns, N rounds of each (10 without it); each figure is the least processor time (user and system)
of a run. What a run without transactions takes is subtracted. libpam is measured twice: as a program uses it that opens
modules with each transaction ("opened"), and with the modules held open by somebody else ("held"). Instructions are
counted by callgrind, with glibc's own setting that keeps it from clearing memory by `rep stosb`, of which callgrind
counts each byte.

PAMSESS names another program than ./build's, PAMTESTER another pamtester than that on the PATH, CFLAGS where libpam's
headers are. The table of processes wants root, for a mount namespace in which /etc is a copy.
"""
import contextlib
import glob
import io
import os
import re
import shutil
import subprocess
import sys
import tempfile

sys.dont_write_bytecode = True
TOP = os.path.dirname(os.path.dirname(os.path.abspath(__file__)))
sys.path.insert(0, f"{TOP}/lib")
import common

PROGRAM = common.place_of("pam_session_cli", "pamsess", "PAMSESS")
PLACES = (
    "/lib/*/security",
    "/usr/lib/*/security",
    "/lib64/security",
    "/usr/lib64/security",
    "/lib/security",
    "/usr/lib/security",
)
PAGE = f"{TOP}/docs/speed.md"
TABLES = ("transactions", "processes", "memory", "counts", "calls", "parts")
TUNABLES = "glibc.cpu.x86_rep_stosb_threshold=100000000:glibc.cpu.x86_rep_movsb_threshold=100000000"
TYPES = ("auth", "account", "password", "session")
PERMIT = "required pam_permit.so"

# What is measured: the service, the lines of it that are run (a count, or a list), starts, authentications of each, and
# what is to be reached of libpam's time with modules held open and opened, if that was set.
CASES = (
    ("start, authenticate, end: 1 line", "1", "1", 3000, 1, 1.3, 0.25),
    ("start, authenticate, end: 10 lines", "10", "10", 2000, 1, 1.1, None),
    ("start, authenticate, end: 100 lines", "100", "100", 600, 1, 0.55, None),
    ("start, authenticate, end: 1,000 lines", "1000", "1000", 60, 1, None, None),
    ("start, authenticate, end: Debian's form", "debian", "1,3", 2000, 1, 1.3, 0.40),
    ("start, end: 1,000 lines", "1000", "1000", 60, 0, 0.08, None),
    ("start, end: 4,000 lines", "4000", "4000", 6, 0, None, None),
    ("authenticate: 1,000 lines", "1000", "1000", 1, 400, None, None),
)
# The same for callgrind, which is slow: so many starts, and authentications.
COUNTED = (
    ("1", "1", 200, 1), ("10", "10", 200, 1), ("100", "100", 100, 1), ("debian", "1,3", 200, 1), ("1000", "1000", 20, 0)
)

# Drepper's own vector of SHA-512 with 5,000 rounds, for "Hello world!".
HASH = "$6$saltstring$svn8UoSVapNtMuq1ukKS4tPQd8iKwSMHWjl/O817G3uBnIFNjnQJuesI68u4OTLiBFdcbYEdFCoEOfaS35inz1"


def stop(why):
    sys.exit(f"beside-libpam: {why}")


def write(path, text):
    os.makedirs(os.path.dirname(path), exist_ok=True)
    with open(path, "w", encoding="ascii") as file:
        file.write(text)
    return path


class Bench:
    """A directory with services for both sides, and the two programs in C."""

    def __init__(self, room, rounds):
        self.room, self.rounds = room, rounds
        found = [
            place for pattern in PLACES for place in glob.glob(pattern) if os.path.exists(f"{place}/pam_permit.so")
        ]
        if not found:
            stop("libpam's modules aren't there (libpam-modules)")
        self.held = ":".join(f"{found[0]}/{name}.so" for name in ("pam_permit", "pam_deny"))
        if not os.access(PROGRAM, os.X_OK):
            stop("no program is built: ./build builds it, or PAMSESS names one")
        self.compile("libpam", "-rdynamic", "-l:libpam.so.0", "-ldl")
        self.compile("interleaved", "-static")
        self.nothing = write(f"{room}/nothing", "")
        self.write_services(f"{room}/etc/pam.d", "")
        self.write_services(f"{room}/libpam.d", f"{room}/libpam.d/")

    def compile(self, name, *flags):
        if not shutil.which("gcc"):
            stop("there is no gcc")
        words = [
            "gcc",
            "-O2",
            "-o",
            f"{self.room}/{name}",
            f"{TOP}/bench/{name}.c",
            *os.environ.get("CFLAGS", "").split(),
            *flags,
        ]
        if subprocess.run(words, check=False).returncode:
            stop(f"{name}.c isn't built: are libpam's headers there (libpam0g-dev)?")

    def write_services(self, folder, before_included):
        """Services of so many lines of pam_permit (that of 4,000 is four files of 1,000, included), and one in Debian's
        form: a file that includes four others, eight lines in all. libpam looks for an included file in /etc/pam.d, if
        it isn't named by its whole path. It reads `other` at each start, and pamsess for the types of which the service
        has no line."""
        common = {
            "common-auth": (
                "auth [success=1 default=ignore] pam_permit.so\nauth requisite pam_deny.so\n"
                "auth required pam_permit.so\n"
            ),
            "common-account": (
                "account [success=1 default=ignore] pam_permit.so\naccount requisite pam_deny.so\n"
                "account required pam_permit.so\n"
            ),
            "common-password": f"password {PERMIT}\n",
            "common-session": f"session {PERMIT}\n",
        }
        files = {
            **common,
            "other": "".join(f"{kind} {PERMIT}\n" for kind in TYPES),
            "debian": "".join(f"@include {before_included}{name}\n" for name in common),
        }
        files |= {str(lines): f"auth {PERMIT}\n" * lines for lines in (1, 10, 100, 1000)}
        files["4000"] = f"auth include {before_included}1000\n" * 4
        for name, text in files.items():
            write(f"{folder}/{name}", text)

    def script(self, service, starts, passes):
        step = f"start 1 {service} joe\n" + "authenticate 1\n" * passes + "end 1 0\n"
        return write(f"{self.room}/scripts/{service}-{starts}-{passes}", step * starts)

    def ours(self, service, lines, starts, passes):
        return [self.script(service, starts, passes), PROGRAM, "run", self.room]

    def theirs(self, held, service, lines, starts, passes):
        return [
            self.nothing, f"{self.room}/libpam", held, f"{self.room}/libpam.d", service, lines, str(starts), str(passes)
        ]

    def sides(self):
        return self.ours, lambda *it: self.theirs(self.held, *it), lambda *it: self.theirs("-", *it)

    def check(self, service, lines):
        """All sides print the same, so that none does less."""
        reports = []
        for side in self.sides():
            given, *words = side(service, lines, 2, 2)
            with open(given, "rb") as file:
                run = subprocess.run(words, stdin=file, stdout=subprocess.PIPE, check=False)
            reports.append((run.returncode, run.stdout))
        if len(set(reports)) != 1 or not reports[0][1]:
            stop(f"the reports differ on the service {service}")

    def in_turns(self, commands, before=()):
        """The least microseconds of the processor that each command took, and the most memory in KB. A command is its
        input and its words."""
        words = [f"{self.room}/interleaved", str(self.rounds)]
        for command in commands:
            words += [*command, "--"]
        run = subprocess.run([*before, *words[:-1]], stdout=subprocess.PIPE, text=True, check=False)
        if run.returncode:
            stop("a run failed")
        return [tuple(map(int, line.split())) for line in run.stdout.splitlines()]


def ratio(part, whole, goal):
    return f"{part / whole:#.2g}" + (f" (at most {goal:.2f})" if goal else "")


def transactions(bench):
    print(
        "| Microseconds of | pamsess | libpam, modules held open | pamsess to it | libpam, modules opened | pamsess "
        "to it |"
    )
    print("|---|--:|--:|--:|--:|--:|", flush=True)
    for name, service, lines, starts, passes, goal_held, goal_opened in CASES:
        bench.check(service, lines)
        # (if passes are what is measured, a start without them is subtracted)
        repeats, none = (passes, (1, 0)) if passes > 1 else (starts, (0, 0))
        sides = bench.sides()
        found = bench.in_turns(
            [it(service, lines, starts, passes) for it in sides] + [it(service, lines, *none) for it in sides]
        )
        ours, held, opened = ((found[i][0] - found[i + 3][0]) / repeats for i in range(3))
        print(
            (
                f"| {name} | {ours:,.1f} | {held:,.1f} | {ratio(ours, held, goal_held)} | {opened:,.1f} "
                f"| {ratio(ours, opened, goal_opened)} |"
            ),
            flush=True,
        )


def host(bench):
    """A copy of what both sides read of /etc, with an account and two services."""
    for name in ("nsswitch.conf", "ld.so.cache", "login.defs", "localtime"):
        if os.path.isfile(f"/etc/{name}"):
            os.makedirs(f"{bench.room}/host/etc", exist_ok=True)
            shutil.copy(f"/etc/{name}", f"{bench.room}/host/etc")
    etc = f"{bench.room}/host/etc"
    write(f"{etc}/passwd", "root:x:0:0:root:/root:/bin/sh\njoe:x:1000:1000::/:/bin/sh\n")
    write(f"{etc}/group", "root:x:0:\nshadow:x:42:\njoe:x:1000:\n")
    write(f"{etc}/shadow", f"root:*:19000:0:99999:7:::\njoe:{HASH}:19000:0:99999:7:::\n")
    for module in ("pam_permit", "pam_unix"):
        write(f"{etc}/pam.d/{module}", "".join(f"{kind} required {module}.so\n" for kind in TYPES))
    write(f"{etc}/pam.d/other", "".join(f"{kind} required pam_deny.so\n" for kind in TYPES))
    return f"{bench.room}/host"


def tester():
    found = os.environ.get("PAMTESTER") or shutil.which("pamtester")
    if not found:
        stop("there is no pamtester (apt-get install pamtester, or PAMTESTER names one)")
    return found


def processes_of(bench):
    """The commands of the table of processes by their names: pairs of ours and pamtester's, and `true`. Each is run in
    a mount namespace."""
    root, their = host(bench), tester()
    calls = [
        "authenticate",
        "acct_mgmt",
        "setcred(PAM_ESTABLISH_CRED)",
        "open_session",
        "close_session",
        "setcred(PAM_REINITIALIZE_CRED)",
    ]
    password = write(f"{bench.room}/password", "Hello world!\n")
    found = {}
    for module, goal in (("pam_permit", 0.55), ("pam_unix", 0.42)):
        # (the clock is set, since without it no password is too old)
        reply = "reply 1 Hello world!\n" if module == "pam_unix" else ""
        script = write(
            f"{bench.room}/scripts/{module}",
            f"at 1800000000\nstart 1 {module} joe\n{reply}authenticate 1\nacct_mgmt 1\nend 1 0\n",
        )
        found[f"`run`, {module}: authenticate, acct_mgmt"] = (
            [script, PROGRAM, "run", root],
            [password, their, module, "joe", *calls[:2]],
            None,
        )
        found[f"`login`, {module}: six calls"] = (
            [password, PROGRAM, "login", root, module, "joe"],
            [password, their, module, "joe", *calls],
            goal,
        )
    return found, [bench.nothing, "/bin/true"], root


def in_namespace(root):
    """The words that run a command where /etc is another directory."""
    if os.geteuid():
        stop("the tables of processes and memory want root, for a mount namespace")
    return [
        "unshare",
        "--mount",
        "sh",
        "-c",
        f'mount --make-rprivate / && mount --bind "{root}/etc" /etc && exec "$@"',
        "sh",
    ]


def look_at_runs(commands, before):
    """Both sides do what they are to do."""
    for ours, theirs, _ in commands.values():
        for given, *words in (ours, theirs):
            with open(given, "rb") as file:
                run = subprocess.run(
                    [*before, *words], stdin=file, stdout=subprocess.PIPE, stderr=subprocess.STDOUT, check=False
                )
            if run.returncode or b"ERR" in run.stdout or b"Failed" in run.stdout:
                stop(f"{' '.join(words)} failed: {run.stdout.decode(errors='replace')}")


def measured_processes(bench):
    commands, true, root = processes_of(bench)
    before = in_namespace(root)
    look_at_runs(commands, before)
    rounds, bench.rounds = bench.rounds, 10 * bench.rounds
    found = bench.in_turns([it for ours, theirs, _ in commands.values() for it in (ours, theirs)] + [true], before)
    bench.rounds = rounds
    return commands, found


def processes(bench):
    commands, found = measured_processes(bench)
    print("| Microseconds of a process | pamsess | pamtester | pamsess to it |")
    print("|---|--:|--:|--:|")
    for at, (name, (_, _, goal)) in enumerate(commands.items()):
        ours, theirs = found[2 * at][0], found[2 * at + 1][0]
        print(f"| {name} | {ours:,} | {theirs:,} | {ratio(ours, theirs, goal)} |")
    print(f"| `/bin/true` | {found[-1][0]:,} | | |", flush=True)


def memory(bench):
    print("| KB of memory, at most | pamsess | libpam |")
    print("|---|--:|--:|")
    for service in ("1", "100", "1000", "4000"):
        found = bench.in_turns(
            [it(service, service, 5, 1) for it in bench.sides()[:2]]
            if service != "4000"
            else [it(service, service, 2, 0) for it in bench.sides()[:2]]
        )
        print(
            (
                f"| transactions on {int(service):,} line{'' if service == '1' else 's'} | {found[0][1]:,} "
                f"| {found[1][1]:,} |"
            ),
            flush=True,
        )
    commands, found = measured_processes(bench)
    for at, name in enumerate(commands):
        if "six calls" in name:
            print(f"| {name}, beside pamtester | {found[2 * at][1]:,} | {found[2 * at + 1][1]:,} |", flush=True)


def instructions(command):
    given, *words = command
    words = ["valgrind", "--tool=callgrind", "--callgrind-out-file=/dev/null", *words]
    with open(given, "rb") as file:
        run = subprocess.run(
            words,
            stdin=file,
            stdout=subprocess.DEVNULL,
            stderr=subprocess.PIPE,
            check=False,
            env={**os.environ, "GLIBC_TUNABLES": TUNABLES},
        )
    found = re.search(rb"I +refs: +([0-9,]+)", run.stderr)
    if not found:
        stop(f"valgrind doesn't count:\n{run.stderr.decode(errors='replace')}")
    return int(found[1].replace(b",", b""))


def counts(bench):
    if not shutil.which("valgrind"):
        stop("there is no valgrind")
    names = {(case[1], case[4]): case[0] for case in CASES}
    print("| Instructions of | pamsess | libpam, modules held open | pamsess to it |")
    print("|---|--:|--:|--:|", flush=True)
    for service, lines, starts, passes in COUNTED:
        bench.check(service, lines)
        ours, held = (
            (instructions(it(service, lines, starts, passes)) - instructions(it(service, lines, 0, 0))) / starts
            for it in bench.sides()[:2]
        )
        print(f"| {names[service, passes]} | {ours:,.0f} | {held:,.0f} | {ours / held:#.2g} |", flush=True)


def calls_of(bench, command):
    """How often each system call is made."""
    given, *words = command
    with open(given, "rb") as file:
        subprocess.run(
            ["strace", "-f", "-c", "-o", f"{bench.room}/strace", *words],
            stdin=file,
            stdout=subprocess.DEVNULL,
            check=False,
        )
    with open(f"{bench.room}/strace", encoding="ascii") as file:
        rows = [line.split() for line in file if re.match(r" *[0-9.]+ ", line)]
    return {row[-1]: int(row[3]) for row in rows if row[-1] != "total"}


def calls(bench):
    if not shutil.which("strace"):
        stop("there is no strace")
    print("| System calls of start, authenticate, end | pamsess | libpam, modules held open |")
    print("|---|---|---|")
    for name, service, lines in (("1 line", "1", "1"), ("Debian's form", "debian", "1,3")):
        cells = []
        for side in bench.sides()[:2]:
            whole, none = calls_of(bench, side(service, lines, 100, 1)), calls_of(bench, side(service, lines, 0, 0))
            each = {call: round((count - none.get(call, 0)) / 100, 1) for call, count in whole.items()}
            cells.append(
                ", ".join(
                    f"{call} {count:g}" for call, count in sorted(each.items(), key=lambda it: -it[1]) if count >= 0.5
                )
            )
        print(f"| {name} | {cells[0]} | {cells[1]} |", flush=True)
    bench.compile("reads")
    included = [f"common-{kind}" for kind in TYPES]
    sets = [["1", "1", "other"], [str(1 + len(included)), "debian", *included]]
    alone = [
        subprocess.run(
            [f"{bench.room}/reads", bench.room, str(bench.rounds), *it], stdout=subprocess.PIPE, text=True, check=True
        ).stdout.split()
        for it in sets
    ]
    print("\n| Microseconds of the calls on files alone, in a C program | 1 line | Debian's form |")
    print("|---|--:|--:|")
    print(f"| files that stay open | {alone[0][0]} | {alone[1][0]} |")
    print(f"| each file opened and closed | {alone[0][1]} | {alone[1][1]} |", flush=True)


def part_of(mode, file, name):
    """Which part of the time a symbol belongs to, as perf names it."""
    if mode == "k":
        return "kernel"
    if "libc.so" not in file:
        return "program"
    if re.search("alloc|free|consolidate|unlink_chunk", name):
        return "malloc"
    return "bytes" if re.search("^_*(mem|str)", name) else "libc"


def parts(bench):
    """Where the time of pamsess goes, by samples of its run."""
    if not shutil.which("perf"):
        stop("there is no perf (linux-perf)")
    print(
        "| Microseconds of pamsess | whole | kernel | malloc and free | bytes cleared, copied, compared by the C "
        "library | other calls of the C library | program |"
    )
    print("|---|--:|--:|--:|--:|--:|--:|", flush=True)
    for name, service, lines, starts, passes, *_ in CASES[:6]:
        if (service, passes) == ("1000", 1):
            continue
        # (a script has 65,536 lines at most)
        starts = min(10 * starts, 20000)
        command = bench.ours(service, lines, starts, passes)
        whole = bench.in_turns([command])[0][0] / starts
        words = ["perf", "record", "-q", "-F", "8000", "-e", "cpu-clock", "-o", f"{bench.room}/perf", *command[1:]]
        with open(command[0], "rb") as file:
            subprocess.run(words, stdin=file, stdout=subprocess.DEVNULL, stderr=subprocess.DEVNULL, check=True)
        words = ["perf", "report", "-q", "--stdio", "--sort", "dso,sym", "-i", f"{bench.room}/perf"]
        report = subprocess.run(words, stdout=subprocess.PIPE, stderr=subprocess.DEVNULL, text=True, check=True).stdout
        shares = dict.fromkeys(("kernel", "malloc", "bytes", "libc", "program"), 0.0)
        for share, file, mode, symbol in re.findall(r"(?m)^ *([0-9.]+)% +(\S+) +\[(.)\] +(\S+)", report):
            shares[part_of(mode, file, symbol)] += float(share)
        total = sum(shares.values())
        print(
            f"| {name} | {whole:,.1f} | " + " | ".join(
                f"{whole * share / total:,.1f}" for share in shares.values()
            ) + " |",
            flush=True,
        )


def into_page(printed):
    """Each table takes the place of the one in docs/speed.md that has the same first line, if there is one."""
    with open(PAGE, encoding="utf-8") as file:
        page = file.read()
    for table in re.findall(r"(?m)(?:^\|.*\n)+", printed):
        head = table.split("\n", 1)[0]
        page, found = re.subn(rf"(?m)^{re.escape(head)}\n(?:^\|.*\n)*", lambda _, table=table: table, page)
        if found > 1:
            stop(f"docs/speed.md has {found} tables that begin with {head}")
    with open(PAGE, "w", encoding="utf-8") as file:
        file.write(page)


def main(words):
    if words[:1] in (["-h"], ["--help"]):
        print(__doc__.strip())
        return
    rounds, to_page = 10, words[:1] == ["--page"]
    words = words[to_page:]
    if words[:1] == ["--rounds"] and len(words) > 1 and words[1].isdigit():
        rounds, words = int(words[1]), words[2:]
    if not set(words) <= set(TABLES):
        sys.exit(__doc__.strip())
    with tempfile.TemporaryDirectory(prefix="beside-") as room:
        os.chmod(room, 0o755)
        bench = Bench(room, rounds)
        for number, name in enumerate(words or TABLES):
            print("\n" if number else "", end="", flush=True)
            printed = io.StringIO()
            with contextlib.redirect_stdout(printed if to_page else sys.stdout):
                globals()[name](bench)
            if to_page:
                print(printed.getvalue(), end="", flush=True)
                into_page(printed.getvalue())


main(sys.argv[1:])
