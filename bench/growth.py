#!/usr/bin/env python3
"""Measures how the time of costly input grows with its size: replies that wait, variables set and deleted, module data
looked up by name, groups looked up in a list. Each is run in three sizes, each twice the one before: what is linear
takes twice as long then, what grows with the square four times. Prints seconds of the processor (user and system), the
least of N runs, for the built program and, if its path is given, for an earlier one beside it.

  bench/growth.py [--rounds N] [EARLIER]

PAMSESS names another program than ./build's. Without --rounds there are three; sizes whose run takes over a minute
aren't repeated.
"""
import os
import subprocess
import sys
import tempfile

sys.dont_write_bytecode = True
TOP = os.path.dirname(os.path.dirname(os.path.abspath(__file__)))
sys.path.insert(0, f"{TOP}/lib")
import common

PROGRAM = common.place_of("pam_session_cli", "pamsess", "PAMSESS")
LONG = 60
START = b"start 1 u joe\n"


def probes(words, each):
    """Lines of pam_probe with these arguments, so many in each."""
    return b"".join(
        b"auth required pam_probe.so " + b" ".join(words[at : at + each]) + b"\n" for at in range(0, len(words), each)
    )


def replies(size):
    """So many replies that are stored, and then prompts that take them."""
    return (
        {"etc/pam.d/u": probes([b"ask=Q"] * 600, 600)},
        START + b"reply 1 x\n" * size + b"authenticate 1\n" * (size // 600),
    )


def variables(size):
    """So many variables, deleted in the order in which they were set."""
    return (
        {"etc/pam.d/u": b"auth required pam_permit.so\n"},
        START + b"".join(
            b"putenv 1 A%d=1\n" % i for i in range(size)
        ) + b"".join(b"putenv 1 A%d\n" % i for i in range(size)),
    )


def data(size):
    """So many module data of one transaction, each with its own name."""
    files = {
        f"etc/pam.d/n{part}": probes([b"set=%d%05d:" % (part, i) for i in range(size // 4)], 330) for part in range(4)
    }
    return (
        {**files, "etc/pam.d/u": b"".join(b"auth include n%d\n" % part for part in range(4))},
        START + b"authenticate 1\n",
    )


def groups(size):
    """So many groups of the user, none of which is among a hundred times as many lines of a list."""
    files = {"etc/group": b"".join(b"a%05d:x:7:joe\n" % i for i in range(size)), "etc/list": b"zz\n" * (113 * size)}
    return (
        {**files, "etc/pam.d/u": b"auth required pam_listfile.so item=group sense=deny file=/etc/list\n"},
        START + b"authenticate 1\n",
    )


CASES = (
    ("replies that wait", replies, (15_000, 30_000, 60_000)),
    ("variables set and deleted", variables, (8_000, 16_000, 32_000)),
    ("module data of one transaction", data, (5_000, 10_000, 20_000)),
    ("groups looked up in a list of 113 lines for each", groups, (750, 1_500, 3_000)),
)


def write(root, files):
    for path, text in {"etc/passwd": b"joe:x:1000:1000::/:/bin/sh\n", "etc/group": b"", **files}.items():
        os.makedirs(os.path.dirname(f"{root}/{path}"), exist_ok=True)
        with open(f"{root}/{path}", "wb") as file:
            file.write(text)


def seconds(program, root, script, rounds):
    """The least seconds of some runs; of one, if that is long."""
    least = None
    for _ in range(rounds):
        with open(script, "rb") as file:
            run = subprocess.Popen([program, "run", root], stdin=file, stdout=subprocess.DEVNULL)
            _, status, used = os.wait4(run.pid, 0)
            run.returncode = status
        if status:
            sys.exit(f"growth: {program} ended with status {os.waitstatus_to_exitcode(status)}")
        took = used.ru_utime + used.ru_stime
        least = took if least is None else min(least, took)
        if took > LONG:
            break
    return least


def main(words):
    if words[:1] in (["-h"], ["--help"]):
        print(__doc__.strip())
        return
    rounds = 3
    if words[:1] == ["--rounds"] and len(words) > 1 and words[1].isdigit():
        rounds, words = int(words[1]), words[2:]
    if len(words) > 1 or words[:1] and words[0].startswith("-"):
        sys.exit(__doc__.strip())
    programs = [PROGRAM, *map(os.path.abspath, words)]
    for program in programs:
        if not os.access(program, os.X_OK):
            sys.exit(f"growth: there is no program {program}: ./build builds it")
    print(
        "| Input | Size | Seconds | Times the size before |"
        + (" Earlier program | Times the size before |" if words else "")
    )
    print("|---|--:|--:|--:|" + ("--:|--:|" if words else ""), flush=True)
    for name, made, sizes in CASES:
        before = [None] * len(programs)
        for size in sizes:
            with tempfile.TemporaryDirectory(prefix="growth-") as room:
                files, script = made(size)
                write(f"{room}/root", files)
                with open(f"{room}/script", "wb") as file:
                    file.write(script)
                row = f"| {name} | {size:,} |"
                for at, program in enumerate(programs):
                    took = seconds(program, f"{room}/root", f"{room}/script", rounds)
                    row += f" {took:.2f} | " + (f"{took / before[at]:.1f}" if before[at] else "") + " |"
                    before[at] = took
                print(row, flush=True)


main(sys.argv[1:])
