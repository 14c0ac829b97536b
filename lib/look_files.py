"""What check-all finds in files, whatever the stacks are: texts of service files, accounts, and settings of modules."""
import re

import common
import modules
import replacing
from common import Unread
from trees import is_service

FAULT, WARNING, NOTE = "fault", "warning", "note"
# The keys of faillock.conf(5) and pwhistory.conf(5).
KEYS = {
    "etc/security/faillock.conf": (
        replacing.FAILLOCK,
        {"audit", "silent", "no_log_info", "nodelay", "local_users_only", "root_unlock_time", "admin_group"},
    ),
    "etc/security/pwhistory.conf": (replacing.PWHISTORY, {"debug", "retry", "file"}),
}
# Those of which nothing is lost in a trial.
QUIET = {"audit", "silent", "no_log_info", "nodelay", "debug", "retry"}


def look_at_text(found, path, text):
    """Lines that libpam cuts, and a last line that is continued."""
    joined, begin = "", 0
    for number, line in enumerate(text.split("\n"), 1):
        begin = begin or number
        joined += line
        if len(joined) >= 1023:
            found.add(
                WARNING,
                f"{path}:{begin}",
                (
                    "this line has 1,023 bytes or more, with those joined to it: before 1.6 libpam cuts it there, "
                    "and reads the rest as another rule"
                ),
                None,
            )
            joined = ""
        if not re.search(r"\\\r?$", line) or line.lstrip().startswith("#"):
            joined, begin = "", 0
    last = text.rstrip(" \t\r\n").rsplit("\n", 1)[-1]
    if last.endswith("\\") and not last.lstrip().startswith("#"):
        number = text.rstrip(" \t\r\n").count("\n") + 1
        found.add(
            WARNING,
            f"{path}:{number}",
            (
                "the file ends in a continued line: libpam refuses the whole file, and every service that includes "
                "it; pamsess reads it"
            ),
            None,
        )


def look_at_texts(found, tree):
    paths = [f"etc/pam.d/{name}" for name in tree.below.names("etc/pam.d")] if tree.has_directory else ["etc/pam.conf"]
    for path in paths:
        name = path.rsplit("/", 1)[-1]
        if is_service(name) and tree.below.is_file(path):
            look_at_text(found, path, tree.below.text(path, common.MOST))


def look_at_accounts(found, below):
    """Lines that aren't entries, and files that are nearly too long to be read."""
    forms = {"passwd": replacing.is_passwd, "group": replacing.is_group, "shadow": replacing.is_shadow}
    for name, is_entry in forms.items():
        try:
            text = below.read(f"etc/{name}", 64 << 20)
        except Unread as fault:
            if below.is_file(f"etc/{name}") and name != "shadow":
                found.add(WARNING, f"etc/{name}", f"it can't be read: {fault}", None)
            continue
        lines = text.split("\n")
        bad = [
            number for number, line in enumerate(lines, 1) if not replacing.is_passed_over(line) and not is_entry(line)
        ]
        more = f" (also in line {', '.join(map(str, bad[1:4]))}{' ..' if len(bad) > 4 else ''})" if bad[1:] else ""
        if bad:
            found.add(
                WARNING,
                f"etc/{name}:{bad[0]}",
                f"this isn't an entry of {name}(5){more}: libpam passes over it, pamsess denies everybody",
                None,
            )
        if len(text) > common.MOST * 9 // 10:
            what = (
                "has more bytes than pamsess reads" if len(text) > common.MOST else "is nearly as long as pamsess reads"
            )
            found.add(
                WARNING,
                f"etc/{name}",
                f"it {what} ({len(text):,} of {common.MOST:,}): beyond that nobody logs in here",
                None,
            )


def look_at_settings(found, below):
    """Keys that nobody knows, and those that mean nothing here."""
    for path, (here, others) in KEYS.items():
        for number, line in enumerate(below.text(path).split("\n"), 1):
            line = line.partition("#")[0].strip()
            key, _, value = (part.strip() for part in line.partition("="))
            if not line or key in here | QUIET:
                if (
                    key in ("deny", "fail_interval", "unlock_time", "remember")
                    and not re.fullmatch("[0-9]{1,9}|never", value)
                ):
                    found.add(WARNING, f"{path}:{number}", f"{key} needs a number, and not `{value}`", None)
            elif key in others:
                found.add(NOTE, f"{path}:{number}", f"{key} isn't tried: pamsess's module has nothing like it", None)
            else:
                found.add(WARNING, f"{path}:{number}", f"there is no setting {key}{near(key, here | others)}", None)
        if (
            path.endswith("faillock.conf")
            and any(line.partition("#")[0].strip() for line in below.text(path).split("\n"))
        ):
            found.add(NOTE, path, "pamsess doesn't read it: stand-in makes its settings arguments", None)


def distance(one, other):
    """How many letters are to be changed, put in, taken out, or swapped with the next."""
    rows = [list(range(len(other) + 1))]
    for i, a in enumerate(one, 1):
        row = [i]
        for j, b in enumerate(other, 1):
            best = min(rows[-1][j] + 1, row[-1] + 1, rows[-1][j - 1] + (a != b))
            if i > 1 and j > 1 and a == other[j - 2] and one[i - 2] == b:
                best = min(best, rows[-2][j - 2] + 1)
            row.append(best)
        rows.append(row)
    return rows[-1][-1]


def nearest(name, names):
    """The name that is at most two letters away, the nearest; None if there is none."""
    near_ones = sorted((distance(name, other), other) for other in names if abs(len(other) - len(name)) <= 2)
    return near_ones[0][1] if near_ones and near_ones[0][0] <= min(2, len(name) // 3) else None


def near(name, names):
    meant = nearest(name, names)
    return f": is {meant} meant?" if meant else ""


def near_module(module):
    return nearest(module, modules.KNOWN)
