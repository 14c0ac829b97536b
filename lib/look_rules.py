"""What check-all finds in the rules of a stack, each by itself or beside those before it: modules, paths and
arguments."""
import re

import common
import modules
from look_files import NOTE, WARNING, near, near_module

# Of each module that pamsess has: the arguments that it takes, those with a value by `=`, and those that only
# Linux-PAM's has, of which something is lost here. `debug` and others that change no return code aren't named.
CODES = "auth= cred= acct= prechauthtok= chauthtok= open_session= close_session="
HERE = {
    "pam_permit": "",
    "pam_deny": "",
    "pam_rootok": "",
    "pam_debug": CODES,
    "pam_probe": "set= say= ask= delay= answer=",
    "pam_nologin": "file= successok",
    "pam_listfile": "item= sense= file= onerr= apply=",
    "pam_shells": "",
    "pam_env": "conffile= envfile= readenv=",
    "pam_wheel": "group= deny trust root_only",
    "pam_securetty": "",
    "pam_unix": "nullok nodelay use_first_pass try_first_pass use_authtok sha256 sha512 rounds=",
    "pam_pwhistory": "remember= use_authtok enforce_for_root",
    "pam_faillock": "preauth authfail authsucc deny= fail_interval= unlock_time= even_deny_root dir=",
}
SAME = {
    "pam_wheel": "use_uid",
    "pam_listfile": "quiet",
    "pam_securetty": "noconsole",
    "pam_unix": (
        "audit quiet shadow md5 bigcrypt blowfish gost_yescrypt yescrypt obscure likeauth authtok_type= nis noreap "
        "not_set_pass expose_account"
    ),
    "pam_pwhistory": "retry= authtok_type= try_first_pass use_first_pass",
    "pam_faillock": "audit silent no_log_info nodelay",
    "pam_env": "",
}
LOST = {
    "pam_env": "user_envfile= user_readenv=",
    "pam_unix": "nullok_secure nullresetok broken_shadow no_pass_expiry remember= minlen=",
    "pam_pwhistory": "conf= file=",
    "pam_faillock": "root_unlock_time= admin_group= local_users_only conf=",
}
VALUES = {
    "item": "tty user rhost ruser group shell",
    "sense": "allow deny",
    "onerr": "succeed fail",
    "deny": "[0-9]{1,9}",
    "fail_interval": "[0-9]{1,9}",
    "unlock_time": "[0-9]{1,9} never",
    "remember": "[0-9]{1,3}",
    "rounds": "[0-9]{1,9}",
}
FIELDS = {"user", "tty", "rhost", "ruser", "service", "uid", "gid", "shell", "home"}
TESTS = set("lt < le <= eq ne ge >= gt > = != in notin ingroup notingroup".split())
ONLY_THERE = set("=~ !~ innetgr notinnetgr".split())
FLAGS = {"debug", "audit", "quiet", "quiet_fail", "quiet_success", "use_uid"}


def look_at_arguments(found, rule, of):
    """Arguments that nobody knows, and those that do nothing here."""
    if rule.module == "pam_succeed_if":
        look_at_conditions(found, rule, of)
        return
    if rule.module not in HERE:
        return
    here, same, lost = (set(table.get(rule.module, "").split()) for table in (HERE, SAME, LOST))
    same |= {"debug"}
    for word in rule.arguments:
        key, equals, value = word.partition("=")
        name = key + equals
        if name in here:
            forms = VALUES.get(key, "").split()
            if forms and not any(re.fullmatch(form, value) for form in forms):
                found.add(WARNING, rule.where(), f"{rule.module}.so doesn't know the value `{value}` of {key}", of)
        elif name in lost:
            found.place(NOTE, f"{rule.module}.so", f"its argument {key} does nothing here", rule.where())
        elif name in same:
            continue
        elif key in {it.rstrip("=") for it in here | same | lost}:
            found.add(
                WARNING,
                rule.where(),
                (
                    f"the argument {key} of {rule.module}.so "
                    f"{'takes no value' if equals else 'needs a value: ' + key + '=..'}"
                ),
                of,
            )
        elif not (rule.module in ("pam_debug", "pam_probe", "pam_listfile", "pam_pwhistory") and is_stood_in(rule)):
            found.add(
                WARNING,
                rule.where(),
                f"{rule.module}.so has no argument {word}{near(key, {it.rstrip('=') for it in here | same | lost})}",
                of,
            )


def is_stood_in(rule):
    return any(re.fullmatch(r"(\S*/)?pam_[A-Za-z0-9_-]+(\.so)?", word) for word in rule.arguments)


def look_at_conditions(found, rule, of):
    words = [word for word in rule.arguments if word not in FLAGS]
    if "use_uid" in rule.arguments:
        found.add(NOTE, rule.where(), "use_uid of pam_succeed_if.so returns SERVICE_ERR here", of)
    for at in range(0, len(words), 3):
        condition = words[at : at + 3]
        text = " ".join(condition)
        if len(condition) < 3:
            found.add(
                WARNING,
                rule.where(),
                f"the condition `{text}` of pam_succeed_if.so isn't FIELD TEST VALUE: it returns SERVICE_ERR",
                of,
            )
        elif condition[1] in ONLY_THERE:
            found.place(NOTE, "pam_succeed_if.so", f"its test {condition[1]} returns SERVICE_ERR here", rule.where())
        elif condition[0] not in FIELDS or condition[1] not in TESTS:
            odd = condition[0] if condition[0] not in FIELDS else condition[1]
            found.add(
                WARNING,
                rule.where(),
                (
                    f"pam_succeed_if.so knows nothing called `{odd}`{near(odd, FIELDS | TESTS) or '.'} It returns "
                    "SERVICE_ERR"
                ),
                of,
            )


def refuses(rule):
    """Whether a failure of a rule counts."""
    return rule.actions["auth_err"] in ("bad", "die")


def look_at_what_is_named(found, below, rule, of):
    """Files and groups that an argument names, and that don't exist. A tree without accounts isn't a host's."""
    if not below.is_file("etc/passwd"):
        return
    given = {key: value for key, _, value in (word.partition("=") for word in rule.arguments)}
    groups = {line.split(":")[0] for line in below.text("etc/group").split("\n")}
    if rule.module == "pam_listfile" and given.get("file", "").startswith("/"):
        is_there, forgives = below.is_file(given["file"]), given.get("onerr") == "succeed"
        if not is_there and forgives and given.get("sense") == "deny":
            found.add(
                WARNING,
                rule.where(),
                (
                    f"the list {given['file']} of pam_listfile.so isn't a file that can be read, and with "
                    "onerr=succeed it then refuses nobody"
                ),
                of,
            )
        elif not is_there and not forgives and refuses(rule):
            found.add(
                WARNING,
                rule.where(),
                (
                    f"the list {given['file']} of pam_listfile.so isn't a file that can be read: it refuses "
                    "everybody (SERVICE_ERR)"
                ),
                of,
            )
        elif forgives and given.get("sense") == "deny":
            found.add(
                NOTE,
                rule.where(),
                (
                    "onerr=succeed with sense=deny: if the list or an account file can't be read, pam_listfile.so "
                    "refuses nobody"
                ),
                of,
            )
    if rule.module == "pam_wheel" and "deny" not in given and refuses(rule):
        name = given.get("group", "wheel")
        if name not in groups:
            who = "refuses everybody" if "group" in given else "refuses everybody who isn't in the group with ID 0"
            found.add(WARNING, rule.where(), f"there is no group {name}: pam_wheel.so {who}", of)
    if rule.module == "pam_succeed_if" and refuses(rule):
        words = [word for word in rule.arguments if word not in FLAGS]
        for at in range(0, len(words) - 2, 3):
            names = words[at + 2].split(":")
            if words[at] == "user" and words[at + 1] == "ingroup" and not groups & set(names):
                found.add(
                    WARNING,
                    rule.where(),
                    f"there is no group {' or '.join(names)}: pam_succeed_if.so refuses everybody",
                    of,
                )


def asks(rule):
    """Whether a rule asks for a password that later ones may use."""
    if rule.kind == "password":
        return (
            (rule.module in modules.WHO | modules.ASKS | {"pam_pwhistory"} or rule.module not in modules.KNOWN)
            and not {"use_authtok", "use_first_pass"} & set(rule.arguments)
        )
    return (
        (rule.module in modules.WHO or rule.module not in modules.KNOWN or rule.module in ("pam_exec", "pam_gdm"))
        and "use_first_pass" not in rule.arguments
    )


def look_at_passwords(found, rules, of):
    """Rules that take a password for which no rule before them asks, and faillock's rules that aren't whole."""
    has_asked = False
    for rule in rules:
        takes = {"use_authtok"} if rule.kind == "password" else {"use_first_pass"}
        taken = takes & set(rule.arguments)
        if taken and not has_asked and (rule.module in modules.WHO or rule.module == "pam_pwhistory"):
            effect = "no password can be changed by it" if rule.kind == "password" else "it refuses everybody"
            found.add(
                WARNING,
                rule.where(),
                f"{rule.module}.so has {taken.pop()}, but no rule before it asks for a password: {effect}",
                of,
            )
            has_asked = True
        has_asked = has_asked or asks(rule)


def look_at_faillock(found, stacks, of):
    """Rules of pam_faillock without the others that they need."""
    lines = [rule for rule in stacks["auth"] if rule.module == "pam_faillock"]
    if not lines:
        return
    modes = {word: rule for rule in lines for word in rule.arguments if word in ("preauth", "authfail", "authsucc")}
    for rule in lines:
        if not {"preauth", "authfail", "authsucc"} & set(rule.arguments):
            found.add(WARNING, rule.where(), "pam_faillock.so has none of preauth, authfail and authsucc", of)
    fails = modes.get("authfail")
    if not fails:
        if modes:
            found.add(
                WARNING, lines[0].where(), "pam_faillock.so has no rule with authfail: no failure is recorded", of
            )
        return
    before = stacks["auth"][: stacks["auth"].index(fails)]
    if not any(rule.module in modules.WHO or rule.module not in modules.KNOWN for rule in before):
        found.add(
            WARNING,
            fails.where(),
            (
                "pam_faillock.so authfail comes before the modules that verify the user: each login is recorded as a "
                "failure"
            ),
            of,
        )
    if "preauth" not in modes and "authsucc" not in modes:
        found.add(
            WARNING,
            fails.where(),
            (
                "pam_faillock.so has authfail, but neither preauth nor authsucc: a user who is locked gets in with "
                "the right password"
            ),
            of,
        )
    if "authsucc" not in modes and not any(rule.module == "pam_faillock" for rule in stacks["account"]):
        found.add(
            WARNING,
            fails.where(),
            "pam_faillock.so has no rule in account, and none with authsucc: failures are never cleared",
            of,
        )


def look_at_path(found, rule, of):
    if not rule.path.endswith(".so") and (rule.file, rule.path) not in found.paths:
        found.paths.add((rule.file, rule.path))
        found.add(
            WARNING,
            rule.where(),
            f"the path {rule.path} doesn't end in .so: libpam finds no such module; pamsess takes it for {rule.module}",
            of,
        )


def look_at_modules(found, below, used):
    """Modules that aren't on the disk, and those that pamsess doesn't have. `used` has pairs of a service and a
    rule."""
    disk = modules.Disk(below)
    is_own = bool(disk.directories)
    here = disk if is_own else modules.Disk(common.Below("/"))
    missing, others = {}, {}
    for service, rule in used:
        path = rule.path if rule.path.endswith(".so") else f"{rule.path}.so"
        if is_own:
            is_there = disk.has(path)
        else:
            is_there = rule.module in modules.KNOWN - set(modules.OBSOLETE) or f"{rule.module}.so" in here.files
        if not is_there and not rule.silent:
            missing.setdefault((rule.path, rule.file), []).append((service, rule))
        elif rule.module not in modules.HERE_TOO:
            others.setdefault(rule.module, []).append(rule)
    for (path, _), pairs in missing.items():
        say_missing(found, below, path, pairs, is_own)
    for module, rules in sorted(others.items()):
        for rule in rules:
            found.place(
                NOTE,
                f"{module}.so",
                "pamsess doesn't have this module: here its lines return MODULE_UNKNOWN; stand-in replaces it",
                rule.where(),
            )


def say_missing(found, below, path, pairs, is_own):
    first = min((rule for _, rule in pairs), key=lambda rule: rule.line)
    numbers = sorted({rule.line for _, rule in pairs})
    also = (
        f" (also in line {', '.join(map(str, numbers[1:4]))}{' ..' if len(numbers) > 4 else ''})" if numbers[1:] else ""
    )
    old = modules.OBSOLETE.get(first.module)
    meant = None if old or first.module in modules.KNOWN else near_module(first.module)
    hint = f"it is no longer part of Linux-PAM: use {old}. " if old else f"is {meant}.so meant? " if meant else ""
    whose = (
        f"below {below.root}"
        if is_own
        else "on this machine"
        if meant or old
        else "on this machine, and none of this name is known"
    )
    ignored = all(rule.actions["module_unknown"] == "ignore" for _, rule in pairs)
    kind = NOTE if ignored and not (meant or old) else WARNING
    for service, _ in pairs:
        found.add(
            kind,
            first.where(),
            (
                f"no module {path if '/' in path else first.module + '.so'} is {whose}{also}: {hint}Its line returns "
                f"MODULE_UNKNOWN, which {'is ignored' if ignored else 'counts as a failure'}"
            ),
            service,
        )
