"""Which module takes the place of one that pamsess doesn't have, and with which arguments."""
import re

import common
import modules
from modules import module_of

LISTS = "/etc/stand-in"
# What an argument of pam_debug is called for each type.
ARGUMENTS = {
    "auth": ("auth", "cred"),
    "account": ("acct",),
    "password": ("prechauthtok", "chauthtok"),
    "session": ("open_session", "close_session"),
}
# The keys of configuration files that pamsess's modules have as arguments, and those that mean nothing for a trial.
FAILLOCK = {"deny", "fail_interval", "unlock_time", "even_deny_root", "dir"}
PWHISTORY = {"remember", "enforce_for_root"}
QUIET = {"audit", "silent", "no_log_info", "nodelay", "debug", "retry"}
METHODS = {"md5", "bigcrypt", "sha256", "sha512", "blowfish", "gost_yescrypt", "yescrypt"}


def debug(kind, code, names=None):
    """The arguments with which pamsess's pam_debug returns a code."""
    return "pam_debug.so" + "".join(f" {name}={code}" for name in names or ARGUMENTS[kind])


def failure_of(rule):
    """What a module that verifies who the user is returns if it can't: of somebody whom it doesn't know, or if what it
    needs isn't there. A code that its line would take as a success is passed over."""
    if "ignore_unknown_user" in rule.arguments or (rule.module == "pam_krb5" and rule.kind == "account"):
        return "ignore"
    codes = ["user_unknown", "authinfo_unavail"]
    codes = codes[::-1] if rule.module in modules.KEYS else codes
    return next((code for code in [*codes, "auth_err"] if rule.actions[code] not in ("ok", "done")), "ignore")


def settings(text):
    """The settings of a file such as faillock.conf(5): keys, and values or None."""
    found = {}
    for line in text.split("\n"):
        line = line.partition("#")[0].strip()
        if line:
            key, equals, value = line.partition("=")
            found[key.strip()] = value.strip() if equals else None
    return found


def definitions(text):
    """The settings of login.defs(5)."""
    lines = (line.partition("#")[0].split() for line in text.split("\n"))
    return {words[0]: words[1] for words in lines if len(words) > 1}


def number_of(settings, name, otherwise):
    value = settings.get(name, "")
    return int(value, 0) if re.fullmatch(r"0[xX][0-9a-fA-F]{1,8}|[1-9]\d{0,9}|0", value) else otherwise


def is_system(user, defs):
    """Whether pam_usertype(8) takes a user ID as a system account's."""
    most = number_of(defs, "SYS_UID_MAX", number_of(defs, "UID_MIN", 1000) - 1)
    return user <= 99 or user == 65534 or number_of(defs, "SYS_UID_MIN", 101) <= user <= most


class Replacing:
    """What replaces the modules of a host. `choices` says which code a module returns, or `missing`."""

    def __init__(self, below, choices):
        self.below, self.choices = below, choices
        self.disk = modules.Disk(below)
        self.here = None if self.disk.directories else modules.Disk(common.Below("/"))
        self.defs = definitions(below.text("/etc/login.defs"))
        self.notes = set()

    def is_there(self, path, module):
        """Whether the host has a module. Without directories of modules below the root, a name counts that is known or
        on this machine."""
        if self.here is None:
            return self.disk.has(path)
        return (
            path.endswith(".so")
            and (module in modules.KNOWN - set(modules.OBSOLETE) or f"{module}.so" in self.here.files)
        )

    def other(self, rule):
        """The module that takes the place of a rule's, with the arguments before the rule's own, and how that is
        reported. None if it stays as it is; what is reported may be empty."""
        chosen = self.choices.get(rule.module)
        if chosen == "missing" or (chosen is None and not self.is_there(rule.path, rule.module)):
            return self.missing(rule, chosen)
        if chosen:
            return in_place(rule, debug(rule.kind, chosen)), f"pam_debug, which returns {chosen.upper()} as you chose"
        if rule.module in modules.HERE_TOO:
            return self.with_settings(rule)
        made, how = self.exact(rule) or self.stand_in(rule)
        return in_place(rule, made), how

    def missing(self, rule, chosen):
        how = (
            "left as it is, as you chose"
            if chosen
            else "left as it is: the host has no such module"
            if self.here is None
            else "left as it is: no module of this name is known"
        )
        better = modules.OBSOLETE.get(rule.module) if not chosen else None
        how += f"{f' ({better} replaces it)' if better else ''}, so its lines return MODULE_UNKNOWN"
        # (of a module that pamsess has, libpam wouldn't find this path)
        return (in_place(rule, "pam_missing.so") if rule.module in modules.HERE_TOO else None), how

    def exact(self, rule):
        """A module here that does the same."""
        words = {it.partition("=")[0] for it in rule.arguments}
        if rule.module == "pam_localuser" and "file" not in words:
            return (
                f"pam_listfile.so item=user sense=allow onerr=fail file={LISTS}/local",
                "pam_listfile with the users of passwd",
            )
        if rule.module == "pam_usertype" and "use_uid" not in words and words & {"issystem", "isregular"}:
            name = "system" if "issystem" in words else "regular"
            return (
                f"pam_listfile.so item=user sense=allow onerr=fail file={LISTS}/{name}",
                f"pam_listfile with the {name} users of passwd",
            )
        if rule.module == "pam_faildelay" and rule.kind == "auth":
            delay = "" if "delay" in words else f" delay={number_of(self.defs, 'FAIL_DELAY', 0) * 1000000}"
            return f"pam_probe.so answer=ignore{delay}", "pam_probe with the same delay"
        if rule.module == "pam_warn":
            return debug(rule.kind, "ignore"), "pam_debug, which returns IGNORE as it does"
        return None

    def stand_in(self, rule):
        kind, module = rule.kind, rule.module
        if kind == "password" and module in modules.ASKS:
            return "pam_pwhistory.so remember=0", "pam_pwhistory, which asks for a new password"
        is_known = module in modules.KNOWN
        if (module in modules.WHO and kind != "session") or (not is_known and kind == "auth"):
            code = failure_of(rule)
            made = f"{debug(kind, code, ARGUMENTS[kind][:1])} cred=ignore" if kind == "auth" else debug(kind, code)
            return made, f"pam_debug, which returns {code.upper()}"
        if kind == "auth" or rule.decides():
            return debug(kind, "ignore"), "pam_debug, which returns IGNORE"
        return "pam_debug.so", "pam_debug, which returns SUCCESS"

    def with_settings(self, rule):
        """A module that pamsess has, with the settings of its file as arguments before its own."""
        given = {key: value for key, _, value in (it.partition("=") for it in rule.arguments)}
        if rule.module == "pam_faillock":
            return self.settings_of(rule, given.get("conf") or "/etc/security/faillock.conf", FAILLOCK)
        if rule.module == "pam_pwhistory" and rule.kind == "password":
            return self.settings_of(rule, given.get("conf") or "/etc/security/pwhistory.conf", PWHISTORY)
        method = self.defs.get("ENCRYPT_METHOD", "").lower()
        is_method = method in ("sha256", "sha512") and not METHODS & set(given)
        if rule.module == "pam_unix" and rule.kind == "password" and is_method:
            return [rule.path, method], f"itself, with {method} as etc/login.defs says"
        return None, ""

    def settings_of(self, rule, name, known):
        found = settings(self.below.text(name))
        if name == "/etc/security/faillock.conf" and found.get("deny") == "0":
            found["deny"] = "999999999"
        taken = [
            key if value is None else f"{key}={value}"
            for key, value in found.items()
            if key in known and not re.search(r"[\s\[\]#\\]", value or "")
        ]
        rest = sorted(set(found) - known - QUIET)
        if rest:
            self.notes.add(
                f"{name.lstrip('/')}: what these say isn't tried, since pamsess's module has no such "
                f"argument: {', '.join(rest)}"
            )
        return ([rule.path, *taken], f"itself, with {' '.join(taken)} of {name.lstrip('/')}") if taken else (None, "")


def in_place(rule, made):
    """A module with its arguments, and the module after them whose place it takes."""
    return [*made.split(), rule.path]


# What stand-in writes before the name of a module that another one replaces.
STANDS_FOR = re.compile(r"(?:\S+/)?(pam_debug|pam_pwhistory|pam_listfile|pam_probe|pam_missing)\.so")


def original(path, arguments):
    """The module that a rule had before stand-in replaced it, and how many of its arguments come before that name; None
    if it wasn't replaced."""
    if STANDS_FOR.fullmatch(path):
        for at, word in enumerate(arguments):
            if re.fullmatch(r"(\S*/)?pam_[A-Za-z0-9_-]+(\.so)?", word) and "=" not in word:
                return word, at
    return None


def module_before(rule):
    """The module that a rule had before stand-in replaced it, or has."""
    path, _ = original(rule.path, rule.arguments) or (rule.path, -1)
    return module_of(path)


def with_code(rule, code):
    """A rule's module and arguments with which it returns a code, whether stand-in replaced its module or not."""
    path, at = original(rule.path, rule.arguments) or (rule.path, -1)
    made, *arguments = debug(rule.kind, code).split()
    return made, [*arguments, path, *rule.arguments[at + 1 :]]


def stood_for(rule, call):
    """A rule of a trial tree as it is shown: the old module, with what is returned in its place."""
    found = original(rule.path, rule.arguments)
    if not found:
        return rule.path, rule.arguments
    own, rest = rule.arguments[: found[1]], rule.arguments[found[1] + 1 :]
    module = module_of(rule.path)
    if module == "pam_debug":
        names = {"authenticate": "auth", "setcred": "cred", "acct_mgmt": "acct"}
        code = {key: value for key, _, value in (it.partition("=") for it in own)}.get(names.get(call, call), "success")
        return found[0], [f"(as {code.upper()})", *rest]
    return found[0], ["(not here)" if module == "pam_missing" else f"(as {module})", *rest]


def is_passwd(line):
    fields = line.split(":")
    return len(fields) == 7 and fields[0] != "" and all(is_id(field) for field in fields[2:4])


def is_group(line):
    fields = line.split(":")
    return len(fields) == 4 and is_id(fields[2])


def is_shadow(line):
    fields = line.split(":")
    return len(fields) == 9 and all(re.fullmatch("[0-9]{0,9}", field) for field in fields[2:8])


def is_id(field):
    return re.fullmatch("[0-9]{1,10}", field) is not None and int(field) < 1 << 32


def is_passed_over(line):
    return line == "" or line[0] in "#+-"
