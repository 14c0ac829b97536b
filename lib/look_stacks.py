"""What check-all finds in whole stacks: that nobody passes one, or somebody whom no module knows."""
import modules
from common import CODES
from look_files import NOTE, WARNING
from modules import CONDITIONS, NEVER_YES, SETUP
from questions import after, beginning_with, granting, grants
from stacks import lines_of

FAILURES = {
    "auth": ("auth_err", "user_unknown", "authinfo_unavail"),
    "account": ("acct_expired", "perm_denied"),
    "password": ("authtok_err",),
    "session": ("session_err",),
}
# Modules whose authenticate returns IGNORE.
NOTHING_IN_AUTH = set(
    "pam_env pam_group pam_mail pam_motd pam_issue pam_keyinit pam_lastlog pam_lastlog2 pam_limits "
    "pam_loginuid pam_umask pam_systemd pam_elogind pam_mkhomedir pam_namespace".split()
)
# Modules that let in without a password on purpose, and whom.
TRUSTED = {"pam_timestamp", "pam_sepermit", "pam_selinux_permit", "pam_ftp", "pam_rhosts", "pam_rootok", "pam_wheel"}
# Services whose caller is root whoever uses them, and so passes pam_rootok.
OF_ROOT = set(
    "sudo sudo-i sshd login gdm-password gdm-fingerprint gdm-smartcard lightdm sddm xdm lxdm kdm cron vsftpd "
    "ftp proftpd polkit-1 cups dovecot rlogin remote other".split()
)
# Second factors, and directories of users.
KEYS = modules.KEYS
DIRECTORIES = set(
    "pam_unix pam_sss pam_ldap pam_krb5 pam_winbind pam_userdb pam_pwdfile pam_mysql pam_pgsql "
    "pam_radius_auth pam_tacplus".split()
)


def is_who(rule):
    """Whether a rule verifies who the user is."""
    if rule.module == "pam_exec":
        return "expose_authtok" in rule.arguments
    return rule.module not in SETUP | NEVER_YES | CONDITIONS and rule.module != "pam_deny"


def of_debug(rule):
    """What pam_debug returns: the code that an argument names, or success."""
    name = {"auth": "auth", "account": "acct", "password": "chauthtok", "session": "open_session"}[rule.kind]
    named = [it.partition("=")[2].lower() for it in rule.arguments if it.startswith(f"{name}=")]
    if named[-1:] == ["incomplete"]:
        # (the call never ends then, so this is no code of it)
        return ("conv_again",)
    return named[-1:] if named[-1:] and named[-1] in CODES else ("success",)


def may_return(rule):
    """The codes that matter of those that a module may return."""
    failure = FAILURES[rule.kind][0]
    if rule.module == "pam_debug":
        return of_debug(rule)
    if rule.module == "pam_deny":
        return (failure,)
    if rule.module == "pam_permit":
        return ("success",)
    if rule.kind == "auth" and rule.module in NOTHING_IN_AUTH:
        return ("ignore",)
    if rule.module == "pam_faillock" and "authfail" in rule.arguments:
        return ("ignore", failure)
    if rule.module in NEVER_YES:
        return ("ignore", failure)
    return ("success", "ignore", failure)


def without_proof(failure, met=None):
    """What rules return to somebody who isn't let in by any module that verifies who one is, and whom no condition
    refuses. A condition whose success ends the list isn't met, unless it is the one that is named: it ends many a stack
    on purpose."""

    def codes(rule):
        if rule is met:
            return ("success",)
        if rule.module == "pam_debug":
            return of_debug(rule)
        if rule.module == "pam_permit":
            return ("success",)
        if is_who(rule):
            return (failure,)
        if rule.module in SETUP:
            return ("ignore",) if rule.kind == "auth" and rule.module in NOTHING_IN_AUTH else ("success", "ignore")
        if rule.module in NEVER_YES:
            return ("ignore",)
        if rule.module in CONDITIONS and not rule.decides() and "authfail" not in rule.arguments:
            return ("success", "ignore")
        return (failure,)

    return codes


def look_at_stack(found, service, kind, nodes):
    rules = list(lines_of(nodes))
    if not rules:
        return
    if not grants(nodes, may_return):
        look_at_nobody(found, f"{service} {kind}", nodes, rules)
    elif kind != "session":
        look_at_anybody(found, service, kind, nodes, rules)
        if kind == "auth":
            look_at_factors(found, f"{service} {kind}", nodes, rules)


def look_at_nobody(found, of, nodes, rules):
    """A stack that nobody passes."""
    kind = rules[0].kind
    denies = next((rule for rule in rules if rule.module == "pam_deny"), None)
    who = next((rule for rule in rules if is_who(rule) and rule.module != "pam_debug"), None)
    silent = SETUP | NEVER_YES | {"pam_deny"}
    if (
        denies
        and (
            not who
            if kind != "session"
            else all(rule.module in NEVER_YES | {"pam_deny", "pam_permit"} for rule in rules)
        )
    ):
        if all(rule.module in silent | CONDITIONS for rule in rules):
            found.add(
                NOTE,
                denies.where(),
                "nobody passes this stack: pam_deny.so, as is usual for a service that is switched off",
                of,
            )
            return
    if denies and kind == "password" and denies is rules[0]:
        found.add(
            NOTE,
            denies.where(),
            "nobody passes this stack: pam_deny.so, as is usual for a service that changes no password",
            of,
        )
    elif denies and kind == "session":
        found.add(WARNING, denies.where(), "nobody passes this stack: pam_deny.so refuses every session", of)
    elif denies and who and rules.index(denies) < rules.index(who):
        found.add(
            WARNING,
            denies.where(),
            f"nobody passes this stack: pam_deny.so comes before {who.module}.so in {who.where()}",
            of,
        )
    elif who and denies:
        say_where(found, of, nodes, who)
    elif kind == "session":
        return
    elif all(rule.module in NEVER_YES | NOTHING_IN_AUTH for rule in rules):
        names = " and ".join(dict.fromkeys(f"{rule.module}.so" for rule in rules))
        found.add(
            WARNING,
            rules[0].where(),
            (
                f"nobody passes this stack: {names} "
                f"never {'returns' if len({it.module for it in rules}) == 1 else 'return'} SUCCESS. Is an include "
                "missing?"
            ),
            of,
        )
    else:
        found.add(
            WARNING, rules[0].where(), "nobody passes this stack: it doesn't succeed, whatever its modules return", of
        )


def say_where(found, of, nodes, who):
    """Where a success of the module that verifies who the user is leads, and which jump would pass the denial."""
    to, action = after(nodes, who), who.actions["success"]
    entry = f"success={action}"
    text = f"nobody passes this stack: even if {who.module}.so succeeds, "
    if to is None and action.isdigit():
        # (the finding about its jump names that)
        return
    if to is None or to not in beginning_with(nodes, who):
        found.add(WARNING, who.where(), text + "the stack doesn't", of)
        return
    text += (
        f"{entry} leads to {to.module}.so in {to.where()}"
        if action.isdigit()
        else f"the stack goes on to {to.module}.so in {to.where()} ({entry})"
    )
    if to.module == "pam_deny":
        text += f"; success={int(action) + 1 if action.isdigit() else 1} would pass it"
    found.add(WARNING, who.where(), text, of)


EFFECT = {
    "auth": "lets anybody in, with any password",
    "account": "passes accounts that are refused",
    "password": "reports a change that wasn't made",
}


def look_at_anybody(found, service, kind, nodes, rules):
    """A stack that lets in somebody whom no module knows."""
    of = f"{service} {kind}"
    if not any(is_who(rule) for rule in rules):
        look_at_unasked(found, service, of, nodes, rules)
        return
    first = next(rule for rule in rules if is_who(rule))
    for failure in FAILURES[kind]:
        by = granting(nodes, without_proof(failure))
        early = next((rule for rule in by if rule.decides() and rules.index(rule) < rules.index(first)), None)
        if early:
            if_so = "" if early.module != "pam_exec" else " if its command ends with 0"
            what = EFFECT[kind] if kind != "auth" else "lets anybody in without a password"
            found.add(
                WARNING,
                early.where(),
                (
                    f"{early.module}.so {what}{if_so}: its success ({early.told('success')}) ends the stack before "
                    f"{first.module}.so in {first.where()}"
                ),
                of,
            )
            return
        if by:
            found.add(
                WARNING,
                first.where(),
                (
                    f"if {first.module}.so fails ({failure.upper()}), no line denies, and the stack "
                    f"{EFFECT[kind]}; {by[-1].module}.so in {by[-1].where()} then succeeds. Is a line with "
                    "pam_deny.so missing?"
                ),
                of,
            )
            return
    if kind == "auth":
        look_at_conditions(found, service, of, nodes, rules)


def look_at_unasked(found, service, of, nodes, rules):
    """A stack in which no module verifies who the user is."""
    if rules[0].kind != "auth" or not grants(nodes, without_proof("auth_err")):
        return
    denies = next((rule for rule in rules if rule.module == "pam_deny"), None)
    if service == "other":
        found.add(
            WARNING,
            rules[0].where(),
            "any service without a file of its own lets anybody in: no module in this stack verifies who the user is",
            of,
        )
    elif denies:
        by = granting(nodes, without_proof("auth_err"))[0]
        found.add(
            WARNING,
            by.where(),
            (
                f"no module in this stack verifies who the user is, and pam_deny.so in {denies.where()} is passed "
                f"over: {by.module}.so lets anybody in"
            ),
            of,
        )
    elif not any(rule.decides() and rule.module in CONDITIONS for rule in rules):
        found.add(
            NOTE,
            rules[0].where(),
            (
                "anybody passes this stack: no module in it verifies who the user is. That is usual for a service "
                "that logs in by itself, or is started after an authentication"
            ),
            of,
        )


def look_at_conditions(found, service, of, nodes, rules):
    """Conditions that let in whoever meets them."""
    for rule in rules:
        if rule.module not in CONDITIONS or not rule.decides() or not grants(nodes, without_proof("auth_err", rule)):
            continue
        text = " ".join(rule.arguments)
        if rule.module == "pam_rootok" and service in OF_ROOT:
            found.add(
                WARNING,
                rule.where(),
                f"pam_rootok.so lets anybody in without a password: root is the caller of {service}, whoever uses it",
                of,
            )
        elif (
            rule.module not in TRUSTED | {"pam_faillock", "pam_localuser"}
            and not any(word in text for word in ("nopasswdlogin", "autologin"))
        ):
            found.add(
                WARNING,
                rule.where(),
                (
                    f"whoever meets the condition of {rule.module}.so{' (' + text + ')' if text else ''} is let in "
                    "without a password"
                ),
                of,
            )


def only(*rules):
    """What rules return if none of the modules that verify who the user is succeeds but these."""

    def codes(rule):
        if rule in rules:
            return ("success",)
        return ("auth_err",) if is_who(rule) else without_proof("auth_err")(rule)

    return codes


def look_at_factors(found, of, nodes, rules):
    """Second factors that aren't asked for or whose failure doesn't count, and directories whose users a module before
    them refuses."""
    who = [rule for rule in rules if is_who(rule)]
    for rule in who:
        others = [it for it in who if it.module not in KEYS]
        refuses = rule.actions["auth_err"] in ("bad", "die")
        ignored = rule.actions["success"] == "ok" and rule.actions["auth_err"] == "ignore"
        if rule.module in KEYS and (refuses or ignored):
            by = next((it for it in others if grants(nodes, only(it))), None)
            if by and refuses and rules.index(by) < rules.index(rule):
                found.add(
                    WARNING,
                    by.where(),
                    (
                        f"{rule.module}.so in {rule.where()} is never asked: a success of {by.module}.so passes over "
                        f"it ({by.told('success')})"
                    ),
                    of,
                )
            elif by and ignored:
                found.add(
                    WARNING,
                    rule.where(),
                    (
                        f"{rule.module}.so keeps nobody out: its failure is ignored, and {by.module}.so "
                        f"in {by.where()} is enough"
                    ),
                    of,
                )
        elif rule.module in DIRECTORIES and rule.decides():
            before = next(
                (
                    it
                    for it in who[: who.index(rule)]
                    if it.module in DIRECTORIES - {rule.module} and it.actions["auth_err"] in ("bad", "die")
                ),
                None,
            )
            if before and not grants(nodes, only(rule)):
                found.add(
                    WARNING,
                    before.where(),
                    (
                        f"users whom only {rule.module}.so in {rule.where()} knows are refused: a failure of "
                        f"{before.module}.so counts before it is asked ({before.told('auth_err')})"
                    ),
                    of,
                )
