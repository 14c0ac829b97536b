"""Service files as distributions and guides for administrators have them, and what what-if says of each for a user
of passwd: the lines that must be printed, worked out from the stacks by hand.

Of each configuration: the files of etc/pam.d, other files, and for each service that is tried the lines.
"""

UNIX_ALONE = "auth [success=1 default=ignore] pam_unix.so nullok\n"
END = "auth requisite pam_deny.so\nauth required pam_permit.so\nauth optional pam_cap.so\n"
ACCOUNT = (
    "account [success=1 new_authtok_reqd=done default=ignore] pam_unix.so\naccount requisite pam_deny.so\n"
    "account required pam_permit.so\n"
)
LOGIN = (
    "auth optional pam_faildelay.so delay=3000000\nauth requisite pam_nologin.so\n@include common-auth\n"
    "auth optional pam_group.so\n@include common-account\n"
)
AFTER_AUTH = (
    "account required pam_nologin.so\n@include common-account\n"
    "session [success=ok ignore=ignore module_unknown=ignore default=bad] pam_selinux.so close\n"
)
SSHD = f"@include common-auth\n{AFTER_AUTH}"
BEGIN = "auth required pam_env.so\nauth required pam_faildelay.so delay=2000000\n"
LOCAL = (
    "auth [default=1 ignore=ignore success=ok] pam_usertype.so isregular\n"
    "auth [default=1 ignore=ignore success=ok] pam_localuser.so\nauth sufficient pam_unix.so nullok\n"
    "auth [default=1 ignore=ignore success=ok] pam_usertype.so isregular\nauth sufficient pam_sss.so forward_pass\n"
)
SSSD_ACCOUNT = (
    "account required pam_unix.so\naccount sufficient pam_localuser.so\naccount sufficient pam_usertype.so issystem\n"
    "account [default=bad success=ok user_unknown=ignore] pam_sss.so\naccount required pam_permit.so\n"
)
REDHAT = {
    "login": (
        "auth substack system-auth\nauth include postlogin\naccount required pam_nologin.so\n"
        "account include system-auth\n"
    ),
    "postlogin": (
        "session optional pam_umask.so silent\nsession [default=1] pam_lastlog.so nowtmp showfailed\n"
        "session optional pam_lastlog.so silent noupdate showfailed\n"
    ),
}

PLAIN = "as it is: the right password: in; a wrong one: authenticate AUTH_ERR"
NOBODY_LETS = "no module alone lets a wrong password in."
NOBODY_KEEPS = "no module alone keeps the right password out."
DOWN = "If all directories are down, the right password gets in."
USUAL = [PLAIN, NOBODY_LETS, NOBODY_KEEPS, DOWN]


def lets(module, keeps=NOBODY_KEEPS, down=DOWN):
    """The right password gets in and a wrong one doesn't, unless this module says yes."""
    return [
        PLAIN, f"{module} (auth) = success: the wrong password: in", f"{module} alone lets a wrong password in.", keeps,
        down,
    ]


HOSTS = {
    "authselect, sssd": (
        {**REDHAT, "system-auth": f"{BEGIN}{LOCAL}auth required pam_deny.so\n{SSSD_ACCOUNT}"},
        {},
        # A user of passwd passes account by pam_localuser, before pam_sss is asked.
        {"login": lets("pam_sss")},
    ),
    "authselect, with-faillock": (
        {
            **REDHAT,
            "system-auth": (
                f"{BEGIN}auth required pam_faillock.so preauth silent\n{LOCAL}auth required pam_faillock.so authfail\n"
                f"auth required pam_deny.so\naccount required pam_faillock.so\n{SSSD_ACCOUNT}"
            ),
        },
        {"/etc/security/faillock.conf": "deny = 4\nunlock_time = 1200\n"},
        {"login": lets("pam_sss")},
    ),
    "authselect, with-fingerprint": (
        {
            **REDHAT,
            "system-auth": f"{BEGIN}auth sufficient pam_fprintd.so\n{LOCAL}auth required pam_deny.so\n{SSSD_ACCOUNT}",
        },
        {},
        {
            "login": [
                PLAIN, "pam_fprintd (auth) = success: the wrong password: in",
                "pam_sss (auth) = success: the wrong password: in",
                "pam_fprintd, pam_sss alone lets a wrong password in.", NOBODY_KEEPS, DOWN,
            ]
        },
    ),
    "a guide's STIG": (
        {
            **REDHAT,
            "system-auth": (
                "auth required pam_env.so\nauth required pam_faildelay.so delay=4000000\n"
                "auth required pam_faillock.so preauth silent\nauth sufficient pam_unix.so\n"
                "auth sufficient pam_sss.so forward_pass\nauth required pam_faillock.so authfail\n"
                "auth required pam_deny.so\naccount required pam_faillock.so\naccount required pam_unix.so\n"
                "account [default=bad success=ok user_unknown=ignore] pam_sss.so\naccount required pam_permit.so\n"
            ),
        },
        {"/etc/security/faillock.conf": "deny = 3\nfail_interval = 900\nunlock_time = 0\n"},
        # The domain's word on the account counts for users of passwd, too.
        {
            "login": [
                *lets(
                    "pam_sss",
                    "pam_sss (account) alone keeps the right password out.",
                    "If all directories are down, the right password doesn't get in (acct_mgmt AUTHINFO_UNAVAIL).",
                ),
                "pam_sss (account) = perm_denied: the right password: acct_mgmt PERM_DENIED",
            ]
        },
    ),
    "Ubuntu": (
        {"common-auth": UNIX_ALONE + END, "common-account": ACCOUNT, "login": LOGIN, "sshd": SSHD},
        {},
        {"login": USUAL, "sshd": USUAL},
    ),
    "Ubuntu with sssd": (
        {
            "common-auth": (
                "auth [success=2 default=ignore] pam_unix.so nullok\n"
                f"auth [success=1 default=ignore] pam_sss.so use_first_pass\n{END}"
            ),
            "common-account": (
                f"{ACCOUNT}account sufficient pam_localuser.so\n"
                "account [default=bad success=ok user_unknown=ignore] pam_sss.so\n"
            ),
            "login": LOGIN,
        },
        {},
        {"login": [*lets("pam_sss")]},
    ),
    "Ubuntu with LDAP": (
        {
            "common-auth": (
                "auth [success=2 default=ignore] pam_unix.so nullok\n"
                f"auth [success=1 default=ignore] pam_ldap.so minimum_uid=1000 use_first_pass\n{END}"
            ),
            "common-account": (
                f"{ACCOUNT}account [success=ok new_authtok_reqd=done ignore=ignore user_unknown=ignore "
                "authinfo_unavail=ignore default=bad] pam_ldap.so minimum_uid=1000\n"
            ),
            "login": LOGIN,
        },
        {},
        {
            "login": [
                *lets("pam_ldap", "pam_ldap (account) alone keeps the right password out."),
                "pam_ldap (account) = perm_denied: the right password: acct_mgmt PERM_DENIED",
            ]
        },
    ),
    "Ubuntu with a fingerprint": (
        {
            "common-auth": (
                "auth [success=2 default=ignore] pam_fprintd.so max-tries=1 timeout=10\n"
                f"auth [success=1 default=ignore] pam_unix.so nullok\n{END}"
            ),
            "common-account": ACCOUNT,
            "login": LOGIN,
            "gdm-fingerprint": (
                "auth requisite pam_nologin.so\nauth required pam_succeed_if.so user != root quiet_success\n"
                "auth required pam_fprintd.so\nauth optional pam_gnome_keyring.so\n@include common-account\n"
            ),
        },
        {},
        {
            "login": lets("pam_fprintd"),
            # Only the finger is asked for.
            "gdm-fingerprint": [
                "as it is: the right password: authenticate AUTHINFO_UNAVAIL; a wrong one: authenticate "
                "AUTHINFO_UNAVAIL",
                "with pam_fprintd = success: the right password: in; a wrong one: in",
                "pam_fprintd alone lets a wrong password in.", "pam_fprintd alone keeps the right password out.",
            ],
        },
    ),
    "Debian": (
        {
            "common-auth": UNIX_ALONE + END,
            "common-account": ACCOUNT,
            "sudo": "@include common-auth\n@include common-account\n",
            "su": "auth sufficient pam_rootok.so\n@include common-auth\n@include common-account\n",
        },
        {},
        {"sudo": USUAL, "su": USUAL},
    ),
    "Debian with Kerberos": (
        {
            "common-auth": (
                "auth [success=2 default=ignore] pam_krb5.so minimum_uid=1000\n"
                f"auth [success=1 default=ignore] pam_unix.so nullok try_first_pass\n{END}"
            ),
            "common-account": f"{ACCOUNT}account required pam_krb5.so minimum_uid=1000\n",
            "login": LOGIN,
        },
        {},
        {
            "login": [
                *lets(
                    "pam_krb5",
                    "pam_krb5 (account) alone keeps the right password out.",
                    "If all directories are down, the right password doesn't get in (acct_mgmt AUTHINFO_UNAVAIL).",
                ),
                "pam_krb5 (account) = perm_denied: the right password: acct_mgmt PERM_DENIED",
            ]
        },
    ),
    "a benchmark's faillock": (
        {
            "common-auth": (
                "auth required pam_faillock.so preauth\nauth [success=1 default=ignore] pam_unix.so\n"
                "auth [default=die] pam_faillock.so authfail\nauth sufficient pam_faillock.so authsucc\n"
                "auth requisite pam_deny.so\nauth required pam_permit.so\n"
            ),
            "common-account": f"{ACCOUNT}account required pam_faillock.so\n",
            "sudo": "@include common-auth\n@include common-account\n",
        },
        {"/etc/security/faillock.conf": "deny = 5\nunlock_time = 900\n"},
        # (authfail returns IGNORE, and a failure for IGNORE is PERM_DENIED)
        {
            "sudo": [
                "as it is: the right password: in; a wrong one: authenticate PERM_DENIED", NOBODY_LETS, NOBODY_KEEPS,
                DOWN,
            ]
        },
    ),
    "Google Authenticator": (
        {
            "common-auth": UNIX_ALONE + END,
            "common-account": ACCOUNT,
            "sshd": f"@include common-auth\nauth required pam_google_authenticator.so\n{AFTER_AUTH}",
        },
        {},
        {
            "sshd": [
                "as it is: the right password: authenticate AUTHINFO_UNAVAIL; a wrong one: authenticate AUTH_ERR",
                "with pam_google_authenticator = success: the right password: in; a wrong one: authenticate AUTH_ERR",
                "pam_google_authenticator (auth) = auth_err: the right password: authenticate AUTH_ERR",
                NOBODY_LETS, "pam_google_authenticator alone keeps the right password out.", DOWN,
            ]
        },
    ),
    "a key or the password": (
        {
            "common-auth": UNIX_ALONE + END,
            "common-account": ACCOUNT,
            "sudo": "auth sufficient pam_u2f.so cue\n@include common-auth\n@include common-account\n",
        },
        {},
        {"sudo": lets("pam_u2f")},
    ),
    "a key and the password": (
        {
            "common-auth": UNIX_ALONE + END,
            "common-account": ACCOUNT,
            "login": "auth required pam_yubico.so mode=client id=1\n@include common-auth\n@include common-account\n",
        },
        {},
        # The first failure is the one that is returned.
        {
            "login": [
                "as it is: the right password: authenticate AUTHINFO_UNAVAIL; a wrong one: authenticate "
                "AUTHINFO_UNAVAIL",
                "with pam_yubico = success: the right password: in; a wrong one: authenticate AUTH_ERR",
                NOBODY_LETS, "pam_yubico alone keeps the right password out.", DOWN,
            ]
        },
    ),
    "Arch": (
        {
            "system-auth": (
                "auth required pam_faillock.so preauth\n-auth [success=2 default=ignore] pam_systemd_home.so\n"
                "auth [success=1 default=bad] pam_unix.so try_first_pass nullok\n"
                "auth [default=die] pam_faillock.so authfail\nauth optional pam_permit.so\nauth required pam_env.so\n"
                "auth required pam_faillock.so authsucc\n-account [success=1 default=ignore] pam_systemd_home.so\n"
                "account required pam_unix.so\naccount optional pam_permit.so\naccount required pam_time.so\n"
            ),
            "system-login": (
                "auth required pam_shells.so\nauth requisite pam_nologin.so\nauth include system-auth\n"
                "account required pam_access.so\naccount required pam_nologin.so\naccount include system-auth\n"
            ),
            "login": "auth requisite pam_nologin.so\nauth include system-login\naccount include system-login\n",
        },
        {},
        {
            "login": [
                *lets(
                    "pam_systemd_home", "pam_access (account), pam_time (account) alone keeps the right password out."
                ),
                "pam_access (account) = perm_denied: the right password: acct_mgmt PERM_DENIED",
            ]
        },
    ),
    "openSUSE": (
        {
            "common-auth": (
                "auth required pam_env.so\nauth optional pam_gnome_keyring.so\nauth sufficient pam_unix.so "
                "try_first_pass\nauth required pam_sss.so use_first_pass\n"
            ),
            "common-account": (
                "account requisite pam_unix.so try_first_pass\naccount sufficient pam_localuser.so\n"
                "account required pam_sss.so use_first_pass\n"
            ),
            "login": "auth requisite pam_nologin.so\nauth include common-auth\naccount include common-account\n",
        },
        {},
        {"login": ["as it is: the right password: in; a wrong one: authenticate USER_UNKNOWN", *lets("pam_sss")[1:]]},
    ),
    "Alpine": (
        {
            "base-auth": "auth required pam_env.so\nauth required pam_nologin.so\nauth required pam_unix.so nullok\n",
            "base-account": "account required pam_nologin.so\naccount required pam_unix.so\n",
            "login": "auth include base-auth\naccount include base-account\n",
        },
        {},
        {"login": USUAL},
    ),
    "vsftpd and sddm": (
        {
            "common-auth": UNIX_ALONE + END,
            "common-account": ACCOUNT,
            "vsftpd": (
                "auth required pam_listfile.so item=user sense=deny file=/etc/ftpusers onerr=succeed\n"
                "@include common-account\n@include common-auth\nauth required pam_shells.so\n"
            ),
            "sddm": (
                "auth requisite pam_nologin.so\nauth required pam_succeed_if.so user != root quiet_success\n"
                "@include common-auth\n-auth optional pam_kwallet5.so\n@include common-account\n"
            ),
        },
        {"/etc/ftpusers": "root\n"},
        {"vsftpd": USUAL, "sddm": USUAL},
    ),
    "su for a group": (
        {
            "common-auth": UNIX_ALONE + END,
            "common-account": ACCOUNT,
            "su": (
                "auth sufficient pam_rootok.so\nauth required pam_wheel.so\n@include common-auth\n"
                "@include common-account\n"
            ),
        },
        {},
        # (who calls is nobody here, of whom passwd has no entry: `try --caller` is for that)
        {
            "su": [
                "as it is: the right password: authenticate USER_UNKNOWN; a wrong one: authenticate USER_UNKNOWN",
                NOBODY_LETS,
            ]
        },
    ),
    "sudo with an agent": (
        {
            "common-auth": UNIX_ALONE + END,
            "common-account": ACCOUNT,
            "sudo": (
                "auth sufficient pam_ssh_agent_auth.so file=/etc/security/authorized_keys\n@include common-auth\n"
                "@include common-account\n"
            ),
        },
        {},
        {"sudo": lets("pam_ssh_agent_auth")},
    ),
}
