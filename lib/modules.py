"""What is known of modules, those that pamsess has and others: what they do, and in which directories they are."""
import fnmatch
import re

# The modules that pamsess has.
HERE_TOO = set("""
    pam_permit pam_deny pam_debug pam_rootok pam_probe pam_nologin pam_listfile pam_shells pam_succeed_if pam_env
    pam_wheel pam_securetty pam_unix pam_pwhistory pam_faillock
""".split())
# Modules that never refuse anybody: they set something up, or show something.
SETUP = set("""
    pam_permit pam_env pam_group pam_cap pam_keyinit pam_umask pam_motd pam_mail pam_lastlog pam_lastlog2
    pam_loginuid pam_limits pam_systemd pam_elogind pam_gnome_keyring pam_kwallet pam_kwallet5 pam_mate_keyring
    pam_mkhomedir pam_oddjob_mkhomedir pam_issue pam_exec pam_selinux pam_namespace pam_xauth pam_ck_connector
    pam_mount pam_ecryptfs pam_fscrypt pam_tmpdir pam_gdm pam_ssh_add pam_apparmor pam_smbpass pam_setquota
    pam_ttyaudit pam_tty_audit pam_afs_session pam_debug pam_probe pam_cgfs pam_cgroup pam_rundir pam_snapper
    pam_dumb_runtime_dir
""".split())
# Modules that return IGNORE, or a failure.
NEVER_YES = set("pam_nologin pam_faildelay pam_warn pam_echo".split())
# Modules that test a condition, but not who the user is.
CONDITIONS = set("""
    pam_rootok pam_listfile pam_shells pam_succeed_if pam_wheel pam_securetty pam_access pam_time pam_usertype
    pam_localuser pam_faillock pam_tally pam_tally2 pam_cracklib pam_pwquality pam_passwdqc pam_pwhistory pam_ftp
    pam_sepermit pam_selinux_permit pam_abl pam_shield pam_require pam_geoip pam_canonicalize_user pam_timestamp
    pam_console
""".split())
# Modules that verify who the user is: by a directory or another list of accounts, and by what the user has or is.
DIRECTORIES = set("""
    pam_unix pam_sss pam_sss_gss pam_ldap pam_krb5 pam_winbind pam_userdb pam_pwdfile pam_radius_auth pam_tacplus
    pam_mysql pam_pgsql pam_ccreds pam_systemd_home pam_rhosts pam_cockpit_cert pam_ssh pam_script pam_python
    pam_oauth2 pam_aad pam_himmelblau
""".split())
KEYS = set("""
    pam_fprintd pam_pkcs11 pam_p11 pam_u2f pam_yubico pam_oath pam_google_authenticator pam_ssh_agent_auth pam_duo
    pam_opie pam_otpw pam_biometric pam_howdy pam_nfc pam_usb pam_poldi pam_beid
""".split())
WHO = DIRECTORIES | KEYS
# Modules that ask for a new password.
ASKS = {"pam_pwquality", "pam_cracklib", "pam_passwdqc"}
# Modules that Linux-PAM no longer has, and what replaces them.
OBSOLETE = {
    "pam_tally": "pam_faillock",
    "pam_tally2": "pam_faillock",
    "pam_cracklib": "pam_pwquality",
    "pam_stack": "include",
    "pam_pwdb": "pam_unix",
    "pam_unix_auth": "pam_unix",
    "pam_unix_acct": "pam_unix",
    "pam_unix_passwd": "pam_unix",
    "pam_unix_session": "pam_unix",
    "pam_console": "pam_systemd",
}
KNOWN = HERE_TOO | SETUP | NEVER_YES | CONDITIONS | WHO | ASKS


# Where modules are, below a root.
PLACES = (
    "lib/security", "lib/*/security", "lib64/security", "usr/lib/security", "usr/lib/*/security", "usr/lib64/security",
    "usr/local/lib/security",
)


def module_of(path):
    """A module's name, of its path."""
    return re.sub(r"\.so$", "", path.rsplit("/", 1)[-1])


def directories(below):
    """The directories of modules below a root."""
    found = []
    for place in PLACES:
        first, star, last = place.partition("/*")
        middles = [f"/{name}" for name in below.names(first) if fnmatch.fnmatch(name, "*-linux-*")] if star else [""]
        found += [f"/{first}{middle}{last}" for middle in middles if below.is_directory(f"{first}{middle}{last}")]
    return found


class Disk:
    """The modules that are on the disk below a root."""

    def __init__(self, below):
        self.below = below
        self.directories = directories(below)
        self.files = {name for directory in self.directories for name in below.names(directory)}

    def has(self, path):
        """Whether there is a module for a path, as libpam looks for it: with `.so`, and in the directory that the path
        names."""
        path = path.replace("/$ISA/", "/../../lib64/security/")
        if path.startswith("/"):
            return self.below.is_file(path)
        return (
            path in self.files
            or "/" in path
            and any(self.below.is_file(f"{directory}/{path}") for directory in self.directories)
        )
