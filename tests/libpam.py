"""The system's libpam in a chroot, for tests that run it beside the program: a driver (scripts/differences.c) makes the
calls of a script and prints the codes as a report has them. It wants root, gcc and namespaces for mounts."""
import glob
import os
import shlex
import shutil
import subprocess

TESTS = os.path.dirname(os.path.realpath(__file__))


class Libpam:
    """The driver, compiled in a directory; `why` says why it can't be run, if so."""

    def __init__(self, room):
        self.room, self.why = room, None
        self.library = next(
            (path for path in sorted(glob.glob("/lib/*/libpam.so.0") + glob.glob("/usr/lib/*/libpam.so.0"))), None
        )
        if os.geteuid() != 0:
            self.why = "it wants root"
        elif not self.library:
            self.why = "libpam isn't installed"
        elif not shutil.which("gcc"):
            self.why = "there is no gcc"
        elif subprocess.run(["unshare", "--mount", "true"], capture_output=True, check=False).returncode:
            self.why = "there are no namespaces for mounts"
        else:
            source = f"{TESTS}/scripts/differences.c"
            words = ["gcc", "-O1", "-Wall", "-o", f"{room}/driver", source, "-rdynamic", self.library]
            made = subprocess.run(words, capture_output=True, text=True, check=False)
            if made.returncode:
                self.why = f"the driver isn't compiled: {(made.stderr.strip().splitlines() or ['?'])[0]}"

    def places_in(self, root):
        """Directories below a root for the system's libraries and modules. Returns what is mounted there."""
        places = [
            os.path.dirname(os.path.realpath(self.library)),
            *(path for path in ("/usr/lib64", "/lib64") if os.path.isdir(path) and not os.path.islink(path)),
        ]
        for place in places:
            os.makedirs(root + place, exist_ok=True)
        for folder in ("bin", "sbin", "lib", "lib64"):
            if os.path.islink(f"/{folder}") and not os.path.lexists(f"{root}/{folder}"):
                os.symlink(f"usr/{folder}", f"{root}/{folder}")
        for folder in ("run", "dev", "var"):
            os.makedirs(f"{root}/{folder}", exist_ok=True)
        return places

    def words_in(self, root):
        """Puts the driver below a root, and returns the words of a command that runs it there."""
        shutil.copy(f"{self.room}/driver", f"{root}/driver")
        mounts = "".join(f"mount --bind {place} {shlex.quote(root + place)} && " for place in self.places_in(root))
        steps = f"mount --make-rprivate / && {mounts}exec chroot {shlex.quote(root)} /driver"
        return ["unshare", "--mount", "sh", "-c", steps]
