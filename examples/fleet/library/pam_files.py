#!/usr/bin/python
"""A module for Ansible: what `pamsess-ways` needs of a host. It only reads, with whatever rights it is run with, and
doesn't look into what it reads.

It returns `files`, the service files below `root` in Base64 by their paths, and `modules`, the paths of the modules
that are installed. `compare` names the files that these include by a path, and the modules that they name by one: as
`more` they are read or looked for, too. `unread` says why a file or directory can't be read. Links are followed as the
host follows them; below another root than / they have to stay below it. Paths are as Latin-1 has them, a character for
each byte.
"""
import base64
import glob
import json
import os
import stat

from ansible.module_utils.basic import AnsibleModule

MOST = 1048576
PLACES = (
    "lib/security", "lib/*-linux-*/security", "lib64/security", "usr/lib/security", "usr/lib/*-linux-*/security",
    "usr/lib64/security", "usr/local/lib/security",
)


class Host:
    """The files below a root, as bytes by their paths, and what can't be read of them."""

    def __init__(self, root):
        self.root = os.path.realpath(os.fsencode(root))
        self.files, self.unread = {}, []

    def path(self, name):
        """Where a file is. A link that leads out of the root isn't followed."""
        path = os.path.join(self.root, name.lstrip(b"/"))
        real = os.path.realpath(path)
        if real != self.root and not real.startswith(self.root.rstrip(b"/") + b"/"):
            raise OSError(0, "a link leads out of the root")
        return path

    def tried(self, name, reads):
        """What is read of a file or directory; None if that fails, and nothing is said if it isn't there."""
        try:
            return reads(self.path(name))
        except (FileNotFoundError, NotADirectoryError) as fault:
            if not os.path.islink(os.path.join(self.root, name.lstrip(b"/"))):
                return None
            why = fault.strerror
        except OSError as fault:
            why = fault.strerror
        self.unread.append(f"{name.lstrip(b'/').decode('latin-1')}: {why}")
        return None

    def read(self, name):
        """Reads a file."""
        text = self.tried(name, text_of)
        if text is not None:
            self.files[name] = text

    def modules(self, named):
        """The modules in the usual directories, and those of these paths that are there."""
        found = set()
        for place in PLACES:
            for directory in glob.glob(os.path.join(self.root, os.fsencode(place))):
                place = os.path.relpath(directory, self.root)
                found.update(os.path.join(place, it) for it in self.tried(place, os.listdir) or ())
        return found | {path for path in named if os.path.isfile(os.path.join(self.root, path))}


def text_of(path):
    """The bytes of a regular file; None of a directory."""
    mode = os.stat(path).st_mode
    if stat.S_ISDIR(mode):
        return None
    if not stat.S_ISREG(mode):
        raise OSError(0, "it isn't a regular file")
    with open(path, "rb") as file:
        text = file.read(MOST + 1)
    if len(text) > MOST:
        raise OSError(0, f"it has more than {MOST:,} bytes")
    return text


def main():
    arguments = {"root": {"type": "path", "default": "/"}, "more": {"type": "str", "default": ""}}
    module = AnsibleModule(arguments, supports_check_mode=True)
    more = module.params["more"]
    more = json.loads(base64.b64decode(more)) if more else {"files": [], "modules": []}
    host = Host(module.params["root"])
    host.read(b"etc/pam.conf")
    for name in sorted(host.tried(b"etc/pam.d", os.listdir) or ()):
        host.read(b"etc/pam.d/" + name)
    for name in more["files"]:
        host.read(name.encode("latin-1"))
    modules = host.modules([name.encode("latin-1") for name in more["modules"]])
    module.exit_json(
        changed=False,
        has_directory=bool(host.tried(b"etc/pam.d", os.path.isdir)),
        files={name.decode("latin-1"): base64.b64encode(text).decode() for name, text in host.files.items()},
        modules=sorted(path.decode("latin-1") for path in modules),
        unread=host.unread,
    )


if __name__ == "__main__":
    main()
