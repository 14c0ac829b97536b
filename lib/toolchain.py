"""What ./build uses of the toolchain's own `rt` that none of its commands does: one crate's proof over what the crates
below it state, kept.

These are private parts of `rt`, so another version of it is refused.
"""
import importlib.machinery
import importlib.util
import os
import shutil
import subprocess
import sys

# The last words of `rt version` for which this was written.
LOGIC = "logic dac8208d650f15bf"


def loaded():
    """`rt` as a module, set up as in a run of `rt ci`."""
    version = subprocess.run(["rt", "version"], capture_output=True, text=True, check=False).stdout.strip()
    if not version.endswith(LOGIC):
        sys.exit(
            f"build: this toolchain is `{version}`, and lib/toolchain.py was written for `{LOGIC}`: use that one, or "
            "`rt ci`"
        )
    sys.dont_write_bytecode = True
    loader = importlib.machinery.SourceFileLoader("rt", os.path.realpath(shutil.which("rt")))
    rt = importlib.util.module_from_spec(importlib.util.spec_from_loader("rt", loader))
    sys.modules["rt"] = rt
    loader.exec_module(rt)
    rt.rtlib.stop = rt.stop
    rt.Crate.cuts_libraries = True
    rt.Crate.allowed = rt.handles_of(os.getcwd())
    rt.rtlib.Crate = rt.Crate
    rt.rtlib.guarded()
    return rt


class Crate:
    """A crate of the repository at `top`, whose crates below are built."""

    def __init__(self, top, name):
        self.rt = loaded()
        by = self.rt.Crate.compile_by
        # (a program is built by LLVM alone: that a second compiler agrees is for CI to see)
        self.rt.Crate.compile_by = (
            lambda crate, backend, words, to: by(crate, backend, words, to) if backend == "llvm" else 0
        )
        self.crate = next(it for it in self.rt.rtlib.crates_below(top) if it.name == name)
        os.makedirs(f"{self.crate.folder}/out", exist_ok=True)

    def prove(self, jobs):
        """Proves it, and builds it if it is a program; or takes what an `rt ci` on this machine has made of the same
        files."""
        if self.is_taken_over():
            print(f"{self.crate.name} is kept from an rt ci of the same files", flush=True)
            return 0
        return self.crate.ci(["--jobs", jobs], False)

    def is_taken_over(self):
        if not hasattr(self.rt, "Kept"):
            return False
        kept = self.rt.Kept([*self.crate.below(), self.crate])
        for one in self.crate.below():
            kept.is_built(one)
        return kept.give(self.crate, False, kept.key(self.crate))

    def test(self, jobs):
        is_well = (
            not self.crate.has_tests() or not self.crate.ci(["--jobs", jobs], True) and self.rt.run(self.crate, True)
        )
        return 0 if is_well else 1

    def try_mutants(self, jobs):
        """Tries its mutants, each over what a check of the crate has proved. The last line says how many of how many
        were refused."""
        good, bad = self.rt.edits_of(self.crate)
        flags = ["--jobs", jobs]
        room = self.rt.seeded(self.crate, flags) if len(good) > 1 else None
        refused = 0
        for edit in good:
            verdict, text = self.tried(edit, flags, room)
            print(f"rt: {text}", flush=True)
            refused += verdict in (self.rt.REFUSED, self.rt.AT_LIMIT)
        if room:
            shutil.rmtree(room)
        print(f"{refused} of {len(good) + len(bad)} refused", flush=True)
        return 0 if not bad and refused == len(good) else 1

    def tried(self, edit, flags, room):
        """What a try of one mutant gives; from nothing if it isn't refused over what was proved."""
        if room:
            self.rt.linked(f"{room}/seed", f"{room}/tried")
            tried = self.rt.must_fail(self.crate, edit, flags, f"{room}/tried")
            shutil.rmtree(f"{room}/tried")
            if tried[0] in self.rt.SETTLED:
                return tried
        return self.rt.must_fail(self.crate, edit, flags)


def hand_out(top, names, to):
    """Gives what is built of these crates to the same crates below another directory, as links, marked as built of
    these sources: there `rt check` and `rt plant` find it, and prove none of it again."""
    for crate in loaded().rtlib.crates_below(top):
        given = f"{to}/crates/{crate.name}/out/rlib"
        if crate.name not in names or not os.path.isdir(crate.rlib):
            continue
        shutil.rmtree(given, ignore_errors=True)
        shutil.copytree(
            f"{crate.folder}/out/rlib", given, copy_function=os.link, ignore=shutil.ignore_patterns("stamp")
        )
        with open(f"{given}/stamp", "w", encoding="utf-8") as file:
            file.write(crate.stamp())
        # (./build asks this whether it has to be given again)
        shutil.copy(f"{crate.folder}/out/built", given)
