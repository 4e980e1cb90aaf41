#!/usr/bin/env python3
"""The crates of crates.txt, what each depends on, how it is built, and the words for the prover, over the libraries in
crates/*/out.

Usage: tools/crates.py CRATE: these words for the crate, one a line."""
import hashlib
import os
import re
import shutil
import signal
import subprocess
import sys
import time
from graphlib import TopologicalSorter
from pathlib import Path

ROOT = os.path.dirname(os.path.dirname(os.path.abspath(__file__)))
# The programs, and the crate of each.
GOALS = {"ubtool": "ubtool_main", "hushcheck": "hushcheck_main"}


def kit_folder():
    """The folder of the Rattle toolchain."""
    rt = shutil.which("rt")
    if not rt:
        sys.exit(f"{os.path.basename(sys.argv[0])}: the Rattle toolchain's command rt is not on PATH")
    return os.path.dirname(os.path.dirname(os.path.realpath(rt)))


def libraries():
    """For each crate the libraries that crates.txt names for it: the repository's and the kit's."""
    lines = Path(f"{ROOT}/crates.txt").read_text(encoding="utf-8")
    return {name: uses.split() for name, uses in re.findall("^([^#:\n]+):(.*)", lines, re.M)}


def below(crate, uses):
    """The crates of this repository that the crate depends on, and those that these depend on, lowest first."""
    found = {}
    for it in uses[crate]:
        if it in uses:
            found.update(dict.fromkeys([*below(it, uses), it]))
    return list(found)


def prover_words(crate, uses, jobs=1):
    """The words for the prover in the folder of a crate: the crate, the libraries that it depends on, and the logic."""
    kit = kit_folder()
    built = {it: f"{ROOT}/crates/{it}/out/rlib" for it in below(crate, uses)}
    root = "main" if os.path.exists(f"{ROOT}/crates/{crate}/src/main.rt") else "lib"
    words = ["--crate-name", crate, f"src/{root}.rt"]
    for it in ["std", *uses[crate]]:
        words += ["--extern", f"{it}={built.get(it, f'{kit}/rlibs')}/{it}.rlib"]
    for folder in [f"{kit}/rlibs", *built.values()]:
        words += ["-L", f"dependency={folder}"]
    words += ["--antt-project", f"{kit}/rattle/logic/antt-project.json", "--logic-built", f"{kit}/logic_built"]
    return [*words, "--links", f"{crate}=", "--jobs", str(jobs)]


def provers(memory):
    """How many provers, of so much memory in bytes, may run at one time: one a core, if there is memory for them."""
    free = 1024 * int(re.search(r"MemAvailable: *(\d+)", Path("/proc/meminfo").read_text(encoding="ascii"))[1])
    return max(min(len(os.sched_getaffinity(0)), free // memory), 1)


class Crate:
    """A crate: what it depends on, how it is built, and what that took."""

    def __init__(self, name, uses, kit):
        self.name, self.kit, self.all_uses = name, kit, uses
        self.uses = uses[name]
        self.below = [it for it in self.uses if it in uses]
        self.all_below = below(name, uses)
        self.folder = f"{ROOT}/crates/{name}"
        # (the sum of all that it was made from when it was built here; rt removes it with the library when it builds its own)
        self.kept_sum = f"{self.folder}/out/rlib/built"
        self.is_program = os.path.exists(f"{self.folder}/src/main.rt")
        self.jobs = self.used = 0
        self.ran = None

    def files(self):
        """The files that the crate is made from."""
        for part in ("src", "specs", "proofs"):
            for folder, _, names in sorted(os.walk(f"{self.folder}/{part}")):
                yield from (f"{folder}/{it}" for it in sorted(names))

    def lines(self):
        """How many lines of code it has: about how much work it is."""
        return sum(Path(it).read_bytes().count(b"\n") for it in self.files() if it.endswith(".rt"))

    def sum_of_files(self, *more):
        """A sum of the kit, of the crate's own files, and of more files."""
        made = hashlib.sha256(" ".join(self.uses).encode())
        for it in [f"{self.kit}/KIT-ID", *self.files(), *more]:
            made.update(it.removeprefix(ROOT).encode() + Path(it).read_bytes())
        return made.hexdigest()

    def sum_of_all(self, crates):
        """A sum of all that the crate is made from. The crates that it depends on are built."""
        return self.sum_of_files(*(crates[it].kept_sum for it in self.below))

    def commands(self):
        """The commands that prove the crate and build it: a library; or a program, which is compiled and linked."""
        prove = [f"{self.kit}/bin/rattle", "build", *prover_words(self.name, self.all_uses, self.jobs)]
        if not self.is_program:
            return [[*prove, "--statements", "-o", f"out/rlib/{self.name}.rlib"]]
        tools = ["--toolchain", f"{self.kit}/toolchain"]
        link = [f"{self.kit}/bin/rattle-link", "--target", "x86_64-unknown-linux-gnu", *tools, "-o", f"out/{self.name}"]
        libraries_of_c = [f"{self.kit}/c/libos_c.a", f"{self.kit}/c/liblibc_c.a"]
        return [[*prove, *tools, "-o", f"out/{self.name}.o"], [*link, f"out/{self.name}.o", *libraries_of_c]]

    def build(self, crates):
        """Proves the crate and builds it. True if it is proved."""
        start = time.monotonic()
        shutil.rmtree(f"{self.folder}/out/rlib", ignore_errors=True)
        os.makedirs(f"{self.folder}/out/rlib")
        made_from = self.sum_of_all(crates)
        with open(f"{self.folder}/out/log", "w", encoding="utf-8") as log:
            for it in self.commands():
                how = {"stdin": subprocess.DEVNULL, "stdout": log, "stderr": log, "start_new_session": True}
                with subprocess.Popen(it, cwd=self.folder, **how) as self.ran:
                    _, ended, used = os.wait4(self.ran.pid, 0)
                    self.ran.returncode = os.waitstatus_to_exitcode(ended)
                self.used += used.ru_utime + used.ru_stime
                if self.ran.returncode:
                    return False
        self.keep_sum(made_from)
        print(f"proved: {self.name} ({time.monotonic() - start:.0f} s, {self.used:.0f} of processor time)", flush=True)
        return True

    def break_off(self):
        """Ends the provers of the crate."""
        if self.ran and self.ran.returncode is None:
            os.killpg(self.ran.pid, signal.SIGKILL)

    def is_built(self, crates):
        """Whether the crate was built, and all that it is made from is as it was then. It is not asked whether those that
        it depends on are built."""
        made = f"{self.folder}/out/{self.name if self.is_program else f'rlib/{self.name}.rlib'}"
        try:
            return os.path.exists(made) and Path(self.kept_sum).read_text(encoding="utf-8") == self.sum_of_all(crates)
        except OSError:
            return False

    def keep_sum(self, made_from):
        """Keeps the sum of all that the crate was made from, beside what was built."""
        Path(self.kept_sum).write_text(made_from, encoding="utf-8")


def every_crate():
    """Each crate of the repository, lowest first."""
    kit, uses = kit_folder(), libraries()
    return {it: Crate(it, uses, kit) for it in TopologicalSorter(uses).static_order() if it in uses}


def copy_programs():
    """Copies the programs that are built from the folders of their crates."""
    os.makedirs(f"{ROOT}/bin", exist_ok=True)
    for program, crate in GOALS.items():
        built = f"{ROOT}/crates/{crate}/out/{crate}"
        if os.path.exists(built):
            shutil.copy(built, f"{ROOT}/bin/{program}")


if __name__ == "__main__":
    print(*prover_words(sys.argv[1], libraries()), sep="\n")
