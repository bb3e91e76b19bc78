"""The compiler's front end, run over sources alone: what is wrong with them is told in seconds, and no crate has to be built.

It parses, resolves names, checks types and what is lent. Each copy of a crate that is to be looked at goes by a name of its
own and stands on the crates as they are, so any number of copies go into one run, and none disturbs another.

To end there, before anything is made ready for the prover, the crate that all others are handed to has a fault of the last
kind: so a run that got to the end tells this one, and others if there are some. What is told later still isn't seen here, as
that two functions call one another and don't say so; rt tells it, once the code is tried.
"""
import collections
import os
import re
import shutil
import signal
import subprocess
import tempfile

TOP = os.path.dirname(os.path.dirname(os.path.abspath(__file__)))
CRATES = os.path.join(TOP, "crates")

# What is wrong, and where: the number of the copy, the file and the line from 0 on, or None where it is in no copy.
Error = collections.namedtuple("Error", "copy path line text")

ERROR = re.compile(r"(?:(?:(?P<copy>\d+)/)?(?P<path>[^\s:]+):(?P<line>\d+):\d+: |rattle: )?error\b.*")
LAST = "src/lib.rt:8:10: error[borrow-e0382]"
ROOT = """//! Ends each run of the front end, by the last of its faults.
#![tactic(auto)]

fn take(_bytes: Vec<u8>) {}

fn end(bytes: Vec<u8>) {
    take(bytes);
    take(bytes);
}
"""

class Broken(Exception):
    """Why the front end can't tell what is wrong with edits."""


def source(crate, path):
    """The text of a crate's file."""
    with open(os.path.join(CRATES, crate, path), encoding="utf-8") as it:
        return it.read()


def listed():
    """The crates of crates.txt: of each all that it names, of the repository and of the kit."""
    found = {}
    with open(os.path.join(TOP, "crates.txt"), encoding="utf-8") as it:
        for line in it:
            head, colon, uses = line.partition("#")[0].partition(":")
            if colon:
                found[head.split()[0]] = uses.split()
    return found


def with_below(crates, listed):
    """These crates and all of the repository that they stand on, lowest first."""
    found = []
    for crate in crates:
        below = with_below([it for it in listed[crate] if it in listed and it not in found], listed)
        found += [it for it in [*below, crate] if it not in found]
    return found


class Compiler:
    """The front end of the toolchain, and the crates as crates.txt lists them."""

    def __init__(self):
        try:
            told = subprocess.run(["rt", "doc"], capture_output=True, text=True, check=True).stdout
        except (OSError, subprocess.CalledProcessError) as fault:
            raise Broken(f"rt doc, which tells where the toolchain is: {fault}") from None
        self.kit = os.path.dirname(told.strip())
        self.crates = listed()

    def words(self, copies):
        """The words of a run over these copies of crates, and over what these stand on as it is."""
        below = with_below({it: None for crate in copies for it in self.crates[crate] if it in self.crates}, self.crates)
        libraries = [(crate, crate, os.path.join(CRATES, crate)) for crate in below]
        libraries += [(f"{crate}_copy_{number}", crate, str(number)) for number, crate in enumerate(copies)]
        uses = {crate: list(dict.fromkeys(["core", "std", *self.crates[crate]])) for _, crate, _ in libraries}
        words = [os.path.join(self.kit, "bin/rattle"), "check", "--crate-name", "every_crate", "src/lib.rt"]
        for name in sorted({it for names in uses.values() for it in names} - set(self.crates)):
            words += ["--extern", f"{name}={self.kit}/rlibs/{name}.rlib"]
        words += ["-L", f"dependency={self.kit}/rlibs"]
        for name, crate, folder in libraries:
            words += ["--lib", f"{name}:{','.join(uses[crate])}={folder}/src/lib.rt"]
        words += ["--antt-project", f"{self.kit}/rattle/logic/antt-project.json", "--logic-built", f"{self.kit}/logic_built"]
        return [*words, "--jobs", "1", "--only", ""]

    def run(self, copies):
        """Looks at copies of crates, each of a crate with the texts of the files that differ.

        Gives the errors, and whether the run got to the end: where one of an earlier kind is told, others may be left.
        """
        with tempfile.TemporaryDirectory(prefix="edits-") as room:
            texts = {"src/lib.rt": ROOT}
            for number, (crate, changed) in enumerate(copies):
                shutil.copytree(os.path.join(CRATES, crate, "src"), os.path.join(room, str(number), "src"))
                texts.update((os.path.join(str(number), path), text) for path, text in changed.items())
            os.makedirs(os.path.join(room, "src"), exist_ok=True)
            for path, text in texts.items():
                with open(os.path.join(room, path), "w", encoding="utf-8") as it:
                    it.write(text)
            how = {"cwd": room, "stdin": subprocess.DEVNULL, "stdout": subprocess.PIPE, "stderr": subprocess.STDOUT, "errors": "replace"}
            ran = subprocess.run(self.words([crate for crate, _ in copies]), **how)
        errors = [it for it in map(ERROR.fullmatch, ran.stdout.split("\n")) if it]
        if ran.returncode != 1 or not errors:
            ended = signal.Signals(-ran.returncode).name if ran.returncode < 0 else f"status {ran.returncode}"
            raise Broken(f"the front end ended with {ended}: {ran.stdout[-600:].strip()}")
        found = [Error(int(it["copy"]), it["path"], int(it["line"]) - 1, it[0]) if it["copy"] else Error(None, None, 0, it[0])
                 for it in errors if not it[0].startswith(LAST)]
        return found, len(found) < len(errors)
