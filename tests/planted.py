#!/usr/bin/env python3
"""Faults planted in the hosts are noticed: each hosts/planted/*.edit goes into a copy, which is built, and the smallest test that is to notice it must fail.

    python3 tests/planted.py DIFFER CHECKER GATE FOLDER    'N passed, M failed'; FOLDER has a few sheets, one of them with more than 1,000 bytes of listing,
                                                           one that reading refuses behind byte 1,000, one of the older edition, and one whose gaps go to
                                                           others by the longest boundary; and blobs of them, one of them refused by 52

An edit is written as those of crates/*/must-fail: `file:`, and then `old:`, which stands there once, and `new:`. The copy without an edit must pass first. A text
that isn't found, a copy that can't be built and a fault that nothing notices are failures. CHECKER and GATE are commands, built from the hosts as they are.
"""
import concurrent.futures
import glob
import os
import re
import shutil
import subprocess
import sys

from tally import tally

ROOT = os.path.dirname(os.path.dirname(os.path.abspath(__file__)))
BUILD = os.path.join(ROOT, "target", "hosts", "planted")
TARGET, RUN = os.environ.get("TARGET", "x86_64-unknown-linux-gnu"), os.environ.get("RUN", "")
# Where the gate was built, with the crates that it takes, and which words cargo takes them by: gates with a fault are built there, too, without building the crates again.
GATES, CRATES = os.environ.get("CARGO_TARGET_DIR", os.path.join(BUILD, "gates")), os.environ.get("CRATES", "").split()
# What is built and tested for a fault in a file, by how the file's path begins; and which of the two copies has it.
PARTS = (("include/refusals.def", "checker", "cpp"), ("include/", "header", "cpp"), ("hosts/cpp/", "checker", "cpp"),
         ("hosts/gate/", "gate", "rust"), ("hosts/rust/", "crate", "rust"))


def edits():
    """Each edit's name, file, old text and new text."""
    for path in sorted(glob.glob(os.path.join(ROOT, "hosts", "planted", "*.edit"))):
        with open(path, encoding="utf-8") as f:
            words = dict(re.findall(r"^(file|old|new): (.*)$", f.read(), re.M))
        yield os.path.basename(path)[:-5], words["file"], words["old"], words["new"]


def part_of(file):
    """The part and the copy for a fault in this file."""
    return next((part, copy) for start, part, copy in PARTS if file.startswith(start))


class Copy:
    """A copy of the hosts, and what is built of it."""

    def __init__(self, name, differ, checker, gate, folder):
        self.tree, self.made = os.path.join(BUILD, name, "tree"), os.path.join(BUILD, name, "made")
        self.differ, self.checker, self.gate, self.folder = differ, checker, gate, folder
        shutil.rmtree(os.path.join(BUILD, name), ignore_errors=True)
        for part in ("include", "hosts/cpp", "hosts/rust", "hosts/gate", "hosts/beside", "hosts/independent"):
            shutil.copytree(os.path.join(ROOT, part), os.path.join(self.tree, part), ignore=shutil.ignore_patterns("target"))
        os.makedirs(os.path.join(self.tree, "target"))
        os.symlink(os.path.join(ROOT, "target", "staticlib"), os.path.join(self.tree, "target", "staticlib"))

    def path(self, file):
        return os.path.join(self.tree, file)

    def made_by_cargo(self, *path):
        return ("%s %s" % (RUN, os.path.join(*path))).strip()

    def made_by_cmake(self, program):
        return ("%s %s" % (RUN, os.path.join(self.made, program))).strip()

    def build(self, part):
        """The commands that build a part."""
        if part in ("header", "checker"):
            return [["cmake", "-S", self.path("hosts/cpp"), "-B", self.made, "-DCMAKE_BUILD_TYPE=None"],
                    ["cmake", "--build", self.made, "--target", "bridge" if part == "header" else "checker"]]
        if part == "gate":
            built = ["--release", *CRATES, "--config", "profile.release.package.gate.opt-level=0", "--target-dir", GATES, "--manifest-path", self.path("hosts/gate/Cargo.toml")]
        else:
            built = ["--target-dir", self.made, "--manifest-path", self.path("hosts/beside/Cargo.toml"), "--bin", "bridge"]
        return [["cargo", "build", "--quiet", "--target", TARGET, *built]]

    def tests(self, part):
        """The commands that test a part: a wrapper on the largest sheets and on some that can't be read, the crate's functions on lent bytes, a program on
        the folder's."""
        if part in ("header", "crate"):
            bridge = self.made_by_cmake("bridge") if part == "header" else self.made_by_cargo(self.made, TARGET, "debug", "bridge")
            wrapped = [[self.differ, "--wrapped", bridge, *inputs] for inputs in (("largest", "6"), ("seeds", "60"))]
            return wrapped + [[self.differ, bridge, "seeds", "200"]] * (part == "crate")
        programs = (self.made_by_cmake("checker"), self.gate) if part == "checker" else (self.checker, self.made_by_cargo(GATES, TARGET, "release", "gate"))
        return [[sys.executable, os.path.join(ROOT, "tests", suite), "--sheets", *programs, self.folder] for suite in ("programs.py", "packages.py")]

    def tried(self, part):
        """What became of the part as it stands: 'not built', 'passed', 'failed', or 'broken' where the test doesn't say."""
        for command in self.build(part):
            built = subprocess.run(command, capture_output=True, text=True)
            if built.returncode != 0:
                print(built.stdout + built.stderr)
                return "not built"
        for command in self.tests(part):
            tested = subprocess.run(command, capture_output=True, text=True)
            told = re.search(r"(\d+) passed, (\d+) failed\n$", tested.stdout)
            if told is None or (tested.returncode == 0) != (told[2] == "0"):
                print(tested.stdout + tested.stderr)
                return "broken"
            if tested.returncode:
                return "failed"
        return "passed"

    def planted(self, name, file, old, new):
        """Is the fault noticed?"""
        with open(self.path(file), encoding="utf-8") as f:
            text = f.read()
        if text.count(old) != 1:
            print("%s: the text stands %d times in %s" % (name, text.count(old), file))
            return False
        try:
            with open(self.path(file), "w", encoding="utf-8") as f:
                f.write(text.replace(old, new))
            became = self.tried(part_of(file)[0])
        finally:
            with open(self.path(file), "w", encoding="utf-8") as f:
                f.write(text)
        print("%s: %s" % (name, "noticed" if became == "failed" else "NOT NOTICED: " + became))
        return became == "failed"

    def outcomes(self, chosen):
        """Do the parts pass without a fault, and is each of these faults noticed?"""
        outcomes = []
        for part in sorted({part_of(file)[0] for _, file, _, _ in chosen}):
            became = self.tried(part)
            print("%s without a fault: %s" % (part, became))
            outcomes.append(became == "passed")
        return outcomes + [self.planted(*edit) for edit in chosen]


def main(differ, checker, gate, folder):
    """Both copies beside each other."""
    chosen = {name: [edit for edit in edits() if part_of(edit[1])[1] == name] for name in ("cpp", "rust")}
    with concurrent.futures.ThreadPoolExecutor() as pool:
        begun = [pool.submit(Copy(name, differ, checker, gate, folder).outcomes, some) for name, some in chosen.items()]
        return tally([all(chosen.values())] + [outcome for each in begun for outcome in each.result()])


if __name__ == "__main__":
    sys.exit(main(*sys.argv[1:]))
