#!/usr/bin/env python3
"""The README's projects, as a newcomer makes them: the library installed, and each project in an empty folder, with the README's files and commands and nothing
else. 'N passed, M failed'

    python3 tests/newcomer.py    with the settings of hosts/toolchain, where the processor isn't an x86-64 one

The C++ project is linked with the static library and with the shared one, found by CMake and by pkg-config; the Rust one with the library in its repository, and
where it is installed.
"""
import os
import re
import subprocess
import sys
import tempfile

from tally import tally

ROOT = os.path.dirname(os.path.dirname(os.path.abspath(__file__)))
BLOCK = re.compile(r"^```(\w+)(?: (\S+))?\n(.*?)^```$", re.M | re.S)


def run(commands, folder, prefix, **more):
    """Runs commands in a folder, programs that they have built by the emulator where there is one. Do they succeed, and what is printed?"""
    commands = re.sub(r"^build/", os.environ.get("RUN", "") + " build/", commands, flags=re.M)
    target = {"CARGO_TARGET_DIR": os.path.join(folder, "target"), "CARGO_BUILD_TARGET": os.environ.get("TARGET", "")}
    given = {**os.environ, "SHEETS": ROOT, "PREFIX": prefix, **target, **more}
    done = subprocess.run(["bash", "-euc", commands], cwd=folder, env={k: v for k, v in given.items() if v}, capture_output=True, text=True)
    print(commands + done.stdout + done.stderr * (done.returncode != 0))
    return done.returncode == 0, done.stdout


def installed(section, prefix):
    """Do the section's commands succeed in an empty folder?"""
    (_, _, commands), = BLOCK.findall(section)
    with tempfile.TemporaryDirectory() as folder:
        return [run(commands, folder, prefix)[0]]


def told(tool, *words):
    """What a tool of the compiler's tells."""
    found = subprocess.run([os.environ.get("CXX", "c++"), "-print-prog-name=" + tool], check=True, capture_output=True, text=True).stdout.strip()
    return subprocess.run([found, *words], check=True, capture_output=True, text=True).stdout


def needing(folder):
    """The programs of a folder's build that need the shared library."""
    made = [os.path.join(folder, "build", name) for name in ("mine", "shared", "static")]
    return [os.path.basename(path) for path in made if os.path.exists(path) and "[libsheets.so.0]" in told("readelf", "-d", path)]


def project(section, prefix, changed=("", ""), shared=(), **more):
    """Do the section's commands, one block after the other in one folder, print what stands below each, and do these programs need the shared library? In the
    section's files a text is changed for another."""
    blocks = BLOCK.findall(section)
    outcomes = [changed[0] in section]
    with tempfile.TemporaryDirectory() as folder:
        for _, name, text in blocks:
            if name:
                os.makedirs(os.path.join(folder, os.path.dirname(name)), exist_ok=True)
                with open(os.path.join(folder, name), "w", encoding="utf-8") as f:
                    f.write(text.replace(*changed))
        for (word, _, commands), (below, _, printed) in zip(blocks, blocks[1:]):
            if word == "sh":
                done, out = run(commands, folder, prefix, **more)
                outcomes.append(done and below == "text" and printed != "" and out.endswith(printed))
        return outcomes + [needing(folder) == list(shared)]


def exported(prefix):
    """Does the shared library give the entries that the header declares, and nothing else, under its own name?"""
    library = os.path.join(prefix, "lib", "libsheets.so")
    with open(os.path.join(ROOT, "include", "sheets.h"), encoding="ascii") as f:
        declared = re.findall(r"^uint64_t (\w+)\(", f.read(), re.M)
    names = [line.split()[-1] for line in told("nm", "-D", "--defined-only", library).splitlines()]
    print("exported: " + " ".join(names))
    return [sorted(names) == sorted(declared) != [], "[libsheets.so.0]" in told("readelf", "-d", library)]


def main():
    with open(os.path.join(ROOT, "README.md"), encoding="utf-8") as f:
        sections = {section.splitlines()[0]: section for section in f.read().split("\n## ")}
    with tempfile.TemporaryDirectory() as prefix:
        cpp, rust = sections["In a C++ project"], sections["In a Rust project"]
        outcomes = installed(sections["Installing"], prefix) + exported(prefix)
        outcomes += project(cpp, prefix, shared=["shared"]) + project(cpp, prefix, ("sheets::sheets", "sheets::shared"), ["mine", "shared"])
        outcomes += project(rust, prefix) + project(rust, prefix, SHEETS_LIB_DIR=os.path.join(prefix, "lib"))
    return tally(outcomes)


if __name__ == "__main__":
    sys.exit(main())
