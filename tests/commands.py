#!/usr/bin/env python3
"""The README's commands as a newcomer gives them, in a fresh clone of this tree with its changes, from a state without target/. 'N passed, M failed'

    python3 tests/commands.py    after `rt ci`; what the listing's program is built from here is given to the clone in the end, so that nothing is proved twice
"""
import glob
import os
import re
import shutil
import signal
import subprocess
import sys
import tempfile

import independent
from tally import tally

ROOT = os.path.dirname(os.path.dirname(os.path.abspath(__file__)))
CUT = 65_536
SAID_IF_CUT = "sheetcheck: the input is longer than 65,536 bytes, and only these were read"
SAID_IF_QUICK = "examples/listing: compiled without proof: nothing of the program was proved in this run"
PROVED = re.compile(r"\w+ proved, \d+ left$")


def clone(folder):
    """Copies the files that git knows, as they stand."""
    names = subprocess.run(["git", "-c", "safe.directory=" + ROOT, "ls-files", "-z"], cwd=ROOT, check=True, capture_output=True).stdout
    for name in filter(None, names.decode().split("\0")):
        os.makedirs(os.path.join(folder, os.path.dirname(name)), exist_ok=True)
        shutil.copy2(os.path.join(ROOT, name), os.path.join(folder, name))


def environment(path, **more):
    """The environment with this PATH, on which there is no rt, and with nothing that names the kit but what is given."""
    return {**{name: value for name, value in os.environ.items() if name != "RATTLE_HOME"}, "PATH": path, **more}


def run(folder, *words, env=None):
    """The exit status, what is printed, and the lines that are said on standard error."""
    done = subprocess.run(words, cwd=folder, env=env, capture_output=True, text=True)
    return done.returncode, done.stdout, done.stderr.splitlines()


def sheets(folder):
    """The examples, a sheet that is as long as can be read, and a longer one, of which only so much is read; and what is printed for all."""
    paths = sorted(glob.glob(os.path.join(folder, "examples", "*.wkb")))
    listings = [open(path[:-4] + ".txt", encoding="ascii").read() for path in paths]
    full, longer = (os.path.join(folder, name) for name in ("full.wkb", "a table of 1,024 triangles.wkb"))
    independent.cases(folder)
    with open(longer, "rb") as f, open(full, "wb") as g:
        g.write(f.read(CUT))
    (_, listing), = independent.answers([full])
    return [*paths, full, longer], "".join(listings) + 2 * "".join(line + "\n" for line in listing)


def quick(folder, kit):
    """Compiled without proof, with the kit where RATTLE_HOME names it and no rt on the PATH: the stored listings, what is said, and nothing left behind."""
    paths, printed = sheets(folder)
    ended = run(folder, "examples/listing", "--quick", *paths, env=environment("/usr/bin:/bin", RATTLE_HOME=kit))
    return [ended == (0, printed, [SAID_IF_QUICK, SAID_IF_CUT]), not os.path.exists(os.path.join(folder, "target"))]


def first_crate(folder):
    """Does the command show the first crate that is proved? It is ended then, with all that it has begun."""
    words = ["examples/listing", "examples/story.wkb"]
    begun = subprocess.Popen(words, cwd=folder, stdout=subprocess.PIPE, stderr=subprocess.PIPE, text=True, start_new_session=True)
    said = []
    for line in begun.stderr:
        said.append(line.rstrip("\n"))
        if PROVED.match(line):
            break
    os.killpg(begun.pid, signal.SIGKILL)
    begun.communicate()
    shutil.rmtree(os.path.join(folder, "target"), ignore_errors=True)
    print("\n".join(said))
    return [len(said) == 2 and PROVED.match(said[1]) is not None]


def proved(folder):
    """With what is proved and built here: the stored listings, and no crate is proved again."""
    paths, printed = sheets(folder)
    status, listing, said = run(ROOT, "examples/listing", *paths)
    if status:
        print("\n".join(said))
    for made in glob.glob(os.path.join(ROOT, "crates", "*", "out")):
        given = os.path.join(folder, os.path.relpath(made, ROOT))
        shutil.rmtree(given, ignore_errors=True)
        shutil.copytree(made, given, symlinks=True)
    return [(status, listing, said[-1:]) == (0, printed, [SAID_IF_CUT]), run(folder, "examples/listing", *paths) == (0, printed, [SAID_IF_CUT])]


def unprivileged(words):
    """The command as a user without root."""
    return ["setpriv", "--reuid=65534", "--regid=65534", "--clear-groups", *words] if os.getuid() == 0 else words


def refused(folder, kit):
    """The gate on a machine that lacks the kit, or packages that its user can't install: one line that names them, and another status than 0."""
    tools = os.path.join(folder, "few tools")
    os.makedirs(tools)
    for name in ("bash", "basename", "dirname", "uname", "id", "apt-get", "setpriv"):
        os.symlink(shutil.which(name), os.path.join(tools, name))
    outcomes = []
    for home, names in ((kit, ("cmake", "make", "git", "python3", "cargo-web")), (os.path.join(folder, "none"), ("Rattle kit", os.path.join(folder, "none")))):
        status, printed, said = run(folder, *unprivileged(["bash", ".ci/run"]), env=environment(tools, RATTLE_HOME=home))
        print("\n".join(said))
        outcomes += [status == 1 and printed == "" and len(said) == 1, all(name in said[0] for name in names)]
    return outcomes


def main():
    kit = subprocess.run(["rt", "doc"], check=True, capture_output=True, text=True).stdout.rpartition("/")[0]
    with tempfile.TemporaryDirectory() as folder:
        os.chmod(folder, 0o755)
        clone(folder)
        outcomes = refused(folder, kit) + quick(folder, kit) + first_crate(folder) + proved(folder)
    return tally(outcomes)


if __name__ == "__main__":
    sys.exit(main())
