"""The independent program, hosts/independent: what it says of sheets, and the sheets that it makes. It is built first, where that was not done since its last change."""
import os
import subprocess

ROOT = os.path.dirname(os.path.dirname(os.path.abspath(__file__)))
MANIFEST = os.path.join(ROOT, "hosts", "independent", "Cargo.toml")


def run(program, *words):
    """What one of its programs prints."""
    command = ["cargo", "run", "--release", "--quiet", "--manifest-path", MANIFEST, "--bin", program, "--", *words]
    given = {**os.environ, "CARGO_TARGET_DIR": os.path.join(ROOT, "target", "hosts", "cargo")}
    return subprocess.run(command, env=given, check=True, stdout=subprocess.PIPE).stdout.decode("ascii")


def answers(paths, mode=0, way=0):
    """For each file its verdict in this mode, 'clean', 'repair', 'refused CODE ITEM' or 'refused CODE ITEM POSITION' where reading refuses, and the lines of its listing in
    this way."""
    printed = [answer.split("\n") for answer in run("answers", str(mode), str(way), *paths).split("\n\n")[:-1]]
    assert len(printed) == len(paths)
    return [(verdict, listing) for verdict, *listing in printed]


def owners_at(paths, point, mode=0, way=0):
    """For each file who owns the point after repair, 'polygon NUMBER', or its refusal as a verdict has it."""
    printed = run("owners_at", str(mode), str(way), *map(str, point), *paths).split("\n")[:-1]
    assert len(printed) == len(paths)
    return printed


def cases(folder):
    """Writes the sheets and the blobs that were made by hand to the folder, as .wkb and .gpb, by names that say what each tries."""
    run("cases", folder)
