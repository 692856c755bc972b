"""Builds a proved program beside a copy of the crates, for the measuring scripts of this folder."""
import os
import shutil
import subprocess
import sys

TOP = os.path.join(os.path.dirname(os.path.abspath(__file__)), "..")


def write(path, text):
    """Writes a text into a file, and makes the folders on its path."""
    os.makedirs(os.path.dirname(path), exist_ok=True)
    with open(path, "w", encoding="utf-8") as it:
        it.write(text)


def build(folder, name, libraries, sources, proofs):
    """Writes the program of that name into a copy of the repository, and builds it there. `sources` and `proofs` are texts by paths."""
    unneeded = shutil.ignore_patterns("out", "must-fail")
    shutil.copytree(os.path.join(TOP, "crates"), os.path.join(folder, "crates"), ignore=unneeded)
    shutil.copy(os.path.join(TOP, "HANDLES"), folder)
    with open(os.path.join(TOP, "crates.txt"), encoding="utf-8") as it:
        listed = it.read()
    write(os.path.join(folder, "crates.txt"), listed + "%s: %s\n" % (name, libraries))
    program = os.path.join(folder, "crates", name)
    for path, text in sources.items():
        write(os.path.join(program, "src", path), text)
    for path, text in proofs.items():
        write(os.path.join(program, "proofs", path), text)
    built = subprocess.run(["rt", "run"], cwd=program, stdout=subprocess.PIPE, stderr=subprocess.STDOUT, text=True)
    if built.returncode != 0:
        sys.exit(built.stdout)
    return os.path.join(program, "out", name)
