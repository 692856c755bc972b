"""Finds the programs and runs them."""
import os
import subprocess
from collections import namedtuple

from . import forms

# `words` run the program, in `folder` where that isn't the current one. `is_built` says that they are those of a proved build.
Program = namedtuple("Program", "name words folder is_built")
Answer = namedtuple("Answer", "status out err")


class NotThere(Exception):
    """The program can't be run."""


def find(name, path=None):
    """A program by its name, at the path that is named, or that the environment names, or where a proved build lies; else `rt try` compiles it."""
    path = path or os.environ.get(name.upper())
    if path:
        return Program(name, [os.path.abspath(path)], None, False)
    home = os.path.join(forms.TOP, "crates", name)
    built = os.path.join(home, "out", name)
    if os.path.exists(built):
        return Program(name, [built], None, True)
    return Program(name, ["rt", "try", "--"], home, False)


def is_compiled(program):
    """Whether `rt try` compiles the program first."""
    return program.folder is not None


def run(program, words, data):
    """What a program answers to bytes on its standard input."""
    try:
        done = subprocess.run(program.words + words, input=data, capture_output=True, cwd=program.folder)
    except OSError as fault:
        hint = f": crates/{program.name}/out/{program.name} isn't built, and there is no rt to compile it" if is_compiled(program) else ""
        raise NotThere(f"{program.words[0]}: {fault.strerror}{hint}") from fault
    if done.returncode < 0:
        raise NotThere(f"{program.words[0]} was ended by signal {-done.returncode}")
    return Answer(done.returncode, done.stdout, done.stderr)
