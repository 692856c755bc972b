"""Times of one run of a program, for the measuring scripts of this folder."""
import os
import subprocess
import sys
import tempfile
import time


def timed(program, words, text=b""):
    """Milliseconds of the processor, user and system, and of the wall, for one run that reads this text and writes to nowhere."""
    with tempfile.TemporaryFile() as source:
        source.write(text)
        source.seek(0)
        begun = time.monotonic()
        child = subprocess.Popen([program, *words], stdin=source, stdout=subprocess.DEVNULL)
        _, status, used = os.wait4(child.pid, 0)
        wall = time.monotonic() - begun
        child.returncode = os.waitstatus_to_exitcode(status)
        if child.returncode != 0:
            sys.exit("%s %s ended with %d" % (program, " ".join(words), child.returncode))
        return (used.ru_utime + used.ru_stime) * 1e3, wall * 1e3


def processor(program, words, text=b""):
    """Milliseconds of the processor alone."""
    return timed(program, words, text)[0]


def least(program, words, text=b"", runs=5):
    """The least time of the processor of so many runs."""
    return min(processor(program, words, text) for _ in range(runs))


def text_of(lines):
    """The bytes of a script of these lines."""
    return ("\n".join(lines) + "\n").encode()
