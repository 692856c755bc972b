"""What `ixone` answers to texts, for tools that can't go on where it refuses its input."""
from sessions import programs


class Wrong(Exception):
    """The words of a command can't be followed, a file can't be read, or the program refused its input."""


def read(path):
    """The text of a file, which has to be ASCII, as scripts and reports are."""
    try:
        with open(path, "rb") as it:
            return it.read().decode("ascii")
    except OSError as fault:
        raise Wrong(f"{path}: {fault.strerror}") from fault
    except UnicodeDecodeError as fault:
        raise Wrong(f"{path}: byte {fault.start + 1} is not ASCII") from fault


class Program:
    """`ixone`; `path` is the one to run, or None for the environment's IXONE, or the one that is built, or else what `rt try` compiles."""

    def __init__(self, path=None):
        self.found = programs.find("ixone", path)

    def is_compiled(self):
        return programs.is_compiled(self.found)

    def answer(self, command, text):
        """What the program prints of an input; a refusal is raised with the program's own words."""
        try:
            done = programs.run(self.found, command.split(" "), text.encode("ascii"))
        except programs.NotThere as fault:
            raise Wrong(str(fault)) from fault
        if done.status != 0:
            told = done.out.decode("utf-8", "replace").strip()
            raise Wrong(told or f"{' '.join(self.found.words)} {command} ended with status {done.status}")
        return done.out.decode("ascii")

    def refused_line(self, script, report):
        """The first line at which a text stops being a report of a script, or None where it is one.

        A text that doesn't begin as a report would be taken for more of the script, and is left out: `check` says no 1 then.
        """
        begins = report.split("\n")[0] in ("ix 1 report", "ix 2 report")
        word, number = self.answer("check", ended(script) + (report if begins else "")).split()
        return None if word == "yes" else int(number)


def ended(text):
    """A text whose last line ends in a line feed."""
    return text if text.endswith("\n") else text + "\n"


def halves(text):
    """The two scripts of a pair, which a line `twin` keeps apart; without one the second has no line."""
    first, _, second = text.partition("\ntwin\n")
    return first + "\n", second
