"""What is said to people on standard error: a fault at a line, the line, and a mark under the word."""
import os
import sys

WIDE = 100
COLOURS = {"error": "\x1b[1;31m", "warning": "\x1b[1;35m", "note": "\x1b[1;36m", "place": "\x1b[1m"}
PLAIN = "\x1b[0m"


class Messages:
    """Writes messages, in colour where standard error is a terminal and nobody asks for none."""

    def __init__(self, color):
        self.is_coloured = color == "auto" and sys.stderr.isatty() and not os.environ.get("NO_COLOR") and os.environ.get("TERM") != "dumb"

    def coloured(self, kind, text):
        return f"{COLOURS[kind]}{text}{PLAIN}" if self.is_coloured else text

    def say(self, kind, place, text):
        """A message of a kind, `error`, `warning` or `note`, about a place, as `FILE:LINE`."""
        before = self.coloured("place", f"{place}:") + " " if place else ""
        print(f"{before}{self.coloured(kind, kind + ':')} {visible(text)}", file=sys.stderr)

    def quote(self, line, found=None):
        """A line, and a mark under the word that was found in it, with what is known of it."""
        at = found.at if found else None
        text, first = window(line, at)
        print("  " + text, file=sys.stderr)
        if at is not None:
            shown = visible(line[first:at])
            marks = "^" * max(1, min(len(visible(line[at:at + found.length])), WIDE - len(shown)))
            print("  " + " " * (len(shown) + (2 if first else 0)) + self.coloured("error", marks), file=sys.stderr)
        for note in found.notes if found else ():
            print("  " + visible(note), file=sys.stderr)


def visible(text):
    """A text in which nothing moves a terminal's cursor: a byte that isn't a visible character of ASCII stands as `\\x` and two digits."""
    return "".join(sign if " " <= sign <= "~" or sign > "\xff" and sign.isprintable() else f"\\x{ord(sign):02x}" for sign in text)


def window(line, at):
    """The part of a long line around a column, and the column of its first character; `..` stands for what is left out."""
    first = max(0, at - WIDE // 2) if at is not None and at > WIDE * 3 // 4 else 0
    text = visible(line[first:first + WIDE])
    return (".." if first else "") + text + (".." if first + WIDE < len(line) else ""), first
