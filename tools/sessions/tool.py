"""Runs a command of a tool: its words, its messages and its status."""
import os
import sys

from . import asking, frames, messages, options, programs

VERSION = "1"


def told(message, fault):
    """Says what went wrong before a program answered, and answers the status of that."""
    if isinstance(fault, asking.Usage):
        message.say("error", None, str(fault))
        return 2
    if isinstance(fault, frames.Wrong):
        message.say("error", fault.place, fault.text)
        if fault.quoted is not None:
            message.quote(fault.quoted.decode("latin-1"))
        return fault.status
    message.say("error", None, str(fault))
    return asking.CANNOT


def version(tool):
    """The version of a tool, and where the programs lie."""
    lines = [f"{tool} {VERSION}"]
    for name in ("ixone", "ixrun"):
        found = programs.find(name)
        kind = "a proved build" if found.is_built else "compiled without proofs by `rt try`" if programs.is_compiled(found) else "as it is named"
        lines.append(f"{name}: {found.words[0] if not programs.is_compiled(found) else 'crates/' + name} ({kind})")
    return "\n".join(lines) + "\n"


def follow(command, words, message_of):
    """Parses the words of a command and does what they say."""
    operands, flags = options.parse(words, options.flags_of(command))
    options.check_operands(command, operands)
    return command.work(asking.Asked(command, operands, flags, message_of(flags["color"])))


def main(command, words, shown):
    """The status of a command whose words these are; `shown` is what `--help` says of it."""
    message = messages.Messages("never" if "--color=never" in words or ("--color", "never") in zip(words, words[1:]) else "auto")
    try:
        if "--help" in words or "-h" in words:
            sys.stdout.write(shown)
            return 0
        return follow(command, words, messages.Messages)
    except asking.Ended as ended:
        return ended.status
    except BrokenPipeError:
        os.dup2(os.open(os.devnull, os.O_WRONLY), sys.stdout.fileno())
        return 5
    except (asking.Usage, frames.Wrong, programs.NotThere) as fault:
        return told(message, fault)
