"""The words of a command line, what `--help` says, and what a shell may complete."""
import textwrap

from .asking import Usage

# A flag: the word for its value or None, its values where only these may stand, the key of its value, and what it does.
FLAGS = {
    "--json": (None, None, "json", "print records instead: one object of JSON a line (docs/JSON.md)"),
    "--labels": ("FILE", None, "labels", "print names in the place of categories, by a file of lines `3 = payroll`"),
    "--program": ("PATH", None, "program", "run this program; else that of the environment's IXONE or IXRUN, or the proved build, or `rt try`"),
    "--color": ("WHEN", ("auto", "never"), "color", "`auto`, as it is unless said, colours messages on a terminal, and `never` doesn't"),
    "-o": ("FILE", None, "out", "print to this file"),
    "--parallel": (None, None, "parallel", "run lanes side by side, by ixrun"),
}
OWN = {"--parallel"}
# Why a flag has no use in a command.
REASONS = {"--labels": "names of categories have no use in what programs read, which is what this command writes",
           "--json": "bytes and scripts have no records, and this command writes such"}
ALWAYS = [("--help", "print this, or what it says of one command"), ("--version", "print the version of this tool, and which programs it runs")]
STATUS = [
    ("0", "it is done, and a question was answered `yes` or `agree`"),
    ("1", "a question was answered `no` or `differ`"),
    ("2", "the words can't be followed"),
    ("3", "a script breaks a rule"),
    ("4", "a file can't be read"),
    ("5", "a file can't be written"),
    ("6", "the program had no memory"),
    ("7", "an image has a fault"),
    ("8", "the program can't be run, or a report can't be pinned"),
]
WIDE = 100


def parse(words, known):
    """The operands and the flags of a command line; `known` are the flags that have a use in it."""
    flags = {key: None for _, _, key, _ in FLAGS.values()}
    flags.update(color="auto", json=False, parallel=False)
    operands, left, is_over = [], list(words), False
    while left:
        word = left.pop(0)
        if is_over or word == "-" or not word.startswith("-"):
            operands.append(word)
        elif word == "--":
            is_over = True
        else:
            word, equals, value = word.partition("=")
            set_flag(flags, word, value if equals else None, left, known)
    return operands, flags


def set_flag(flags, word, value, left, known):
    if word not in known:
        raise Usage(f"`{word}`: " + REASONS.get(word, "there is no such option here"))
    wanted, choices, key, _ = FLAGS[word]
    if wanted is None:
        if value is not None:
            raise Usage(f"`{word}` takes no value")
        flags[key] = True
        return
    if value is None:
        if not left:
            raise Usage(f"`{word}` needs a {wanted}")
        value = left.pop(0)
    if choices and value not in choices:
        raise Usage(f"`{word}` takes {' or '.join(choices)}")
    flags[key] = value


def command_of(words):
    """The name of the command among these words, which is the first that is no flag and no flag's value, and the other words."""
    for at, word in enumerate(words):
        if not word.startswith("-") and not (at and takes_value(words[at - 1])):
            return word, words[:at] + words[at + 1:]
    return words[0], words[1:]


def check_operands(command, operands):
    """Whether there are as many operands as the command takes."""
    most = len(command.operands)
    is_many = most and command.operands[-1].endswith("..]")
    least = sum(1 for kind in command.operands if not kind.startswith("["))
    if len(operands) < least or len(operands) > most and not is_many:
        raise Usage(f"`{command.name}` takes {' '.join(command.operands)}")


# ---- help

def item(term, text, *more):
    """A term and what is said of it, and lines that stand as they are."""
    lines = textwrap.wrap(text, WIDE - 24)
    shown = [f"  {term:<22}{lines[0]}"] if len(term) < 21 else [f"  {term}", " " * 24 + lines[0]]
    return shown + [" " * 24 + line for line in lines[1:]] + [" " * 26 + line for line in more]


def flag_items(flags):
    found = []
    for word in flags:
        wanted, _, _, text = FLAGS[word]
        found += item(f"{word} {wanted}" if wanted else word, text)
    return found


def heading(tool, words):
    return [f"usage: {tool} {words}", ""]


def help_of(tool, about, commands):
    """What `--help` says of a tool with commands."""
    lines = heading(tool, "COMMAND [OPERAND..] [OPTION..]") + textwrap.wrap(about, WIDE) + ["", "commands:"]
    for command in commands:
        lines += item(f"{command.name} {' '.join(command.operands)}", command.says, command.example)
    lines += ["", "options:"] + flag_items(FLAGS)
    return "\n".join(lines + closing()) + "\n"


def help_of_one(tool, command, about=None):
    """What `--help` says of one command, or of a tool that has one."""
    called = tool if about else f"{tool} {command.name}"
    lines = heading(called, " ".join(command.operands) + " [OPTION..]")
    lines += textwrap.wrap(about or command.says[0].upper() + command.says[1:] + ".", WIDE) + ["", "example:", "  " + command.example, "", "options:"]
    lines += flag_items(flags_of(command))
    return "\n".join(lines + closing()) + "\n"


def closing():
    lines = [line for term, text in ALWAYS for line in item(term, text)] + ["", "exit status:"]
    return lines + [line for term, text in STATUS for line in item(term, text)]


# ---- completion

def completions(commands, before):
    """What may stand after these words, one a line: commands, flags, the values of a flag, or a kind of operand in capitals."""
    last = before[-1] if before else ""
    if last in FLAGS and FLAGS[last][0]:
        choices = FLAGS[last][1]
        return list(choices) if choices else ["FILE"]
    operands = [word for at, word in enumerate(before) if not word.startswith("-") and not (at and takes_value(before[at - 1]))]
    if not operands:
        return [command.name for command in commands] + [word for word in FLAGS if word not in OWN] + [word for word, _ in ALWAYS]
    command = next((command for command in commands if command.name == operands[0]), None)
    if command is None:
        return []
    kinds = [kind.strip("[].") for kind in command.operands]
    at = min(len(operands) - 1, len(kinds) - 1) if command.operands[-1].endswith("..]") else len(operands) - 1
    return kinds[at:at + 1] + flags_of(command) + ["--help"]


def takes_value(word):
    return word in FLAGS and FLAGS[word][0] is not None


def flags_of(command):
    """The flags that have a use in a command."""
    useless = set() if command.is_for_people else {"--labels"}
    if command.records is None and command.program:
        useless.add("--json")
    if command.program is None:
        useless.add("--program")
    return [word for word in FLAGS if word not in useless and (word not in OWN or word in command.flags)]
