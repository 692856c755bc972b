"""Asks a program about files, prints its answer, and says on standard error what was wrong."""
import json
import sys

from drawing import session

from . import faults, frames, judging, naming, pinning, programs, records, words

REFUSED = {b"no", b"differ"}
TOLD = {2: "the program doesn't know these words", 4: "a read failed", 5: "a write failed", 6: "there was no memory"}
CANNOT = 8


class Ended(Exception):
    """The command ends with this status, and what there was to say is said."""

    def __init__(self, status):
        super().__init__(status)
        self.status = status


class Usage(Exception):
    """The words can't be followed."""


class Asked:
    """What was asked: a command, its operands and its flags."""

    def __init__(self, command, operands, flags, messages):
        self.command, self.flags, self.messages = command, flags, messages
        self.names = self.read_names(flags["labels"]) if flags["labels"] else {}
        kinds = [kind.strip("[]") for kind in command.operands]
        self.words = [self.word(kind, word) for kind, word in zip(kinds, operands) if kind in CHECKED]
        self.paths = [word for kind, word in zip(kinds, operands) if kind not in CHECKED]
        self.more = operands[1:]

    def read_names(self, path):
        """The names of categories in a file."""
        try:
            return naming.read(frames.read(path))
        except naming.Unnamed as fault:
            self.messages.say("error", f"{frames.named(path)}:{fault.number}", fault.text)
            self.messages.quote(fault.line)
            raise Ended(2) from fault

    def word(self, kind, word):
        """A word that goes to the program. Names of categories are never in it."""
        given = naming.unspell(word, self.names, naming.GREATEST) if kind == "LABEL" and self.names else word
        if given is None or not CHECKED[kind](given):
            raise Usage(f"`{word}` is no {kind}: {WANTED[kind]}")
        return given

    def program(self, name=None):
        """A program, of which it is said where it isn't built."""
        name = name or ("ixrun" if self.flags["parallel"] else self.command.program)
        program = programs.find(name, self.flags["program"])
        if programs.is_compiled(program):
            self.messages.say("note", None, f"crates/{name}/out/{name} isn't built: `rt try` runs the unproved program, after a minute or two")
        return program

    def print(self, out):
        """Prints an answer, to the file that was named where there is one."""
        if self.flags["out"] is None:
            sys.stdout.buffer.write(out)
            sys.stdout.flush()
            return
        try:
            with open(self.flags["out"], "wb") as it:
                it.write(out)
        except OSError as fault:
            raise frames.Wrong(self.flags["out"], fault.strerror, 5) from fault


def is_count(word):
    return words.is_number(word) and 1 <= int(word[:7]) <= 100000


CHECKED = {"LABEL": lambda word: words.label_of(word, naming.GREATEST) is not None, "COUNT": is_count}
WANTED = {"LABEL": "expected `-`, `*`, or categories up to 511 and runs of them in ascending order, as `3,7-9`",
          "COUNT": "expected a number from 1 to 100,000"}


def lines_of(found):
    """Records, one a line."""
    return "".join(json.dumps(record) + "\n" for record in found).encode("ascii")


def ask(asked):
    """Frames the files, asks the program, and prints its answer."""
    framed = asked.command.frame(asked.paths)
    program = asked.program()
    return answer(asked, framed, program, put(asked, framed, program))


def put(asked, framed, program):
    """What the program answers to framed files; where it refuses them, that is said, and the command ends."""
    for place, text in framed.warnings:
        asked.messages.say("warning", place, text)
    said = programs.run(program, [asked.command.question] + asked.words, framed.data)
    if said.status:
        refuse(asked, framed, said)
    return said.out


def answer(asked, framed, program, out):
    """Prints an answer, and the status of it. Where it is `no`, it is said why, as the command does it."""
    asked.print(printed(asked, framed, out))
    if not asked.command.records or out.split(b" ")[0] not in REFUSED:
        return 0
    if asked.command.refused:
        asked.command.refused(asked, framed, program, int(out.split()[1]))
    return 1


def printed(asked, framed, out):
    """An answer as it is, with names of categories, or as records."""
    if asked.flags["json"]:
        scripts = [session.Script(part.data.decode("latin-1")) for part in framed.parts] if asked.command.is_of_scripts else []
        head = [records.of_names(asked.names)] if asked.names else []
        return lines_of(head) + lines_of(asked.command.records(out.decode("ascii"), scripts))
    return naming.for_people(out.decode("ascii"), asked.names).encode("utf-8") if asked.names else out


def refuse(asked, framed, said):
    """Says why a program refused, and ends with its status."""
    text = said.out.decode("latin-1").rstrip("\n")
    kind, _, rest = text.partition(":")
    where, _, rest = rest.partition(": ")
    if said.status == 3 and kind == "script" and where.isdigit():
        tell_script(asked, framed, int(where), rest)
    elif said.status == 7 and kind == "image" and where.isdigit():
        tell_image(asked, framed, int(where), rest)
    else:
        known = TOLD.get(said.status, f"{said.status} is no status of the program")
        asked.messages.say("error", None, known)
        sys.stderr.write(said.err.decode("utf-8", "replace") + (text[:2000] + "\n" if text else ""))
    raise Ended(said.status if 2 <= said.status <= 7 else CANNOT)


def tell_script(asked, framed, line, text):
    """Says a fault of a script: its file and line, the line, and the word where it is found."""
    name, number, lines = frames.place_of(framed, line)
    found = faults.explain(lines, number, text)
    asked.messages.say("error", f"{name}:{number}", text)
    asked.messages.quote(lines[number - 1] if number <= len(lines) else "", found)
    tell_record(asked, name, number, faults.rule_of(text), text, found)


def tell_image(asked, framed, at, text):
    """Says a fault of an image: its file and the byte, and the bytes around it."""
    asked.messages.say("error", framed.parts[0].name, f"byte {at}: {text}")
    first = max(0, at - at % 16 - 16)
    for begin in range(first, min(len(framed.data), first + 48), 16):
        line = framed.data[begin:begin + 16]
        visible = "".join(chr(byte) if 32 <= byte <= 126 else "." for byte in line)
        print(f"  {begin:>9}  {line.hex(' '):<47}  {visible}", file=sys.stderr)
        if begin <= at < begin + 16:
            print(" " * (13 + 3 * (at - begin)) + "^^", file=sys.stderr)
    tell_record(asked, framed.parts[0].name, None, None, f"byte {at}: {text}", None)


def tell_record(asked, name, number, rule, text, found):
    if asked.flags["json"]:
        asked.print(lines_of([records.of_fault(name, number, rule, text, found)]))


def run_of(program, text):
    """The report of a script that is run lane after lane, or nothing where it is refused."""
    said = programs.run(program, ["run"], text.encode("latin-1"))
    return said.out.decode("latin-1") if said.status == 0 else ""


def forged(asked, framed, program, number):
    """Shows the line at which no report of the script goes on, and what a run has there."""
    script, report = framed.parts
    lines = frames.lines_of(report.data)
    is_there = number <= len(lines)
    text = f"no report of {script.name} goes on with this line" if is_there else f"the text ends here, and no report of {script.name} does"
    asked.messages.say("error", f"{report.name}:{number}", text)
    notes = judging.notes(script.data.decode("latin-1"), report.data.decode("latin-1"), number, lambda made: run_of(program, made))
    asked.messages.quote(lines[number - 1] if is_there else "", faults.Found(None, 0, notes))


# ---- pinned scripts

def pinned(asked, paths, program):
    """The script that is pinned to a report, framed. Its run is compared with the report, and has to equal it but for numbers of lines."""
    framed = frames.judged(paths)
    for place, text in framed.warnings:
        asked.messages.say("warning", place, text)
    said = programs.run(program, ["check"], framed.data)
    if said.status:
        refuse(asked, framed, said)
    if said.out.startswith(b"no "):
        forged(asked, framed, program, int(said.out.split()[1]))
        raise Ended(1)
    script, report = (part.data.decode("latin-1") for part in framed.parts)
    try:
        made = pinning.pinned(script, pinning.entry_lines(report))
    except pinning.CannotPin as fault:
        asked.messages.say("error", framed.parts[1].name, str(fault))
        raise Ended(CANNOT) from fault
    differs = pinning.differing(pinning.without_numbers(report), pinning.without_numbers(run_of(program, made)))
    if differs is not None:
        asked.messages.say("error", f"{framed.parts[1].name}:{differs}", "the run of the pinned script has another line here: this is a fault of this tool")
        raise Ended(CANNOT)
    data = made.encode("latin-1")
    return frames.Framed(data, [frames.Part(framed.parts[0].name, data, 0)], [])


def pin(asked):
    """Prints the script that is pinned to a report."""
    asked.print(pinned(asked, asked.paths, asked.program()).data)
    return 0


def ask_pinned(asked):
    """Asks about a script, or, where a report of it is named too, about the script that is pinned to that."""
    program = asked.program()
    framed = pinned(asked, asked.paths, program) if len(asked.paths) == 2 else asked.command.frame(asked.paths[:1])
    if asked.command.records is None and asked.flags["out"] is None and sys.stdout.isatty():
        raise Usage("an image isn't printed to a terminal: -o FILE names a file for it")
    return answer(asked, framed, program, put(asked, framed, program))


# ---- names of categories

def show_names(asked):
    """Prints the names of a file, or each label that is named, once with names and once without."""
    names = asked.read_names(asked.paths[0])
    if asked.flags["json"]:
        asked.print(lines_of([records.of_names(names)]))
        return 0
    if not asked.more:
        asked.print("".join(f"{category} = {name}\n" for category, name in sorted(names.items())).encode("utf-8"))
        return 0
    out = []
    for label in asked.more:
        text = naming.unspell(label, names, naming.GREATEST)
        if text is None:
            raise Usage(f"`{label}` is no LABEL with names of {asked.paths[0]}: {WANTED['LABEL']}")
        out.append(f"{text} {naming.spell(text, names)}\n")
    asked.print("".join(out).encode("utf-8"))
    return 0
