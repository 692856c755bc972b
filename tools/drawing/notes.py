"""What is told in words beside a row: the call, how it was answered, and which label changed."""
from .history import ON_DESCRIPTORS, ON_PATHS
from .layout import NOTE, shorten

RISES = {"setlabel": "set", "setself": "set"}


def is_fall(old, new):
    return not old <= new


def shape_of(event, old, new):
    """The shape of the tag of a changed label: `down` where it was let down, `asked` where it was raised on request."""
    if is_fall(old, new):
        return "down"
    return "asked" if event.entry.verb in RISES else "up"


def crossed(key, old, new):
    """The labels of the session that a fall crosses: the old one wasn't at or below them, and the new one is."""
    return [label for label in key.order if not old <= label and new <= label]


def falls(event):
    return [(column, old, new) for column, old, new in event.changes if is_fall(old, new)]


def lines(event, key):
    """Some lines of at most NOTE signs, each with how it is written."""
    told = action(event)
    for column, old, new in event.changes:
        name = shorten(column.name, 12, column.kind != "process")
        if is_fall(old, new):
            told.append((f"{name} let down: {key.short(old)} to {key.short(new)}", "alarm"))
            told.append(("across " + " ".join(key.short(label) for label in crossed(key, old, new)), "alarm"))
        elif event.entry.verb in RISES:
            told.append((f"{name} set to {key.short(new)}", "bold"))
        else:
            told.append((f"{name} floats to {key.short(new)}", "bold"))
    return [(shorten(text, NOTE), look) for text, look in told]


def action(event):
    """What the call did, without the labels that it changed."""
    entry, thing = event.entry, what(event)
    if event.refusal:
        whole = f"{entry.verb} of {thing}: {event.refusal}"
        if thing and len(whole) > NOTE:
            return [(f"{entry.verb}: {event.refusal}", "alarm"), (shorten(f"of {thing}", NOTE, True), "alarm")]
        return [(whole if thing else f"{entry.verb}: {event.refusal}", "alarm")]
    if event.moved:
        return moved(event, thing)
    return [] if falls(event) else [(plain(entry, thing), "dim")]


def what(event):
    """The path or the object that a call names, or nothing."""
    entry = event.entry
    if entry.verb in ON_PATHS:
        return entry.words[0]
    if entry.verb in ON_DESCRIPTORS and event.things:
        thing = event.things[0]
        return f"pipe {thing.number}" if thing.kind == "pipe" else thing.name
    return ""


def moved(event, thing):
    """How many bytes went out of what or into what, and which."""
    start = f"{event.entry.verb} {event.moved} byte{'' if event.moved == 1 else 's'} {'of' if event.entry.verb == 'read' else 'to'} "
    first = start + shorten(thing, max(8, NOTE - len(start)), True)
    bytes_ = quoted(event.entry.reply[2] if event.entry.verb == "read" else event.entry.words[1])
    if len(first) + 2 + len(bytes_) <= NOTE:
        return [(f"{first}: {bytes_}", "bold")]
    return [(first, "bold"), (bytes_ if len(bytes_) <= NOTE else bytes_[:NOTE - 1] + "…", "dim")]


def quoted(word):
    """A report's bytes as text in quotes where each is visible, else as they stand."""
    text = bytes.fromhex(word[1:]).replace(b"\n", b"\\n")
    if all(32 <= byte < 127 for byte in text):
        return '"' + text.decode("ascii") + '"'
    return word


def plain(entry, thing):
    """A call that moved no bytes and was not refused, in a few signs."""
    words, reply = entry.words, entry.reply
    if entry.verb in ("read", "write"):
        return f"{entry.verb} 0 bytes {'of' if entry.verb == 'read' else 'to'} {thing}"
    if entry.verb == "fork":
        return f"fork p{reply[1]}"
    if entry.verb == "wait":
        return f"wait: {reply[1]} ended with {reply[2]}"
    if entry.verb == "pex":
        return f"claim {thing}: {reply[0]}"
    if entry.verb == "unpex":
        return f"give up {thing}"
    if entry.verb in ("seek", "cut"):
        return f"{entry.verb} {thing} {words[1]}"
    if entry.verb in ("dup", "close"):
        return f"{entry.verb} {thing}"
    if entry.verb in ("ceiling", "setlabel", "setself"):
        words = words[:-1] + ["bottom" if words[-1] == "-" else words[-1]]
    return " ".join([entry.verb] + words)
