"""Which call comes next of a line that makes several: of a `copy`, and of the two servers by the script's policy.

Nothing is proved of this. Whoever follows a line by it has the report of what came judged by `ixone check`.
"""
import json
import re

from drawing import labels, session
from sessions import words

WANT, LOGIN = "want ", "login "

# The letters of the five privileges, in the order in which a set is printed.
LETTERS = "DPCTL"


class Policy:
    """The rules of a script's `policy` line."""

    def __init__(self, body):
        lines = [line for line in body.header if line.startswith("policy ")]
        self.greatest = 511 if body.lines[0] == "ix 2" else 255
        self.rules = json.loads(lines[0].split(" ", 1)[1])["rules"] if lines else []

    def decide(self, act, user, label, want):
        """The number of the first rule that matches, or 0, and the rule where it allows."""
        for number, rule in enumerate(self.rules, 1):
            if rule["act"] != act or act == "session" and rule["user"] not in ("*", user):
                continue
            if act == "grant" and not set(want) <= set(rule["privs"]):
                continue
            if label <= labels.parse(rule["clear"], self.greatest):
                return number, rule if rule["allow"] else None
        return 0, None


def next_call(body, policy, entries):
    """The next call of a line that has made these entries, as an entry without a reply, or None where it has made all."""
    said = body.words(entries[0].line)
    if said[0] == "copy":
        read = entries[0].reply
        found = ("write", entries[0].caller, [descriptor(body, entries), read[2]]) if len(entries) == 1 and read[0] == "bytes" and read[1] != "0" else None
    elif said[0] in ("priv", "login"):
        found = serve(policy, said, entries)
    else:
        found = None
    if found is None:
        return None
    return session.Entry(None, entries[0].lane, entries[0].line, *found, None, None, None)


def descriptor(body, entries):
    """The word of a `copy` for what it writes to: names stay names in a pinned script."""
    return body.words(entries[0].line)[3]


def serve(policy, said, entries):
    """The next call of a server: its verb, its caller and its words."""
    server, fd, last = entries[0].caller, entries[0].words[0], entries[-1]
    verbs = [entry.verb for entry in entries]
    if last.verb == "unpex" or verbs == ["pex"] and last.reply[0] != "whole" or verbs == ["pex", "read"] and last.reply[0] == "no":
        return None
    if verbs == ["pex"]:
        return "read", server, [fd, "64"]
    if last.verb == "write":
        return "unpex", server, [fd]
    asked = asks(policy, said[0], entries[0], entries[1])
    if isinstance(asked, str):
        return tell(server, fd, asked)
    number, rule, who, want = asked
    if said[0] == "priv":
        return grant(server, fd, number, who, want, entries[2:])
    return open_session(server, fd, said[3], number, rule, entries[2:])


def tell(server, fd, text):
    return "write", server, [fd, "x" + text.encode("ascii").hex()]


def asks(policy, server, claim, read):
    """What a request comes to: the text that denies it; or the rule's number, the rule, who asks, and what is wanted."""
    message = bytes.fromhex(read.reply[2][1:]).decode("latin-1")
    who, label = claim.reply[1], labels.parse(claim.reply[2], policy.greatest)
    right = prefix_of_want(message) if server == "priv" else prefix_of_login(message)
    if right is not None:
        return f"bad {right}"
    word = message.split(" ")[1]
    number, rule = policy.decide("grant", None, label, word) if server == "priv" else policy.decide("session", word, label, "")
    return f"denied {number}" if rule is None else (number, rule, who, word)


def common(message, text):
    """How many signs two texts begin with in common."""
    return next((at for at, (one, other) in enumerate(zip(message, text)) if one != other), min(len(message), len(text)))


def prefix_of_want(message):
    """None where a message asks for privileges, else how long its longest part is with which such a request begins."""
    if not message.startswith(WANT):
        return common(message, WANT)
    at, last = len(WANT), -1
    while at < len(message) and LETTERS.find(message[at]) > last:
        last = LETTERS.find(message[at])
        at += 1
    return None if at == len(message) and at > len(WANT) else at


def prefix_of_login(message):
    """The same of a message that asks for a session."""
    if not message.startswith(LOGIN):
        return common(message, LOGIN)
    if words.is_name(message[len(LOGIN):]):
        return None
    begun = re.match(r"([a-z][a-z0-9_]{0,15})?", message[len(LOGIN):])[0]
    return len(LOGIN) + len(begun)


def grant(server, fd, number, who, want, made):
    if not made:
        return "grant", server, [who, want]
    return tell(server, fd, f"refused {made[0].reply[1]}" if made[0].reply[0] == "no" else f"granted {number}")


def open_session(server, fd, hand, number, rule, made):
    """The steps by which a session is opened, of which some are made."""
    if not made:
        return "fork", server, [hand]
    if made[0].reply[0] == "no":
        return tell(server, fd, f"refused {made[0].reply[1]}")
    child = "p" + made[0].reply[1]
    steps = [("droplic", int(child[1:]), [LETTERS]), ("ceiling", server, [child, rule["clear"]])]
    steps += [("grant", server, [child, rule["privs"]])] if rule["privs"] != "-" else []
    refused = [entry.reply[1] for entry in made[1:] if entry.reply[0] == "no"]
    if refused:
        return tell(server, fd, f"refused {refused[0]}") if made[-1].verb == "exit" else ("exit", int(child[1:]), ["255"])
    return steps[len(made) - 1] if len(made) <= len(steps) else tell(server, fd, f"granted {number}")
