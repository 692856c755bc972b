"""What .ci/checks/tools tries: words and what has to come of them."""
import re

# A script, and a report of it in which another lane comes between the calls of a login that is denied; what its name stands for has no other name there.
UNNAMED = ("""ix 1
proc server - * P DPCTL
proc other - - - -
policy {"rules":[]}
phase
lane b
pipe server as s c
fork server c as client
pex client c
phase
lane a
pex server 0
phase
lane b
write client c "login bob"
phase
lane a
login server 0 1 as bob
self bob
lane b
self other
""", """ix 1 report
1 b 7 pipe p1 = two 0 1 @ -
2 b 8 fork p1 1 = number 3 @ -
3 b 9 pex p3 1 = half @ -
4 a 12 pex p1 0 = whole p3 - DPCTL @ -
5 b 15 write p3 1 x6c6f67696e20626f62 = number 9 @ -
6 a 18 pex p1 0 = whole p3 - DPCTL @ -
7 b 21 self p2 = label - @ -
8 a 18 read p1 0 64 = bytes 9 x6c6f67696e20626f62 @ -
9 a 18 write p1 0 x64656e6965642030 = number 8 @ -
10 a 18 unpex p1 0 = done @ -
11 a 19 self p0 = no 1 NoProcess @ none
objects
0 dir - free
256 pipe - free
processes
p1 - live
p2 - live
p3 - live
log
end 11 0
""")

# Words, the status, and what has to be printed.
STATUSES = [
    ("ix run", 2, ["error: `run` takes SCRIPT"]),
    ("ix run a b", 2, ["error: `run` takes SCRIPT"]),
    ("ix run --jsn examples/float.ix", 2, ["error: `--jsn`: there is no such option here"]),
    ("ix print --parallel examples/float.ix", 2, ["there is no such option here"]),
    ("ix save --json examples/float.ix", 2, ["bytes and scripts have no records"]),
    ("ix print --labels names.labels examples/float.ix", 2, ["names of categories have no use in what programs read"]),
    ("ix run --program", 2, ["`--program` needs a PATH"]),
    ("ix run --json=yes examples/float.ix", 2, ["`--json` takes no value"]),
    ("ix gen 0", 2, ["`0` is no COUNT: expected a number from 1 to 100,000"]),
    ("ix gen 100001", 2, ["is no COUNT"]),
    ("ix twin 3,4 examples/float.ix examples/float.ix", 2, ["`3,4` is no LABEL"]),
    ("ix twin 3-4 examples/float.ix examples/float.ix", 0, ["agree 3"]),
    ("ix run nowhere.ix", 4, ["nowhere.ix: error: No such file or directory"]),
    ("ix run examples", 4, ["examples: error: Is a directory"]),
    ("ix check examples/float.ix nowhere.report", 4, ["nowhere.report: error: No such file"]),
    ("ix run examples/float.ix -o nowhere/out", 5, ["nowhere/out: error: No such file"]),
    ("ix run examples/float.ix --labels nowhere.labels", 4, ["nowhere.labels: error: No such file"]),
    ("ix run --program /nowhere examples/float.ix", 8, ["/nowhere: No such file or directory"]),
    ("ix load examples/float.ix", 7, ["examples/float.ix: error: byte 0: the first bytes are not IXIMAGE1", "69 78 20 31", "^^"]),
    ("ix load /dev/null", 7, ["/dev/null: error: byte 0: a byte is missing"]),
    ("ix run /dev/null", 3, ["/dev/null:1: error: the first line is not ix 1 or ix 2"]),
    ("ix check examples/float.ix examples/float.report", 0, ["yes 3"]),
    ("ix check examples/float.ix examples/ceiling.report", 1, ["no 3", "examples/ceiling.report:3: error: no report of examples/float.ix goes on with this line"]),
    ("ix check examples/float.ix /dev/null", 1, ["no 1", "/dev/null:1: error: the text ends here"]),
    ("ix flow examples/audit.ix examples/audit/label_lowered.claimed", 1, ["label_lowered.claimed:8: error"]),
    ("pin", 2, ["usage: pin SCRIPT REPORT"]),
    ("pin examples/float.ix", 2, ["error: `pin` takes SCRIPT REPORT"]),
    ("pin --json examples/float.ix examples/float.report", 2, ["bytes and scripts have no records"]),
    ("pin examples/float.ix examples/ceiling.report", 1, ["examples/ceiling.report:3: error"]),
    ("pin examples/float.report examples/float.report", 3, ["examples/float.report:1: error: the first line is not ix 1 or ix 2"]),
    ("pin nowhere.ix examples/float.report", 4, ["nowhere.ix: error"]),
    ("pin --version", 0, ["pin 1"]),
]

# What is said of the forged reports of examples/audit.
FORGED = [
    ("label_lowered", "a run in this order has: 7 guest 19 read p2 0 8 = bytes 5 x6e6f746573 @ 3"),
    ("byte_changed", "a run in this order has: 6 guest 18 read p2 1 8 = bytes 5 x7265616479 @ -"),
    ("log_line_left_out", "a run in this order has: 2 p1 downfile 2 3 - - -"),
    ("entries_exchanged", "next in lane clerk is line 10 of the script, `exec clerk /review`"),
    ("phase_begun_early", "an earlier phase isn't done: line 10 of the script"),
    ("more_behind", "the report ends with line 20"),
]

HEAD = 'ix 1\nproc a - 3 - -\nfile /s 3 free - - "hi"\nphase\nlane m\n'
SYSTEMS = "ix 1\nfs root * 9 9\nfs vol 3 9 9\n"

# A rule, the number of the line that breaks it, a script, the word that is marked, and what is said of it.
RULES = [
    (1, 1, "ix 1\n" + "\n" * 16777216, None, "at most 16,777,216 bytes"),
    (2, 2, "ix 1\n#" + "x" * 65540 + "\n", "x", "this one has 65,541"),
    (3, 6, HEAD + "open a /s\tr as f\n", "\\x09", "byte 09 is neither a space nor a visible character"),
    (3, 6, HEAD + "self a\r\n", "\\x0d", "a line ends in a line feed alone"),
    (4, 6, HEAD + "open a  /s r\n", " ", "one space stands between two words"),
    (4, 6, HEAD + "open a /s r \n", " ", "one space stands between two words"),
    (4, 2, "ix 1\n phase\n", " ", "none before the first"),
    (5, 7, HEAD + 'open a /s r as f\nwrite a f "hi\n', '"hi', "no quote closes this one"),
    (5, 7, HEAD + 'open a /s r as f\nwrite a f "hi"x\n', "x", "after the quote that closes a word"),
    (6, 1, "ix 3\n", "ix 3", "expected `ix 1` or `ix 2`"),
    (7, 6, HEAD + "opne a /s r\n", "opne", "did you mean `open`?"),
    (7, 6, HEAD + "ix 1\n", "ix", "`ix` begins line 1 alone"),
    (8, 6, HEAD + "dir /d - free\n", "dir", "expected before the first `phase`, which is line 4"),
    (9, 2, "ix 1\nlane m\n", "lane", "expected `phase` before it"),
    (9, 3, "ix 1\nproc a - - - -\nself a\n", "self", "expected `phase` and `lane NAME` before it"),
    (9, 4, "ix 1\nproc a - - - -\nphase\nself a\n", "self", "expected `lane NAME` before it"),
    (10, 6, HEAD + "open a /s\n", "", "expected `open PROC PATH r|w|rw [as F]`"),
    (10, 6, HEAD + "open a /s r is f\n", "is", "expected `open PROC PATH r|w|rw [as F]`"),
    (10, 6, HEAD + "open a /s r as\n", "", "expected `open PROC PATH r|w|rw [as F]`"),
    (10, 6, HEAD + "self a b\n", "b", "expected `self PROC`"),
    (10, 6, HEAD + "pipe a as f\n", "", "expected `pipe PROC [as F G]`"),
    (10, 6, HEAD + "phase x\n", "x", "expected `phase` alone"),
    (10, 2, "ix 1\npolicy\n", "", "expected `policy TEXT`"),
    (11, 2, "ix 1\nproc A - - - -\n", "A", "NAME: a small letter, then at most 15"),
    (11, 6, HEAD + "read a F 3\n", "F", "expected `read PROC FD NUMBER`"),
    (11, 6, HEAD + "fork a ALL\n", "ALL", "expected `fork PROC all|none|FD [as Q]`"),
    (12, 6, HEAD + "readlog a 07\n", "07", "NUMBER: decimal, with no leading zero"),
    (12, 6, HEAD + "read a 07 3\n", "07", "expected `read PROC FD NUMBER`"),
    (13, 6, HEAD + "exit a 256\n", "256", "the number goes from 0 to 255"),
    (13, 6, HEAD + "read a 256 1\n", "256", "the number goes from 0 to 255"),
    (13, 2, "ix 1\nlimit procs 0\n", "0", "the number goes from 1 to 1,024"),
    (13, 2, "ix 1\nfs root * 1 65537\n", "65537", "the number goes from 1 to 65,536"),
    (13, 6, HEAD + "readlog a 4294967296\n", "4294967296", "the number goes from 0 to 4,294,967,295"),
    (14, 2, "ix 1\nproc a 3,4 * - -\n", "3,4", "that label is spelled `3-4`"),
    (14, 2, "ix 1\nproc a 256 * - -\n", "256", "whose categories go to 255"),
    (14, 2, "ix 2\nproc a 0-511 * - -\n", "0-511", "that label is spelled `*`"),
    (15, 6, HEAD + "droplic a LD\n", "LD", "some of the letters D P C T L in this order"),
    (16, 6, HEAD + "stat a /a//b\n", "/a//b", "expected `stat PROC PATH`"),
    (16, 2, "ix 1\ndir d - free\n", "d", "the path is absolute, and has a name"),
    (17, 6, HEAD + "open a /s x\n", "x", "one of r, w, rw"),
    (17, 2, "ix 1\ndir /d - frozn\n", "frozn", "did you mean `frozen`?"),
    (17, 2, "ix 1\nlimit foo 3\n", "foo", "one of procs, opens, pipes, names, log"),
    (18, 6, HEAD + "write a 0 hi\n", "hi", "expected `write PROC FD PAYLOAD`"),
    (18, 6, HEAD + "write a 0 05*61\n", "05*61", "PAYLOAD: "),
    (19, 6, HEAD + "write a 0 4097*61\n", "4097*61", "at most 4,096 bytes may stand here, and these are 4,097"),
    (19, 2, "ix 1\nfile /s - free - - 1048577*61\n", "1048577*61", "at most 1,048,576 bytes"),
    (20, 3, "ix 1\nproc a - - - -\nproc a - - - -\n", "a", "`a` is given on line 2"),
    (20, 6, HEAD + "lane m\n", "m", "`m` is given on line 5"),
    (20, 6, HEAD + "pipe a as f f\n", "f", "the two ends need two names"),
    (20, 6, HEAD + "fork a all as a\n", "a", "`a` is the process of line 2"),
    (20, 3, 'ix 1\npolicy {"rules":[]}\npolicy {"rules":[]}\n', "policy", "line 2 is the policy"),
    (21, 7, HEAD + "open a /s r as file\nread a fyle 8\n", "fyle", "did you mean `file`?"),
    (21, 6, HEAD + "self b\n", "b", "no process has the name `b` here; lane m knows these: a"),
    (21, 6, HEAD + "grant a b L\n", "b", "no process has the name `b` here"),
    (21, 8, HEAD + "open a /s r as f\nlane n\nread a f 8\n", "f", "lane n knows no descriptor by a name"),
    (22, 2, "ix 1\nproc a 3,7 3 - -\n", "3,7", "its ceiling is 3, which lacks 7"),
    (22, 4, SYSTEMS + "file /vol/x 7 free - - x\n", "7", "the ceiling of the file system vol is 3, which lacks 7"),
    (23, 2, "ix 1\ndir /a/b - free\n", "/a/b", "there is no directory /a"),
    (23, 3, "ix 1\ndir /a - free\ndir /a - free\n", "/a", "line 2 has it already"),
    (23, 3, "ix 1\nfile /a - free - - x\ndir /a/b - free\n", "/a/b", "/a is a file, by line 2"),
    (23, 4, SYSTEMS + "dir /vol - free\n", "/vol", "that is the root of a file system"),
    (24, 4, "ix 1\nlimit procs 1\nproc a - - - -\nproc b - - - -\n", "proc", "`limit procs NUMBER` sets how many"),
    (24, 4, "ix 1\nfs root * 9 2\ndir /a - free\ndir /b - free\n", "/b", "has 2 inodes, one of which is its root's"),
    (24, 3, "ix 1\nfs root * 1 9\nfile /a - free - - 513*61\n", "513*61", "has 1 blocks of 512 bytes"),
    (24, 19, "ix 1\nlimit names 16\n" + "".join(f"dir /d{k} - free\n" for k in range(17)), "/d16", "`limit names NUMBER` sets how many"),
    (25, 3, "ix 1\nproc a - - - -\nlimit log 3\n", "limit", "line 2 is of a later group"),
    (25, 4, "ix 1\nfs r * 9 9\ndir /d - free\nfs s * 1 1\n", "fs", "line 3 is of a later group"),
    (26, 18, "ix 1\n" + "".join(f"fs v{k} * 1 1\n" for k in range(17)), "fs", "there may be 16 file systems"),
    (26, 67, "ix 1\nphase\n" + "".join(f"lane l{k}\n" for k in range(65)), "lane", "there may be 64 lanes"),
    (27, 2, 'ix 1\npolicy {"rules":[{"act":"grant","user":"bob","clear":"3","privs":"D","allow":true}]}\n', '"bob"', 'rule 1, field `user`: expected "*"'),
    (27, 2, 'ix 1\npolicy {"rules":[{"act":"session"},]}\n', "]", "the text is no JSON"),
    (28, 6, HEAD + "priv a 0\n", "priv", "expected a line `policy TEXT` in the header"),
    (28, 6, HEAD + "login a 0 0\n", "login", "expected a line `policy TEXT` in the header"),
]


def rule(**changes):
    """A policy of one rule with some fields changed; None leaves a field out."""
    fields = {"act": '"session"', "user": '"ann"', "clear": '"3"', "privs": '"D"', "allow": "true", **changes}
    return '{"rules":[{' + ",".join(f'"{key}":{value}' for key, value in fields.items() if value is not None) + "}]}"


# A policy, and the rule and field that are wrong: neither in a text that is a policy or no array of rules. Each is tried in both forms.
POLICIES = [(text, None, None) for text in [
    '{"rules":[]}', rule(), rule(user='"*"'), rule(act='"grant"', user='"*"'), '{"rules":3,"rules":[]}', '{"rules":[],"rules":3}', "[]", "{}", "3", '{"rules":[],"x":1}',
    '{"rules":{}}', "{", '{"rules":[]', '{"rules":[]}}', '{"rules":[],}', '{"rules":[NaN]}', '{"rules":[]} ', '{ "rules" : [ ] }', "{'rules':[]}", "[" * 127 + "]" * 127,
    "[" * 128 + "]" * 128, '{"rules":[],"x":1e309}', '{"rules":[],"rules":1e308}', '{"x":"\\ud83d","rules":[]}', '{"\\u0072ules":[]}', '{"rules":[],"x":01}', '{"rules":[],"x":-0}',
    '{"rules":[' + ",".join(["3"] * 257) + "]}", '{"rules":[1e999]}', '{"rules":["\\ude00"]}', '{"x":"\\ud83d\\ude00"}', '{"rules":[],"x":' + "9" * 400 + "}", rule(allow="1,\"allow\":true"),
    '{"rules":[],"x":1.}', '{"rules":[],"x":"\\q"}', '{"rules":[],"x":tru}', '{"rules":[]}x', "nul", '{"rules":[[' + "[" * 125 + "]" * 125 + ']],"x":1}', '{"a":"[[[","rules":[]}',
]] + [
    ('{"rules":[3]}', 1, "act"), ('{"rules":[{}]}', 1, "act"), (rule(act='"grants"'), 1, "act"), (rule(act=None), 1, "act"), (rule(act="3"), 1, "act"),
    (rule(user='"ANN"'), 1, "user"), (rule(user="3"), 1, "user"), (rule(user=None), 1, "user"), (rule(act='"grant"'), 1, "user"), (rule(user='"all"'), 1, "user"),
    (rule(clear='"3,4"'), 1, "clear"), (rule(clear='"512"'), 1, "clear"), (rule(clear='""'), 1, "clear"), (rule(clear="3"), 1, "clear"), (rule(clear=None), 1, "clear"),
    (rule(privs='"LD"'), 1, "privs"), (rule(privs='""'), 1, "privs"), (rule(privs="[]"), 1, "privs"), (rule(privs=None), 1, "privs"),
    (rule(allow='"true"'), 1, "allow"), (rule(allow="1"), 1, "allow"), (rule(allow="null"), 1, "allow"), (rule(allow=None), 1, "allow"), (rule(note="1"), 1, "note"),
    (rule(clear='"x"', privs='"x"', allow="3"), 1, "clear"), ('{"rules":[' + ",".join([rule()[10:-2]] * 3 + [rule(privs='"x"')[10:-2]]) + "]}", 4, "privs"),
    ('{"rules":[{"act":"session","user":"ann","clear":"*","privs":"-","allow":true,"allow":3}]}', 1, "allow"),
]

# Commands whose records are looked at by docs/JSON.md.
RECORDED = ["ix print --json examples/login.ix", "ix print --json examples/spellings.ix", "ix check --json examples/audit.ix examples/audit.report",
            "ix check --json examples/audit.ix examples/audit/byte_changed.claimed", "ix flow --json examples/append.ix", "ix flow --json examples/let_down.ix",
            "ix twin --json - examples/float.ix examples/float.ix", "ix load --json departments.image", "ix gen --json 100", "ix run --json examples/empty.report",
            "ix labels --json names.labels", "ix run --json --labels names.labels examples/float.ix", "ix load --json examples/float.ix"]

TREE = "ix 1\nproc a - * - -\ndir /d - free\nfile /d/f - free - - x61\nphase\nlane m\n"
# A script, and the paths of the objects that its last call touches.
TOUCHED = [
    (TREE + "stat a /d/f\n", ["/d/f"]), (TREE + "chdir a /d\nstat a f\n", ["/d/f"]), (TREE + "unlink a /d/f\n", ["/d/f", "/d"]),
    (TREE + "link a /d/f /g\nunlink a /d/f\nstat a /g\n", ["/g"]), (TREE + "open a /d/f r as f\nunlink a /d/f\nread a f 1\n", [None]),
    (TREE + "pipe a as f g\nwrite a f x61\n", [None]), (TREE + "mkdir a /d/e\ncreate a /d/e/h\n", ["/d/e/h", "/d/e"]), (TREE + "self a\n", []),
]

# Names of categories: words, the status, and what has to be printed.
NAMED = [
    ("ix labels names.labels", 0, ["3 = payroll\n7 = audit-eu\n"]),
    ("ix labels names.labels 3,7-9 payroll,8 2-4 - '*' audit-eu,payroll", 0, ["3,7-9 payroll,audit-eu,8-9\n3,8 payroll,8\n2-4 2,payroll,4\n- -\n* *\n3,7 payroll,audit-eu\n"]),
    ("ix labels names.labels sales", 2, ["`sales` is no LABEL with names of names.labels"]),
    ("ix run --labels names.labels examples/release.ix", 0, ["setlabel p1 /report - = no 16 NoCapability @ payroll", "5 p1 downfile 2 payroll - - -", "payroll,4 free"]),
    ("ix flow --labels names.labels examples/relay.ix", 0, ["3 0 8 file 1 0 payroll -"]),
    ("ix load --labels names.labels departments.image", 0, ["1 file 0-2,payroll,4-6,audit-eu,8-255 free"]),
    ("ix twin --labels names.labels payroll examples/float.ix examples/float.ix", 0, ["agree 3", "1 2 m 7 read p1 0 8 = bytes 2 x6869 @ payroll"]),
    ("ix run --json --labels names.labels examples/float.ix", 0, ['"names": {"3": "payroll", "7": "audit-eu"}', '"label": "3"']),
]
BAD_NAMES = [("3 payroll\n", 1), ("x = y\n", 1), ("512 = y\n", 1), ("3 = 4\n", 1), ("3 = a,b\n", 1), ("3 = a\n3 = b\n", 2), ("3 = a\n4 = a\n", 2), ("# ok\n3 = \xff\n", 2)]

TYPED = "type enforcement has no counterpart"
LEVELS = [
    ("mls s0 s1:c3,c7 s0-s2:c0.c9", 0, ["- -\n3,7,497 3,7,497\n- 0-9,497-498\n"]),
    ("mls --form 1 --levels 4 s3:c252 s0", 0, ["252-255 252-255\n- -\n"]),
    ("mls --levels 1 s0-s0:c0.c511", 0, ["- *\n"]),
    ("mls s15:c0.c496", 0, ["* *\n"]),
    ("mls s0:c7,c3", 0, ["3,7 3,7\n"]),
    ("mls --names --levels 3", 0, ["510 = s1\n511 = s2\n"]),
    ("mls --back 3,7,497 - '*' 0-1,497-498", 0, ["s1:c3,c7\ns0\ns15:c0.c496\ns2:c0,c1\n"]),
    ("mls --back 498", 3, ["`498` is of no level: it lacks category 497, which stands for s1"]),
    ("mls --back 3,4", 3, ["`3,4` is no label of this form"]),
    ("mls s16", 3, ["s16: error: s16 is above s15"]),
    ("mls s0:c497", 3, ["c497 is above c496"]),
    ("mls s1-s0", 3, ["`s0` doesn't dominate `s1`"]),
    ("mls s0:c1-s1:c2", 3, ["doesn't dominate"]),
    ("mls s1:c5.c3 s1: s1:x", 3, ["`c5.c3` runs downwards", "lacks categories", "`x` is no category"]),
    ("mls system_u:object_r:etc_t:s0", 3, [TYPED]),
    ("mls 'allow a_t b_t:file read;'", 3, ["a statement `allow` can't be expressed", TYPED]),
    ("mls 'type_transition a_t b_t:process c_t;'", 3, [TYPED]),
    ("mls 'mlsconstrain file read (l1 dom l2);'", 3, ["the constraints are fixed here"]),
    ("mls 'range_transition a_t b_t s1;'", 3, ["exec changes no label here"]),
    ("mls SystemHigh", 3, ["setrans.conf"]),
    ("mls", 2, ["a RANGE is needed"]), ("mls --levels x s0", 2, ["`--levels` takes a number"]), ("mls --levels 600 s0", 2, ["there may be 1 to 512 levels"]),
    ("mls --sets s0", 2, ["`--sets` is no option"]), ("mls --help", 0, ["usage: mls "]),
]

# Words of a command line up to the cursor, and what has to be among those that are offered.
COMPLETED = [
    ("ix ", {"run", "check", "labels", "--json", "--help"}), ("ix c", {"check"}), ("ix run exam", {"examples"}), ("ix run --par", {"--parallel"}),
    ("ix run --color ", {"auto", "never"}), ("ix --color never ru", {"run"}), ("ix run examples/float.i", {"examples/float.ix"}), ("ix check examples/float.ix examples/float.r", {"examples/float.report"}),
    ("pin examples/audit.i", {"examples/audit.ix"}), ("pin --pro", {"--program"}), ("ix labels nam", {"names.labels"}), ("ix run --color = n", {"never"}),
]

# Lines, and a scope that the grammar for VS Code finds in them; vim's finds that something is wrong where this is `invalid`.
MARKED = [
    ("# a note", "comment.line.number-sign.ix"), ("proc a - 3,7-9 DL -", "storage.type.header.ix"), ("proc a - 3,7-9 DL -", "constant.numeric.label.ix"),
    ("proc a - 3 DL -", "variable.language.privileges.ix"), ("phase", "keyword.control.part.ix"), ("open a /s rw as f", "keyword.operator.as.ix"),
    ("open a /s rw as f", "entity.name.path.ix"), ("write a f 64*00", "string.unquoted.payload.ix"), ('write a f "a\\n"', "constant.character.escape.ix"),
    ('policy {"rules":[true]}', "constant.language.json.ix"), ("opne a /s r", "invalid.illegal.command.ix"), ("read a  f 8", "invalid.illegal.space.ix"),
    ("read a f 8 ", "invalid.illegal.space.ix"), ('write a f "a\\q"', "invalid.illegal.escape.ix"), ("selfie a", "invalid.illegal.command.ix"), ("exec a /x", "support.function.command.ix"),
]

# What vim runs to write which groups it finds in each line.
LOOK = r"""
set nocompatible
set runtimepath+=SYNTAX
filetype on
syntax on
edit
redir! > looked
for number in range(1, line('$'))
  let names = []
  for at in range(1, col([number, '$']) - 1)
    call add(names, synIDattr(synID(number, at, 1), 'name'))
  endfor
  silent echo 'line ' . join(names)
endfor
redir END
qa!
"""


def first_match(rules, line, at):
    """The rule that matches first from a place on, and where; of two that match at one place the earlier."""
    found = [(match.start(), number, item, match) for number, item in enumerate(rules)
             for match in [re.compile(item.get("match") or item["begin"]).search(line, at)] if match and match.end() > match.start()]
    return min(found, key=lambda it: it[:2])[2:] if found else (None, None)


def scopes(grammar, line):
    """The scopes that a grammar for VS Code finds in a line, as its rules are applied from left to right."""
    found, stack, at = [], [(grammar["patterns"], None)], 0
    while at < len(line):
        rules, end = stack[-1]
        rules = [item for rule_ in rules for item in (grammar["repository"][rule_["include"][1:]]["patterns"] if "include" in rule_ else [rule_])]
        item, match = first_match(rules, line, at)
        closes = re.compile(end).search(line, at) if end else None
        if closes and (not match or closes.start() <= match.start()):
            stack.pop()
            at = max(closes.end(), at)
            continue
        if not match:
            break
        found += [item["name"]] if "name" in item else []
        found += [capture["name"] for number, capture in item.get("beginCaptures", {}).items() if match[int(number)]]
        if "begin" in item:
            stack.append((item.get("patterns", []), item["end"]))
        at = match.end()
    return found
