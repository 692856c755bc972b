"""The commands of `tools/ix` and of `tools/pin`. A further question of a program is one more entry."""
from collections import namedtuple

from . import asking, frames, records

# A command. Of its operands LABEL and COUNT go to the program as words and the others are files; one in brackets may be left out, and one
# with dots may stand more than once. `question` is the word of the program. `frame` makes its input of the files, and `records` makes records
# of what it prints, with the scripts where `is_of_scripts`; it is None where bytes are printed. `flags` are its own flags, `refused` says more
# where the answer is `no`, and `work` does it all. Names of categories are printed where it `is_for_people`, and not for programs.
FIELDS = "name operands program question frame records is_of_scripts is_for_people flags refused work says example"
Command = namedtuple("Command", FIELDS)


def question(name, operands, frame, made, says, example, program="ixone", is_of_scripts=False, is_for_people=True, flags=(), refused=None,
             work=asking.ask):
    return Command(name, operands, program, name, frame, made, is_of_scripts, is_for_people, flags, refused, work, says, example)


def nothing(_paths):
    return frames.Framed(b"", [], [])


IX = [
    question("run", ("SCRIPT",), frames.alone, records.of_report, "print the report of a run, lane after lane; with --parallel by ixrun, lanes side by side",
             "ix run examples/float.ix", is_of_scripts=True, flags=("--parallel",)),
    question("print", ("SCRIPT",), frames.alone, records.of_print, "print the one canonical text of a script", "ix print examples/spellings.ix",
             is_for_people=False),
    question("check", ("SCRIPT", "REPORT"), frames.judged, records.of_check, "say whether a text is a report of the script, and else at which line it goes wrong",
             "ix check examples/audit.ix examples/audit.report", refused=asking.forged),
    question("flow", ("SCRIPT", "[REPORT]"), frames.alone, records.of_flow, "say of each byte that was read where it came from; of a report's run, where one is named",
             "ix flow examples/relay.ix", is_of_scripts=True, work=asking.ask_pinned),
    question("twin", ("LABEL", "A", "B"), frames.paired, records.of_twin, "compare the runs of two scripts at a label",
             "ix twin - examples/float.ix examples/float.ix", is_of_scripts=True),
    question("save", ("SCRIPT", "[REPORT]"), frames.alone, None, "write the image of the files that a run leaves; of a report's run, where one is named",
             "ix save examples/departments.ix -o departments.image", is_for_people=False, work=asking.ask_pinned),
    question("load", ("IMAGE",), frames.alone, records.of_list, "list what is in an image", "ix load departments.image"),
    question("gen", ("COUNT",), nothing, records.of_gen, "run a made session of so many commands, and print its sums", "ix gen 1000"),
    Command("labels", ("FILE", "[LABEL..]"), None, None, None, None, False, True, (), None, asking.show_names,
            "print the names of categories in a file, or labels without them and with them", "ix labels names.labels 3,7"),
]
PIN = Command("pin", ("SCRIPT", "REPORT"), "ixone", None, None, None, False, False, (), None, asking.pin,
              "print a script whose only order of calls is that of the report", "pin examples/two_lanes.ix two_lanes.report > pinned.ix")
