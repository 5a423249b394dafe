"""A newcomer with a fresh clone: README's two commands, each program's help, mistakes as they are typed, and a telegram of their own.

The telegram is the gas meter's of OMS Volume 2, annex N, with its key; its values are those that stand there."""
import json
import re
import shlex

import running
from fresh import copy_into
from reference.roster import RosterFault, read_roster
from walks.steps import PROGRAMS, Walk, Wrong, documented, equal, true, what_to_do

# of the annex: the telegram without its CRCs, the label, the key, and what the meter says
TELEGRAM = "2e4493157856341233037a2a0020055923c95aaa26d1b2e7493b013ec4a6f6d3529b520edff0ea6defc99d6d69ebf3"
LABEL, KEY = "ELS 12345678 33 03", "0102030405060708090a0b0c0d0e0f11"
VALUES = {"volume": ("28504.27", "m3"), "datetime": ("2008-05-31T23:50", "-"), "errorflags": ("0x0000", "-")}
MOST_COMMANDS = 10
ROSTER = f"wmbus-roster 2\nown 9315010000000131\nmeter ADDRESS 5 {KEY} - - 0 0\n"
# what is typed wrongly in the newcomer's roster: what stands there, what is typed, and the line and the cause that docs/FORMATS.md, "Roster", gives it
MISTAKES = [
    ("wmbus-roster 2", "wmbus roster 2", 1, "head"),
    ("own 9315010000000131", "own 931501000000013l", 2, "own"),
    ("meter 9", "Meter 9", 3, "kind"),
    (" 5 0", "  5 0", 3, "fields"),
    ("9315785634123303", "93I5785634123303", 3, "address"),
    (" 5 0", " 4 0", 3, "mode"),
    ("0e0f11", "0e0f1", 3, "key"),
    ("- - 0 0", f"{KEY} - 0 0", 3, "other"),
    ("- - 0 0", "- 256 0 0", 3, "last"),
    ("- - 0 0", "- - - 0", 3, "down"),
    ("- - 0 0", "- - 0 00", 3, "ids"),
]


def in_clone(walk: Walk, *words: str, status: int = 0, feed: bytes = b"") -> running.Ran:
    """A command as it is typed in the clone."""
    ran = running.run(words, feed, cwd=walk.path("clone"))
    if ran.status != status or b"Traceback" in ran.err:
        raise Wrong(f"{shlex.join(words)}: wanted status {status}, got {ran.status}: {ran.told!r:.300}")
    return ran


def unpacked(walk: Walk, name: str) -> str:
    """The path of a program of the clone, for many starts."""
    return walk.stand_ins.get(name) or in_clone(walk, "bin/start", "--where", name).text.strip()


def refused(walk: Walk, status: int, told: str, *words: str) -> None:
    """A command that ends with this status and says this, of which docs/FORMATS.md says what to do."""
    ran = in_clone(walk, *words, status=status)
    equal(f"{shlex.join(words)}: the standard error", told, ran.told)
    equal(f"{shlex.join(words)}: the standard output", b"", ran.out)
    what_to_do("Exit statuses", told)


def a_fresh_clone(walk: Walk) -> None:
    """The clone, in which stand-ins lie where the programs do."""
    copy_into(str(walk.path("clone")))
    for name, file in walk.stand_ins.items():
        script = walk.path(f"clone/bin/{name}")
        script.unlink()
        script.symlink_to(file)


def the_two_commands_of_the_readme(walk: Walk) -> None:
    """The second prints what the telegram says, in words that a person reads."""
    first, second = re.findall(r"^```sh(?: root)?\n(.*?)^```$", walk.text("clone/README.md"), re.M | re.S)[:2]
    true(f"README's first command is another one: {first}", first.startswith("sudo apt-get install -y python3 "))
    walk.say("README's first command, since it installs packages")
    listed = in_clone(walk, "bash", "-c", second).text.splitlines()
    equal("what the gas meter says", ["quantity value unit", *(f"{name} {value} {unit}" for name, (value, unit) in VALUES.items())], listed)


def each_help_and_its_statuses(walk: Walk) -> None:
    """Each program's help names the statuses that docs/FORMATS.md gives it, and no other."""
    for name in PROGRAMS:
        text = in_clone(walk, f"bin/{name}", "--help").text
        named = {int(it) for it in re.findall(r"(?<![\d,.])(\d{1,2})\s(?!bits)(?:[a-z]|FILE |NEXT not)", text[text.index("exit status:"):])}
        equal(f"the statuses of {name} --help and those of docs/FORMATS.md", sorted(documented(name)), sorted(named))


def what_is_typed_wrongly(walk: Walk) -> None:
    """Words that ask for nothing, files that aren't there, folders in their place."""
    refused(walk, 2, "wmbus: words\n", "bin/wmbus")
    refused(walk, 2, "wmbus: words\n", "bin/wmbus", "listen", "examples/gas.roster", "examples/gas.rx")
    refused(walk, 2, "wmbus: words\n", "bin/wmbus", "hear", "examples/gas.roster")
    refused(walk, 11, "wmbus: cannot open examples/gaz.roster\n", "bin/wmbus", "hear", "examples/gaz.roster", "examples/gas.rx")
    refused(walk, 11, "wmbus: cannot open examples/gas.xr\n", "bin/wmbus", "hear", "examples/gas.roster", "examples/gas.xr")
    refused(walk, 4, "wmbus: cannot read the roster\n", "bin/wmbus", "hear", "examples", "examples/gas.rx")
    refused(walk, 2, "meter_name: the maker isn't three capital letters\n", "bin/meter_name", "els", "12345678", "33", "03")
    folder = in_clone(walk, "bin/wmbus", "hear", "examples/gas.roster", "examples", status=5)
    equal("a folder for what was heard", b"wmbus: cannot read receiver 1\n", folder.err)
    what_to_do("Exit statuses", folder.told)
    true("a folder for what was heard: its end in the report", b"\nmeter " in folder.out and b" readfault\n" in folder.out)
    what_to_do("Report", "readfault")


def a_telegram_of_their_own(walk: Walk) -> None:
    """From the telegram, the label and the key to the reading."""
    typed = 0

    def run(*words: str, feed: bytes = b"") -> str:
        nonlocal typed
        typed += 1
        return in_clone(walk, *words, feed=feed).text

    walk.write("clone/own.rx", run("bin/line_feed", "hex", feed=f"{TELEGRAM}\n".encode()))
    true("frame_inspect shows security mode 5", run("bin/frame_inspect", "own.rx", "1").startswith("1 A 47 44 9315785634123303 ELS tpl 7a 42 00 5 2"))
    address = run("bin/meter_name", *LABEL.split(" ")).strip()
    walk.write("clone/own.roster", ROSTER.replace("ADDRESS", address))
    equal("input_check of the roster and the line", "", run("bin/input_check", "own.roster", "own.rx"))
    walk.write("clone/own.report", run("bin/wmbus", "collect", "own.roster", "own.next", "own.json", "own.rx", "own.tx"))
    listed = [json.loads(line) for line in run("bin/reading_list", "own.report").splitlines()]
    equal("the readings", VALUES, {it["quantity"]: (it["value"], it["unit"]) for it in listed})
    equal("their meter", {LABEL}, {it["label"] for it in listed})
    run("bin/keep_readings", "own.db", "own.report")
    run("bin/report_page", "own.db", "own.html")
    true("the page has the meter", LABEL in walk.text("clone/own.html"))
    true(f"{typed} commands up to the page, where {MOST_COMMANDS} are enough", typed <= MOST_COMMANDS)


def a_mistake_in_each_field(walk: Walk) -> None:
    """Each is named with its line and cause, which the second implementation gives too, and has its row; mended, the roster is heard."""
    right = walk.text("clone/own.roster")
    wmbus, input_check = (unpacked(walk, name) for name in ("wmbus", "input_check"))
    lines = right.splitlines(keepends=True)
    of_lines = [(right, right + lines[2], 4, "same"), (right, lines[0], 2, "missing")]
    for stands, typed, line, cause in MISTAKES + of_lines:
        wrong = right.replace(stands, typed, 1)
        true(f"{stands!r} stands in the roster", wrong != right)
        try:
            read_roster(wrong.encode())
            raise Wrong(f"the second implementation takes {typed!r} in the place of {stands!r}")
        except RosterFault as fault:
            equal(f"{typed!r} in the second implementation", f"roster line {line} {cause}", str(fault))
        walk.write("clone/wrong.roster", wrong)
        refused(walk, 3, f"wmbus: roster line {line} {cause}\n", wmbus, "hear", "wrong.roster", "own.rx")
        true(f"{cause}: docs/FORMATS.md says what to do", what_to_do("Roster", cause))
        found = in_clone(walk, input_check, "wrong.roster", status=1).text
        true(f"{typed!r}: input_check names line {line}: {found}", found.startswith(f"roster line {line}: "))
    walk.write("clone/wrong.roster", right)
    true("the roster is mended", in_clone(walk, wmbus, "hear", "wrong.roster", "own.rx").text == walk.text("clone/own.report"))


STEPS = [a_fresh_clone, the_two_commands_of_the_readme, each_help_and_its_statuses, what_is_typed_wrongly,
         a_telegram_of_their_own, a_mistake_in_each_field]
