"""Somebody hostile: files that are none, doubled and cut states, links, closed and full outputs, a full disk, little memory and few files.

Each run answers with one of its documented statuses, and says on the standard error what is wrong, without a traceback or a key; no half of
a state or a page is ever taken for a whole."""
import contextlib
import os
import random
import re
import resource
import shutil
import sqlite3
import subprocess
from collections.abc import Callable

import running
from telegrams.frames import format_a
from telegrams.messages import whole
from reference.roster import RosterFault
from reference.states import read_state
from walks.steps import EXAMPLES, PROGRAMS, TOP, Walk, Wrong, equal, true, what_to_do

METER, KEY = "9315010203040107", bytes(range(16))
# a volume of 26 litres
PAYLOAD = bytes.fromhex("2f2f0c1326000000")
LONGEST = 67_108_864
# where each program takes a file: the words, with `FILE` for it, and the statuses for one that is none; lines that are none are answered
# each by itself, so they are no fault of a receiver's, a meter's or a file of edits
PLACES = {
    "wmbus": {"hear FILE rx": {3}, "collect FILE next readings rx tx": {3}, "continue FILE next readings rx tx": {3}, "hear state FILE": {0, 8},
              "continue state next readings FILE tx": {0, 8}},
    "input_check": {"FILE rx": {1, 8}, "roster FILE": {0, 1, 8}},
    "frame_inspect": {"FILE 4": {0, 8}},
    "reading_list": {"--csv REPORT": {1, 8}, "REPORT": {1, 8}},
    "usage_totals": {"FILE": {0, 8}},
    "line_merge": {"FILE rx": {0, 8}},
    "address_list": {"FILE": {0, 8}},
    "meter_side": {f"FILE {METER} tx": {3}, f"state {METER} FILE": {0, 8}},
    "line_accept": {"FILE": {3}},
    "state_merge": {"FILE roster next": {3}, "state FILE next": {3}},
    "state_raise": {"FILE 1 next": {3}},
    "audit_check": {"FILE report rx": {12}, "state REPORT rx": {12}, "state report FILE": {12}},
}


def limited(kind: int, most: int) -> Callable[[], None]:
    """What bounds a program before it begins."""
    return lambda: resource.setrlimit(kind, (most, most))


def a_session(walk: Walk) -> None:
    """The state of docs/FORMATS.md, which has a line of each kind, and a session from it."""
    page = (TOP / "docs/FORMATS.md").read_text(encoding="utf-8")
    found = re.search(r"^```\n(wmbus-state 1\n.*?^end\n)```$", page, re.M | re.S)
    assert found
    state = found.group(1)
    kinds = {"wmbus-state", "own", "meter", "reading", "part", "tick", "waits", "command", "end"}
    equal("the kinds of lines in it", kinds, {line.split(" ")[0] for line in state.splitlines()})
    walk.write("state", state)
    walk.write("roster", "wmbus-roster 2\n" + "".join(f"{line}\n" for line in state.splitlines() if line.startswith(("own ", "meter "))))
    walk.keys |= set(re.findall(r"\b[0-9a-f]{32}\b", walk.text("roster")))
    later = [whole(KEY, bytes.fromhex(METER), 25, PAYLOAD, control=0x08), whole(KEY, bytes.fromhex(METER), 26, PAYLOAD, access=0x80)]
    walk.write("rx", (EXAMPLES / "commands.rx").read_bytes() + b"".join(f"A 1700001000 {format_a(it).hex()}\n".encode() for it in later))
    walk.write("report", walk.session("continue", "state", "next", "readings", "rx", "tx"))


def told_by_a_row(line: str) -> None:
    """A line of the standard error has its row in docs/FORMATS.md, that of a listed report by the words behind its number."""
    listed = re.fullmatch(r"reading_list: (?:line \d+: )?(.*)", line)
    try:
        what_to_do("Exit statuses", line)
    except Wrong:
        if not listed:
            raise
        what_to_do("Readings as a list", listed.group(1) if ": line " in line else line)


def files_that_are_none(walk: Walk) -> None:
    """Zeros, a byte more than is read without a newline, noise, a program, and other files of the folder, in each place of each program."""
    walk.write("zeros", bytes(1 << 20))
    walk.write("past", b"")
    os.truncate(walk.path("past"), LONGEST + 1)
    walk.write("noise", random.Random("noise").randbytes(1 << 16))
    walk.write("itself", walk.read("state") + bytes(1) + walk.read("rx"))
    for name, asked in PLACES.items():
        for words, statuses in asked.items():
            for file in ("zeros", "past", "noise", "itself", "report", "/dev/null"):
                ran = walk.tried(name, *re.sub("FILE|REPORT", file, words).split(" "))
                wanted = {0} if (file, "REPORT" in words) == ("report", True) else statuses
                true(f"{name} {words} over {file}: status {ran.status}, where it has to be of {wanted}", ran.status in wanted)
                for line in ran.told.splitlines():
                    told_by_a_row(line)
    for form in ("cul", "rtl_wmbus", "rtl_433", "hex"):
        with open(walk.path("past"), "rb") as past:
            ran = walk.run("line_feed", form, feed=past.read(1 << 20), status=1)
        true(f"line_feed {form} says {ran.told!r}", ran.told.startswith("line_feed: line 1: it has more than 4,096 bytes"))
    told = "wmbus: receiver 1 goes past the limit\n"
    true("too much of a receiver is cut", " cut\n" in walk.run("wmbus", "hear", "state", "past", status=8, told=told).text)
    equal("zeros of a receiver", "receiver 1 lines 1 own 0 strangers 0 unframed 0 bad 1 end", walk.session("hear", "state", "zeros").splitlines()[1])


def texts_saved_otherwise(walk: Walk) -> None:
    """Line ends of another system, UTF-16, NULs and numbers that are too large, judged by the second implementation."""
    report = walk.session("hear", "roster", "rx")
    for name in ("roster", "rx"):
        walk.write(f"{name}.crlf", walk.read(name).replace(b"\n", b"\r\n"))
    equal("the report over files with carriage returns", report, walk.session("hear", "roster.crlf", "rx.crlf"))
    for code, said in (("utf-16", "roster line 1: "), ("utf-8-sig", "roster: a byte order mark ")):
        walk.write("other", walk.text("roster").encode(code))
        walk.run("wmbus", "hear", "other", "rx", status=3, told="wmbus: roster line 1 head\n")
        true(f"input_check doesn't begin with {said!r} in {code}", walk.run("input_check", "other", status=1).text.startswith(said))
        what_to_do("Roster", "head")
    frame = walk.read("rx").splitlines()[1].split(b" ")[2]
    numbers = [b"18446744073709551615", b"18446744073709551616", b"9" * 900, b"-1", b"+1", b"1e3", b"0x10", b" 1", b"01", "١".encode()]
    lines = [b"A %s %s" % (it, frame) for it in numbers] + [b"X %s %s" % (METER.encode(), it) for it in (b"4294967295", b"4294967296", b"9" * 900)]
    lines += [line.replace(b" ", b"\0", 1) for line in walk.read("rx").splitlines()] + [b"A 1 " + frame + b"\0", b"\0" * 1024, b"\0" * 1025, b"A " * 500]
    walk.write("numbers", b"\n".join(lines) + b"\n")
    walk.session("hear", "state", "numbers")
    true("input_check names the lines", len(walk.run("input_check", "roster", "numbers", status=1).lines) > 20)


def refused_state(walk: Walk, text: bytes) -> bool:
    """A state that the second implementation refuses is refused with the same words, and nothing is written; else it is taken whole."""
    for name in ("next", "readings", "tx"):
        walk.path(name).unlink(missing_ok=True)
    walk.write("hurt", text)
    try:
        read_state(text)
    except RosterFault as fault:
        ran = walk.run("wmbus", "continue", "hurt", "next", "readings", "rx", "tx", status=3, told=f"wmbus: {fault}\n")
        equal("the report behind a faulty state", b"", ran.out)
        equal("the outputs behind a faulty state", [b""] * 3, [walk.read(name) for name in ("next", "readings", "tx")])
        what_to_do("The state" if "state line" in str(fault) else "Roster", str(fault).split(" ")[-1])
        return True
    walk.session("continue", "hurt", "next", "readings", "rx", "tx")
    return False


def a_state_doubled_or_cut(walk: Walk) -> None:
    """Each of its lines doubled, left in half with nothing behind it, or left out with all behind it: no half is taken for a whole."""
    lines = walk.read("state").splitlines(keepends=True)
    for at, line in enumerate(lines):
        refused_state(walk, b"".join([*lines[:at + 1], *lines[at:]]))
        for size in (0, len(line) // 2, len(line) - 1):
            is_whole = at == len(lines) - 1 and size == len(line) - 1
            is_refused = refused_state(walk, b"".join([*lines[:at], line[:size]]))
            equal(f"a state that ends behind {size} bytes of line {at + 1} is refused", not is_whole, is_refused)


def too_many_meters(walk: Walk) -> None:
    """4,097 of them: the line is named by all who read it, and a folder's round doesn't count."""
    many = "wmbus-roster 2\nown 9315010000000131\n" + "".join(f"meter 9315{number:08x}0107 7 {number:032x} - - 0 0\n" for number in range(4097))
    walk.write("many", many)
    walk.run("wmbus", "hear", "many", "rx", status=3, told="wmbus: roster line 4099 toomany\n")
    found = walk.run("input_check", "many", status=1).lines
    true(f"input_check says {found}", any(line.startswith("roster line 4099: ") for line in found))
    walk.run("audit_check", "many", "report", "rx", status=12)
    walk.run("meter_side", "many", METER, "rx", status=3)
    walk.path("site/rx").mkdir(parents=True)
    walk.write("site/state", many)
    walk.write("site/rx/roof.1", walk.read("rx"))
    ran = walk.run("sessions", "--program", walk.program("wmbus"), "site", status=3)
    true(f"what bin/sessions says: {ran.told}", "wmbus: roster line 4099 toomany\n" in ran.told and "nothing of it counts" in ran.told)
    equal("the reports of the folder", [], os.listdir(walk.path("site/reports")))
    equal("the folder's state", many.splitlines(), walk.text("site/state").splitlines())
    equal("the folder's file", walk.read("rx"), walk.read("site/rx/roof.1"))


def another_programs_files(walk: Walk) -> None:
    """A report, and a database, that are another program's: each is refused by name, and what was kept stands."""
    walk.run("keep_readings", "kept.db", "report", told="")
    walk.run("report_page", "kept.db", "page.html", told="")
    database, page = walk.read("kept.db"), walk.read("page.html")
    walk.write("listed", walk.run("reading_list", "report").out)
    walk.write("inspected", walk.run("frame_inspect", "rx", "1").out)
    walk.write("twice", walk.read("report") * 2)
    walk.write("half", walk.read("report")[:-40])
    for name, words in (("listed", "this is no report"), ("inspected", "this is no report"), ("state", "this is no report"),
                        ("kept.db", "the last line has no newline"), ("half", "the last line has no newline"), ("/dev/null", "the file is empty"),
                        ("twice", "something stands behind the report's last line"), ("none", "can't be read"), (".", "can't be read")):
        ran = walk.run("keep_readings", "kept.db", name, status=1)
        true(f"keep_readings of {name} says {ran.told!r}", re.match(rf"keep_readings: {re.escape(name)}(?: line \d+)?: {words}", ran.told))
        what_to_do("Kept readings", words)
        if name not in ("none", "."):
            true(f"audit_check of {name}", walk.run("audit_check", "state", name, "rx", status=12).text.startswith("no "))
    walk.run("reading_list", "listed", status=1)
    with contextlib.closing(sqlite3.connect(walk.path("others.db"))) as others:
        others.execute("CREATE TABLE reading (id)")
    for name, words in (("others.db", "this is no database of readings"), ("report", "file is not a database")):
        for asked in (("keep_readings", name, "report"), ("report_page", name, "page.html")):
            equal(f"{asked[0]} of {name}", f"{asked[0]}: {name}: {words}\n", walk.run(*asked, status=1).told)
        what_to_do("Kept readings", words)
    equal("the database and the page that were there", (database, page), (walk.read("kept.db"), walk.read("page.html")))


def links_among_the_outputs(walk: Walk) -> None:
    """A link to an input is refused before anything is written; one that leads round is named; one to nothing makes what it names."""
    walk.path("round").symlink_to("round")
    walk.path("to_nothing").symlink_to("made")
    before = {name: walk.read(name) for name in ("state", "rx")}
    for place, target in ((2, "state"), (3, "rx"), (5, "state")):
        walk.path("link").unlink(missing_ok=True)
        walk.path("link").symlink_to(target)
        words = ["continue", "state", "next", "readings", "rx", "tx"]
        words[place] = "link"
        told = walk.run("wmbus", *words, status=11).told
        true(f"a link to {target} as word {place}: {told!r}", re.fullmatch(r"wmbus: the file \S+ is named twice\n", told))
        what_to_do("Exit statuses", told)
        equal("what the link leads to", before, {name: walk.read(name) for name in before})
        words[place] = "round"
        walk.run("wmbus", *words, status=11, told="wmbus: cannot open round\n")
    walk.session("continue", "state", "to_nothing", "readings", "rx", "tx")
    read_state(walk.read("made"))
    walk.path("link").unlink()
    walk.path("link").symlink_to("/dev/full")
    walk.run("wmbus", "continue", "state", "link", "readings", "rx", "tx", status=7, told="wmbus: cannot write next\n")


def a_site(walk: Walk, place: str) -> None:
    """A folder of sessions with a file that is to be heard."""
    walk.path(f"{place}/rx").mkdir(parents=True)
    shutil.copy(walk.path("state"), walk.path(f"{place}/state"))
    walk.path(f"{place}/state").chmod(0o600)
    shutil.copy(walk.path("rx"), walk.path(f"{place}/rx/roof.1"))


def heard_once(walk: Walk, place: str) -> None:
    """The folder's file was heard in one round, and all of it is what the second implementation says."""
    told = {"report": f"{place}/reports/000001", "next": f"{place}/state", "readings": f"{place}/readings.json", "tx1": f"{place}/tx/000001.roof.1"}
    walk.judge("continue", walk.read("state"), [f"{place}/heard/000001.roof.1"], {name: walk.text(file) for name, file in told.items()})


def integrity(walk: Walk, name: str) -> str:
    """What SQLite says of a database."""
    with contextlib.closing(sqlite3.connect(walk.path(name))) as database:
        return str(database.execute("PRAGMA integrity_check").fetchone()[0])


def outputs_that_take_nothing(walk: Walk) -> None:
    """The scripts and programs with a standard output that is closed, full, or read by nobody; what they did stands."""
    wmbus = walk.program("wmbus")
    for kind in ("closed", "full", "unread"):
        reader, writer = os.pipe()
        os.close(reader)
        with open("/dev/full", "wb") as full:
            output = {"closed": writer, "full": full.fileno(), "unread": writer}[kind]
            closing = (lambda: os.close(1)) if kind == "closed" else None
            a_site(walk, f"site.{kind}")
            for words in (("keep_readings", f"{kind}.db", "report"), ("report_page", f"{kind}.db", f"{kind}.html"),
                          ("sessions", "--program", wmbus, f"site.{kind}")):
                ran = walk.tried(*words, output=output, before=closing)
                is_told = ran.status == 0 or ran.status == 1 and "standard output" in ran.told
                true(f"{words[0]} with an output that is {kind} ends with {ran.status} and says {ran.told!r}", is_told)
            for name in PROGRAMS:
                walk.run(name, "--help", status=7, output=output, before=closing)
        os.close(writer)
        heard_once(walk, f"site.{kind}")
        true(f"the page with an output that is {kind}", b"</html>" in walk.read(f"{kind}.html"))
        equal("the database", "ok", integrity(walk, f"{kind}.db"))


def a_full_disk(walk: Walk) -> None:
    """No room for the database, the page and a round; once there is, all goes on."""
    disk = walk.path("disk")
    disk.mkdir()
    mount = ["mount", "-t", "tmpfs", "-o", "size=256k", "walks", str(disk)]
    if os.geteuid() or subprocess.run(mount, stderr=subprocess.DEVNULL, check=False).returncode:
        walk.say("a full disk, since nothing can be mounted here")
        return
    try:
        a_site(walk, "disk/site")
        walk.run("keep_readings", "disk/kept.db", "report")
        with contextlib.suppress(OSError), open(disk / "filler", "wb", buffering=0) as filler:
            while filler.write(bytes(1024)):
                pass
        walk.write("later", walk.text("report").replace(" stored 26 ", " stored 27 "))
        for words in (("keep_readings", "disk/kept.db", "later"), ("keep_readings", "disk/new.db", "report"),
                      ("report_page", "kept.db", "disk/page.html")):
            ran = walk.run(*words, status=1)
            true(f"{words[0]} on a full disk says {ran.told!r}", "full" in ran.told or "No space left on device" in ran.told)
        equal("the page on a full disk", [], [name for name in os.listdir(disk) if "page" in name])
        for _ in range(2):
            ran = walk.tried("sessions", "--program", walk.program("wmbus"), "disk/site")
            true(f"bin/sessions on a full disk ends with {ran.status} and says {ran.told!r}", ran.status)
            equal("the state on a full disk", walk.text("state"), walk.text("disk/site/state"))
        os.unlink(disk / "filler")
        equal("the database behind a full disk", "ok", integrity(walk, "disk/kept.db"))
        walk.run("keep_readings", "disk/kept.db", "report", told="")
        walk.run("sessions", "--program", walk.program("wmbus"), "disk/site", told="")
        heard_once(walk, "disk/site")
    finally:
        subprocess.run(["umount", disk], check=True)


def little_memory(walk: Walk) -> None:
    """Less and less memory (`ulimit -v`): all is right, or there is no memory and nothing is written."""
    # one meter less, so that the roster has as many as it may
    walk.write("many", walk.text("many").replace("\nmeter 9315000000000107", "\n#"))
    walk.write("much", walk.read("rx") * 4000)
    found = set()
    for most in (6, 12, 24, 48, 96, 192):
        for name in ("next", "readings", "tx"):
            walk.path(name).unlink(missing_ok=True)
        ran = walk.tried("wmbus", "collect", "many", "next", "readings", "much", "tx", before=limited(resource.RLIMIT_AS, most << 20))
        found.add(ran.status)
        if ran.status == 10:
            equal(f"outputs of {most} MiB", ("wmbus: no memory\n", b"", b"", b""), (ran.told, ran.out, walk.read("next"), walk.read("readings")))
            continue
        true(f"{most} MiB: status {ran.status}", ran.status == 0)
        true(f"{most} MiB: the report isn't whole", ran.text.endswith("\nend\n"))
    equal("the statuses", {0, 10}, found)
    for name, asked in PLACES.items():
        ran = walk.tried(name, *re.sub("FILE|REPORT", "much", list(asked)[-1]).split(" "), before=limited(resource.RLIMIT_AS, 8 << 20))
        true(f"{name} in 8 MiB: {ran.told!r}", ran.status != 10 or "memory" in ran.told or "status 10" in ran.told)


def few_files(walk: Walk) -> None:
    """Fewer and fewer files that may be open (`ulimit -n`): the first that can't be is named, and a round counts whole or not at all."""
    found = set()
    for most in range(4, 12):
        ran = walk.tried("wmbus", "continue", "state", "next", "readings", "rx", "tx", before=limited(resource.RLIMIT_NOFILE, most))
        found.add(ran.status)
        if ran.status == 11:
            what_to_do("Exit statuses", ran.told)
    equal("the statuses", {0, 11}, found)
    for most in (8, 16, 31):
        ran = running.run([str(TOP / "bin" / "meter_name"), METER], env=walk.environment() | {"PATH": "/usr/bin:/bin"},
                          preexec_fn=limited(resource.RLIMIT_NOFILE, most))
        told = "bin/meter_name: fewer than 32 files may be open at once (ulimit -n)\n"
        equal(f"bin/meter_name with {most} files", (125, told), (ran.status, ran.told))
    for most in range(7, 16, 2):
        place = f"site.{most}"
        a_site(walk, place)
        for words in (("keep_readings", "few.db", "report"), ("report_page", "kept.db", "few.html"),
                      ("sessions", "--program", walk.program("wmbus"), place)):
            ran = walk.tried(*words, before=limited(resource.RLIMIT_NOFILE, most))
        if ran.status == 0:
            heard_once(walk, place)
        else:
            equal(f"the state of {place}", walk.text("state"), walk.text(f"{place}/state"))


STEPS = [a_session, files_that_are_none, texts_saved_otherwise, a_state_doubled_or_cut, too_many_meters, another_programs_files,
         links_among_the_outputs, outputs_that_take_nothing, a_full_disk, little_memory, few_files]
