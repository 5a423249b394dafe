"""An integrator: two receivers over pipes, the readings as JSON, a chain of sessions, rounds over a folder, audits, lists, totals, statuses.

The sessions are made (tests/checks/made_sessions.py), with a meter beside them that is sent a command while the lines come. What they have to give
is that of the second implementation, or known from the payloads: each says its counter as a volume in litres."""
import json
import os
import re
import shutil
import subprocess
import threading
from decimal import Decimal

import cuts
import made_sessions
import outputs
import replay
import running
from telegrams.frames import format_a
from telegrams.messages import downlink, whole
from reference.states import read_state
from walks.steps import Walk, equal, true, what_to_do

OWN = bytes.fromhex("9315010000000131")
VALVE, VALVE_KEY = bytes.fromhex("4304080706050107"), bytes.fromhex("b0b1b2b3b4b5b6b7b8b9babbbcbdbebf")
COMMAND, RESPONSE, LISTENS = bytes.fromhex("02"), 0x08, 0x80
RECEIVERS = ("roof", "yard")
# a record that the made messages have behind their volume: 2,375 W in eight BCD digits
POWER = "0c2b75230000"
PIECES, MOST_SECONDS = 10, 20


def says(counter: int) -> bytes:
    """The valve's message: its counter as a volume in litres, eight BCD digits."""
    return bytes.fromhex("2f2f0c13") + bytes.fromhex(f"{counter:08d}")[::-1]


def heard(counter: int, **how: int) -> bytes:
    """A line with a message of the valve."""
    return f"A {counter} {format_a(whole(VALVE_KEY, VALVE, counter, says(counter), **how)).hex()}\n".encode()


def text_of(stream: list[str]) -> bytes:
    """A receiver's lines as bytes."""
    return "".join(stream).encode()


def speak(walk: Walk, radio: subprocess.Popen[bytes], said: list[bytes]) -> None:
    """Feeds the roof's pipe: the valve's command, a message, and its response once the downlink has come out, then all other lines."""
    before, after = walk.read("roof.before"), walk.read("roof.behind")
    assert radio.stdout
    with open(walk.path("roof.pipe"), "wb", buffering=0) as pipe:
        pipe.write(before)
        said.append(radio.stdout.readline())
        pipe.write(after)


def end_all(processes: list[subprocess.Popen[bytes]]) -> None:
    """Kills what runs for too long."""
    for process in processes:
        process.kill()


def two_receivers_at_once(walk: Walk) -> None:
    """`collect` over pipes: the downlink comes out while the roof's lines still come, and the response to it is heard."""
    roster, streams, _ = made_sessions.made("integrator", 4)
    walk.keys |= {word for word in re.findall(r"\b[0-9a-f]{32}\b", roster)} | {VALVE_KEY.hex()}
    walk.write("roster", roster + f"meter {VALVE.hex()} 7 {VALVE_KEY.hex()} - - 0 0\n")
    walk.write("roof.before", f"Q {VALVE.hex()} {COMMAND.hex()}\n".encode() + heard(1, access=LISTENS))
    walk.write("roof.behind", heard(2, control=RESPONSE) + text_of(streams[0]))
    walk.write("roof.rx", walk.read("roof.before") + walk.read("roof.behind"))
    walk.write("yard.rx", text_of(streams[1]))
    for name in RECEIVERS:
        os.mkfifo(walk.path(f"{name}.pipe"))
        os.mkfifo(walk.path(f"{name}.radio"))
    words = ["collect", "roster", "next", "readings.json", *(f"{name}.{kind}" for name in RECEIVERS for kind in ("pipe", "radio"))]
    radios = [subprocess.Popen(["cat", f"{name}.radio"], cwd=walk.folder, stdout=subprocess.PIPE) for name in RECEIVERS]
    collector = subprocess.Popen([walk.program("wmbus"), *words], cwd=walk.folder, stdout=subprocess.PIPE, stderr=subprocess.PIPE)
    spoken: list[bytes] = []
    feeders = [threading.Thread(target=speak, args=(walk, radios[0], spoken), daemon=True),
               threading.Thread(target=lambda: walk.path("yard.pipe").write_bytes(walk.read("yard.rx")), daemon=True)]
    late = threading.Timer(MOST_SECONDS, end_all, args=([collector, *radios],))
    for thread in (*feeders, late):
        thread.start()
    report, told = collector.communicate()
    rest = [it.communicate()[0] for it in radios]
    late.cancel()
    equal("collect over pipes: status and standard error", (0, b""), (collector.returncode, told))
    frame = format_a(downlink(OWN, VALVE_KEY, VALVE, 1, COMMAND)).hex()
    equal("the downlink that comes out while the roof's lines come", [f"D {frame}\n".encode()], spoken)
    texts = {"report": report.decode(), "next": walk.text("next"), "readings": walk.text("readings.json")}
    texts |= {"tx1": (spoken[0] + rest[0]).decode(), "tx2": rest[1].decode()}
    walk.judge("collect", walk.read("roster"), [f"{it}.rx" for it in RECEIVERS], texts)
    steps = next(steps for address, _, steps, _ in replay.parts(texts["report"])[1] if address == VALVE.hex())
    equal("the valve's steps", ["queued 1", "sent 1", "confirmed 1"], [" ".join(words.split(" ")[-2:]) for _, _, words in steps[:3]])
    walk.write("pipes.report", report)


def the_readings_as_json(walk: Walk) -> None:
    """What Python's json and jq read there is what the report prints."""
    read = json.loads(walk.text("readings.json"))
    equal("the readings by the report", json.loads(outputs.readings_of(walk.text("pipes.report"))), read)
    valve = next(it for it in read["meters"] if it["address"] == VALVE.hex())
    equal("the valve's reading", (2, "2", -3, "m3"), (valve["counter"], *(valve["records"][0][name] for name in ("value", "exponent", "unit"))))
    if not shutil.which("jq"):
        walk.say("jq isn't there")
        return
    asked = ".meters[] | .address as $a | .records[] | [$a, .quantity, .value, (.exponent | tostring), .unit] | @tsv"
    rows = running.run(["jq", "-r", asked, "readings.json"], cwd=walk.folder)
    wanted = [[it["address"], record["quantity"], record["value"], str(record["exponent"]), record["unit"]]
              for it in read["meters"] for record in it["records"]]
    equal("what jq reads", wanted, [line.split("\t") for line in rows.lines])


def next_fed_back_ten_times(walk: Walk) -> None:
    """Ten sessions of the roof's lines, one after the other, are the uncut one, which `hear` prints too."""
    known, lines = "roster", cuts.lines_of(walk.read("roof.rx"))
    bounds = [len(lines) * place // PIECES for place in range(1, PIECES)]
    reports = []
    for number, part in enumerate(cuts.cut(walk.read("roof.rx"), bounds), 1):
        walk.write(f"part{number}.rx", part)
        reports.append(walk.session("continue", known, f"state{number}", f"readings{number}.json", f"part{number}.rx", f"part{number}.tx"))
        known = f"state{number}"
    whole_report = walk.session("hear", "roster", "roof.rx")
    equal("the ten reports, put together, and that of hear", whole_report.splitlines(), cuts.joined_report(reports).splitlines())
    equal("the uncut session by continue", whole_report, walk.session("continue", "roster", "uncut.state", "uncut.json", "roof.rx", "uncut.tx"))
    equal("the last state", walk.text("uncut.state").splitlines(), walk.text(known).splitlines())
    equal("the last readings", walk.text("uncut.json"), walk.text(f"readings{PIECES}.json"))
    sent = "".join(walk.text(f"part{number}.tx") for number in range(1, PIECES + 1))
    equal("the downlinks", walk.text("uncut.tx").splitlines(), sent.splitlines())


def rounds_over_a_folder(walk: Walk) -> None:
    """bin/sessions over two receivers' files, in two rounds; of each its state is put aside. At first others can read it, which is said."""
    walk.path("site/rx").mkdir(parents=True)
    shutil.copy(walk.path("roster"), walk.path("site/state"))
    walk.path("site/state").chmod(0o644)
    state = walk.path("site/state").resolve()
    readable = f"sessions: {state} has keys, and others can read it: chmod 600 {state}\n"
    for number in (1, 2):
        for name in RECEIVERS:
            lines = cuts.lines_of(walk.read(f"{name}.rx"))
            half = lines[:len(lines) // 2] if number == 1 else lines[len(lines) // 2:]
            walk.write(f"site/{name}.tmp", b"".join(half))
            walk.path(f"site/{name}.tmp").rename(walk.path(f"site/rx/{name}.{number:04}"))
        shutil.copy(walk.path("site/state"), walk.path(f"before{number}"))
        ran = walk.run("sessions", "--program", walk.program("wmbus"), "site", told=readable if number == 1 else "")
        told = f"sessions: round {number:06}: heard roof.{number:04} yard.{number:04}"
        true(f"round {number} says {ran.text!r}", ran.text.startswith(told))
        files = [f"site/heard/{number:06}.{name}.{number:04}" for name in RECEIVERS]
        told_by = {"report": f"site/reports/{number:06}", "next": "site/state", "readings": "site/readings.json"}
        told_by |= {f"tx{at}": f"site/tx/{number:06}.{name}.{number:04}" for at, name in enumerate(RECEIVERS, 1)}
        walk.judge("continue", walk.read(f"before{number}"), files, {name: walk.text(file) for name, file in told_by.items()})


def each_session_is_audited(walk: Walk) -> None:
    """Each report is right under its own STATE, and not where a byte, the order or the end is another one, or under the other STATE."""
    for number in (1, 2):
        files = [f"site/heard/{number:06}.{name}.{number:04}" for name in RECEIVERS]
        report = walk.text(f"site/reports/{number:06}")
        ran = walk.run("audit_check", f"before{number}", f"site/reports/{number:06}", *files, told="")
        equal(f"the audit of round {number}", "yes\n", ran.text)
        stored = re.search(r"\nstep \d+ \d+ stored \d+ \d+ 2f2f0c13", report)
        assert stored
        place = stored.end()
        changed = report[:place] + ("0" if report[place] != "0" else "1") + report[place + 1:]
        lines = report.splitlines(keepends=True)
        first = next(at for at in range(len(lines)) if all(it.startswith("step 1 ") for it in lines[at:at + 2]))
        heading = sum(line.startswith("meter ") for line in lines[:first]) - 1
        steps = first - max(at for at in range(first) if lines[at].startswith("meter ")) - 1
        turned = "".join([*lines[:first], lines[first + 1], lines[first], *lines[first + 2:]])
        for words, text in ((f"no text {place}\n", changed), (f"no order {heading} {steps}\n", turned), (f"no text {len(report) - 4}\n", report[:-4])):
            walk.write("changed.report", text)
            ran = walk.run("audit_check", f"before{number}", "changed.report", *files, status=12)
            equal(f"the audit of round {number}, changed", words, ran.text)
            what_to_do("What `audit_check` prints", words.removeprefix("no "))
        other = walk.run("audit_check", f"before{3 - number}", f"site/reports/{number:06}", *files, status=12)
        true(f"the audit of round {number} under the other STATE: {other.text}", other.text.startswith("no "))


def records_of(stored: list[str]) -> list[tuple[int, str, str]]:
    """The records of a stored message by its payload: the volume, that is its counter, and each power of 2,375 W behind it."""
    powers = stored[3].count(POWER)
    return [(1, "volume", str(Decimal(stored[1]).scaleb(-3))), *((number, "power", "2375") for number in range(2, powers + 2))]


def lists_and_totals(walk: Walk) -> None:
    """Every record of both rounds is listed, and what was used is the last less the first, by meter and in sum."""
    rows: dict[str, list[tuple[int, str]]] = {}
    for number in (1, 2):
        report = walk.text(f"site/reports/{number:06}")
        steps = [(address, words.split(" ")) for address, _, steps, _ in replay.parts(report)[1] for _, _, words in steps]
        stored = [(address, words) for address, words in steps if words[0] == "stored"]
        listed = [json.loads(line) for line in walk.run("reading_list", f"site/reports/{number:06}", told="").lines]
        found = [(it["address"], it["counter"], it["record"], it["quantity"], it["value"]) for it in listed]
        wanted = [(address, int(words[1]), *record) for address, words in stored for record in records_of(words)]
        equal("the records that are listed", wanted, found)
        for address, words in stored:
            rows.setdefault(address, []).append((int(words[1]), words[3]))
    edits = [f"+ {address} {payload}\n" for address, told in rows.items() for _, payload in told]
    walk.write("edits", "".join([*edits, f"? {VALVE.hex()}\n?\n"]))
    answers = walk.run("usage_totals", "edits", told="").lines
    used = sum(told[-1][0] - told[0][0] for told in rows.values())
    powered = sum(any(POWER in payload for _, payload in told) for told in rows.values())
    first, last = (rows[VALVE.hex()][at][0] for at in (0, -1))
    answered = ["ok"] * len(edits) + [f"usage 0 0 0 volume m3 -3 {last - first}", "end"]
    answered += [f"total 0 0 0 power W 0 {powered} 0"] * (powered > 0) + [f"total 0 0 0 volume m3 -3 {len(rows)} {used}", "end"]
    equal("the answers of usage_totals", answered, answers)


def statuses_are_handled(walk: Walk) -> None:
    """Sessions that fail, each before one that does not: the state is replaced after status 0 alone, and in the end it is that of the uncut session."""
    walk.write("cut.state", walk.text("state5")[:-4])
    walk.write("long.rx", b"T 0000000000000000\n" * 131072 + b"x")
    sends = heard(900, access=LISTENS)
    walk.write("sends.rx", f"Q {VALVE.hex()} 01\n".encode() + sends)
    faults = [(2, ""), (3, "cut.state trial r part1.rx t"), (4, ". trial r part1.rx t"), (5, "state trial r . t"),
              (6, "state trial r sends.rx /dev/full"), (7, "state trial /dev/full part1.rx t"), (7, "state /dev/full r part1.rx t"),
              (8, "state trial r long.rx t"), (11, "state trial r none.rx t"), (11, "state ./state r part1.rx t")]
    shutil.copy(walk.path("roster"), walk.path("state"))
    for number, (status, words) in enumerate(faults, 1):
        walk.path("trial").unlink(missing_ok=True)
        before = walk.read("state")
        ran = walk.run("wmbus", "continue", *words.split(), status=status)
        true(f"what is to be done about {ran.told!r}", what_to_do("Exit statuses", ran.told))
        equal(f"the state after status {status}", before, walk.read("state"))
        if status in (5, 6, 8):
            read_state(walk.read("trial"))
        elif status != 7:
            equal(f"an output after status {status}", "", walk.text("trial"))
        walk.run("wmbus", "continue", "state", "trial", "readings.json", f"part{number}.rx", "t", told="")
        walk.path("trial").rename(walk.path("state"))
    equal("the state behind all sessions", walk.text("uncut.state").splitlines(), walk.text("state").splitlines())


STEPS = [two_receivers_at_once, the_readings_as_json, next_fed_back_ten_times, rounds_over_a_folder, each_session_is_audited,
         lists_and_totals, statuses_are_handled]
