"""A technician in a cellar with a stick: from what the stick prints to the page, day after day, with a second key and a command.

The first day's telegrams are those of examples/receivers; the gas meter's is published (OMS Volume 2, annex N). The later days' are made
here by the rules of the standard, of payloads that are known, so what a report, a page or a meter has to say of them is known too."""
import contextlib
import re
import sqlite3
from datetime import datetime, timezone

import receivers
from telegrams.frames import format_a
from telegrams.messages import downlink, fragments, whole
from walks.steps import EXAMPLES, Walk, equal, true, what_to_do

OWN = "9315010000000131"
GAS, GAS_KEY, GAS_LABEL = "9315785634123303", "0102030405060708090a0b0c0d0e0f11", "ELS 12345678 33 03"
# 28,504.27 m3, as the page sets thousands apart
GAS_VOLUME = "28\u202f504.27 m³"
HEAT, HEAT_KEY, HEAT_LABEL = "4304101230400104", "00112233445566778899aabbccddeeff", "ABC 40301210 01 04"
SECOND_KEY = "a0a1a2a3a4a5a6a7a8a9aaabacadaeaf"
STRANGERS = {"4304341200702107": "ABC 70001234 21 07", "4304785634121002": "ABC 12345678 10 02"}
RTL_433 = ["-f", "868.95M", "-s", "1200k", "-R", "104", "-F", "json", "-M", "time:unix", "-T", "3600"]
COMMAND, RESPONSE, LISTENS = "0f01", 0x08, 0x80
EMPTY = f"wmbus-roster 2\nown {OWN}\n"
# litres that the heat meter says on the later days, by its counters
LITRES = {9: 235910, 10: 236040, 11: 236170, 12: 236300, 13: 236430}


def at(day: int, hour: int) -> int:
    """A moment in November 2026."""
    return int(datetime(2026, 11, day, hour, tzinfo=timezone.utc).timestamp())


def payload(counter: int) -> bytes:
    """A volume in eight BCD digits, of litres (VIF 13)."""
    return bytes.fromhex("2f2f0c13") + bytes.fromhex(f"{LITRES[counter]:08d}")[::-1]


def roster(gas_key: str, heat_key: str) -> str:
    """The roster of both meters, as new ones."""
    return f"{EMPTY}meter {GAS} 5 {gas_key} - - 0 0\nmeter {HEAT} 7 {heat_key} - - 0 0\n"


def printed(telegram: bytes, moment: int) -> str:
    """What rtl_433 prints of a telegram."""
    return receivers.rtl_433(telegram, moment) + "\n"


def heat(counter: int, key: str = HEAT_KEY, **how: int) -> bytes:
    """A telegram of the heat meter."""
    return whole(bytes.fromhex(key), bytes.fromhex(HEAT), counter, payload(counter), **how)


def steps_of(report: str, address: str) -> list[str]:
    """What a report answers a meter's lines."""
    part = report.split(f"\nmeter {address} ")[1].split("\nmeter ")[0]
    return [line.split(" ", 3)[3] for line in part.splitlines() if line.startswith("step ")]


def stored(counter: int, moment: int, behind: str = "") -> str:
    """The answer to a stored message of the heat meter, whose payload is filled up to blocks."""
    plain = payload(counter)
    return f"stored {counter} {moment} {(plain + b'/' * (-len(plain) % 16)).hex()}{behind}"


def kept(walk: Walk, report: str, *shown: str) -> None:
    """Keeps a report, and looks for words on the page."""
    walk.run("keep_readings", "cellar.db", report, told="")
    walk.run("report_page", "cellar.db", "cellar.html", told="")
    page = walk.text("cellar.html")
    for words in shown:
        true(f"the page doesn't show {words!r} after {report}", words in page)


def what_the_sticks_print(walk: Walk) -> None:
    """The frames that rtl_433, rtl_wmbus and a CUL print are the five telegrams with their CRCs."""
    telegrams = [bytes.fromhex(re.sub(r"[|_]", "", line)) for line in (EXAMPLES / "receivers/hex.txt").read_text().splitlines()]
    wanted = [format_a(it).hex() for it in telegrams]
    said = walk.stick("rtl_433", *RTL_433)
    moments = re.findall(r'"time" : "([0-9]+)"', said.decode())
    ran = walk.run("line_feed", "rtl_433", feed=said, told="line_feed: telegrams taken: 5, lines not taken: 0\n")
    equal("rtl_433's telegrams as lines", [f"A {moment} {frame}" for moment, frame in zip(moments, wanted)], ran.lines)
    walk.write("day1.rx", ran.out)
    ran = walk.run("line_feed", "rtl_wmbus", feed=(EXAMPLES / "receivers/rtl_wmbus.txt").read_bytes())
    equal("rtl_wmbus's telegrams as lines", walk.text("day1.rx"), ran.text)
    # a stick's version, and a telegram that was heard wrongly, stand among them
    cul = (EXAMPLES / "receivers/cul.txt").read_bytes()
    ran = walk.run("line_feed", "cul", feed=b"V 1.67 CSM868\n" + cul + cul.splitlines()[0].replace(b"7A2A", b"7A2B"), status=1)
    equal("a CUL's telegrams as lines", wanted, [line.split(" ")[2] for line in ran.lines])
    told = [line.split(": ", 2) for line in ran.told.splitlines()]
    equal("the CUL's lines that aren't taken", ["line 1", "line 7"], [it[1] for it in told if it[1].startswith("line ")])
    for it in told[:2]:
        what_to_do("What radio receivers print", it[2])


def what_is_there(walk: Walk) -> None:
    """An empty roster and the hour three times: four meters were heard."""
    walk.write("roster", EMPTY)
    ran = walk.run("input_check", "roster", "day1.rx", "day1.rx", "day1.rx")
    found = dict(re.findall(r"^meter ([0-9a-f]{16}) \((\w{3} \d{8} \w\w \w\w) .*heard \d+ times$", ran.text, re.M))
    equal("the meters that were heard", {GAS: GAS_LABEL, HEAT: HEAT_LABEL} | STRANGERS, found)
    times = re.findall(r"heard (\d+) times", ran.text)
    equal("how often each was heard", ["3", "3", "3", "6"], sorted(times))
    what_to_do("What is wrong with an input", "it is not in the roster, and was heard 6 times")


def names_from_labels(walk: Walk) -> None:
    """A label's address is the maker's letters in one number, and the bytes in the order of a frame (EN 13757-4)."""
    for label in (GAS_LABEL, HEAT_LABEL, *STRANGERS.values()):
        maker, identification, version, kind = label.split(" ")
        number = sum((ord(letter) - 64) << shift for letter, shift in zip(maker, (10, 5, 0)))
        wanted = number.to_bytes(2, "little").hex() + bytes.fromhex(identification)[::-1].hex() + version + kind
        equal(f"the address of {label}", f"{wanted}\n", walk.run("meter_name", *label.split(" "), told="").text)
        true(f"the label of {wanted}", walk.run("meter_name", wanted).text.startswith(label))


def a_wrong_key(walk: Walk) -> None:
    """Keys of one digit, a digit that was copied wrongly, and another meter's key: the hints, the report, what to do, the page."""
    walk.keys |= {HEAT_KEY, GAS_KEY, SECOND_KEY}
    for key, words in (("00" * 16, "its key is sixteen equal bytes"), (GAS_KEY, f"it has the same key as meter {GAS}")):
        walk.write("roster", roster(GAS_KEY, key))
        hints = walk.run("input_check", "roster", "day1.rx").text
        true(f"input_check doesn't say {words!r}: {hints}", re.search(rf"^meter {HEAT} .*: {words}", hints, re.M))
        what_to_do("What is wrong with an input", words)
    walk.write("roster", roster(GAS_KEY.replace("0102", "0103", 1), HEAT_KEY.replace("0011", "0012", 1)))
    report = walk.session("hear", "roster", "day1.rx")
    equal("the heat meter under a wrong key", ["refused mac"] * 2, steps_of(report, HEAT))
    true("the gas meter under a wrong key", re.fullmatch(r"refused check (?!2f2f)[0-9a-f]{4}", steps_of(report, GAS)[0]))
    for reason in ("mac", "check 1234"):
        true(f"docs/FORMATS.md says of {reason} that the key is to be looked at", "right key" in what_to_do("Report", reason))
    walk.write("wrong.report", report)
    walk.run("keep_readings", "wrong.db", "wrong.report")
    walk.run("report_page", "wrong.db", "wrong.html")
    true("the page doesn't name the wrong keys", walk.text("wrong.html").count("key is probably wrong") >= 2 and GAS_VOLUME not in walk.text("wrong.html"))


def the_right_keys(walk: Walk) -> None:
    """The keys come into the roster: readings, and the published value on the page."""
    walk.write("roster", roster(GAS_KEY, HEAT_KEY))
    hints = walk.run("input_check", "roster", "day1.rx", told="").text
    true(f"input_check says of the roster {hints!r}", "key" not in hints and "was not heard" not in hints)
    report = walk.session("hear", "roster", "day1.rx")
    equal("the last counters", ["42"], [it.split(" ")[1] for it in steps_of(report, GAS)])
    true("the published volume is read", "record instantaneous 0 0 0 volume m3 -2 - 2850427 27048502\n" in report)
    walk.write("day1.report", report)
    kept(walk, "day1.report", GAS_LABEL, HEAT_LABEL, GAS_VOLUME)


def the_first_days(walk: Walk) -> None:
    """Days cut by `continue`: of a message in two fragments one comes in the evening, the other on the next morning."""
    walk.session("continue", "roster", "state1", "readings.json", "day1.rx", "day1.tx")
    first, second = fragments(bytes.fromhex(HEAT_KEY), bytes.fromhex(HEAT), 10, payload(10), 2)
    said = printed(heat(9), at(2, 6)) + printed(first, at(2, 23))
    walk.write("day2.rx", walk.run("line_feed", "rtl_433", feed=said.encode()).out)
    report = walk.session("continue", "state1", "state2", "readings.json", "day2.rx", "day2.tx")
    equal("the second day", [stored(9, at(2, 6)), "part"], steps_of(report, HEAT))
    true("the state has the fragment", "\npart " in walk.text("state2"))
    walk.write("day2.report", report)
    kept(walk, "day2.report", "235.91", GAS_VOLUME)
    walk.write("day3.rx", walk.run("line_feed", "rtl_433", feed=printed(second, at(3, 6)).encode()).out)


def a_second_key(walk: Walk) -> None:
    """A message under the second key is refused until the line `K` gives it; the fragment of the morning ends the message of the evening."""
    said = printed(heat(11, SECOND_KEY, key_id=1), at(3, 7))
    lines = walk.run("line_feed", "rtl_433", feed=said.encode()).out
    walk.add("day3.rx", lines + f"K {HEAT} {SECOND_KEY}\n".encode() + lines)
    report = walk.session("continue", "state2", "state3", "readings.json", "day3.rx", "day3.tx")
    equal("the third day", [stored(10, at(3, 6)), "refused mac", "rekeyed", stored(11, at(3, 7))], steps_of(report, HEAT))
    true("the state has the second key", f"meter {HEAT} 7 {HEAT_KEY} {SECOND_KEY} 11 0 0\n" in walk.text("state3"))
    walk.write("day3.report", report)
    kept(walk, "day3.report", "236.17", GAS_VOLUME)


def a_command_is_sent(walk: Walk) -> None:
    """A command is queued, and sent after a message behind which the meter listens; the meter executes it."""
    walk.write("day4.rx", f"Q {HEAT} {COMMAND}\n")
    walk.add("day4.rx", walk.run("line_feed", "rtl_433", feed=printed(heat(12, access=LISTENS), at(4, 6)).encode()).out)
    report = walk.session("continue", "state3", "state4", "readings.json", "day4.rx", "day4.tx")
    equal("the fourth day", ["queued 1", stored(12, at(4, 6), " sent 1")], steps_of(report, HEAT))
    frame = format_a(downlink(bytes.fromhex(OWN), bytes.fromhex(HEAT_KEY), bytes.fromhex(HEAT), 1, bytes.fromhex(COMMAND)))
    equal("the downlink", f"D {frame.hex()}\n", walk.text("day4.tx"))
    true("the report doesn't say that the command waits", "\npending 1 1\n" in report)
    true("the state doesn't say that the command waits", f"\nwaits 1 1 {COMMAND}\n" in walk.text("state4"))
    executed = f"executed 1 {COMMAND}{'2f' * 12}\nlast 1\n"
    equal("what the meter does of it", executed, walk.run("meter_side", "state3", HEAT, "day4.tx", told="").text)
    walk.write("day4.report", report)
    kept(walk, "day4.report", "236.3", "command")


def and_confirmed(walk: Walk) -> None:
    """The response of the next day confirms it, and nothing waits any more."""
    walk.write("day5.rx", walk.run("line_feed", "rtl_433", feed=printed(heat(13, control=RESPONSE), at(5, 6)).encode()).out)
    report = walk.session("continue", "state4", "state5", "readings.json", "day5.rx", "day5.tx")
    equal("the fifth day", [stored(13, at(5, 6), " confirmed 1")], steps_of(report, HEAT))
    true("a command still waits", "pending" not in report and "waits" not in walk.text("state5"))
    equal("the downlinks of the fifth day", "", walk.text("day5.tx"))
    walk.write("day5.report", report)
    kept(walk, "day5.report", "236.43", GAS_VOLUME, GAS_LABEL, HEAT_LABEL)
    with contextlib.closing(sqlite3.connect(walk.path("cellar.db"))) as database:
        asked = "SELECT counter, value FROM series WHERE address = ? AND quantity = 'volume' AND counter > 8 ORDER BY moment"
        rows = database.execute(asked, [HEAT]).fetchall()
    equal("the volumes that are kept", [(counter, f"{litres // 1000}.{litres % 1000:03}") for counter, litres in LITRES.items()], rows)


STEPS = [what_the_sticks_print, what_is_there, names_from_labels, a_wrong_key, the_right_keys, the_first_days,
         a_second_key, a_command_is_sent, and_confirmed]
