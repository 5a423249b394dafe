"""What scripts share that compare the program wmbus with tests/reference, a second implementation of sessions: the package that it needs,
runs and their texts, drawn sessions."""
import importlib.util
import os
import random
import subprocess
import sys
import tempfile
from typing import TYPE_CHECKING

if TYPE_CHECKING:
    from reference import judge

TOP = os.path.dirname(os.path.dirname(os.path.dirname(os.path.realpath(__file__))))
DEBIANS = "/usr/bin/python3"
# the largest session that is judged ends in less
MOST_SECONDS = 600


def with_cryptography() -> None:
    """Installs the package where it is missing, and goes on with the Python that it was installed for."""
    if importlib.util.find_spec("cryptography"):
        return
    install = ["apt-get", "install", "-y", "python3-cryptography"]
    if os.geteuid() == 0 and os.path.exists("/usr/bin/apt-get"):
        if subprocess.run(install, stdout=subprocess.DEVNULL, check=False).returncode:
            subprocess.run(["apt-get", "update"], stdout=subprocess.DEVNULL, check=False)
            subprocess.run(install, stdout=subprocess.DEVNULL, check=False)
        importlib.invalidate_caches()
        if importlib.util.find_spec("cryptography"):
            return
        tried = subprocess.run([DEBIANS, "-c", "import cryptography"], stderr=subprocess.DEVNULL, check=False)
        if tried.returncode == 0 and os.path.realpath(sys.executable) != os.path.realpath(DEBIANS):
            os.execv(DEBIANS, [DEBIANS, *sys.argv])
    name = os.path.basename(sys.argv[0])
    sys.exit(f"{name}: the Python package cryptography isn't there: apt-get install python3-cryptography")


def content(path: str) -> bytes:
    """A file's bytes."""
    with open(path, "rb") as file:
        return file.read()


def text_of(path: str) -> str:
    """A file's text; bytes that are none stand for themselves, and an absent file is empty."""
    return content(path).decode("utf-8", "surrogateescape") if os.path.isfile(path) else ""


def write(path: str, text: bytes) -> None:
    """Makes a file of these bytes."""
    with open(path, "wb") as file:
        file.write(text)


def ran(program: str, folder: str, words: list[str]) -> tuple[int, str, str]:
    """A run's status, standard output and standard error."""
    import running
    return running.run([program, *words], seconds=MOST_SECONDS, cwd=folder).texts


def run_into(program: str, folder: str, words: list[str], aside: str) -> "judge.Run":
    """What a run of `collect` or `continue` gave, whose outputs are written into a folder aside."""
    from reference import judge
    written = {"next": words[2], "readings": words[3]}
    written |= {f"tx{place}": name for place, name in enumerate(words[5::2], 1)}
    outputs = set(written.values())
    status, report, errors = ran(program, folder, [os.path.join(aside, word) if word in outputs else word for word in words])
    texts = {"report": report, "stderr": errors}
    return judge.Run(status, texts | {name: text_of(os.path.join(aside, file)) for name, file in written.items()})


def run_over(program: str, command: str, known: bytes, inputs: list[bytes]) -> "judge.Run":
    """What `collect` or `continue` gives over a roster or a state and receivers' texts."""
    with tempfile.TemporaryDirectory() as folder:
        write(os.path.join(folder, "state"), known)
        for place, text in enumerate(inputs, 1):
            write(os.path.join(folder, f"rx{place}"), text)
        return run_into(program, folder, words_over(command, "state", len(inputs)), folder)


def expect(command: str, known: bytes, inputs: list[bytes], given: "judge.Run") -> None:
    """Fails as replay does where a run isn't the one that the second implementation makes of its inputs and its report's orders."""
    import replay
    from reference import judge
    found = judge.judged(command, known, inputs, given)
    if found:
        raise replay.Wrong(f"by the second implementation: {'; '.join(found)}")


def words_over(command: str, known: str, receivers: int) -> list[str]:
    """The words of `collect` or `continue` over a file and so many receivers."""
    return [command, known, "next", "readings", *(f"{kind}{at}" for at in range(1, receivers + 1) for kind in ("rx", "tx"))]


def hostile_session(draw: random.Random, receivers: int) -> tuple[str, list[bytes]]:
    """A roster, and a hostile file for each receiver; several of them hear most lines in common."""
    import hostile
    meters = hostile.some_meters(draw)
    lines = hostile.hostile_lines(draw, meters, draw.choice([50, 200, 800]))
    listed = draw.choice([meters, hostile.recommissioned(draw, meters)])
    streams = [[line for line in lines if receivers == 1 or draw.random() < 0.7] for _ in range(receivers)]
    return hostile.roster_of(listed), [hostile.file_of(draw, stream) for stream in streams]


def session_drawn(number: int, seed: str) -> tuple[str, list[bytes]]:
    """In turn a hostile session of one receiver, a made one of several, and a hostile one of several."""
    import made_sessions
    draw = random.Random(f"{seed} {number}")
    if number % 3 == 1:
        roster, streams, _ = made_sessions.made(seed, number // 3)
        return roster, ["".join(stream).encode() for stream in streams]
    return hostile_session(draw, 1 if number % 3 == 0 else draw.choice([2, 3, 5]))


def any_session(number: int, seed: str) -> tuple[bytes, list[bytes]]:
    """A roster and the receivers' texts: in turn as `session_drawn` has them, and a made session of one receiver."""
    import made_sessions
    if number % 4 < 3:
        roster, texts = session_drawn(number // 4 * 3 + number % 4, seed)
        return roster.encode(), texts
    draw = random.Random(f"{seed} one {number}")
    roster, streams = made_sessions.session(draw, 1, draw.choice([20, 60, 200]))
    return roster.encode(), ["".join(streams[0]).encode()]


def program_and_words() -> tuple[str, list[str]]:
    """The program wmbus, or the one that `--program` names, and the words behind it."""
    words = sys.argv[1:]
    if words[:1] == ["--program"] and len(words) > 1:
        return os.path.realpath(words[1]), words[2:]
    from readings import programs
    return programs.path("wmbus"), words
