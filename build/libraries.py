"""The repository's crates, and where each stands once it is proved: what crates.txt says of them, and the words by which the prover finds
those below."""
import functools
import os
import shutil
import subprocess
import sys

TOP = os.path.dirname(os.path.dirname(os.path.realpath(__file__)))
KIT = os.path.dirname(os.path.dirname(os.path.realpath(shutil.which("rt") or "/rt")))
RATTLE = f"{KIT}/bin/rattle"
# (memory that is given back and asked for again costs the prover some percent of its time)
KEEPS_MEMORY = {"MIMALLOC_PURGE_DELAY": "-1"}


def text_of(file: str) -> str:
    try:
        with open(file, encoding="utf-8") as opened:
            return opened.read().strip()
    except OSError:
        return ""


@functools.cache
def known_crates() -> dict[str, list[str]]:
    """The crates of crates.txt with what each names, the kit's libraries too."""
    found = {}
    for line in text_of(f"{TOP}/crates.txt").splitlines():
        head, colon, words = line.split("#")[0].partition(":")
        if colon:
            found[head.split()[0]] = words.split()
    return found


@functools.cache
def below(crate: str) -> list[str]:
    """The repository's crates on which a crate stands, without itself, lowest first."""
    found = []
    for name in known_crates()[crate]:
        if name in known_crates():
            found += [it for it in (*below(name), name) if it not in found]
    return found


def is_program(crate: str) -> bool:
    return os.path.isfile(f"{TOP}/crates/{crate}/src/main.rt")


def said(*words: str) -> str:
    ran = subprocess.run(words, capture_output=True, text=True)
    if ran.returncode:
        sys.exit(f"{os.path.basename(sys.argv[0])}: {ran.stderr.strip() or words[0]}")
    return ran.stdout.strip()


def sources(crate: str) -> str:
    """The hash of a crate's sources and of those below it."""
    return said(f"{TOP}/build/sources", crate)


@functools.cache
def toolchain() -> str:
    return " ".join(said("rt", "version").split())


def logic_of(version: str) -> str:
    """What a toolchain of this version proves by: those of one logic take the same proofs, and differ in their commands."""
    return version.partition(" logic ")[2] or version


def stamp(crate: str) -> str:
    """What tells whether a library that stands is of these sources."""
    return f"{sources(crate)} {toolchain()}"


def proved(crate: str) -> str:
    """The folder in which a library's statements and code stand once it is proved."""
    return f"{TOP}/crates/{crate}/out/rlib/statements"


def stands(crate: str) -> bool:
    return text_of(f"{proved(crate)}/sources") == stamp(crate)


def note_sources(crate: str, told: str) -> None:
    """Notes of which sources a library is that was proved."""
    with open(f"{proved(crate)}/sources", "w", encoding="utf-8") as file:
        file.write(f"{told}\n")


def words(crate: str) -> list[str]:
    """What the prover is told of a crate: its name, its first file, and the libraries that it names and those below them."""
    own = [it for it in known_crates()[crate] if it in known_crates()]
    of_kit = ["std", *(it for it in known_crates()[crate] if it not in known_crates())]
    found = ["--crate-name", crate, "src/main.rt" if is_program(crate) else "src/lib.rt"]
    for name, folder in [*((it, f"{KIT}/rlibs") for it in of_kit), *((it, proved(it)) for it in own)]:
        found += ["--extern", f"{name}={folder}/{name}.rlib"]
    for folder in [f"{KIT}/rlibs", *map(proved, below(crate))]:
        found += ["-L", f"dependency={folder}"]
    return [*found, "--antt-project", f"{KIT}/rattle/logic/antt-project.json", "--logic-built", f"{KIT}/logic_built"]


def make_ready(crates: list[str]) -> None:
    """Has these libraries stand, proved first where they don't."""
    if not all(map(stands, crates)) and subprocess.call([f"{TOP}/build/build", *crates]):
        sys.exit(f"{os.path.basename(sys.argv[0])}: the libraries weren't proved (the reason stands above)")
