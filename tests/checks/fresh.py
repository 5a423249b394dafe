"""A fresh copy of the repository, as a clone of it would be, with the programs ready for its sources."""
import functools
import os
import shutil
import subprocess

from readings import programs

TOP = programs.TOP


@functools.cache
def newer_programs() -> list[tuple[str, str]]:
    """The programs that dist/ doesn't have for these sources, with the hash of these."""
    found = []
    for name in sorted(it.removesuffix(".built") for it in os.listdir(f"{TOP}/dist") if it.endswith(".built")):
        sources = subprocess.run([f"{TOP}/build/sources", name], check=True, stdout=subprocess.PIPE, text=True).stdout
        with open(f"{TOP}/dist/{name}.built", encoding="ascii") as file:
            found += [(name, sources)] if f"sources: {sources}" not in file.read() else []
    return found


def copy_into(folder: str) -> None:
    """Copies what a commit would have, with the programs for these sources: as they lie in dist/, or else as they are built here."""
    listed = subprocess.run(["git", "-C", TOP, "ls-files", "-z", "--cached", "--others", "--exclude-standard"], check=True,
                            stdout=subprocess.PIPE).stdout
    there = b"\0".join(name for name in listed.split(b"\0") if name and os.path.isfile(os.path.join(os.fsencode(TOP), name)))
    packed = subprocess.run(["tar", "-C", TOP, "--null", "-T", "-", "-c"], input=there, check=True, stdout=subprocess.PIPE).stdout
    os.mkdir(folder)
    subprocess.run(["tar", "-C", folder, "-x"], input=packed, check=True)
    for name, sources in newer_programs():
        built = f"{folder}/crates/{name}/out/{name}"
        os.makedirs(os.path.dirname(built), exist_ok=True)
        shutil.copy2(programs.path(name), built)
        with open(f"{built}.sources", "w", encoding="ascii") as told:
            told.write(sources)
