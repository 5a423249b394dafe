"""Where the repository's programs lie, for scripts that start them many times: bin/start looks at all sources at each start."""
import os
import subprocess

TOP = os.path.dirname(os.path.dirname(os.path.realpath(__file__)))


def path(name: str) -> str:
    """The path of a program, which is built first where it has to be."""
    ran = subprocess.run([os.path.join(TOP, "bin", "start"), "--where", name], check=True, stdout=subprocess.PIPE, text=True)
    return ran.stdout.strip()


def ready(name: str) -> str | None:
    """The path of a program that lies built or packed for these sources, else none."""
    sources = subprocess.run([os.path.join(TOP, "build", "sources"), name], check=True, stdout=subprocess.PIPE, text=True).stdout.strip()
    for told, line in ((f"{TOP}/crates/{name}/out/{name}.sources", sources), (f"{TOP}/dist/{name}.built", f"sources: {sources}")):
        if os.path.isfile(told):
            with open(told, encoding="ascii") as file:
                if line in file.read().splitlines():
                    return path(name)
    return None
