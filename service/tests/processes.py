"""Processes of the tests: whatever a test does or doesn't do, none is waited for without a limit, and none is left behind."""
from __future__ import annotations

import random
import socket
import subprocess
import time
from collections.abc import Callable, Iterator, Sequence
from contextlib import contextmanager, suppress
from pathlib import Path
from typing import Any

# beside provers on all processors a process may take long, but not so long
PATIENCE = 60.0
# below those of connections (net.ipv4.ip_local_port_range)
PORTS = 16_384, 32_768


@contextmanager
def started(words: Sequence[str], **more: Any) -> Iterator[subprocess.Popen[Any]]:
    """A process, which is killed at the end where it still runs."""
    process = subprocess.Popen(words, stdin=subprocess.DEVNULL, **more)
    try:
        yield process
    finally:
        put_down(process)


def run(words: Sequence[str | Path], check: bool = True, **more: Any) -> subprocess.CompletedProcess[str]:
    """Runs a program to its end, and keeps what it says."""
    return subprocess.run(words, stdin=subprocess.DEVNULL, capture_output=True, text=True, timeout=PATIENCE, check=check, **more)


def put_down(process: subprocess.Popen[Any]) -> None:
    """Kills a process that still runs, and reaps it."""
    if process.poll() is None:
        process.kill()
    process.wait(PATIENCE)
    for pipe in (process.stdout, process.stderr):
        if pipe:
            pipe.close()


def until(is_done: Callable[[], object], seconds: float = PATIENCE) -> None:
    """Waits until something is so."""
    limit = time.monotonic() + seconds
    while not is_done():
        assert time.monotonic() < limit, "it took too long"
        time.sleep(0.02)


def free_port() -> int:
    """A port that nobody listens at, and that the system gives to nobody who connects, so that a server may start slowly, or again."""
    while True:
        port = random.randrange(*PORTS)
        with socket.socket() as tried, suppress(OSError):
            tried.bind(("127.0.0.1", port))
            return port


def certificate_of(folder: Path) -> tuple[Path, Path]:
    """A certificate of this machine's address, and its key, in files of a folder."""
    certificate, key = folder / "certificate", folder / "key"
    run(["openssl", "req", "-x509", "-newkey", "ec", "-pkeyopt", "ec_paramgen_curve:prime256v1", "-nodes", "-keyout", key, "-out", certificate,
         "-days", "2", "-subj", "/CN=the tests", "-addext", "subjectAltName=IP:127.0.0.1"])
    return certificate, key
