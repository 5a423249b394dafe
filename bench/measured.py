"""A program's run, measured."""
import os
import subprocess
import time
from typing import IO


def peak_so_far(process: int) -> int:
    """The most memory that a running process had by now, in kB; 0 where it is gone. What the kernel tells of a process that ended counts
    the one that started it too."""
    try:
        with open(f"/proc/{process}/status", encoding="ascii") as file:
            for line in file:
                if line.startswith("VmHWM:"):
                    return int(line.split()[1])
    except OSError:
        pass
    return 0


def run(words: list[str], output: int | IO[bytes] | None = subprocess.DEVNULL) -> tuple[float, float, int, int]:
    """A program's run on one processor, its output to nothing or where it is said: seconds of the processor and by the clock, the peak of
    memory in kB, and the exit status."""
    began, peak, ended = time.monotonic(), 0, 0
    program = subprocess.Popen(words, stdout=output, preexec_fn=lambda: os.sched_setaffinity(0, {min(os.sched_getaffinity(0))}))
    while not ended:
        peak = max(peak, peak_so_far(program.pid))
        ended, status, used = os.wait4(program.pid, os.WNOHANG)
        if not ended:
            time.sleep(0.005)
    return used.ru_utime + used.ru_stime, time.monotonic() - began, peak, os.waitstatus_to_exitcode(status)
