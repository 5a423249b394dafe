"""A CUL or another stick with culfw on a serial port: sets it to wireless M-Bus, and prints what it says. culfw DEVICE [MODE]

MODE is brt (T and C), brs (S) or brc (C), as culfw names them. What ends it is the port's end, and the receiver starts it again."""
from __future__ import annotations

import sys

import serial

SPEED = 38_400
MODES = ("brt", "brs", "brc")


def read(device: str, mode: str) -> None:
    """Prints what the stick says until its port ends."""
    # (two who read a port would each get a part of what the stick says)
    with serial.Serial(device, SPEED, timeout=1, exclusive=True) as port:
        # (X21 has each telegram come with its link quality, which line_feed leaves out)
        port.write(f"X21\r\n{mode}\r\n".encode())
        port.flush()
        while True:
            sys.stdout.buffer.write(port.read(max(1, port.in_waiting)))
            sys.stdout.buffer.flush()


def main(words: list[str]) -> int:
    """Reads a stick; the exit status."""
    if not 1 <= len(words) <= 2 or words[1:] and words[1] not in MODES:
        print(__doc__, file=sys.stderr)
        return 2
    try:
        read(words[0], *words[1:] or ["brt"])
    except (serial.SerialException, OSError) as fault:
        print(f"culfw: {words[0]}: {fault}", file=sys.stderr)
    return 1


if __name__ == "__main__":
    sys.exit(main(sys.argv[1:]))
