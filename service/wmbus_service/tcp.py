"""A receiver behind a TCP port, as ser2net or an Ethernet adapter gives it: prints what comes. tcp HOST PORT

A connection over which nothing comes for long is asked whether it lives; where it ends the receiver starts it again."""
from __future__ import annotations

import socket
import sys

PATIENCE = 15.0
PIECE = 65_536
# after so many seconds of silence the other side is asked, so often, until so many answers are missing
KEEPING = ((socket.TCP_KEEPIDLE, 60), (socket.TCP_KEEPINTVL, 20), (socket.TCP_KEEPCNT, 3))


def read(host: str, port: int) -> None:
    """Prints what comes until the connection ends."""
    with socket.create_connection((host, port), PATIENCE) as opened:
        opened.settimeout(None)
        opened.setsockopt(socket.SOL_SOCKET, socket.SO_KEEPALIVE, 1)
        for name, value in KEEPING:
            opened.setsockopt(socket.IPPROTO_TCP, name, value)
        while content := opened.recv(PIECE):
            sys.stdout.buffer.write(content)
            sys.stdout.buffer.flush()


def main(words: list[str]) -> int:
    """Reads a port; the exit status."""
    if len(words) != 2 or not words[1].isdecimal():
        print(__doc__, file=sys.stderr)
        return 2
    try:
        read(words[0], int(words[1]))
    except (OSError, OverflowError, UnicodeError) as fault:
        print(f"tcp: {words[0]}:{words[1]}: {fault}", file=sys.stderr)
        return 1
    return 0


if __name__ == "__main__":
    sys.exit(main(sys.argv[1:]))
