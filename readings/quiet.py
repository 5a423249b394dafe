"""Ends a script in words where it is interrupted, or where nobody reads what it prints any more: scripts import this before all else."""
import atexit
import os
import select
import sys
from types import TracebackType

STOPPED, UNREAD = "stopped", "nobody reads the standard output any more"


def _say(words: str) -> None:
    """Tells the standard error, where it takes that."""
    try:
        print(f"{os.path.basename(sys.argv[0])}: {words}", file=sys.stderr, flush=True)
    except OSError:
        pass


def _is_unread() -> bool:
    """Whether the standard output is a pipe whose reader is gone."""
    looked_at = select.poll()
    looked_at.register(1, 0)
    return any(event & select.POLLERR for _, event in looked_at.poll(0))


def _ended(kind: type[BaseException], fault: BaseException, trace: TracebackType | None) -> None:
    """Says why a script ends; by what else there is it ends as any script does."""
    if issubclass(kind, KeyboardInterrupt):
        _say(STOPPED)
    elif not issubclass(kind, BrokenPipeError) or not _is_unread():
        sys.__excepthook__(kind, fault, trace)


def _flushed() -> None:
    """Writes what is left to be printed; where that can't be, the script ends with status 1."""
    try:
        sys.stdout.flush()
    except BrokenPipeError:
        _say(UNREAD)
        os._exit(1)
    except (AttributeError, ValueError):
        pass


sys.excepthook = _ended
atexit.register(_flushed)
