"""What a command says on standard output and standard error, which may be closed, full, or read by nobody."""
import os
import sys
from typing import TextIO


def put(text: str) -> None:
    """Raises OSError where standard output doesn't take it."""
    if sys.stdout is None:
        raise OSError(None, "standard output is closed")
    try:
        sys.stdout.reconfigure(errors="backslashreplace")
        sys.stdout.write(text)
        sys.stdout.flush()
    except OSError:
        give_up(sys.stdout)
        raise


def give_up(stream: TextIO) -> None:
    """What lies in its buffer goes nowhere, so that Python doesn't say at its end that it couldn't be written."""
    os.dup2(os.open(os.devnull, os.O_WRONLY), stream.fileno())


def complain(sentence: str) -> None:
    if sys.stderr is None:
        return
    try:
        print(sentence, file=sys.stderr, flush=True)
    except OSError:
        give_up(sys.stderr)  # there is no other place to say it


def failed(sentence: str, status: int) -> int:
    """Says what went wrong, and answers the status."""
    complain(f"remus-host: {sentence}")
    return status
