"""What a tool writes, to a reader who may have seen enough."""
import contextlib
import os
import sys


@contextlib.contextmanager
def while_read():
    """Writes to standard output as long as somebody reads there: `head` closes the pipe, and nothing is wrong then."""
    try:
        yield
        sys.stdout.flush()
    except BrokenPipeError:
        # The interpreter writes at its end what is still kept, and would fail there once more.
        os.dup2(os.open(os.devnull, os.O_WRONLY), sys.stdout.fileno())
