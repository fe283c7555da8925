"""Standard output shut for a while."""
import contextlib
import os
import sys


@contextlib.contextmanager
def quiet():
    """The encoder tells on standard output what it does; nobody asked."""
    sys.stdout.flush()
    kept, nowhere = os.dup(1), os.open(os.devnull, os.O_WRONLY)
    os.dup2(nowhere, 1)
    try:
        yield
    finally:
        os.dup2(kept, 1)
        os.close(kept)
        os.close(nowhere)
