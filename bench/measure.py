"""How the built program is timed, and its memory measured."""

import os
import resource
import subprocess
import threading
import time

TOP = os.path.dirname(os.path.dirname(os.path.abspath(__file__)))
PROGRAM = os.path.join(TOP, "crates", "multlog", "out", "multlog")
EXAMPLE = os.path.join(TOP, "examples", "negation.lgc")
KIB = 1024
MIB = 1024 * KIB


def build():
    """Builds the program, where it isn't built from the sources that are here."""
    subprocess.run([os.path.join(TOP, "multlog"), "calculus", EXAMPLE], stdout=subprocess.DEVNULL, check=True)


def run(words, limit=None, seconds=None):
    """The wall time of one run in milliseconds, and its status, where the address space has this limit in bytes. The status is None where the run has not ended after these seconds."""

    def narrow():
        resource.setrlimit(resource.RLIMIT_AS, (limit, limit))

    start = time.perf_counter()
    process = subprocess.Popen(
        [PROGRAM] + words,
        stdout=subprocess.DEVNULL,
        stderr=subprocess.DEVNULL,
        preexec_fn=narrow if limit else None,
    )
    # A wait with a limit of its own would look for the end now and then only, up to 50 ms late.
    end = threading.Timer(seconds, process.kill) if seconds else None
    if end:
        end.start()
    status = process.wait()
    took = time.perf_counter() - start
    if end:
        end.cancel()
    return took * 1000, None if seconds and took >= seconds else status


def memory(words, wanted):
    """The least limit of the address space, in bytes, under which the run has the wanted status."""
    low, high = 0, 1024 * MIB
    while run(words, high)[1] != wanted:
        low, high = high, 2 * high
    while high - low > 64 * KIB:
        middle = (low + high) // 2
        if run(words, middle)[1] == wanted:
            high = middle
        else:
            low = middle
    return high
