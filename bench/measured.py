"""Runs the program of this repository on documents, and measures the runs."""

import json
import os
import subprocess
import sys
import tempfile
import time

TOP = os.path.dirname(os.path.dirname(os.path.abspath(__file__)))
PROGRAM = os.path.join(TOP, "crates", "exec_run", "out", "exec_run")
# What ./exec_run sets for the program.
TUNABLES = (
    "glibc.malloc.hugetlb=1:glibc.malloc.mmap_threshold=4294967296:glibc.malloc.top_pad=67108864"
    ":glibc.malloc.trim_threshold=4294967296:glibc.malloc.mxfast=0"
)
# The words for one worker.
ALONE = "1", "1"


def program():
    """The program that the command line names, or else the proved one of this repository."""
    path = sys.argv[1] if len(sys.argv) > 1 else PROGRAM
    if not os.path.exists(path):
        sys.exit(f"there is no {path}: run ./build first")
    return path


def document(timers, script, rounds):
    """A document of so many timers of one script, each due in every round."""
    timers = [{"name": f"t{i}", "period": 1, "script": script} for i in range(timers)]
    nodes = [{"name": "n", "timers": timers}]
    moments = list(range(1, rounds + 1))
    whole = {"version": 1, "nodes": nodes, "moments": moments}
    return json.dumps(whole, separators=(",", ":")).encode()


def measure(path, text, words=ALONE):
    """The seconds, the bytes of the transcript and the greatest resident memory in bytes."""
    with tempfile.TemporaryFile() as source:
        source.write(text)
        return measure_file(path, source, words=words)


def measure_file(path, source, status=0, line=b"", words=ALONE):
    """The same for the document in an open file, where the run is to end with a status and a line on standard error.

    The system counts the memory of this process as the run's too, so no less than that is seen.
    """
    source.seek(0)
    environment = {"GLIBC_TUNABLES": TUNABLES, **os.environ}
    with tempfile.TemporaryFile() as sink, tempfile.TemporaryFile() as errors:
        start = time.perf_counter()
        child = subprocess.Popen([path, *words], stdin=source, stdout=sink, stderr=errors, env=environment)
        _, ended, usage = os.wait4(child.pid, 0)
        seconds = time.perf_counter() - start
        child.returncode = os.waitstatus_to_exitcode(ended)
        errors.seek(0)
        told = errors.read()
        if (child.returncode, told) != (status, line):
            sys.exit(f"{path} ended with status {child.returncode} and said {told}")
        return seconds, os.fstat(sink.fileno()).st_size, usage.ru_maxrss * 1024
