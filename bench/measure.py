"""Times a command over a file as its standard input."""

import os
import subprocess
import time


def timed(words, path, runs):
    """The shortest of so many runs, in seconds, and the greatest memory of any, in bytes."""
    times, peaks = [], []
    for _ in range(runs):
        with open(path, "rb") as source, open(os.devnull, "wb") as sink:
            start = time.perf_counter()
            process = subprocess.Popen(words, stdin=source, stdout=sink)
            _, status, usage = os.wait4(process.pid, 0)
            times.append(time.perf_counter() - start)
        process.returncode = os.waitstatus_to_exitcode(status)
        if process.returncode != 0:
            raise SystemExit(f"{' '.join(words)}: status {process.returncode}")
        peaks.append(usage.ru_maxrss * 1024)
    return min(times), max(peaks)
