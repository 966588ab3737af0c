"""Runs a program once and tells its status, its time and its peak of memory."""

import collections
import os
import resource
import subprocess
import time

Run = collections.namedtuple("Run", "status seconds peak")  # peak in bytes; status None: it was stopped

# How often a running program's peak is looked at, where the system's own figure is this script's.
PAUSE = 0.002


def peak_so_far(process):
    try:
        with open(f"/proc/{process.pid}/status") as lines:
            for line in lines:
                if line.startswith("VmHWM:"):
                    return int(line.split()[1]) * 1024
    except OSError:
        pass
    return 0


def run(words, folder=None, out=subprocess.DEVNULL, standard_input=subprocess.DEVNULL, limit=600):
    """One run in a folder, with its standard output in the file `out`; stopped after `limit` seconds."""
    start = time.monotonic()
    process = subprocess.Popen(words, cwd=folder, stdin=standard_input, stdout=out, stderr=subprocess.DEVNULL)
    seen = 0
    while True:
        seen = max(seen, peak_so_far(process))
        ended, status, usage = os.wait4(process.pid, os.WNOHANG)
        seconds = time.monotonic() - start
        if ended:
            break
        if seconds > limit:
            process.kill()
            process.wait()
            return Run(None, seconds, seen)
        time.sleep(PAUSE)
    process.returncode = os.waitstatus_to_exitcode(status)
    # The system's figure begins with that of the script which starts the program.
    own = resource.getrusage(resource.RUSAGE_SELF).ru_maxrss
    peak = usage.ru_maxrss * 1024 if usage.ru_maxrss > own else seen
    return Run(process.returncode, seconds, peak)


def shown(one):
    """A run in a few words."""
    status = "stopped" if one.status is None else f"status {one.status}"
    return f"{status:9} {one.seconds:8.2f} s {one.peak / 2**20:7.1f} MiB"
