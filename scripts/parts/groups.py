"""The programs that a script starts. Each begins a process group of its own, all of which ends with the script."""
import contextlib
import os
import signal
import subprocess
import sys
import threading

running, ends = set(), threading.Event()


def start(words, **settings):
    """Starts a program, unless the script is about to end."""
    if ends.is_set():
        sys.exit(1)
    started = subprocess.Popen(words, start_new_session=True, **settings)
    running.add(started)
    if ends.is_set():
        end_all()
    return started


def finish(started):
    """Waits for the end of a program, and returns its status."""
    status = started.wait()
    running.discard(started)
    return status


def run(words, **settings):
    """Runs a program to its end. Returns what it wrote to the standard streams that are piped."""
    started = start(words, **settings)
    try:
        written = started.communicate()
    except BaseException:
        # An interrupt, which the program's own group does not get.
        end_all()
        raise
    finish(started)
    return written


def end_all():
    """Ends each group at once."""
    for started in list(running):
        with contextlib.suppress(ProcessLookupError):
            os.killpg(started.pid, signal.SIGKILL)


def end_on_signals():
    """Has a signal that ends the script end all groups too, and remove its files."""
    def end(number, _):
        ends.set()
        end_all()
        sys.exit(128 + number)

    for number in (signal.SIGTERM, signal.SIGHUP):
        signal.signal(number, end)
