"""Goes through the runs of pairs of scripts, each by the scheduler, and has each held against the model."""
import collections
import os
import queue
import re
import signal
import subprocess
import tempfile
import threading
import time
from concurrent.futures import ThreadPoolExecutor

from parts.groups import finish, start
from parts.pairs import arguments_of, may_miss, name_of, scripts_of

RUNS = re.compile(r"(?m)^runs (\d+) operations (\d+) stuck (\d+) differ (\d+) met \d+\n"
                  r"orders( at least)? (\d+) missed (\d+)")
CHOICES = re.compile(r"runs (\d+) pruned (\d+) points (\d+) longest (\d+) died (\d+) complete ([01])")


class Result:
    """What was counted of a pair, what the programs said, and the status of each."""

    def __init__(self, pair, written, said, status, ended):
        self.pair, self.written, self.said, self.status, self.ended = pair, written, said, status, ended
        counted, gone = RUNS.search(written), CHOICES.search(said)
        self.is_told = bool(counted and gone and ended == 0)
        counts = counted.groups() if counted else [0, 0, 0, 0, None, 0, 0]
        self.runs, self.operations, self.stuck, self.differ = map(int, counts[:4])
        self.is_whole, self.orders, self.missed = not counts[4], int(counts[5]), int(counts[6])
        # Not where a run died: behind it there may be others, which nothing has gone through.
        self.complete = bool(gone and gone[6] == "1")
        # The runs that the scheduler counted, also where the other program prints traces.
        self.explored = int(gone[1]) if gone and ended == 0 else 0

    def wrong(self):
        """What is wrong with the runs; nothing if they are right."""
        if not self.is_told:
            return f"the program ended early, with status {self.ended}, or the comparing one, with {self.status}"
        if self.status != 0 or self.differ:
            return f"{self.differ} runs differ"
        if self.runs == 0 or self.runs != self.explored:
            return f"{self.runs} runs are held against the model, of {self.explored}"
        if self.complete and self.missed and not may_miss(self.pair):
            return f"no run meets {self.missed} of the model's orders"
        return ""

    def line(self):
        ended, least = "" if self.complete else ", not to the end", "" if self.is_whole else "at least "
        return (f"{name_of(self.pair)}: {self.runs:,} runs{ended}, {self.operations:,} operations, "
                f"{self.orders - self.missed} of the model's {least}{self.orders} orders")


# What both programs say of a pair whose runs are right, and their statuses; and differences, each of which is wrong.
RIGHT = ("runs 2 operations 3 stuck 0 differ 0 met 2\norders 2 missed 0\n",
         "runs 2 pruned 0 points 3 longest 3 died 0 complete 1\n", 0, 0)
WRONG = [RIGHT[:2] + (1, 0), RIGHT[:2] + (0, 1)] + [
    tuple(part.replace(old, new) for part in RIGHT[:2]) + (0, 0)
    for old, new in [("runs 2", "runs 0"), ("runs 2 o", "runs 1 o"), ("runs 2 p", "runs 3 p"), ("differ 0", "differ 1"),
                     ("missed 0", "missed 1"), ("orders 2 missed 0", ""), ("died 0 complete 1", ""),
                     ("complete 1", "complete 0")]]


def sees_planted(wrong_of, pair):
    """Whether the right result of a pair passes, and each of ten planted differences of it is wrong."""
    wrong = [planted for planted in WRONG if wrong_of(Result(pair, *planted))]
    return not wrong_of(Result(pair, *RIGHT)) and wrong == WRONG and len(wrong) == 10


def tell_first(found, told):
    result = found.popleft().result()
    if result:
        told(result)


class Explorer:
    """Both programs and the scheduler, on these processors."""

    def __init__(self, program, auditor, scheduler, processors):
        self.program, self.auditor, self.scheduler = program, auditor, scheduler
        self.processors = queue.Queue()
        for processor in processors:
            self.processors.put(processor)
        self.count, self.running, self.stopped = len(processors), set(), threading.Event()

    def explore(self, pair, settings="", shown=(), told=None):
        """Goes through one pair, on a processor that is this thread's alone: two threads of a run take turns. Its runs
        are held against the scripts of the pair `told`, if that is given."""
        processor, before = self.processors.get(), os.sched_getaffinity(0)
        os.sched_setaffinity(0, {processor})
        try:
            with tempfile.TemporaryFile() as errors:
                return self.explore_here(pair, settings, shown, told or pair, errors)
        finally:
            os.sched_setaffinity(0, before)
            self.processors.put(processor)

    def explore_here(self, pair, settings, shown, told, errors):
        """The programs have the processor of this thread."""
        reads, writes = os.pipe()
        os.write(writes, scripts_of(told).encode())
        environment = {"LD_PRELOAD": self.scheduler, "SCHEDULES": f"{settings} {pair.settings}"}
        explorer = start([self.program, *arguments_of(pair)], env=environment, stdin=subprocess.DEVNULL,
                         stdout=writes, stderr=errors)
        os.close(writes)
        self.running.add(explorer)
        auditor = start([self.auditor, *shown], stdin=reads, stdout=subprocess.PIPE)
        os.close(reads)
        written = auditor.communicate()[0].decode(errors="replace")
        ended = finish(explorer)
        self.running.discard(explorer)
        errors.seek(0)
        return Result(pair, written, errors.read().decode(errors="replace"), finish(auditor), ended)

    def explore_all(self, pairs, told, seconds=1e9, until=1e18):
        """Goes through pairs, each for so many seconds, and begins none after `until`. Tells each result, also those
        of the pairs that an interrupt ends."""
        def one(pair):
            left = until - time.monotonic()
            if self.stopped.is_set() or left < 1:
                return None
            return self.explore(pair, f"seconds={int(min(seconds, left))}")

        with ThreadPoolExecutor(self.count) as pool:
            found = collections.deque(pool.submit(one, pair) for pair in pairs)
            try:
                while found:
                    found[0].result()
                    tell_first(found, told)
            except KeyboardInterrupt:
                self.stop()
                while found:
                    tell_first(found, told)
                raise

    def stop(self):
        """Ends the runs under way. What they have found is still told."""
        self.stopped.set()
        for explorer in list(self.running):
            explorer.send_signal(signal.SIGINT)
