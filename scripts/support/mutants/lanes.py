"""How many checks run side by side, what they are doing, and the folder that they use."""

import contextlib
import os
import pathlib
import shutil
import sys
import tempfile
import threading
import time

# The most bytes that a check was seen to take. `rt ci` may run in parallel.
MEMORY = 6_000_000_000
EVERY = 15


def at_a_time():
    """Returns how many checks to run at a time: as many as RT_JOBS says, or else one a processor and one for each 6 GB of free memory."""
    number = os.environ.get("RT_JOBS", "")
    if number.isdigit() and int(number):
        return int(number)
    found = pathlib.Path("/proc/meminfo").read_text().split("MemAvailable:")[1].split()[0]
    return max(1, min(len(os.sched_getaffinity(0)), int(found) * 1024 // MEMORY))


class Lanes:
    """Processors, of which each check takes some: first the checks that have most to do, since the end waits for them."""

    def __init__(self):
        self.number = self.free = at_a_time()
        self.waiting, self.changed = [], threading.Condition()

    def __enter__(self):
        return self

    def __exit__(self, *_):
        return False

    @contextlib.contextmanager
    def take(self, number, work):
        number, mine = min(number, self.number), (-work, time.monotonic(), threading.get_ident())
        with self.changed:
            self.waiting.append(mine)
            self.changed.wait_for(lambda: self.free >= number and min(self.waiting) == mine)
            self.waiting.remove(mine)
            self.free -= number
            self.changed.notify_all()
        try:
            yield
        finally:
            with self.changed:
                self.free += number
                self.changed.notify_all()


class Progress:
    """Says on standard error, every so often, what is being tried."""

    def __init__(self):
        self.began, self.lock, self.ended = time.monotonic(), threading.Lock(), threading.Event()
        self.total, self.done, self.running = {}, {}, {}

    def begin(self, crate, total, done):
        self.total[crate], self.done[crate] = total, done

    def tried(self, crate, number):
        with self.lock:
            self.done[crate] += number

    @contextlib.contextmanager
    def of(self, crate, what):
        """Gives what is called with each line that a check prints: `checked NAME, K of N` says how far it is."""
        key = object()
        self.running[key] = f"{crate}: {what}"

        def watch(line):
            if line.startswith("checked ") and ", " in line:
                self.running[key] = f"{crate}: {what}, function {line.rpartition(', ')[2].strip()}"

        try:
            yield watch
        finally:
            del self.running[key]

    def say(self):
        while not self.ended.wait(EVERY):
            minutes = (time.monotonic() - self.began) / 60
            running = "; ".join(list(self.running.values()))
            print(f"mutants: {minutes:.0f} min, {sum(self.done.values())} of {sum(self.total.values())} tried; {running}", file=sys.stderr, flush=True)

    def __enter__(self):
        threading.Thread(target=self.say, daemon=True).start()
        return self

    def __exit__(self, *_):
        self.ended.set()
        return False


@contextlib.contextmanager
def ending_room():
    """Gives a folder that is removed at the end."""
    room = tempfile.mkdtemp(prefix="mutants-")
    try:
        yield room
    finally:
        shutil.rmtree(room, ignore_errors=True)
