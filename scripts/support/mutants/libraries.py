"""The libraries that the checks read: those that `rt ci` leaves, also while it runs, or that `rt lib` builds."""

import os
import pathlib
import re
import subprocess
import sys
import threading

import checks

EVERY = 1


class Libraries:
    """Gives the crates of the copy their libraries, each as soon as it is proved."""

    def __init__(self, root, copies, log, handed):
        """`log` is what an `rt ci` of the repository says that runs beside this, and `handed` takes what it has checked; without them, what lacks is built."""
        self.copies, self.log, self.handed = {it.name: it for it in copies}, log, handed
        self.crates = {it.name: it for it in checks.crates(root) if it.name in self.copies}
        self.there, self.has_ended, self.changed = set(), False, threading.Condition()
        if log:
            threading.Thread(target=self.follow, daemon=True).start()

    def follow(self):
        """Takes each library as `rt ci` says that it is proved, until that ends."""
        is_over, tick = False, threading.Event()
        while not is_over:
            self.handed.look()
            said = checks.rtlib.text_of(self.log)
            is_over = said is None or bool(re.search(r"^\d+ passed, \d+ failed\b", said, re.M))
            for name in re.findall(r"^rt: (\w+) (?:proved|is kept)\b", said or "", re.M):
                if name not in self.there and name in self.crates:
                    self.take(name)
            tick.wait(EVERY)
        self.end()

    def end(self):
        """Says that no more will come."""
        with self.changed:
            self.has_ended = True
            self.changed.notify_all()

    def take(self, name):
        if os.path.isdir(self.crates[name].rlib):
            checks.linked(self.crates[name].rlib, self.copies[name].rlib)
        with self.changed:
            self.there.add(name)
            self.changed.notify_all()

    def are_there(self, crate):
        """Waits for the libraries below the crate, and beside `rt ci` for its own proof, which is handed on, and returns whether each is proved."""
        lacking = {it.name for it in [*crate.below(), *([crate] if self.log else [])]}
        with self.changed:
            self.changed.wait_for(lambda: lacking <= self.there or self.has_ended)
            return lacking <= self.there

    def build(self, some):
        """Takes or builds what is below these crates."""
        for name in dict.fromkeys(it.name for crate in some for it in crate.below()):
            crate = self.crates[name]
            is_ready = checks.is_left(crate) or crate.is_built()
            if is_ready or subprocess.run(["rt", "lib"], cwd=crate.folder, stdout=sys.stderr).returncode == 0:
                self.take(name)
