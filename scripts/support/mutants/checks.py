"""Checks of a copy of a crate with some edits, as `rt must-fail` makes them."""

import os
import pathlib
import shutil
import subprocess
import sys
import tempfile
import threading

KIT = pathlib.Path(shutil.which("rt") or "rt").resolve().parent.parent
sys.path.insert(0, str(KIT / "bin"))
import rtlib  # noqa: E402

# What goes before a command, so that it ends when this process does. It is asked for once, in the main thread.
GUARD = rtlib.guarded()


# What makes up a crate. In addition to its parts, what its program reads and prints tells what it is.
COPIED = (*rtlib.PARTS, "stdin", "stdout", "args", "status", "data")


def crates(root):
    """Returns the crates of the repository, lowest first."""
    return rtlib.crates_below(str(root))


def copied(root, to):
    """Copies the crates of a repository, without what was built of them, and returns those of the copy, lowest first: what is tried doesn't change with what is
    edited meanwhile, nor with what `rt ci` sets aside."""
    to = pathlib.Path(to)
    for name in ("crates.txt", "HANDLES"):
        shutil.copy(f"{root}/{name}", to / name)
    for folder in pathlib.Path(root, "crates").iterdir():
        for part in COPIED:
            if (folder / part).is_dir():
                shutil.copytree(folder / part, to / "crates" / folder.name / part)
            elif (folder / part).is_file():
                shutil.copy(folder / part, to / "crates" / folder.name / part)
    return crates(to)


def linked(seed, to, is_new=lambda name: False):
    """Copies a folder by links, where nothing changes its files in place, but replaces them."""

    def copy(one, other):
        shutil.copy2(one, other) if is_new(one) else os.link(one, other)

    try:
        shutil.copytree(seed, to, copy_function=copy)
    except shutil.Error:
        # (another disk)
        shutil.rmtree(to, ignore_errors=True)
        shutil.copytree(seed, to)


class Room:
    """A folder for the checks of one crate: what its own check proved (the seed), and a copy of its files for each check. `begun` has the folders where
    that check may find what earlier ones kept; the first is taken that is there."""

    def __init__(self, crate, root, begun):
        self.crate, self.at, self.begun = crate, pathlib.Path(root) / crate.name, begun
        self.at.mkdir()
        self.is_proved = False
        self.seed, self.taking = self.at / "seed", threading.Lock()

    def words(self, jobs):
        with open(os.devnull, "w") as self.crate.out:
            return [rtlib.RATTLE, "check", *self.crate.words(["--jobs", str(jobs)], keeps=False)]

    def check(self, changed, jobs=1, watch=lambda line: None, over_seed=False):
        """Checks the crate with these texts in place of its own and returns the status and what was said. Without `over_seed` the seed stays as it is."""
        with tempfile.TemporaryDirectory(dir=self.at) as room:
            for part in rtlib.PARTS:
                if os.path.isdir(f"{self.crate.folder}/{part}"):
                    shutil.copytree(f"{self.crate.folder}/{part}", f"{room}/{part}")
            for file, text in changed.items():
                pathlib.Path(room, file).write_text(text, encoding="utf-8")
            self.take()
            kept = self.seed
            if not over_seed:
                kept = pathlib.Path(room, "kept")
                linked(self.seed, kept, is_written)
            words = [*GUARD, *self.words(jobs), "--progress", "--incremental", str(kept)]
            how = {"stdin": subprocess.DEVNULL, "stdout": subprocess.PIPE, "stderr": subprocess.STDOUT, "text": True, "errors": "replace"}
            said = []
            with subprocess.Popen(words, cwd=room, **how) as run:
                for line in run.stdout:
                    said.append(line)
                    watch(line)
            return run.returncode, "".join(said)

    def take(self):
        """Begins the seed with what a check of the crate kept."""
        with self.taking:
            if self.seed.is_dir():
                return
            begun = next((it for it in self.begun if it.is_dir()), None)
            if begun:
                linked(begun, self.seed, is_written)
            else:
                self.seed.mkdir()

    def prove(self, jobs, watch):
        """Makes the seed: proves the crate as it stands, over what a check of it kept. Returns whether it is proved, and what was said."""
        status, said = self.check({}, jobs, watch=watch, over_seed=True)
        self.is_proved = status == 0
        return self.is_proved, said


def is_written(file):
    """Whether a check writes into such a file of what it keeps: it replaces those of proofs."""
    return not file.endswith(".oantt")


def is_left(crate):
    """Whether `rt ci` has proved the library and left it, and none of its files was edited since."""
    if os.path.exists(f"{crate.folder}/out/rlib/stamp") or not os.path.isdir(crate.rlib):
        return False
    made = os.stat(crate.rlib).st_mtime
    return all(os.stat(file).st_mtime <= made for file in rtlib.files_of(crate.folder))
