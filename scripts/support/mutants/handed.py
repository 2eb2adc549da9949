"""What a check of `rt ci` has proved of a crate, handed on to the checks of its mutants, so that the crate is proved once for both.

A rattle that checks a crate in copies of itself keeps in a folder what they have checked, until it ends: the files that a check with `--incremental` keeps, of
which such a check takes only those that are up to date. Where nothing is found, the checks of the mutants begin with a proof of their own."""

import contextlib
import os
import pathlib
import re
import subprocess
import tempfile

import checks

FOLDER = re.compile(r"rattle-logic-built-locked-(\d+)-\d+")


class Handed:
    """Links to those files, by crate."""

    def __init__(self, root, room):
        self.root, self.room, self.known = os.path.realpath(root), pathlib.Path(room, "handed"), {}
        self.folder = folder_of_kept(room)

    def of(self, name):
        """Returns where what a check kept of the crate stands, as `--incremental` takes it."""
        return self.room / name

    def look(self):
        """Takes what is new."""
        top = tempfile.gettempdir()
        for name in os.listdir(top):
            found = FOLDER.fullmatch(name)
            crate = self.folder and found and self.crate_of(found[1])
            if crate:
                self.take(f"{top}/{name}", self.room / crate / self.folder)

    def crate_of(self, process):
        """Returns the crate that this process proves for `rt ci`, without its tests."""
        try:
            words = pathlib.Path(f"/proc/{process}/cmdline").read_bytes().decode().split("\0")
            folder = os.readlink(f"/proc/{process}/cwd")
            name = words[words.index("--crate-name") + 1]
        except (OSError, ValueError):
            return None
        return name if folder == f"{self.root}/crates/{name}" and "--test" not in words else None

    def take(self, folder, to):
        to.mkdir(parents=True, exist_ok=True)
        with contextlib.suppress(OSError), os.scandir(folder) as files:
            for file in files:
                key = (str(to), file.name)
                if file.name.endswith(".oantt") and self.known.get(key) != file.inode():
                    with contextlib.suppress(OSError):
                        (to / file.name).unlink(missing_ok=True)
                        os.link(file.path, to / file.name)
                        self.known[key] = file.inode()


def folder_of_kept(room):
    """Returns the name of the folder in which this rattle keeps what it has checked, or None."""
    crate, kept = pathlib.Path(room, "nothing"), pathlib.Path(room, "nothing/kept")
    (crate / "src").mkdir(parents=True)
    kept.mkdir()
    (crate / "src/lib.rt").write_text("//! Nothing.\n")
    logic = ["--antt-project", str(checks.KIT / "rattle/logic/antt-project.json"), "--logic-built", str(checks.KIT / "logic_built")]
    words = [checks.rtlib.RATTLE, "check", "--crate-name", "nothing", "src/lib.rt", *logic, "--incremental", str(kept)]
    subprocess.run(words, cwd=crate, stdout=subprocess.DEVNULL, stderr=subprocess.DEVNULL)
    return next((it.name for it in kept.iterdir() if it.is_dir()), None)
