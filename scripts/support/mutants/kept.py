"""What earlier runs on this machine found, kept by the checksum of all that a verdict rests on."""

import hashlib
import json
import os
import pathlib
import time

from answers import Verdict
from checks import KIT, rtlib

PLACE = pathlib.Path(os.environ.get("XDG_CACHE_HOME") or pathlib.Path.home() / ".cache") / "serde_qs_mutants"
DAYS = 30
# To be raised when the meaning of a verdict changes.
FORM = 3
# What a later run needn't find again. An edit may be bad only because of this run.
LEARNED = (Verdict.REJECTED, Verdict.SURVIVES)


def sum_of(crate):
    """Returns the checksum of the kit, and of the files of the crate and of those below it, with what each depends on."""
    found = hashlib.sha256(f"{FORM} ".encode() + (KIT / "KIT-ID").read_bytes())
    for it in [*crate.below(), crate]:
        found.update(repr((it.name, [dep.name for dep in it.deps], it.of_kit, it.is_static, it.is_program)).encode())
        for file in sorted(rtlib.files_of(it.folder)):
            text = pathlib.Path(file).read_bytes()
            found.update(repr((os.path.relpath(file, it.folder), len(text))).encode() + text)
    return found.hexdigest()


class Kept:
    """The verdicts on a crate's mutants, by the checksum of each edit."""

    def __init__(self, crate, sources, anew):
        self.sources = sources
        self.file = PLACE / f"{crate.name}-{sum_of(crate)}.json"
        self.known = {} if anew else self.read()

    def read(self):
        try:
            found = json.loads(self.file.read_text(encoding="utf-8"))
            os.utime(self.file)
            return found
        except (OSError, ValueError):
            return {}

    def get(self, mutant):
        found = self.known.get(mutant.sum(self.sources))
        return (Verdict(found[0]), found[1]) if found else None

    def put(self, results):
        """Keeps what was learned of these mutants. Where the disk refuses, the next run tries them again."""
        self.known.update({mutant.sum(self.sources): (verdict.value, why) for mutant, (verdict, why) in results if verdict in LEARNED})
        try:
            PLACE.mkdir(parents=True, exist_ok=True)
            new = self.file.with_suffix(f".{os.getpid()}")
            # (another run may have kept some meanwhile)
            new.write_text(json.dumps({**self.read(), **self.known}), encoding="utf-8")
            new.replace(self.file)
        except OSError:
            pass


def drop_old():
    """Removes what no run has used for a month."""
    for file in PLACE.glob("*.json"):
        try:
            if time.time() - file.stat().st_mtime > DAYS * 86400:
                file.unlink()
        except OSError:
            pass
