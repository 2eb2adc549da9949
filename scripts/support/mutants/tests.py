"""Runs the test that rejects a survivor, unproved, on a copy of the crates with the survivor in place."""

import pathlib
import re
import shutil
import subprocess
import tempfile

import edits
from answers import Verdict
from batches import Sources


def verdict(root, mutant):
    """Returns whether the test that a survivor names fails with it, or why that isn't known."""
    test = re.fullmatch(r"test (\w+) ([\w:]+)", mutant.rejected_by)
    if not test:
        return Verdict.UNDECIDED, f"no test rejects it: {mutant.rejected_by}"
    with tempfile.TemporaryDirectory(prefix="mutants-") as room:
        for crate in pathlib.Path(root, "crates").iterdir():
            shutil.copytree(crate, f"{room}/crates/{crate.name}", ignore=shutil.ignore_patterns("out", "proofs"))
        for file in ("crates.txt", "HANDLES"):
            shutil.copy(f"{root}/{file}", room)
        folder = pathlib.Path(room, "crates", mutant.crate)
        for file, text in edits.applied(Sources(folder), [mutant]).items():
            (folder / file).write_text(text, encoding="utf-8")
        ran = subprocess.run(["rt", "try", "--test"], cwd=f"{room}/crates/{test[1]}", stdout=subprocess.PIPE, stderr=subprocess.STDOUT, text=True, errors="replace")
    ended = re.search(rf"^test (?:\w+::)*{re.escape(test[2])} \.\.\. (\w+)", ran.stdout, re.M)
    if not ended:
        return Verdict.BAD, f"{mutant.rejected_by} was not run: {ran.stdout.strip()[-300:]}"
    return (Verdict.REJECTED if ended[1] == "FAILED" else Verdict.SURVIVES), ended[0]
