"""The mutants that the gate tries: scripts/support/mutants/gate, lines `CRATE/ENTRY  what it breaks`, at most ten a crate and none of them a survivor."""

import re
from collections import Counter

import batches
from edits import BadFile

FILE = "scripts/support/mutants/gate"
# The most of one crate.
MOST = 10
LINE = re.compile(r"(\w+)/(\w+)  +\S.*")


def listed(root, every):
    """Returns the names of these mutants. Raises `BadFile` where a line can't be read, or names none, a survivor, or one too many."""
    found, of_crate = {}, Counter()
    mutants = {mutant.name: mutant for chosen in every.values() for mutant in chosen}
    for number, line in enumerate((root / FILE).read_text(encoding="utf-8").splitlines(), 1):
        if not line or line.startswith("#"):
            continue
        parts = LINE.fullmatch(line)
        name = parts and f"{parts[1]}/{parts[2]}"
        of_crate[parts and parts[1]] += 1
        why = (
            not parts and "it is no line `CRATE/ENTRY  what it breaks`"
            or name not in mutants and f"there is no mutant {name}"
            or mutants[name].is_survivor and f"{name} is a survivor"
            or name in found and f"{name} stands there twice"
            or of_crate[parts[1]] > MOST and f"these are more than {MOST} of {parts[1]}"
        )
        if why:
            raise BadFile(f"{FILE}:{number}: {why}")
        found[name] = number
    return set(found)


def checks_of(folder, mutants):
    """Returns how many checks try these mutants of the crate in a folder."""
    sources = batches.Sources(folder)
    return len(batches.planned([batches.Edited(sources, mutant) for mutant in mutants], MOST))
