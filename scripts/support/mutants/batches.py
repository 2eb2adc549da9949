"""Which mutants of a crate one check can try: at most one a function."""

import itertools

import edits
from functions import at_line, functions_of


class Sources:
    """The files of a crate as they stand."""

    def __init__(self, folder):
        self.folder = folder
        self.texts, self.found, self.starts = {}, {}, {}

    def text(self, file):
        if file not in self.texts:
            path = self.folder / file
            self.texts[file] = path.read_text(encoding="utf-8") if path.is_file() else None
        return self.texts[file]

    def functions(self, file):
        if file not in self.found:
            self.found[file] = functions_of(file, self.text(file)) if file.startswith("src/") and self.text(file) else []
        return self.found[file]

    def line(self, file, at):
        return self.text(file).count("\n", 0, at) + 1

    def span(self, function):
        """Returns the offsets at which a function's body begins and ends."""
        if function.file not in self.starts:
            lengths = [len(line) for line in self.text(function.file).splitlines(keepends=True)]
            self.starts[function.file] = [0, *itertools.accumulate(lengths)]
        starts = self.starts[function.file]
        return starts[function.body - 1], starts[function.ends]


class Edited:
    """A mutant, and what it edits: functions' bodies, and lines of imports beside them; or anything else, and then it is tried alone."""

    def __init__(self, sources, mutant):
        self.mutant, self.functions, self.keys, self.cycles, self.lines = mutant, [], set(), set(), set()
        # Why it can't be applied.
        self.bad, self.alone = "", False
        try:
            places = edits.places(sources, mutant)
        except edits.BadEdit as error:
            places, self.bad = [], str(error)
        for file, at, old, _ in places:
            line = sources.line(file, at)
            function = at_line(sources.functions(file), line)
            self.lines.add((file, line))
            if function and line + old.count("\n") <= function.ends:
                self.functions.append(function)
                self.keys.add((file, function.begins))
                self.cycles |= {function.cycle} - {""}
            elif old.lstrip().startswith("use ") and file.startswith("src/"):
                self.keys.add((file, line))
            else:
                self.alone = True
        self.alone = self.alone or not self.functions


def planned(edited, most):
    """Returns the batches: lists of at most so many mutants, of which no two edit one function or line of imports. Survivors have batches of their own,
    since they alone have to be proved."""
    batches = []
    for one in edited:
        if one.alone:
            batches.append([one])
            continue
        for batch in batches:
            fits = len(batch) < most and not batch[0].alone and batch[0].mutant.is_survivor == one.mutant.is_survivor
            if fits and not any(one.keys & it.keys for it in batch):
                batch.append(one)
                break
        else:
            batches.append([one])
    return batches


def shares_a_cycle(one, batch):
    """Whether another mutant of the batch edits a function of one of its cycles: functions that call one another, which have one proof."""
    return any(one.cycles & it.cycles for it in batch if it is not one)
