"""What a check's answer says of each mutant of a batch."""

import re
from enum import Enum

from functions import FN, at_line


class Verdict(Enum):
    # A goal of the function isn't proved, or a proof of it fails at a goal's type.
    REJECTED = "rejected"
    # The function is proved.
    SURVIVES = "survives"
    # It doesn't compile, can't be applied or can't be read, or a proof only lost names.
    BAD = "bad"
    # Nothing is known yet: it has to be tried again, with fewer others or alone.
    UNDECIDED = "undecided"


# An error of a proof file that names what an edit took away, or that depends on such a proof. It says nothing of a contract.
LOST = re.compile(r"has no field|is not in scope|has no `|that can be named|was not admitted|was not checked|is no name")
# What is said of a function without a proof file, if one of its goals is left.
UNFOUND = "`search` did not prove"
# What says that a loop or a recursion ends.
ENDING = re.compile(r"\bends\b|measure")
FUNCTION = re.compile(r"^fn (\w+)::(\S+): (.*)$", re.M)
# A goal that is left in a source file (which is reported as a note), or an error there. Other notes and warnings don't matter.
IN_SOURCE = re.compile(r"^(?:note: )?(?:\./)?(src/\S+?\.rt):(\d+):\d+: (error.*|it is not proved.*)$", re.M)
IN_PROOF = re.compile(r"^(?:note: )?(?:\./)?(proofs/\S+?)\.antt:\d+:\d+: (error.*)$", re.M)
IN_SPECS = re.compile(r"^(?:note: )?(?:\./)?(specs/\S+?)\.antt:\d+:\d+: (error.*)$", re.M)
COMPILING = re.compile(r"^(?:\./)?(src/\S+?\.rt):(\d+):\d+: error\[", re.M)
BROKEN_CYCLE = re.compile(r"^error\[[\w-]+\]: `([\w:+]+)`", re.M)


def has_verdict(answer):
    """Whether the check came to its end: each function has its line then."""
    return bool(re.search(r"^logic=", answer, re.M))


def lines_of(answer, crate):
    """Returns what the answer says of each function, by its path without the name of the crate."""
    return {path: said for of, path, said in FUNCTION.findall(answer) if of == crate}


def verdict(answer, crate, functions, is_shared=False):
    """Returns the verdict on a mutant that edits these functions, with the line that says it. Another mutant of the batch edits none of them. Where one edits a
    function of the same cycle (`is_shared`), only a goal of the functions' own lines counts, and not that the calls of the cycle end, nor a proof of the cycle."""
    said = lines_of(answer, crate)
    named = [path for function in functions for path in function.named(said)]
    if named and all(said[path] == "proved" for path in named):
        return Verdict.SURVIVES, f"fn {named[0]}: proved"
    for function in functions:
        for file, line, text in IN_SOURCE.findall(answer):
            if file == function.file and function.begins <= int(line) <= function.ends and not (is_shared and ENDING.search(text)):
                return Verdict.REJECTED, f"{file}:{line}: {text}"
    for path in named:
        if UNFOUND in said[path]:
            return Verdict.REJECTED, f"fn {path}: {said[path]}"
    lost = ""
    for path, text in IN_PROOF.findall(answer):
        if not is_shared and any(is_proof_of(path, function, named) for function in functions):
            if not LOST.search(text):
                return Verdict.REJECTED, f"{path}: {text}"
            lost = lost or f"{path}: {text}"
    return Verdict.UNDECIDED, lost or (f"fn {named[0]}: {said[named[0]]}" if named else "no line names its function")


def is_proof_of(path, function, named):
    """Whether a file of proofs is one of the function's own, or of its cycle's: a folder named as the function or, after a `+`, as the cycle."""
    folders = path.split("/")[1:-1]
    if function.cycle and f"+{function.cycle}" in folders:
        return True
    return any(folders == name.split("::") for name in named)


def verdict_alone(answer, status):
    """Returns the verdict on a mutant that was checked alone: here an error anywhere counts, as the crate isn't proved."""
    if status == 0:
        return Verdict.SURVIVES, "the crate is proved"
    if not has_verdict(answer):
        error = next((line for line in answer.splitlines() if "error" in line), answer.strip()[-200:])
        return Verdict.BAD, error
    errors = [(where, text) for where, _, text in IN_SOURCE.findall(answer)]
    errors += IN_PROOF.findall(answer) + IN_SPECS.findall(answer)
    errors += [(f"fn {path}", said) for _, path, said in FUNCTION.findall(answer) if UNFOUND in said]
    for where, text in errors:
        if not LOST.search(text):
            return Verdict.REJECTED, f"{where}: {text}"
    if errors:
        return Verdict.BAD, f"only names were lost: {errors[0][0]}: {errors[0][1]}"
    return Verdict.BAD, next((line for line in answer.splitlines() if line.startswith("ahead of the check")), answer.strip()[-200:])


def not_compiling(answer, sources, batch):
    """Returns those of a batch that the errors before the prover name: by their line, by the function that has it, or by one whose cycle of calls they broke."""
    found = []
    for file, line in COMPILING.findall(answer):
        function = at_line(sources.functions(file), int(line))
        by_line = [it for it in batch if (file, int(line)) in it.lines]
        found += by_line or [it for it in batch if function in it.functions]
    for path in BROKEN_CYCLE.findall(answer):
        name = path.rpartition("::")[2]
        found += [it for it in batch if any(function.name == name for function in it.functions)]
    return found

