#!/usr/bin/env python3
"""Has the prover try the mutants: edits that each make a body, or a definition, wrong. Each has to be rejected; survivors, which no contract rejects, are listed.

They stand in crates/NAME/mutants and crates/NAME/survivors (support/mutants/edits.py says how).

Why one check can try many mutants: a check proves each function from the contracts of those that it calls, never from their bodies, and goes on past one that
it can't prove. An edit of a body leaves the contract as it was. So what the check says of one function doesn't depend on the edits of others, as long as no two
are in one function. Functions that call one another have one proof: where two of them are edited, only a goal of the lines of one says that its mutant is rejected.
A function that the check doesn't come to, since it waits for another one's proof, is undecided, and is tried again, at last alone. A mutant is rejected where
a goal of its own function is left unproved, or a proof of that function fails at a goal's type: mostly since the contract excludes the body, but also where the
prover doesn't find the proof of a body that it allows. Where only a name was lost that a proof cites, or the text doesn't compile, nothing was learned of the
contract: such a mutant is bad.

An edit of anything else (a definition, a type, a constant) can show anywhere, so it is tried alone, and an error anywhere rejects it.
"""

import argparse
import os
import pathlib
import resource
import subprocess
import sys
import threading
from collections import Counter
from concurrent.futures import ThreadPoolExecutor

ROOT = pathlib.Path(__file__).resolve().parent.parent
sys.path.insert(0, str(ROOT / "scripts/support/mutants"))
import answers  # noqa: E402
import batches  # noqa: E402
import checks  # noqa: E402
import edits  # noqa: E402
import gate  # noqa: E402
import kept  # noqa: E402
import tests  # noqa: E402
from answers import Verdict  # noqa: E402
from handed import Handed  # noqa: E402
from lanes import Lanes, Progress, ending_room  # noqa: E402
from libraries import Libraries  # noqa: E402

# The most mutants of one check. More would save little: what each check does once is a few seconds of some ten minutes.
MOST = 60


class Trial:
    """The mutants of one crate, and what comes of them."""

    def __init__(self, crate, chosen, anew):
        self.crate, self.chosen = crate, chosen
        self.sources = batches.Sources(pathlib.Path(crate.folder))
        self.kept = kept.Kept(crate, self.sources, anew)
        every = [batches.Edited(self.sources, mutant) for mutant in chosen]
        self.results = {one.mutant: (Verdict.BAD, one.bad) for one in every if one.bad}
        found = {one.mutant: self.kept.get(one.mutant) for one in every if not one.bad}
        self.results.update({mutant: said for mutant, said in found.items() if said})
        self.known = len(self.results)
        self.left = [one for one in every if one.mutant not in self.results]

    def begin(self, room, lanes, progress):
        self.room, self.lanes, self.progress = room, lanes, progress
        self.lines = self.crate.count(rb"\n")
        progress.begin(self.crate.name, len(self.chosen), self.known)

    def run(self, libraries):
        """Tries what isn't known, first in batches, then what is undecided in further ones, and at last alone."""
        if not self.left:
            return
        if not libraries.are_there(self.crate):
            self.results.update({one.mutant: (Verdict.UNDECIDED, "a library below isn't proved") for one in self.left})
            return
        # A single check over what `rt ci` has just proved gains nothing from a proof before it.
        is_single = libraries.log and len(batches.planned(self.left, MOST)) == 1
        for is_last in (False, False, True):
            if not is_single and not self.prove():
                return
            is_single = False
            todo = batches.planned(self.left, 1 if is_last else MOST)
            with ThreadPoolExecutor(max(1, len(todo))) as pool:
                found = [it for part in pool.map(self.batch, todo) for it in part]
            self.left = [one for one, (verdict, _) in found if verdict is Verdict.UNDECIDED]
            for one in self.left:
                one.alone = one.alone or is_last
            if not self.left:
                return

    def prove(self):
        """Proves the crate as it stands, once, and returns whether it is proved."""
        if self.room.is_proved:
            return True
        jobs = 2 if self.crate.is_large() else 1
        with self.lanes.take(jobs, self.lines), self.progress.of(self.crate.name, "its proof") as watch:
            is_proved, said = self.room.prove(jobs, watch)
        if not is_proved:
            self.results.update({one.mutant: (Verdict.UNDECIDED, f"the crate is not proved: {said.strip()[-300:]}") for one in self.left})
        return is_proved

    def batch(self, batch):
        """Returns each mutant of the batch with its verdict. Those that don't compile are taken out, and the others tried again."""
        found = []
        while batch:
            if len(batch) == 1:
                found.append((batch[0], self.alone(batch[0])))
                break
            changed = edits.applied(self.sources, [one.mutant for one in batch])
            with self.lanes.take(1, self.lines * len(batch) / MOST), self.progress.of(self.crate.name, f"{len(batch)} mutants") as watch:
                _, said = self.room.check(changed, watch=watch)
            if answers.has_verdict(said):
                found += [(one, answers.verdict(said, self.crate.name, one.functions, batches.shares_a_cycle(one, batch))) for one in batch]
                break
            lost = answers.not_compiling(said, self.sources, batch) or batch
            found += [(one, (Verdict.UNDECIDED, "a batch with it didn't compile")) for one in lost]
            batch = [one for one in batch if one not in lost]
        self.keep(found)
        return found

    def alone(self, one):
        """Returns the verdict on a mutant by a check of its own."""
        changed = edits.applied(self.sources, [one.mutant])
        with self.lanes.take(1, self.lines / MOST), self.progress.of(self.crate.name, one.mutant.label) as watch:
            status, said = self.room.check(changed, watch=watch)
        return answers.verdict_alone(said, status)

    def keep(self, found):
        results = [(one.mutant, said) for one, said in found]
        self.results.update(results)
        self.kept.put(results)
        self.progress.tried(self.crate.name, sum(said[0] is not Verdict.UNDECIDED for _, said in results))


def report(root, trials):
    """Prints what came of the mutants of each crate, and returns how many passed and failed."""
    total, failed = Counter(), 0
    for trial in trials:
        count = Counter()
        for mutant in trial.chosen:
            verdict, why = trial.results.get(mutant, (Verdict.UNDECIDED, "it was not tried"))
            if mutant.is_survivor and not edits.is_rejected_elsewhere(root, mutant):
                verdict, why = Verdict.BAD, f"it names no test or script that is there: {mutant.rejected_by}"
            is_right = verdict is (Verdict.SURVIVES if mutant.is_survivor else Verdict.REJECTED)
            count["survive as listed" if is_right and mutant.is_survivor else verdict.value] += 1
            if not is_right:
                failed += 1
                moved = ": move it to mutants" if mutant.is_survivor and verdict is Verdict.REJECTED else ""
                print(f"  FAILED: {mutant.name} ({mutant.kind}): {verdict.value}{moved}: {why.strip()[:240]}")
        print(f"{trial.crate.name}: " + ", ".join(f"{number} {what}" for what, number in sorted(count.items())))
        total += count
    rejected, listed = total.pop("rejected", 0), total.pop("survive as listed", 0)
    bad = total.pop("bad", 0)
    others = "".join(f", {number} {what}" for what, number in sorted(total.items()))
    print(f"mutants: {rejected} rejected, {listed} survive as listed, {bad} bad{others}")
    return rejected + listed - max(0, failed - bad - sum(total.values())), failed


def chosen_by(given, crates):
    """Returns the mutants of each crate that the words of the command line choose, and raises `BadFile` where one of these chooses nothing."""
    every = {crate.name: edits.of_crate(given.root / "crates" / crate.name) for crate in crates}
    known = {*every, *(mutant.name for found in every.values() for mutant in found)}
    if unknown := [name for name in given.names if name not in known]:
        raise edits.BadFile(f"no crate and no mutant is named {' or '.join(unknown)}")
    listed = given.gate and gate.listed(given.root, every)
    changed = given.since and changed_since(given, crates)

    def is_chosen(mutant):
        is_named = not given.names or mutant.crate in given.names or mutant.name in given.names
        return is_named and (not given.gate or mutant.name in listed) and (not given.since or mutant.crate in changed)

    return {name: [mutant for mutant in found if is_chosen(mutant)] for name, found in every.items()}


def changed_since(given, crates):
    """Returns the names of the crates whose mutants `--since` chooses, as its help says."""
    git = ["git", "-C", str(given.root)]
    for_all = {"check": True, "stdout": subprocess.PIPE, "text": True}
    try:
        files = subprocess.run([*git, "diff", "--name-only", "--no-renames", given.since, "--", "crates"], **for_all).stdout.split()
        files += subprocess.run([*git, "ls-files", "--others", "--exclude-standard", "--", "crates"], **for_all).stdout.split()
    except subprocess.CalledProcessError:
        raise edits.BadFile(f"git knows no commit {given.since}") from None
    parts = [file.split("/")[1:] for file in files if file.count("/") > 1]
    own = {it[0] for it in parts if it[1] in (*checks.rtlib.PARTS, *edits.KINDS)}
    defining = {it[0] for it in parts if it[1] == "specs" and it[2] != "internal"}
    return own | {crate.name for crate in crates if defining & {it.name for it in crate.below()}}


def try_tests(root, chosen):
    """Prints, of each survivor that names a test, whether that test fails with it."""
    found = [(mutant, tests.verdict(root, mutant)) for mutant in chosen if mutant.is_survivor and mutant.rejected_by.startswith("test ")]
    for mutant, (verdict, why) in found:
        print(f"{mutant.name}: {verdict.value}: {why}")
    failed = sum(verdict is not Verdict.REJECTED for _, (verdict, _) in found)
    print(f"{len(found) - failed} passed, {failed} failed")
    return 1 if failed else 0


def words_of(line):
    """Returns what the command line says."""
    parser = argparse.ArgumentParser(description=__doc__, formatter_class=argparse.RawDescriptionHelpFormatter, allow_abbrev=False)
    parser.add_argument("names", nargs="*", metavar="NAME", help="a crate, or CRATE/ENTRY; without any, all of the repository")
    parser.add_argument("--gate", action="store_true", help=f"of these, those that the gate tries: {gate.FILE} lists them")
    since = "of these, those of each crate of which a file of src, specs, proofs, mutants or survivors has changed since the commit, or isn't committed; and, "
    since += "if one of specs has (but not of specs/internal), those of all crates above it. Changed clauses of a crate below choose none: name what they concern"
    parser.add_argument("--since", metavar="COMMIT", help=since)
    parser.add_argument("--anew", action="store_true", help="takes no verdict of an earlier run on this machine")
    parser.add_argument("--plan", action="store_true", help="tries nothing: says what would be tried together, and fails if an entry can't be applied")
    beside = "tries them while an `rt ci` of the repository runs that writes what it says to this file: each crate's once it is proved, over what that has checked"
    parser.add_argument("--beside", metavar="LOG", help=beside)
    tests_help = "runs, of the survivors among them, the test that each names, with the survivor in place: a minute or two each"
    parser.add_argument("--tests", action="store_true", help=tests_help)
    parser.add_argument("--root", metavar="FOLDER", type=pathlib.Path, default=ROOT, help="another repository than this one")
    return parser.parse_intermixed_args(line)


def main(line):
    given = words_of(line)
    try:
        chosen = chosen_by(given, checks.crates(given.root))
    except edits.BadFile as error:
        print(f"mutants: {error}", file=sys.stderr)
        return 2
    if given.plan:
        return tell_plan([Trial(crate, chosen[crate.name], given.anew) for crate in checks.crates(given.root) if chosen[crate.name]])
    if given.tests:
        return try_tests(given.root, [mutant for found in chosen.values() for mutant in found])
    trials = tried(given, chosen)
    kept.drop_old()
    used = resource.getrusage(resource.RUSAGE_CHILDREN)
    number = sum(len(trial.chosen) - trial.known for trial in trials)
    print(f"tried in this run: {number}, in {(used.ru_utime + used.ru_stime) / 60:.0f} min of processor time; the others are kept from earlier runs on this machine")
    passed, failed = report(given.root, trials)
    print(f"{passed} passed, {failed} failed")
    return 1 if failed else 0


def tried(given, chosen):
    """Tries the chosen mutants of each crate and returns what came of them."""
    with ending_room() as room, Lanes() as lanes, Progress() as progress:
        copies = checks.copied(given.root, room)
        if given.beside:
            # The end waits for what runs in parallel.
            os.nice(10)
        handed = Handed(given.root, room) if given.beside else None
        trials = [Trial(crate, chosen[crate.name], given.anew) for crate in copies if chosen[crate.name]]
        for trial in trials:
            trial.begin(checks.Room(trial.crate, room, kept_of(given.root, trial.crate.name, handed)), lanes, progress)
        try_all(trials, Libraries(given.root, copies, given.beside, handed))
        return trials


def kept_of(root, name, handed):
    """Returns the folders in which a check of the crate may have kept what it has checked."""
    return [root / "crates" / name / "out/incremental", *([handed.of(name)] if handed else [])]


def tell_plan(trials):
    """Prints which mutants are tried together, and which can't be, and returns whether there are such, as a status."""
    bad = 0
    for trial in trials:
        for batch in batches.planned(trial.left, MOST):
            print(f"{trial.crate.name}: {' '.join(one.mutant.label for one in batch)}")
        for mutant, (verdict, why) in trial.results.items():
            if verdict is Verdict.BAD:
                bad += 1
                print(f"  FAILED: {mutant.name} ({mutant.kind}): {why}")
    print(f"{sum(len(trial.chosen) for trial in trials) - bad} can be applied, {bad} can't")
    return 1 if bad else 0


def try_all(trials, libraries):
    threads = [threading.Thread(target=trial.run, args=(libraries,)) for trial in trials]
    for thread in threads:
        thread.start()
    if not libraries.log:
        libraries.build([trial.crate for trial in trials if trial.left])
        libraries.end()
    for thread in threads:
        thread.join()


if __name__ == "__main__":
    sys.exit(main(sys.argv[1:]))
