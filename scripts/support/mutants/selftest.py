"""Tests of scripts/mutants.py: on a small crate with the prover, and on answers as the prover gives them. And of the repository's own mutants: that each can be
applied, that what rejects a survivor is there, and that the gate's list can be tried by few checks. The gate itself tries only that list."""

import pathlib
import subprocess
import sys
import tempfile

sys.path.insert(0, str(pathlib.Path(__file__).parent))
import answers  # noqa: E402
import batches  # noqa: E402
import edits  # noqa: E402
import gate  # noqa: E402
import handed  # noqa: E402
from answers import Verdict  # noqa: E402
from functions import functions_of  # noqa: E402

SOURCE = """\
//! Functions to be edited.
#![tactic(auto)]

ghost use Rattle.std.specs.Prelude.{◌≡◌};

/// Returns the first.
pub fn first(one: u8, other: u8) -> u8
    ensures { result ≡ one }
{
    let begun = one;
    let kept = begun;
    let _ = other;
    kept
}

/// Returns the second.
pub fn second(one: u8, other: u8) -> u8
    ensures { result ≡ other }
{
    let held = other;
    let _ = one;
    held
}

/// Returns its argument.
pub fn third(one: u8) -> u8
    ensures { result ≡ one }
{
    let passed = one;
    passed
}
"""

# The folder and the name of each mutant, what it changes, and what has to be said of it.
MUTANTS = [
    ("mutants", "first_from_the_other", "let begun = one;", "let begun = other;", "rejected"),
    ("mutants", "first_kept_from_the_other", "let kept = begun;", "let kept = other;", "rejected"),
    ("mutants", "second_with_its_type", "let held = other;", "let held: u8 = other;", "survives"),
    ("mutants", "third_of_no_name", "let passed = one;", "let passed = missing;", "bad"),
    ("mutants", "third_of_no_line", "let lost = one;", "let lost = 0;", "bad"),
    ("survivors", "second_by_its_own_name", "let held = other;", "let held = { other };", None),
    ("survivors", "third_rejected", "let passed = one;", "let passed = 0 * one;", "rejected: move it to mutants"),
]

# The function of a mutant whose entry names it. Its text may stand in others too.
FUNCTIONS = {"first_kept_from_the_other": " fn first", "third_of_no_name": " fn third"}

# Texts of files, and what is said of each that can't be read, with its line.
ENTRIES = [
    ("[a]\nsrc/lib.rt fn second\n- let _ = one;\n-     held\n+ held\n", "second_of_two_lines"),
    ("[a]\n- one\n+ other\n", ":2: no file"),
    ("[a]\nsrc/lib.rt\n- one\n\n[b]\n", ":4: the line before has no line with `+`"),
    ("[a]\nsrc/lib.rt\n+ one\n", ":3: no line with `-`"),
    ("[a]\nsrc/lib.rt\n- one\n+ other\n[b]\n[c]\n", ":6: the entry b changes nothing"),
    ("[a]\nsrc/lib.rt\nold: one\n", ":3: this is no line of an entry: old: one"),
    ("[a]\nsrc/lib.rt\n- one\n+ other\n[a]\nsrc/lib.rt\n- one\n+ other\n", "two entries of the crate are named a"),
]
# Lines of the gate's list, and what is said of them.
LISTED = [
    ("small/second_with_its_type  a word", ""),
    ("small/second_with_its_type", ":1: it is no line"),
    ("small/missing  a word", ":1: there is no mutant small/missing"),
    ("small/third_rejected  a word", ":1: small/third_rejected is a survivor"),
    ("small/second_with_its_type  a word\nsmall/second_with_its_type  a word", ":2: small/second_with_its_type stands there twice"),
]

# The crates of definitions, where each mutant is tried alone.
OF_DEFINITIONS = ("qs_spec", "qs_standards")

# A proof that cites a name which an edit took away, and the same function's goal left open.
LOST = """\
./proofs/first/Answers.antt:3:10: error: `kept` is not in scope
fn small::first: not proved
fn small::second: proved
logic=not-proved functions=2
"""
UNENDING = "note: src/lib.rt:11:5: it is not proved that the loop ends, by its measure\n" + LOST
LEFT = "note: src/lib.rt:11:5: it is not proved that `result ≡ one`\n" + LOST
NOTED = "note: src/lib.rt:11:5: large solution\n" + LOST

# Functions of one name, and the paths by which the check means them.
NAMED = """\
impl<C: Compound> Serialize for C {
    fn write(&self) {
    }
}

impl Serialize for BTreeMap<String, u8> {
    fn write(&self) {
    }
}

impl Config {
    fn write(&self) {
    }
}
"""
PATHS = ["AnySerialize::write", "other::CharSerialize::write", "BTreeMapStringSerialize::write", "Config::write", "ConfigDisplay::write"]

passed = failed = 0


def expect(what, is_so):
    global passed, failed
    passed, failed = passed + bool(is_so), failed + (not is_so)
    if not is_so:
        print(f"  FAILED: {what}")


def make(root):
    crate = root / "crates/small"
    (crate / "src").mkdir(parents=True)
    (root / "crates.txt").write_text("small:\n")
    (root / "HANDLES").write_text("Handles allowed: none.\n")
    (crate / "src/lib.rt").write_text(SOURCE)
    for kind in edits.KINDS:
        found = [(name, old, new) for of, name, old, new, _ in MUTANTS if of == kind]
        rejected = "rejected by: nothing, it means the same\n" * (kind == "survivors")
        texts = [f"[{name}]\n{rejected}src/lib.rt{FUNCTIONS.get(name, '')}\n- {old}\n+ {new}\n" for name, old, new in found]
        (crate / kind).write_text("# Edits.\n\n" + "\n".join(texts))
    return crate


def try_plan(crate):
    """No two mutants of one function are tried together, and no survivor beside a mutant."""
    sources = batches.Sources(crate)
    planned = batches.planned([batches.Edited(sources, mutant) for mutant in edits.of_crate(crate)], 60)
    names = [{one.mutant.label for one in batch} for batch in planned]
    pairs = [{"first_from_the_other", "first_kept_from_the_other"}, {"second_with_its_type", "second_by_its_own_name"}]
    expect("two mutants of one function are tried together", not any(pair <= batch for pair in pairs for batch in names))
    expect("mutants of two functions are not tried together", any({"first_from_the_other", "second_with_its_type"} <= batch for batch in names))
    expect("a mutant is left out", sorted(name for batch in names for name in batch) == sorted(name for _, name, *_ in MUTANTS))


def try_entries():
    """An entry may have texts of several lines, in a function; what can't be read is reported with its line."""
    with tempfile.TemporaryDirectory() as room:
        copy = pathlib.Path(room, "small")
        (copy / "src").mkdir(parents=True)
        (copy / "src/lib.rt").write_text(SOURCE)
        for text, wanted in ENTRIES:
            (copy / "mutants").write_text(text)
            try:
                changed = edits.applied(batches.Sources(copy), edits.of_crate(copy))
                expect(f"an entry is applied elsewhere: {text}", changed == {"src/lib.rt": SOURCE.replace("let _ = one;\n    held", "held")})
            except edits.BadFile as error:
                expect(f"{wanted!r} isn't said, but {error}", wanted in str(error))


def try_places(crate):
    """A text that stands twice in a file is found in its function alone."""
    sources = batches.Sources(crate)
    for function, is_there in (("first", True), ("second", True), ("third", False), ("fourth", False), ("", False)):
        try:
            at = edits.place(sources, edits.Pair("src/lib.rt", "let _ = o", "let _ = 0 * o", function))
            begins, ends = next(sources.span(it) for it in sources.functions("src/lib.rt") if it.name == function)
            expect(f"a text of {function} is found elsewhere", is_there and begins <= at < ends)
        except edits.BadEdit:
            expect(f"a text isn't found in {function}", not is_there)


def try_lists(root):
    """The gate's list names mutants that are there, each once."""
    (root / gate.FILE).parent.mkdir(parents=True)
    every = {"small": edits.of_crate(root / "crates/small")}
    for text, wanted in LISTED:
        (root / gate.FILE).write_text(f"{text}\n")
        try:
            found = gate.listed(root, every)
            expect(f"{text!r} is taken", not wanted and found == {"small/second_with_its_type"})
        except edits.BadFile as error:
            expect(f"{wanted!r} isn't said, but {error}", wanted and wanted in str(error))


def try_words(root):
    """What the command line names has to be there."""
    script = pathlib.Path(__file__).parent.parent.parent / "mutants.py"
    for word in ("--part=1/2", "--gat", "large", "small/missing", "--since=missing"):
        ended = subprocess.run([sys.executable, script, f"--root={root}", "--plan", word], capture_output=True)
        expect(f"{word} is taken", ended.returncode == 2 and ended.stderr and not ended.stdout)


def try_repository():
    """Each entry can be applied, what rejects a survivor is there, and one check tries the gate's mutants of a crate, except those of definitions."""
    root = pathlib.Path(__file__).resolve().parents[3]
    try:
        every = {folder.name: edits.of_crate(folder) for folder in sorted((root / "crates").iterdir())}
        listed = gate.listed(root, every)
    except edits.BadFile as error:
        expect(error, False)
        return
    for crate, mutants in every.items():
        sources = batches.Sources(root / "crates" / crate)
        for mutant in mutants:
            why = batches.Edited(sources, mutant).bad
            if mutant.is_survivor and not edits.is_rejected_elsewhere(root, mutant):
                why = f"no test or script is there that rejects it: {mutant.rejected_by}"
            if why:
                expect(f"{mutant.name}: {why}", False)
        number = gate.checks_of(root / "crates" / crate, [it for it in mutants if it.name in listed])
        expect(f"{crate} needs {number} checks for the gate's mutants", number <= (gate.MOST if crate in OF_DEFINITIONS else 1))


def try_answers():
    """What was lost with a name says nothing; a goal of the function's own lines does; what is proved survives."""
    first, second, _ = functions_of("src/lib.rt", SOURCE)
    expect("a lost name counts as a rejection", answers.verdict(LOST, "small", [first])[0] is Verdict.UNDECIDED)
    expect("a lost name counts alone", answers.verdict_alone(LOST, 1)[0] is Verdict.BAD)
    expect("a goal that is left is passed over", answers.verdict(LEFT, "small", [first])[0] is Verdict.REJECTED)
    expect("a loop that may not end counts beside another of its cycle", answers.verdict(UNENDING, "small", [first], True)[0] is Verdict.UNDECIDED)
    expect("a note counts", answers.verdict(NOTED, "small", [first])[0] is Verdict.UNDECIDED)
    expect("a goal of another function counts", answers.verdict(LEFT, "small", [second])[0] is Verdict.SURVIVES)


def try_names():
    """Each function is meant by its own path alone."""
    found = [function.named(PATHS) for function in functions_of("src/lib.rt", NAMED)]
    expect(f"functions are taken for others: {found}", found == [["AnySerialize::write"], ["BTreeMapStringSerialize::write"], ["Config::write"]])


def try_handed(root):
    """What a process has checked of the crate is taken, and of its tests or of another repository nothing."""
    with tempfile.TemporaryDirectory() as room:
        tempfile.tempdir = room
        taken = handed.Handed(root, pathlib.Path(room, "room"))
        asleep = [sys.executable, "-c", "import time; time.sleep(60)", "--crate-name", "small"]
        runs = [(root / "crates/small", []), (root / "crates/small", ["--test"]), (room, [])]
        running = [subprocess.Popen([*asleep, *more], cwd=folder) for folder, more in runs]
        for number, run in enumerate(running):
            folder = pathlib.Path(room, f"rattle-logic-built-locked-{run.pid}-0")
            folder.mkdir()
            (folder / f"{number}.oantt").write_text("")
        taken.look()
        found = sorted(file.name for file in taken.of("small").glob("*/*"))
        for run in running:
            run.kill()
            run.wait()
        tempfile.tempdir = None
    expect(f"what was checked is not handed on: {found}", found == ["0.oantt"])


def try_prover(root):
    script = pathlib.Path(__file__).parent.parent.parent / "mutants.py"
    words = [sys.executable, script, f"--root={root}", "--anew"]
    said = subprocess.run(words, stdout=subprocess.PIPE, stderr=subprocess.DEVNULL, text=True).stdout
    for folder, name, _, _, wanted in MUTANTS:
        line = next((line for line in said.splitlines() if f"small/{name} " in line), "")
        is_wrong = wanted not in (None, "rejected") or folder == "survivors" and wanted
        expect(f"{name} isn't {wanted or 'listed'}: {line or 'it passed'}", f": {wanted}" in line if is_wrong else not line)
    expect(f"the count is another: {said[-200:]}", said.endswith("mutants: 3 rejected, 1 survive as listed, 2 bad, 1 survives\n3 passed, 4 failed\n"))


def try_beside(root):
    """A crate that `rt ci` has proved isn't proved again before a single check."""
    script = pathlib.Path(__file__).parent.parent.parent / "mutants.py"
    (root / "log").write_text("rt: small proved\n1 passed, 0 failed\n")
    words = [sys.executable, script, f"--root={root}", "--anew", f"--beside={root}/log", "small/first_from_the_other", "small/second_with_its_type"]
    said = subprocess.run(words, capture_output=True, text=True).stdout
    expect(f"beside rt ci the count is another: {said[-200:]}", said.endswith(", 0 bad, 1 survives\n1 passed, 1 failed\n"))


def main():
    with tempfile.TemporaryDirectory() as room:
        crate = make(pathlib.Path(room))
        try_plan(crate)
        try_entries()
        try_places(crate)
        try_lists(pathlib.Path(room))
        try_words(room)
        try_answers()
        try_names()
        try_handed(pathlib.Path(room))
        try_repository()
        try_prover(room)
        try_beside(pathlib.Path(room))
    print(f"mutants_selftest: {passed} passed, {failed} failed")
    return failed > 0


if __name__ == "__main__":
    sys.exit(main())
