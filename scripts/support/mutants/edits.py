"""Mutants as they stand in files: crates/NAME/mutants and crates/NAME/survivors, each a file of entries or a folder of such files.

    # a comment
    [name_of_the_mutant]
    src/file.rt fn function
    - what stands there
    + what the mutant has in its place

Under a file (below the crate's folder) stand pairs of texts; further pairs and files may follow. Several lines with `-` or `+` are one text of several lines, and
a lone `+` is the empty text. Where a function is named, the text stands exactly once in its body, and else exactly once in the file. Where several functions
have that name, it stands in the body of one of them. An entry of survivors has a line behind its name that says what rejects it, since no contract does:

    rejected by: test CRATE PATH        a test of the crate, by the path of its function
    rejected by: script NAME            scripts/NAME.sh
    rejected by: nothing, REASON        it changes only time, memory or stack
"""

import hashlib
import pathlib
import re
from dataclasses import dataclass, field

KINDS = ("mutants", "survivors")
NAME = re.compile(r"\[(\w+)\]")
PLACE = re.compile(r"((?:src|specs|proofs)/\S+)(?: fn (\w+))?")


class BadFile(Exception):
    """A file that can't be read as entries, with its line."""


class BadEdit(Exception):
    """An edit that can't be applied."""


@dataclass(frozen=True)
class Pair:
    file: str
    old: str
    new: str
    # The function whose body has the old text, if the entry names one.
    function: str = field(default="", repr=False)


@dataclass(eq=False)
class Mutant:
    crate: str
    label: str
    path: pathlib.Path
    is_survivor: bool
    pairs: list = field(default_factory=list)
    rejected_by: str = ""

    @property
    def name(self):
        return f"{self.crate}/{self.label}"

    @property
    def kind(self):
        return "survivors" if self.is_survivor else "mutants"

    def sum(self, sources):
        """The checksum of what it changes, for what is kept of earlier runs. A function counts only where its name tells two places apart, so that what is
        known of a mutant stays known when its entry names its function."""
        named = [pair.function for pair in self.pairs if (sources.text(pair.file) or "").count(pair.old) != 1]
        return hashlib.sha256((repr(self.pairs) + repr(named) * bool(named)).encode()).hexdigest()


class Reader:
    """Reads the entries of a file, line by line."""

    def __init__(self, crate, path, is_survivor):
        self.crate, self.path, self.is_survivor = crate, path, is_survivor
        self.found, self.place, self.old, self.new = [], None, [], []

    def all(self):
        for number, line in enumerate(self.path.read_text(encoding="utf-8").splitlines(), 1):
            try:
                self.line(line)
            except BadFile as error:
                raise BadFile(f"{self.path}:{number}: {error}") from None
        try:
            self.end_entry()
        except BadFile as error:
            raise BadFile(f"{self.path}: at its end, {error}") from None
        return self.found

    def line(self, line):
        sign, text = line[:1], line[2:]
        if sign in ("-", "+") and line[1:2] in ("", " "):
            self.text(sign, text)
            return
        self.end_pair()
        word, _, rest = line.partition(": ")
        if found := NAME.fullmatch(line):
            self.end_entry()
            self.place = None
            self.found.append(Mutant(self.crate, found[1], self.path, self.is_survivor))
        elif word == "rejected by" and self.is_survivor and self.found and not self.place:
            self.found[-1].rejected_by = rest.strip()
        elif (found := PLACE.fullmatch(line)) and self.found:
            self.place = found
        elif line and sign != "#":
            raise BadFile(f"this is no line of an entry: {line}")

    def text(self, sign, text):
        if not self.place:
            raise BadFile("no file stands before this text")
        if sign == "-" and self.new:
            self.end_pair()
        if sign == "+" and not self.old:
            raise BadFile("no line with `-` stands before this one")
        (self.old if sign == "-" else self.new).append(text)

    def end_pair(self):
        if self.old and not self.new:
            raise BadFile("the line before has no line with `+` behind it")
        if self.old:
            file, function = self.place.groups()
            self.found[-1].pairs.append(Pair(file, "\n".join(self.old), "\n".join(self.new), function or ""))
        self.old, self.new = [], []

    def end_entry(self):
        self.end_pair()
        last = self.found[-1] if self.found else None
        if last and not last.pairs:
            raise BadFile(f"the entry {last.label} changes nothing")
        if last and self.is_survivor and not last.rejected_by:
            raise BadFile(f"the entry {last.label} doesn't say what rejects it")


def files_of(folder, kind):
    """Returns the files of a crate's mutants, or survivors."""
    place = folder / kind
    return sorted(place.iterdir()) if place.is_dir() else [place] if place.is_file() else []


def of_crate(folder):
    """Returns all mutants of a crate, by their names. Raises `BadFile` where a file can't be read, or two have one name."""
    found = [it for kind in KINDS for file in files_of(folder, kind) for it in Reader(folder.name, file, kind == "survivors").all()]
    found.sort(key=lambda it: it.label)
    for one, other in zip(found, found[1:]):
        if one.label == other.label:
            raise BadFile(f"{other.path}: two entries of the crate are named {other.label}")
    return found


def is_rejected_elsewhere(root, mutant):
    """Whether the test or script that a survivor names is there."""
    if test := re.fullmatch(r"test (\w+) ([\w:]+)::(\w+)", mutant.rejected_by):
        file = root / "crates" / test[1] / "src" / f"{test[2].replace('::', '/')}.rt"
        return file.is_file() and f"#[test]\nfn {test[3]}(" in file.read_text(encoding="utf-8")
    if script := re.fullmatch(r"script (\w+)", mutant.rejected_by):
        return (root / "scripts" / f"{script[1]}.sh").is_file()
    return mutant.rejected_by.startswith("nothing, ")


def place(sources, pair):
    """Returns the offset of the pair's old text in its file. Raises `BadEdit` where it doesn't stand there, or in the function's body, exactly once."""
    text = sources.text(pair.file)
    if text is None:
        raise BadEdit(f"there is no file {pair.file}")
    spans = [sources.span(it) for it in sources.functions(pair.file) if it.name == pair.function] if pair.function else [(0, len(text))]
    if not spans:
        raise BadEdit(f"there is no fn {pair.function} with a body in {pair.file}")
    found = [(begins, ends) for begins, ends in spans if pair.old in text[begins:ends]]
    count = sum(text[begins:ends].count(pair.old) for begins, ends in found)
    if count != 1:
        where = f"fn {pair.function} of {pair.file}" if pair.function else pair.file
        raise BadEdit(f"this text stands {count} times in {where}, and not once: {pair.old.strip()}")
    return text.index(pair.old, found[0][0])


def places(sources, mutant):
    """Returns, for each pair of the mutant, its file, the offset of its old text there and the two texts. Raises `BadEdit` where one can't be applied."""
    found = sorted((pair.file, place(sources, pair), pair.old, pair.new) for pair in mutant.pairs)
    for (file, at, old, _), (other, next_at, *_) in zip(found, found[1:]):
        if file == other and next_at < at + len(old):
            raise BadEdit(f"two of its texts overlap in {file}: {old.strip()}")
    if all(old == new for _, _, old, new in found):
        raise BadEdit("it changes nothing")
    return found


def applied(sources, mutants):
    """Returns the new text of each file that the mutants change, where none changes what another one does: so their order doesn't matter."""
    by_file, changed = {}, {}
    for mutant in mutants:
        for file, at, old, new in places(sources, mutant):
            by_file.setdefault(file, []).append((at, old, new))
    for file, found in by_file.items():
        text = sources.text(file)
        for at, old, new in sorted(found, reverse=True):
            text = text[:at] + new + text[at + len(old) :]
        changed[file] = text
    return changed
