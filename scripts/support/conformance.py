"""Checks the conformance suite, and this library against it.

usage: conformance.py PROGRAM     the built program qs_answers; the module for Python has to find the shared library
"""

import collections
import importlib.util
import json
import pathlib
import re
import subprocess
import sys

ROOT = pathlib.Path(__file__).resolve().parents[2]
SUITE = ROOT / "conformance"
sys.path[:0] = [str(SUITE), str(ROOT / "bindings/python")]
import serde_qs  # noqa: E402
from golden import Reader, tree_members  # noqa: E402

TYPES = {"object": dict, "array": list, "string": str, "integer": int}
counts = collections.Counter()


def claim(what, is_so):
    counts["passed" if is_so else "failed"] += 1
    if not is_so:
        print(f"  FAILED: {what}")


def faults(value, schema, definitions, path):
    """What the value breaks, of the words that conformance/schema.json uses."""
    schema = definitions[schema["$ref"].rpartition("/")[2]] if "$ref" in schema else schema
    if "type" in schema and type(value) is not TYPES[schema["type"]]:
        yield f"{path} is no {schema['type']}"
    elif "enum" in schema and value not in schema["enum"] or "minimum" in schema and value < schema["minimum"] or not re.search(schema.get("pattern", ""), str(value)):
        yield f"{path} can't be {value!r}"
    elif schema.get("type") == "array":
        for at, item in enumerate(value):
            yield from faults(item, schema["items"], definitions, f"{path}/{at}")
    elif schema.get("type") == "object":
        others = schema.get("additionalProperties", True)
        yield from (f"{path} has no {name}" for name in schema.get("required", []) if name not in value)
        for name, part in value.items():
            inner = schema.get("properties", {}).get(name, others)
            if inner is False:
                yield f"{path} has a {name}"
            elif inner is not True:
                yield from faults(part, inner, definitions, f"{path}/{name}")


def words_of(document):
    return " ".join((ROOT / document).read_text(encoding="utf-8").split())


def try_file(text, suite):
    """The file is what the generator prints, valid, and quotes docs/QUERYSTRINGS.md."""
    made = subprocess.run([sys.executable, SUITE / "make"], check=True, capture_output=True, encoding="utf-8").stdout
    claim("conformance/cases.json isn't what conformance/make prints", made == text)
    schema = json.loads((SUITE / "schema.json").read_text(encoding="utf-8"))
    broken = list(faults(suite, schema, schema["$defs"], ""))
    claim(f"conformance/cases.json isn't valid by its schema: {broken[:3]}", not broken)
    claim("the schema takes any case", list(faults({"cases": [{"name": 1}]}, schema, schema["$defs"], "")))
    names = [(case["feature"], case["name"]) for case in suite["cases"]]
    claim("two cases of a feature have the same name", len(set(names)) == len(names))
    document = words_of("docs/QUERYSTRINGS.md")
    for feature, sentence in suite["features"].items():
        claim(f"docs/QUERYSTRINGS.md doesn't have the sentence of {feature}: {sentence}", sentence in document)
    for name in re.findall(r"`([a-z ]+/[a-z0-9-]+)`", document):
        claim(f"docs/QUERYSTRINGS.md names a case that isn't there: {name}", tuple(name.split("/")) in names or not name.partition("/")[0] in suite["features"])


def data_of(case):
    return bytes.fromhex(case["input_hex"]) if "input_hex" in case else case["input"].encode()


def try_trees(program, cases):
    """The parser's trees and errors."""
    asked = [case for case in cases if "shape" not in case and not {"data", "max_length", "max_pairs"} & case.keys()]
    lines = "".join(f"{int(case['mode'] == 'form')}\t{case['depth']}\t{data_of(case).hex()}\n" for case in asked)
    answers = subprocess.run([program], input=lines, check=True, capture_output=True, text=True).stdout.splitlines()
    claim(f"{len(answers)} answers to {len(asked)} cases", len(answers) == len(asked))
    for case, answer in zip(asked, answers):
        outcome, found, *_ = answer.split("\t")
        if outcome == "rejected":
            got = {"error": "parse", "position": int(found)}
        else:
            got = {"error": "no_pairs"} if found == "Uninit" else tree_members(Reader(found).node())
        want = {name: case[name] for name in ("tree", "tree_encoded", "error", "position") if name in case}
        claim(f"{case['feature']}/{case['name']}: {got}, and not {want}", got == want)


def try_runner(cases):
    """What the library reads and writes, by its runner: all but the trees that only the program can say agree."""
    spec = importlib.util.spec_from_file_location("runner", SUITE / "runners/python.py")
    runner = importlib.util.module_from_spec(spec)
    spec.loader.exec_module(runner)
    for case in cases:
        want = runner.wanted(case)
        if want is not None:
            got = runner.found(case)
            claim(f"{case['feature']}/{case['name']}: {got}, and not {want}", runner.agrees(got, want))


def read_by(shape, text, mode):
    try:
        return serde_qs.read(shape, text, form=mode == "form")
    except serde_qs.QuerystringError as error:
        return f"error {'parse' if error.status == 4 else 'mismatch'}"


def try_clients():
    """What clients write is read as it was meant, or as the table says."""
    names, *rows = [line.split("\t") for line in (SUITE / "clients.tsv").read_text(encoding="utf-8").splitlines()]
    for row in (dict(zip(names, row, strict=True)) for row in rows):
        want = row["meant"] if not row["read"] else row["read"]
        want = want if want.startswith("error") else json.loads(want)
        got = read_by(row["shape"], row["text"], row["mode"])
        is_explained = (want != json.loads(row["meant"])) == bool(row["why"])
        claim(f"{row['client']}, {row['text']}: {got}, and not {want}", got == want and is_explained)
    meant = sum(not row[names.index("why")] for row in rows)
    numbers = f"has {len(rows)} texts", f"{meant} of them are read as they were meant", f"The other {len(rows) - meant} are"
    claim(f"conformance/README.md has other numbers of texts than {numbers}", all(number in words_of("conformance/README.md") for number in numbers))


text = (SUITE / "cases.json").read_text(encoding="utf-8")
suite = json.loads(text)
try_file(text, suite)
try_trees(sys.argv[1], suite["cases"])
try_runner(suite["cases"])
try_clients()
claim(f"conformance/README.md doesn't say that there are {len(suite['cases']):,} cases", f"agrees on all {len(suite['cases']):,}," in words_of("conformance/README.md"))
print(f"conformance: {counts['passed']} passed, {counts['failed']} failed")
sys.exit(counts["failed"] > 0)
