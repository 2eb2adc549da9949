"""The conformance cases by this library's module for Python, through the shared library.

    python3 conformance/runners/python.py [--differences]

`parse` reads whatever is there: a map whose keys are 0, 1 and so on as a list, no pairs as `{}`, and a value without a key under the empty one. An error of
the parser has to have the same position; of a shape any error agrees with any. The library takes a depth limit of 100 at most, and no case nests deeper.
Left out are trees that JSON doesn't say.
"""

import json
import pathlib
import platform
import sys

here = pathlib.Path(__file__).resolve().parent
sys.path.append(str(here.parents[1] / "bindings/python"))
try:
    import serde_qs
except OSError as missing:
    print(f"the library is not installed, and left out: {missing}")
    sys.exit()

FORMATS = {"indexed": serde_qs.INDEXED, "empty_indexed": serde_qs.EMPTY_INDEXED, "unindexed": serde_qs.UNINDEXED}
KINDS = {4: "parse", 5: "mismatch", 6: "not_utf8", 9: "too_deep", 10: "too_large"}


def read(tree):
    """A part of the tree as `parse` returns it."""
    if isinstance(tree, list):
        return [read(part) for part in tree]
    if not isinstance(tree, dict):
        return tree
    parts = {key: read(part) for key, part in tree.items()}
    places = [str(at) for at in range(len(parts))]
    return [parts[place] for place in places] if parts.keys() == set(places) else parts


def read_whole(tree):
    """The tree as `parse` returns it."""
    if tree is None:
        return {}
    return read(tree if isinstance(tree, dict) else {"": tree})


def wanted(case):
    """What is wanted, or None of a tree that JSON doesn't say."""
    if "tree_encoded" in case:
        return None
    if case.get("error") == "no_pairs" and "shape" not in case:
        return "ok", {}
    if "error" in case:
        return case["error"], case.get("position", 0)
    if "written" in case:
        return "ok", case["written"]
    return "ok", read_whole(case["tree"]) if "tree" in case else case["data"]


def call(case):
    settings = {"max_depth": min(case["depth"], 100), "form": case["mode"] == "form", "reject_duplicates": case.get("duplicates") == "error"}
    settings |= {name: case[name] for name in ("max_length", "max_pairs") if name in case}
    query = bytes.fromhex(case["input_hex"]) if "input_hex" in case else case.get("input")
    value = case.get("data")
    if query is not None:
        value = serde_qs.read(case["shape"], query, **settings) if "shape" in case else serde_qs.parse(query, **settings)
    return serde_qs.write(value, array_format=FORMATS[case["array_format"]], **settings) if "array_format" in case else value


def found(case):
    try:
        return "ok", call(case)
    except serde_qs.QuerystringError as error:
        return KINDS.get(error.status, f"status {error.status}"), error.position


def agrees(got, want):
    if want[0] in ("mismatch", "not_utf8", "no_pairs", "rejected"):
        return got[0] in ("mismatch", "not_utf8") or want[0] == "rejected" and got[0] == "parse"
    # In Python, True is 1.
    return json.dumps(got, sort_keys=True) == json.dumps(want, sort_keys=True)


def main():
    suite = json.loads((here.parent / "cases.json").read_text(encoding="utf-8"))
    print(f"serde_qs for Python {suite['version']}, Python {platform.python_version()}\n{'feature':12} agreed     of  left out")
    for feature in suite["features"]:
        agreed = said = out = 0
        for case in suite["cases"]:
            if case["feature"] != feature:
                continue
            want = wanted(case)
            got = want and found(case)
            agreed += want is not None and agrees(got, want)
            said += want is not None
            out += want is None
            if want and sys.argv[1:] == ["--differences"] and not agrees(got, want):
                print(f"{feature}/{case['name']}: {got}, and not {want}")
        print(f"{feature:12}{agreed:7}{said:7}{out:10}")


if __name__ == "__main__":
    main()
