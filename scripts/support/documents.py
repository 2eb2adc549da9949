"""Tests what the documents show.

usage: documents.py PROGRAM ROOM     the built program qs_tool, and an empty folder

- Examples: the program prints the lines of scripts/golden/documents.tsv, and of README's console. Every querystring of docs/QUERYSTRINGS.md stands in the words
  of a line there, or in a list below that says what tests it.
- Blocks: a Rust block that begins with an import is a module of one crate, which is compiled. From its first `let` on it is the body of a function with `alloc`,
  and a text in a comment after a `let` has to be the variable's. Any other block is a part of a file that the text above names: each of its lines stands there.
- Names: each path and heading to which a document refers is there.
"""

import collections
import json
import pathlib
import re
import subprocess
import sys

ROOT = pathlib.Path(__file__).resolve().parents[2]
PROGRAM, ROOM = sys.argv[1], pathlib.Path(sys.argv[2])
CALLING = sorted(str(it.relative_to(ROOT)) for it in ROOT.glob("crates/*/CALLING.md"))
DOCUMENTS = ["README.md", "CONTRIBUTING.md", "CHANGELOG.md", "SECURITY.md", *sorted(f"docs/{it.name}" for it in (ROOT / "docs").glob("*.md")), *CALLING]

BLOCK = re.compile(r"^```rust\n(.*?)^```", re.M | re.S)
POSITION = re.compile(r"^\| `([^`]+)` \| (\d+) \|", re.M)
CONSOLE = re.compile(r"^    \$ printf '([^']*)' \| \./qs_tool (\w+)\n((?:    [^$].*\n)*)", re.M)
SPAN = re.compile(r"`([^` ]*[\w.][=&[%][^` ]*|[^` ]*[=\]][\w.][^` ]*)`")
PATH = re.compile(r"(?<![\w/.$-])(?:docs|scripts|crates|conformance|bindings|bench)/[\w./-]*\w")
HEADING = re.compile(r'(\w+/\w+\.md|[A-Z]+\.md)(?:,| under) "([^"]+)"')

# Querystrings that no line of the table tries, and what tests them.
ELSEWHERE = {
    "a conformance case that the text names": ["%%41", "%4+1"],
    "a byte or an escape, not a querystring": ["%5B", "%5D", "%5b", "%5d", "%20", "%2B", "%A"],
    "laws of qs_spec, of trees that aren't stable": ["a[0]=1&a[1]=2", "%31=x", "1=x", "a%5bb%5d=x", "a%5Bb%5D=x"],
    "a pattern of which scripts/hostile_loads.sh has an example": ["N[b][c][d][e][f]", "v=&v=&.."],
}

# Paths of another repository, which README's first program is for.
OTHERS = {"crates/first", "crates/first/src/main.rt"}

counts = collections.Counter()


def claim(what, is_so):
    counts["passed" if is_so else "failed"] += 1
    if not is_so:
        print(f"  FAILED: {what}")


def text_of(document):
    return (ROOT / document).read_text(encoding="utf-8")


def words_of(text):
    return " ".join(text.split())


def printed(arguments, given):
    """Returns what the program prints, and standard error's text behind `2> ` if a line on it is wanted."""
    ran = subprocess.run([PROGRAM, *arguments], input=given.encode(), capture_output=True)
    return ran.stdout.decode().removesuffix("\n"), f"2> {ran.stderr.decode().removesuffix(chr(10))}"


def is_case(arguments, given, line):
    """Whether the conformance suite has this case of writing, which scripts/conformance.sh tries."""
    _, mode, array_format = arguments
    wanted = {"data": json.loads(given), "mode": mode, "array_format": array_format, "written": line}
    return any(wanted.items() <= case.items() for case in json.loads(text_of("conformance/cases.json"))["cases"])


def try_examples():
    rows = [line.split("\t") for line in text_of("scripts/golden/documents.tsv").splitlines()]
    tried = collections.defaultdict(str)
    for document, excerpt, arguments, given, line in rows:
        claim(f"{document} doesn't say: {excerpt}", words_of(excerpt) in words_of(text_of(document)))
        arguments = [] if arguments == "none" else arguments.split(" ")
        if arguments[:1] == ["write"]:
            claim(f"{document}: the conformance suite doesn't write {given} as {line}", is_case(arguments, given, line))
        else:
            found = printed(arguments, given)
            claim(f"{document}: qs_tool {' '.join(arguments)} on '{given}' prints {found}, and not {line}", line in found)
        tried[document] += f"{excerpt}\n"
    return tried


def try_positions_and_console():
    """The table of positions, and README's console, without the line that an unproved build says of itself."""
    rows = POSITION.findall(text_of("docs/QUERYSTRINGS.md"))
    claim("docs/QUERYSTRINGS.md has no table of positions", len(rows) >= 6)
    for given, position in rows:
        line = printed(["any"], given)[0]
        claim(f"docs/QUERYSTRINGS.md: '{given}' is rejected otherwise: {line}", line.endswith(f"at position: {position}"))
    console = CONSOLE.findall(text_of("README.md"))
    claim("README.md has no console", len(console) >= 3)
    for given, command, lines in console:
        wanted = [line.strip() for line in lines.splitlines() if "this build is unproved" not in line]
        claim(f"README.md: qs_tool {command} on '{given}' doesn't print {wanted}", [printed([command], given)[0]] == wanted)
    return "".join(given for given, _ in rows)


def try_spans(tried):
    """Every querystring of the specification is tried."""
    known = {it for listed in ELSEWHERE.values() for it in listed}
    text = text_of("docs/QUERYSTRINGS.md")
    for span in sorted(set(SPAN.findall(re.sub(r"^    .*", "", text, flags=re.M)))):
        claim(f"docs/QUERYSTRINGS.md: nothing tries `{span}`", span in tried or span in known)


def is_part(block, above):
    """Whether each line of the block stands in a file of crates/qs_callers/src that the text above it names last."""
    names = re.findall(r"`(?:crates/qs_callers/src/)?(\w+\.rt)`", above)
    if not names:
        return False
    source = {line.strip() for line in text_of(f"crates/qs_callers/src/{names[-1]}").splitlines()}
    return all(line.strip() in source for line in block.splitlines())


def module_of(block):
    """Returns the block as a module, and the text that its function has to return, if it has one."""
    block = block.replace("#![tactic(auto)]\n", "")
    begin = re.search(r"^let ", block, re.M)
    if not begin:
        return block, None
    variable, text = re.findall(r"^let (\w+) = .*; // (.*)$", block, re.M)[-1]
    imports = "" if "use std::alloc::Global;" in block else "use std::alloc::Global;\n"
    head, body = block[:begin.start()], block[begin.start():]
    return f"{imports}{head}pub fn body(alloc: Global) -> qs_serde::Result<String> {{\n{body}    Ok({variable})\n}}\n", text


def modules():
    """Returns the blocks that are modules, by their names."""
    found = {}
    for document in ["docs/TYPES.md", *CALLING]:
        text = text_of(document)
        for match in BLOCK.finditer(text):
            block, where = match[1], f"{document}, line {text.count(chr(10), 0, match.start()) + 2}"
            if block.lstrip().startswith(("use ", "ghost use ", "#![")):
                said = re.search(r"module `(\w+)`", block)
                found[said[1] if said else f"block_{len(found)}"] = (where, *module_of(block))
            else:
                claim(f"{where}: a line stands in no file that the text above names", is_part(block, text[: match.start()]))
    return found


def try_blocks():
    """Compiles the modules as one crate, beside copies of the libraries, and runs it."""
    crate, blocks = ROOM / "shop/crates/shop/src", modules()
    subprocess.run([ROOT / "vendor", ROOM / "shop", "qs_request", "qs_explain"], check=True, capture_output=True)
    crate.mkdir(parents=True)
    main = "use std::io;\n\nfn main(rt: HostRuntime) -> io::Result<()> {\n"
    for name, (where, module, text) in blocks.items():
        (crate / f"{name}.rt").write_text(f"//! {where}\n\n{module}", encoding="utf-8")
        main += f"    if let Ok(text) = {name}::body(rt.alloc()) {{\n        println!(rt; \"{name} {{text}}\")?;\n    }}\n" if text else ""
    main = "//! The blocks of the documents.\n#![tactic(auto)]\n\n" + "".join(f"mod {name};\n" for name in blocks) + f"\n{main}    Ok(())\n}}\n"
    (crate / "main.rt").write_text(main, encoding="utf-8")
    with (ROOM / "shop/crates.txt").open("a") as lines:
        lines.write("shop: qs_request qs_explain qs_serde serde_qs qs_data qs_tree qs_spec serde http_uri\n")
    ran = subprocess.run(["rt", "try"], cwd=crate.parent, stdin=subprocess.DEVNULL, capture_output=True, text=True)
    said = ran.stdout + ran.stderr
    claim(f"the Rust blocks don't compile: {said[-300:]}", ran.returncode == 0)
    for name, (where, _, text) in blocks.items():
        errors = re.findall(rf"^src/{name}\.rt:.*error.*", said, re.M)
        claim(f"{where}: {errors[:1]}", not errors)
        if text:
            claim(f"{where}: the text isn't {text}", f"{name} {text}" in said.splitlines())


def try_names():
    for document in DOCUMENTS:
        text = re.sub(r"^```.*?^```|^    .*?$", "", text_of(document), flags=re.M | re.S)
        for path in sorted(set(PATH.findall(text))):
            if path not in OTHERS and not re.search("NAME|CRATE", path):
                claim(f"{document} names {path}, which isn't there", any((base / path).exists() for base in (ROOT, ROOT / "crates", ROOT / "crates/qs_spec")))
        for other, heading in HEADING.findall(text.replace("\n", " ")):
            base = ROOT if (ROOT / other).exists() else (ROOT / document).parent
            claim(f'{document}: {other} has no heading "{heading}"', re.search(rf"^#+ {re.escape(heading)}", (base / other).read_text(encoding="utf-8"), re.M) is not None)


def main():
    tried = try_examples()
    shown = try_positions_and_console()
    try_spans(tried["docs/QUERYSTRINGS.md"] + shown)
    try_names()
    try_blocks()
    print(f"documents: {counts['passed']} passed, {counts['failed']} failed")
    sys.exit(counts["failed"] > 0)


main()
