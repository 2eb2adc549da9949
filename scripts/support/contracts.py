"""The contracts of a source file: each function's signature and clauses, as they stand there."""

import re

OPENING = re.compile(r'^( *)(?:pub(?:\([a-z]+\))? )?(?:const |unsafe |extern "C" )*fn (\w+)')
CLAUSE = re.compile(r"^(ensures|requires)\*?(?: (\w+))? \{ (.*) \}[;,]?$")
INSIDE = re.compile(r"^(?:pub(?:\([a-z]+\))? )?(?:impl(?:<.*?>)? (?:.* for )?|trait )(\w+)")


def words(text):
    """Returns a text of one line, with one space between its words."""
    return " ".join(text.split()).replace("( ", "(").replace(", )", ")")


def balanced(text):
    return text.count("(") == text.count(")") and text.count("{") == text.count("}")


def clauses_from(lines, at):
    """Returns the clauses that begin at this line, each with its kind, its name and its text."""
    found, text = [], ""
    for line in lines[at:]:
        text = words(f"{text} {line}")
        if not text or text.startswith("//"):
            text = ""
        elif not text.startswith(("ensures", "requires")):
            break
        elif balanced(text) and CLAUSE.match(text):
            found.append(CLAUSE.match(text).groups())
            text = ""
    return found


def signature_from(lines, at):
    """Returns the signature that begins at this line, and the line after it."""
    text = ""
    for number in range(at, len(lines)):
        text = words(f"{text} {lines[number]}")
        if text.endswith(("{", ";")) or balanced(text) and not text.endswith(","):
            following = lines[number + 1].strip() if number + 1 < len(lines) else ""
            if text.endswith(("{", ";")) or following.startswith(("{", "ensures", "requires", "}")):
                return text.rstrip("{; "), number + 1
    return text, len(lines)


def contracts(source):
    """Returns the functions of a source by their names, `Type::name` in an impl or a trait, each with its signature and clauses."""
    lines, inside, found = source.split("\n"), "", {}
    for at, line in enumerate(lines):
        head = INSIDE.match(line)
        inside = head[1] if head else "" if line.startswith("}") else inside
        opening = OPENING.match(line)
        if opening:
            name = f"{inside}::{opening[2]}" if opening[1] and inside else opening[2]
            signature, end = signature_from(lines, at)
            found.setdefault(name, (signature, clauses_from(lines, end)))
    return found
