"""Trees, shapes and data of scripts/golden as JSON, and shapes in the notation of docs/LIBRARY.md."""

import json
import pathlib
import re
import sys

root = pathlib.Path(__file__).resolve().parent.parent
sys.path.insert(0, str(root / "scripts/support"))
from notation import parts_of, split, unescaped  # noqa: E402


class Unsaid(Exception):
    """JSON has no form for it."""


def text_of(data):
    try:
        return data.decode()
    except UnicodeDecodeError:
        raise Unsaid from None


def object_of(pairs):
    if len({key for key, _ in pairs}) < len(pairs):
        raise Unsaid
    return dict(pairs)


class Reader:
    """Reads a tree with its texts in hexadecimal, or what `qs_tool any` prints. A map becomes a tuple of its pairs, a text bytes."""

    def __init__(self, text):
        self.text, self.at = text, 0

    def skip(self, mark):
        found = self.text.startswith(mark, self.at)
        self.at += len(mark) if found else 0
        return found

    def until(self, mark):
        end = self.text.index(mark, self.at)
        part, self.at = self.text[self.at : end], end + len(mark)
        return part

    def quoted(self):
        if self.skip("'"):
            return unescaped(self.until("'"))
        assert self.skip('"'), self.text[self.at :]
        data = bytes.fromhex(self.until('"'))
        self.skip("*")
        return data

    def pair(self):
        if self.text[self.at] in "'\"":
            key = self.quoted()
            assert self.skip(":")
        else:
            key = int(self.until(":"))
        return key, self.node()

    def parts(self, close, read):
        parts = []
        while not self.skip(close):
            parts.append(read())
            self.skip(",")
        return parts

    def node(self):
        if self.skip("NoValue") or self.skip("()"):
            return None
        if self.skip("Null"):
            return b""
        if self.skip("["):
            return self.parts("]", self.node)
        return tuple(self.parts("}", self.pair)) if self.skip("{") else self.quoted()


def tree_json(node, key_text, text):
    if isinstance(node, tuple):
        return object_of([(str(key) if isinstance(key, int) else key_text(key), tree_json(part, key_text, text)) for key, part in node])
    if isinstance(node, list):
        return [tree_json(part, key_text, text) for part in node]
    return None if node is None else text(node)


def is_integer(key):
    """Whether JSON's string would be taken for an integer key."""
    return re.fullmatch(rb"0|[1-9][0-9]*", key) is not None and int(key) < 2**32


def plain_key(key):
    if is_integer(key):
        raise Unsaid
    return text_of(key)


def encoded(data):
    return "".join(chr(b) if b in b"*-._" or b < 128 and chr(b).isalnum() else f"%{b:02X}" for b in data)


def encoded_key(key):
    """Encoded, and each byte of what would be taken for an integer key."""
    return "".join(f"%{b:02X}" for b in key) if is_integer(key) else encoded(key)


def tree_members(node):
    """The tree as it is, or with encoded strings where JSON has no form for these."""
    try:
        return {"tree": tree_json(node, plain_key, text_of)}
    except Unsaid:
        return {"tree_encoded": tree_json(node, encoded_key, encoded)}


def shown_json(line):
    """What `qs_tool any` prints."""
    return tree_json(Reader(line).node(), text_of, text_of)


def name_text(name):
    return name if re.fullmatch(r"[A-Za-z0-9_-]+", name) else f'"{name}"'


def field_text(text):
    name, shape = split(text, "=")
    return f"{name_text(name.removesuffix('?'))}{'?' * name.endswith('?')}: {shape_text(shape)}"


def struct_text(word, inner):
    return {"Struct": "", "StrictStruct": "strict "}[word] + "{" + ", ".join(map(field_text, split(inner))) + "}"


def variant_text(text):
    name, kind = split(text, "=")
    word, inner = parts_of(kind)
    if word == "Unit":
        return name_text(name)
    if word not in ("Newtype", "Tuple"):
        return f"{name_text(name)} {struct_text(word, inner)}"
    items = [shape_text(it) for it in split(inner)]
    one = "," * (word == "Tuple" and len(items) == 1)
    return f"{name_text(name)}({', '.join(items)}{one})"


def key_shape_text(text):
    word, inner = parts_of(text)
    if word == "Bytes":
        raise Unsaid
    return f"enum({', '.join(map(name_text, split(inner)))})" if word == "Variants" else word.lower()


def shape_text(text):
    """The shape in the notation of docs/LIBRARY.md."""
    word, inner = parts_of(text)
    if word in ("Struct", "StrictStruct"):
        return struct_text(word, inner)
    if word == "Enum":
        return f"enum({', '.join(map(variant_text, split(inner)))})"
    if word == "Map":
        key, value = split(inner)
        return f"map({key_shape_text(key)}, {shape_text(value)})"
    items = ", ".join(map(shape_text, split(inner)))
    forms = {"Option": f"{items}?", "Seq": f"[{items}]", "Tuple": f"({items})", "Newtype": f"newtype({items})"}
    return forms.get(word, word.lower())


def key_json(text):
    word, inner = parts_of(text)
    if word not in ("Bool", "Unsigned", "Signed", "Char", "Text", "UnitVariant"):
        raise Unsaid
    return text_of(unescaped(inner))


def object_json(texts, key_of):
    return object_of([(key_of(name), data_json(part)) for name, part in (split(it, "=") for it in texts)])


def name_json(name):
    return text_of(unescaped(name))


HELD = {
    "Newtype": lambda parts: data_json(parts[0]),
    "Tuple": lambda parts: [data_json(it) for it in parts],
    "Struct": lambda parts: object_json(parts, name_json),
}


def data_json(text):
    """Data as JSON, as docs/LIBRARY.md has them."""
    word, inner = parts_of(text)
    parts = split(inner)
    if word in ("Unit", "None"):
        return None
    if word in ("Bool", "Unsigned", "Signed"):
        return json.loads(inner)
    if word in ("Char", "Text", "UnitVariant"):
        return name_json(inner)
    if word == "Bytes":
        return list(unescaped(inner))
    if word == "Map":
        return object_json(parts, key_json)
    if word.endswith("Variant"):
        return {name_json(parts[0]): HELD[word.removesuffix("Variant")](parts[1:])}
    return HELD[{"Some": "Newtype", "Seq": "Tuple"}.get(word, word)](parts)


def written_json(text):
    """JSON that is written as these data are. A unit and an empty text are written alike, bytes as their text."""
    if re.search(r"\bStruct\(\)|(Tuple|Struct)Variant\([^(),=]*\)", text):
        raise Unsaid  # nothing is written of it
    return data_json(re.sub(r"\bUnit\b(?!=)", "Text()", text.replace("Bytes(", "Text(")))
