"""Reads shapes and data as the golden cases write them, and gives them as terms of qs_spec.

A part is a word and, in parentheses, its parts: `Struct(a=Option(U8),b?=Text)`. Names and texts are escaped as in form mode; `?` stands after
the name of an optional field.
"""


def bytes_term(data):
    return "(" + " ∷ ".join([str(byte) for byte in data] + ["[]"]) + ")"


def flag(value):
    return "true" if value else "false"


def chain(one, none, parts):
    """A list of a family of its own: its constructors, applied."""
    term = none
    for part in reversed(parts):
        term = f"({one} {part} {term})"
    return term


def unescaped(text):
    first, *escaped = text.split("%")
    return first.encode() + b"".join(bytes.fromhex(it[:2]) + it[2:].encode() for it in escaped)


def split(text, mark=","):
    """The parts between marks that stand in no parentheses, and none of the empty text."""
    parts, depth, begin = [], 0, 0
    for at, letter in enumerate(text):
        depth += (letter == "(") - (letter == ")")
        if letter == mark and depth == 0:
            parts.append(text[begin:at])
            begin = at + 1
    return [*parts, text[begin:]] if text else []


def parts_of(text):
    """The word, and the text in its parentheses."""
    word, _, inner = text.partition("(")
    return word, inner.removesuffix(")") if inner else ""


def name_and(read, text, between=" "):
    name, value = split(text, "=")
    return f"{bytes_term(unescaped(name))}{between}{read(value)}"


NUMBER_SHAPES = {f"{letter}{bits}": f"{kind} {bits}" for letter, kind in (("U", "unsigned"), ("I", "signed")) for bits in (8, 16, 32, 64)}
PLAIN_SHAPES = {"Unit": "unit", "Bool": "boolean", "Char": "character", "Text": "text", "Bytes": "bytes", "Any": "any", "Ignored": "ignored", **NUMBER_SHAPES}
UNKNOWN_KEYS = {"Struct": "ignored", "StrictStruct": "rejected"}
INNER_SHAPES = {"Option": "option", "Seq": "sequence", "Newtype": "newtype"}


def field_term(text):
    name, value = split(text, "=")
    return f"{bytes_term(unescaped(name.removesuffix('?')))} {shape_term(value)} {flag(name.endswith('?'))}"


def fields_term(inner):
    return chain("one_field", "no_fields", [field_term(it) for it in split(inner)])


def shapes_term(inner):
    return chain("one_shape", "no_shapes", [shape_term(it) for it in split(inner)])


def kind_term(text):
    word, inner = parts_of(text)
    if word in UNKNOWN_KEYS:
        return f"(struct_kind {UNKNOWN_KEYS[word]} {fields_term(inner)})"
    terms = {"Newtype": shape_term, "Tuple": shapes_term}
    return f"({word.lower()}_kind {terms[word](inner)})" if word != "Unit" else "unit_kind"


def key_shape_term(text):
    word, inner = parts_of(text)
    if word == "Variants":
        return f"(KeyShape.variants ({' ∷ '.join([bytes_term(unescaped(it)) for it in split(inner)] + ['[]'])}))"
    return f"(KeyShape.{PLAIN_SHAPES[word]})"


def shape_term(text):
    word, inner = parts_of(text)
    if word in PLAIN_SHAPES:
        return f"(Shape.{PLAIN_SHAPES[word]})"
    if word in INNER_SHAPES:
        return f"(Shape.{INNER_SHAPES[word]} {shape_term(inner)})"
    if word == "Tuple":
        return f"(Shape.tuple {shapes_term(inner)})"
    if word == "Map":
        key, value = split(inner)
        return f"(Shape.mapping {key_shape_term(key)} {shape_term(value)})"
    if word in UNKNOWN_KEYS:
        return f"(Shape.struct {UNKNOWN_KEYS[word]} {fields_term(inner)})"
    assert word == "Enum", text
    return f"(Shape.enumeration {chain('one_variant', 'no_variants', [name_and(kind_term, it) for it in split(inner)])})"


def values_term(texts):
    return chain("one_value", "no_values", [data_term(it) for it in texts])


def members_term(texts):
    return chain("one_member", "no_members", [name_and(data_term, it) for it in texts])


def pair_term(text):
    key, value = split(text, "=")
    return f"{data_term(key)} {data_term(value)}"


def signed_term(digits):
    return f"(neg_ℤ (pos {digits[1:]}))" if digits.startswith("-") else f"(pos {digits})"


SCALARS = {
    "Bool": ("boolean", lambda it: it),
    "Unsigned": ("unsigned", lambda it: it),
    "Signed": ("signed", signed_term),
    "Char": ("character", lambda it: str(ord(unescaped(it).decode()))),
    "Text": ("text", lambda it: bytes_term(unescaped(it))),
    "Bytes": ("bytes", lambda it: bytes_term(unescaped(it))),
    "UnitVariant": ("unit_variant", lambda it: bytes_term(unescaped(it))),
    "Some": ("some", lambda it: data_term(it)),
    "Newtype": ("newtype", lambda it: data_term(it)),
    "Seq": ("sequence", lambda it: values_term(split(it))),
    "Tuple": ("tuple", lambda it: values_term(split(it))),
    "Map": ("mapping", lambda it: chain("one_pair", "no_pairs", [pair_term(pair) for pair in split(it)])),
    "Struct": ("struct", lambda it: members_term(split(it))),
}
VARIANTS = {
    "NewtypeVariant": ("newtype_variant", lambda parts: data_term(parts[0])),
    "TupleVariant": ("tuple_variant", values_term),
    "StructVariant": ("struct_variant", members_term),
}


def data_term(text):
    word, inner = parts_of(text)
    if word in ("Unit", "None"):
        return f"Data.{word.lower()}"
    if word in VARIANTS:
        made, term = VARIANTS[word]
        name, *parts = split(inner)
        return f"(Data.{made} {bytes_term(unescaped(name))} {term(parts)})"
    made, term = SCALARS[word]
    return f"(Data.{made} {term(inner)})"
