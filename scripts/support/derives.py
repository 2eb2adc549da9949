"""Random querystrings near the types of crates/qs_derived, as cases for that program.

    derives.py SEED COUNT [TYPE..]     COUNT querystrings for each type, each in four cases: both modes, and repeated keys taken or rejected

A value of the type is made and written, in one format of lists or another; then up to four things are made wrong: pairs are moved, doubled or
lost, and keys, indices and values are exchanged for others. A value is what JSON has: the cases can be given to another program as JSON too.
"""
import random
import sys
from urllib.parse import quote_plus

TEXTS = ["", "a", "Ely", "High Street", "é", "1", "x&y=z", "a[b]", "true", "+%", "x-7", "null", "€;"]
JUNK = [None, "", "x", "-1", "256", "65536", "4294967296", "18446744073709551616", "1.5", "1e3", "inf", "true", "false", "%FF", "%C3%A9",
        "Relevance", "Cash", "At", "cash", "Nothing", "%2B7", "007", "-0", "a+b", "a-b", "3-7", "1,2", "%", "%4", "[x]"]
KEYS = ["", "0", "1", "2", "3", "01", "-1", "300", "4294967295", "4294967296", "zz", "%FF", "name", "type", "t", "c", "x", "y", "a%5Bb%5D", "k",
        "By", "Between", "Relevance", "At", "Card", "Anywhere", "Monday", "%61", "+", "first_name", "firstName"]


def text(r):
    return r.choice(TEXTS) if r.random() < 0.5 else "".join(r.choices("abcxyz 09", k=r.randrange(1, 5)))


def whole(bits, least=0):
    most = 2**bits - 1 if least == 0 else 2 ** (bits - 1) - 1
    least = 0 if least == 0 else -(2 ** (bits - 1))
    return lambda r: r.choice([0, 1, 7, most, least, r.randint(least, most), r.randint(0, 99)])


def signed(bits):
    return whole(bits, -1)


def real(r):
    return r.choice([0.0, 1.5, -2.25, 100.0, 1e21, 1e-7, 0.1, -0.0, 3.0e8, 12345678.5, r.uniform(-10, 10)])


def boolean(r):
    return r.random() < 0.5


def character(r):
    return r.choice(["a", "Z", "é", " ", "7", "&", "€"])


def option(of):
    return lambda r: None if r.random() < 0.3 else of(r)


def seq(of, most=3):
    return lambda r: [of(r) for _ in range(r.randint(0, most))]


def row(*parts):
    return lambda r: [part(r) for part in parts]


def table(key, of, most=2):
    return lambda r: {str(key(r)): of(r) for _ in range(r.randint(0, most))}


def struct(fields):
    """A field whose name ends in `?` may be left out."""

    def make(r):
        return {name.rstrip("?"): of(r) for name, of in fields.items() if name[-1] != "?" or r.random() < 0.7}

    return make


def one(*kinds):
    return lambda r: r.choice(kinds)(r)


def unit(name):
    return lambda r: name


def variant(name, of):
    return lambda r: {name: of(r)}


def folder(r, depth=3):
    inside = [folder(r, depth - 1) for _ in range(r.randint(0, 2))] if depth else []
    return {"name": text(r), **({"inside": inside} if inside or r.random() < 0.5 else {})}


def dashed(r):
    return f"{r.randrange(256)}-{r.randrange(256)}"


SORT = one(unit("Relevance"), variant("By", text), variant("Between", struct({"from": whole(32), "to": whole(32)})))
POINT = struct({"x?": whole(8), "y?": option(whole(8))})
SHOWN = struct({"first": text, "last?": option(text), "size?": option(whole(8))})
ADJACENT = one(struct({"t": unit("Nothing")}), struct({"t": unit("One"), "c": whole(8)}), struct({"t": unit("Pair"), "c": row(text, whole(8))}),
               struct({"t": unit("Named"), "c": struct({"a": whole(8), "b": text})}), struct({"t": unit("Size"), "c": struct({"width?": option(whole(8))})}),
               struct({"t": unit("Held"), "c": SHOWN}))
TYPES = {
    "profile": struct({"name": text, "age": whole(8), "city": text, "zip": whole(32), "langs": seq(text), "sort": SORT, "size?": option(whole(16)),
                       "dark": boolean, "news": boolean, "visits": whole(64)}),
    "order": struct({"name": text, "address": struct({"street": text, "city": text}), "items": seq(whole(32))}),
    "payment": struct({"amount": whole(32), "method": one(unit("Cash"), variant("Card", struct({"number": text, "year": whole(16)})))}),
    "account": struct({"firstName": text, "lastName": text, "user-id": whole(32)}),
    "trip": struct({"a": row(whole(32), whole(32)), "b": seq(one(unit("Anywhere"), variant("At", row(signed(32), signed(32)))))}),
    "labels": struct({"a": table(text, whole(32)), "b": seq(option(signed(8)))}),
    "named": struct({"firstName": text, "n": whole(64), "pageSize?": whole(32), "lastPage?": whole(16), "tags?": seq(text), "token?": whole(8)}),
    "listing": struct({"text": text, "first": text, "last?": option(text), "size?": option(whole(8))}),
    "tagged": seq(one(struct({"type": unit("cash")}), struct({"type": unit("card"), "number": text, "ownerName?": option(text)}),
                      struct({"type": unit("bank"), "year": whole(16)}), struct({"type": one(unit("gold"), unit("other"))}))),
    "spots": seq(one(struct({"kind": unit("anywhere")}), struct({"kind": unit("onMap"), "mapName": text, "zoom?": option(text)}))),
    "adjacent": seq(ADJACENT),
    "choice": seq(one(row(text, text), boolean, SHOWN, SORT, seq(text, 4), table(text, text), text)),
    "contact": seq(one(unit("Nobody"), variant("Shown", one(SHOWN, text)), variant("Phone", one(struct({"number?": option(text)}), text)),
                       variant("Map", one(table(text, whole(8)), text)))),
    "shown": seq(one(SHOWN, row(text, option(text), option(whole(8))), row(text, text), row(text), row(text, text, whole(8), text))),
    "lists": struct({"t": row(whole(8), text, boolean), "a": row(whole(8), whole(8)), "b": POINT, "l": seq(POINT, 2), "n": seq(seq(whole(8)), 2)}),
    "maps": struct({"h": table(unit("k"), whole(8)), "m": table(signed(32), seq(option(whole(8)))), "d": table(one(unit("Monday"), unit("Tuesday")), text)}),
    "numbers": struct({"f": real, "g": real, "c": character, "i": signed(8), "u": whole(32), "o?": option(boolean)}),
    "units": struct({"u": unit(None), "m": unit(None), "o?": option(whole(8))}),
    "wide": struct({"i": signed(128), "u": whole(128)}),
    "texts": struct({"name": one(unit("Alice"), unit("x1"), text), "title": text, "range": dashed, "off": whole(16)}),
    "folder": folder,
}


def encoded(r, word):
    """The word with what has to be escaped as an escape, and some more."""
    found = quote_plus(str(word), safe="")
    if found and r.random() < 0.05:
        at = r.randrange(len(word))
        found = quote_plus(word[:at], safe="") + "".join(f"%{byte:02x}" for byte in word[at].encode()) + quote_plus(word[at + 1:], safe="")
    return found


def pairs(r, value, path):
    """The pairs of a value: each a path, and the text of its value, or None without a `=`."""
    if isinstance(value, dict):
        inside = [pair for key, part in value.items() for pair in pairs(r, part, path + [encoded(r, key)])]
    elif isinstance(value, list):
        is_flat = not any(isinstance(part, (dict, list)) for part in value)
        form = r.choice(["indexed", "pushed", "repeated"]) if is_flat and path else "indexed"
        step = {"indexed": lambda at: [str(at)], "pushed": lambda at: [""], "repeated": lambda at: []}[form]
        inside = [pair for at, part in enumerate(value) for pair in pairs(r, part, path + step(at))]
    elif value is None:
        return [(path, None)]
    else:
        return [(path, encoded(r, {True: "true", False: "false"}[value] if isinstance(value, bool) else str(value)))]
    return inside or [(path, r.choice(["", None]))]


def spoiled(r, pairs):
    """The pairs with one thing made wrong."""
    pairs = list(pairs)
    at = r.randrange(len(pairs)) if pairs else 0
    path, value = pairs[at] if pairs else ([], None)
    step = r.randrange(len(path)) if path else 0
    kind = r.randrange(9) if pairs else 8
    if kind == 0:
        r.shuffle(pairs)
    elif kind == 1:
        del pairs[at]
    elif kind == 2:
        pairs.insert(r.randrange(len(pairs) + 1), (path, r.choice([value, r.choice(JUNK)])))
    elif kind in (3, 4):
        pairs[at] = (path, r.choice(JUNK))
    elif kind == 5:
        pairs[at] = (path[:step] + [r.choice(KEYS)] + path[step + 1:], value)
    elif kind == 6:
        pairs[at] = (path[: step + 1] + [r.choice(KEYS)] + path[step + 1:], value)
    elif kind == 7:
        pairs[at] = (path[:step] + path[step + 1:], value)
    else:
        pairs.append(([r.choice(KEYS) for _ in range(r.randint(1, 2))], r.choice(JUNK)))
    return pairs


def line(r, pairs):
    """The querystring of the pairs: its brackets are escaped or not."""
    opening, closing = ("%5B", "%5D") if r.random() < 0.3 else ("[", "]")
    words = []
    for path, value in pairs:
        key = (path[0] if path else "") + "".join(opening + step + closing for step in path[1:])
        words.append(key if value is None else f"{key}={value}")
    found = "&".join(words)
    if found and r.random() < 0.03:
        at = r.randrange(len(found))
        found = found[:at] + r.choice(["", "[", "]", "&", "=", "%"]) + found[at + r.randrange(2):]
    return found


def querystrings(seed, count, name):
    """So many querystrings for a type, each with the value that it was made of if nothing is wrong with it."""
    r = random.Random(f"{seed} {name}")
    for _ in range(count):
        value = TYPES[name](r)
        found = pairs(r, value, [])
        wrong = r.choice([0, 0, 1, 1, 1, 2, 2, 3, 4])
        for _ in range(wrong):
            found = spoiled(r, found)
        yield line(r, found), value if wrong == 0 else None, r.choice([5, 5, 5, 5, 0, 1, 2, 3])


def cases(seed, count, names):
    """The cases of so many querystrings for each type."""
    for name in names or TYPES:
        for found, _, depth in querystrings(seed, count, name):
            for mode in ("query", "form"):
                for repeated in ("last", "error"):
                    yield f"{mode}\t{depth}\t{repeated}\t{name}\t?{found}"


if __name__ == "__main__":
    print("\n".join(cases(sys.argv[1], int(sys.argv[2]), sys.argv[3:])))
