"""Writes the golden cases as equations over the definitions of qs_spec, each to be proved by computing both sides.

usage: definitions.py program|strict|trees|reads|writes TABLE [wrong]     with `wrong` one case alone, with another result, which is to be rejected
"""

import sys

from notation import bytes_term, chain, data_term, flag, shape_term

TREES = """\
use Rattle.std.specs.Prelude.{◌≡◌, Bool, true, false, [], ◌∷◌, Some, None, refl}
use Rattle.qs_spec.specs.Tree.{leaf, sequence, mapping, uninitialized, no_items, item, no_entries, entry}
use Rattle.qs_spec.specs.Leaf.Leaf.{NoValue, Null, Text}
use Rattle.qs_spec.specs.Segment.Segment.{Int, Str}
use Rattle.qs_spec.proofs.TreeOf.{tree_of}
"""

COMPUTING = """\
use Rattle.std.specs.Prelude.{◌≡◌, ℕ, pos, neg_ℤ, Bool, true, false, List, [], ◌∷◌, codes, Option, Some, None, option_and_then, refl, ⊤}
use Rattle.std.specs.Str.{is_utf8, chars}
use Rattle.std.specs.Fmt.{digits, signed_decimal}
use Rattle.std.specs.Char.{encode_utf8}
use lib.Utf8.{encode}
use Rattle.qs_spec.specs.Config.{ArrayFormat, indexed, empty_indexed, unindexed}
use Rattle.qs_spec.specs.Data.{Data, no_values, one_value, no_pairs, one_pair, no_members, one_member}
use Rattle.qs_spec.specs.Shape.{Shape, KeyShape, UnknownKeys, no_shapes, one_shape, no_fields, one_field, no_variants, one_variant, unit_kind, newtype_kind, tuple_kind, struct_kind}
use Rattle.qs_spec.specs.Shape.UnknownKeys.{ignored, rejected}
use Rattle.qs_spec.specs.internal.ReadFunction.{read_list, struct_members, read_map, read_enum, any_data, any_items, any_places, any_pairs, reads, reads_tuple, reads_names, reads_places, reads_variant, reads_kind}
use Rattle.qs_spec.specs.Entry.{deeper, entries_at, elements_from, pair_entries, member_entries, Output, EntryError, too_deep, bad_key}
use Rattle.qs_spec.specs.Written.{path_text, entry_text, written}
use Rattle.qs_spec.proofs.TreeOf.{tree_of}

-- what computes
unfoldable pub all_of_it : ⊤
unfolding is_utf8 chars digits encode read_list struct_members read_map read_enum any_data any_items any_places any_pairs reads reads_tuple reads_names reads_places reads_variant reads_kind deeper entries_at elements_from pair_entries member_entries path_text entry_text written
all_of_it = tt

abbrev read : Bool → ℕ → Bool → Shape → List ℕ → Option Data
read form depth reject_duplicates shape bytes = option_and_then (reads reject_duplicates shape) (tree_of form depth bytes)

abbrev text_unless : Option EntryError → List ℕ → Option (List ℕ)
text_unless None text = Some text
text_unless (Some error) text = None

abbrev text_of : Bool → Output → Option (List ℕ)
text_of form output = text_unless output.error (written form false output.entries)

abbrev rewritten : Bool → ℕ → Bool → Shape → ArrayFormat → List ℕ → Option (List ℕ)
rewritten form depth reject_duplicates shape format bytes = option_and_then (λ d. text_of form (entries_at depth format d [])) (read form depth reject_duplicates shape bytes)

-- the first error, and the text of the entries before it
abbrev outcome : Bool → ℕ → ArrayFormat → Data → Option EntryError × List ℕ
outcome form depth format d = ((entries_at depth format d []).error, written form false (entries_at depth format d []).entries)
"""

SHAPES = """
abbrev flat : UnknownKeys → Shape
flat unknown = Shape.struct unknown (one_field (codes "name") Shape.text false (one_field (codes "age") (Shape.unsigned 8) false (one_field (codes "occupation") Shape.text false (one_field (codes "active") Shape.boolean true (one_field (codes "note") (Shape.option Shape.text) false no_fields)))))

abbrev address : UnknownKeys → Shape
address unknown = Shape.struct unknown (one_field (codes "city") Shape.text false (one_field (codes "street") Shape.text false (one_field (codes "postcode") Shape.text false no_fields)))

abbrev params : UnknownKeys → Shape
params unknown = Shape.struct unknown (one_field (codes "id") (Shape.unsigned 8) false (one_field (codes "name") Shape.text false (one_field (codes "phone") (Shape.unsigned 32) false (one_field (codes "address") (address unknown) false (one_field (codes "user_ids") (Shape.sequence (Shape.unsigned 8)) false no_fields)))))
"""

HEADS = {"trees": TREES, "program": COMPUTING + SHAPES, "strict": COMPUTING + SHAPES, "reads": COMPUTING, "writes": COMPUTING}

FORMATS = {"indexed": "indexed", "empty": "empty_indexed", "unindexed": "unindexed"}


class Reader:
    """Reads a tree or shown data from the left, and writes it as a term."""

    def __init__(self, text):
        self.text = text
        self.at = 0

    def skip(self, text):
        found = self.text.startswith(text, self.at)
        self.at += len(text) if found else 0
        return found

    def until(self, stop):
        end = self.text.index(stop, self.at)
        part, self.at = self.text[self.at:end], end + len(stop)
        return part

    def parts(self, close, read):
        parts = []
        while not self.skip(close):
            parts.append(read())
            self.skip(",")
        return parts


class TreeReader(Reader):
    def text_and_mark(self):
        data = bytes_term(bytes.fromhex(self.until('"')))
        return f"{data} {flag(self.skip('*'))}"

    def entry(self):
        if self.skip('"'):
            text, mark = self.text_and_mark().rsplit(" ", 1)
            key = f"(Str {text}) {mark}"
            assert self.skip(":")
        else:
            key = f"(Int {self.until(':')}) false"
        return f"{key} {self.node()}"

    def node(self):
        if self.skip("NoValue"):
            return "(leaf NoValue)"
        if self.skip("Null"):
            return "(leaf Null)"
        if self.skip("Uninit"):
            self.at = len(self.text)
            return "uninitialized"
        if self.skip('"'):
            return f"(leaf (Text {self.text_and_mark()}))"
        if self.skip("["):
            return f"(sequence {chain('item', 'no_items', self.parts(']', self.node))})"
        assert self.skip("{")
        return f"(mapping {chain('entry', 'no_entries', self.parts('}', self.entry))})"


class ShownReader(Reader):
    """What `qs_tool any` prints."""

    def shown_text(self):
        assert self.skip("'")
        pieces = self.until("'").split("%")
        data = pieces[0].encode() + b"".join(bytes.fromhex(p[:2]) + p[2:].encode() for p in pieces[1:])
        return f"(Data.text {bytes_term(data)})"

    def pair(self):
        key = self.shown_text()
        assert self.skip(":")
        return f"{key} {self.data()}"

    def data(self):
        if self.skip("()"):
            return "Data.unit"
        if self.skip("["):
            return f"(Data.sequence {chain('one_value', 'no_values', self.parts(']', self.data))})"
        if self.skip("{"):
            return f"(Data.mapping {chain('one_pair', 'no_pairs', self.parts('}', self.pair))})"
        return self.shown_text()


def tree_case(fields):
    form, depth, given, outcome, tree = fields[:5]
    answer = f"Some {TreeReader(tree).node()}" if outcome == "ok" else "None"
    return f"tree_of {flag(form == '1')} {depth} {bytes_term(bytes.fromhex(given))} ≡ {answer}"


def program_case(fields):
    words, given, status, shown = fields[0].split(" "), *fields[1:4]
    option = dict(zip(words, words[1:] + [""]))
    command, form, reject_duplicates = words[0], flag("--form" in words), flag(option.get("--duplicates") == "error")
    depth = "0" if command == "flat" else option.get("--depth", "5")
    given, line = bytes.fromhex(given).removesuffix(b"\n"), bytes.fromhex(shown)[:-1]
    if command == "any":
        answer = f"Some {ShownReader(line.decode()).data()}" if status == "0" else "None"
        return f"read {form} {depth} {reject_duplicates} Shape.any {bytes_term(given)} ≡ {answer}"
    answer = f"Some {bytes_term(line)}" if status == "0" else "None"
    places = FORMATS[option.get("--format", "indexed")]
    unknown = "rejected" if "--strict" in words else "ignored"
    return f"rewritten {form} {depth} {reject_duplicates} ({command} {unknown}) {places} {bytes_term(given)} ≡ {answer}"


def read_case(fields):
    mode, depth, duplicates, shape, given, answer = fields
    answer = "None" if answer == "none" else f"Some {data_term(answer)}"
    return f"read {flag(mode == 'form')} {depth} {flag(duplicates == 'error')} {shape_term(shape)} {bytes_term(bytes.fromhex(given))} ≡ {answer}"


def write_case(fields):
    mode, depth, places, data, outcome, text = fields
    error = "None" if outcome == "ok" else f"Some {outcome}"
    return f"outcome {flag(mode == 'form')} {depth} {FORMATS[places]} {data_term(data)} ≡ ({error}, {bytes_term(bytes.fromhex(text))})"


CASES = {"trees": tree_case, "program": program_case, "strict": program_case, "reads": read_case, "writes": write_case}


def wrong_row(kind, rows):
    """A row whose result is not the one that is wanted."""
    if kind == "trees":
        return ["0", "0", "", "rejected", ""]
    if kind in ("program", "strict"):
        accepted = next(row for row in rows if row[2] == "0")
        return [*accepted[:2], "1", accepted[3]]
    if kind == "reads":
        return [*next(row for row in rows if row[5] != "none")[:5], "none"]
    return [*next(row for row in rows if row[4] == "ok")[:5], "26"]


def main():
    kind, table = sys.argv[1:3]
    with open(table, encoding="ascii") as lines:
        rows = [line.rstrip("\n").split("\t") for line in lines]
    if kind in ("program", "strict"):
        rows = [row for row in rows if row[2] in ("0", "1")]
    if "wrong" in sys.argv:
        rows = [wrong_row(kind, rows)]
    unfolding = "" if kind == "trees" else "unfolding all_of_it\n"
    print(HEADS[kind])
    for number, row in enumerate(rows):
        print(f"case_{number} : {CASES[kind](row)}\n{unfolding}case_{number} = refl\n")


main()
