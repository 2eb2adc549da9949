"""What the module adds to the calls: types, errors of its own, shapes of classes, and instances."""

import dataclasses
import datetime
import decimal
import doctest
import enum
import json
import pickle
import subprocess
import sys
import time
import typing
import unittest
import unittest.mock
import uuid

import serde_qs
from serde_qs import Shape, Status, _library, _shapes


class Sort(enum.Enum):
    NEW = "new"
    OLD = "old one"


@dataclasses.dataclass
class Address:
    city: str
    floor: typing.Annotated[int, Shape("i8")] = 0


Flags = typing.TypedDict("Flags", {"first name": str, "x-y": bool}, total=False)


@dataclasses.dataclass
class User:
    name: str
    ids: typing.List[int]
    home: Address
    note: typing.Optional[str]
    at: typing.Tuple[int, str]
    tags: typing.Tuple[str, ...]
    scores: typing.Dict[int, int]
    data: bytes
    flags: Flags
    sort: Sort = Sort.NEW
    side: typing.Literal["left", "right"] = "left"
    more: typing.Any = None


class Point(typing.NamedTuple):
    x: int
    y: float = 0.5


class Size(enum.IntEnum):
    SMALL = 1
    LARGE = 2


Item = typing.TypeVar("Item")
Number = typing.NewType("Number", int)


@dataclasses.dataclass
class Page(typing.Generic[Item]):
    items: typing.List[Item]
    total: int = 0


@dataclasses.dataclass
class Points(Page[Point]):
    last: bool = False


@dataclasses.dataclass
class Node:
    value: int
    below: "typing.List[Node]" = dataclasses.field(default_factory=list)


@dataclasses.dataclass
class Order:
    price: decimal.Decimal
    weight: float
    born: datetime.date
    at: datetime.datetime
    id: uuid.UUID
    tags: typing.FrozenSet[str]
    counts: typing.Mapping[datetime.date, int]
    points: Points
    size: Size
    side: typing.Literal[1, 2, "none"]
    either: typing.Union[str, int, None]
    number: Number
    tree: typing.Optional[Node]
    first: str = dataclasses.field(metadata={"name": "first-name"})
    more: list = dataclasses.field(default_factory=list)
    factor: dataclasses.InitVar[int] = 1

    def __post_init__(self, factor):
        self.factor_given = factor


# As under `from __future__ import annotations`, each hint is a string.
Marked = typing.TypedDict("Marked", {"a": "int", "b": "typing.NotRequired[str]", "c": "typing.Annotated[typing.NotRequired[int], 5]"})

ORDER = Order(
    decimal.Decimal("1.10"), -2e3, datetime.date(2024, 2, 29), datetime.datetime(2024, 1, 1, 10, 0, 0, 500000), uuid.UUID(int=7), frozenset("ab"),
    {datetime.date(2024, 1, 2): 3}, Points([Point(1), Point(2, 1.5)], 2, True), Size.LARGE, 2, "x1", 9, Node(1, [Node(2, [Node(3)])]), "J", ["m"],
)
ORDER_QUERY = (
    "price=1.10&weight=-2000.0&born=2024-02-29&at=2024-01-01T10:00:00.5&id=00000000-0000-0000-0000-000000000007&tags[]=a&tags[]=b"
    "&counts[2024-01-02]=3&points[items][0][x]=1&points[items][1][x]=2&points[items][1][y]=1.5&points[total]=2&points[last]=true&size=2&side=2"
    "&either=x1&number=9&tree[value]=1&tree[below][0][value]=2&tree[below][0][below][0][value]=3&first-name=J&more[]=m"
)


USER_SHAPE = (
    '{name: text, ids: [i64], home: {city: text, floor?: i8}, note: text?, at: (i64, text), tags: [text], scores: map(i64, i64), '
    'data: bytes, flags: {"first%20name"?: text, x-y?: bool}, sort?: enum(new, "old%20one"), side?: enum(left, right), more?: any}'
)
QUERY = (
    "name=J%C3%BCrgen&ids[0]=-1&ids[1]=2&home[city]=Oslo&at[0]=7&at[1]=x&tags[0]=a&scores[-3]=4&data=a%FFb"
    "&flags[first+name]=Q&sort=old+one&more[k]=v"
)
USER = User(
    "Jürgen", [-1, 2], Address("Oslo"), None, (7, "x"), ("a",), {-3: 4}, b"a\xffb", {"first name": "Q"}, Sort.OLD, "left", {"k": "v"}
)


def fastest(call):
    """The least of three times that the call takes."""
    times = []
    for _ in range(3):
        began = time.process_time()
        call()
        times.append(time.process_time() - began)
    return min(times)


class Calls(unittest.TestCase):
    def test_reads_as_json_does(self):
        self.assertEqual(serde_qs.loads("a[b]=1&c&d="), {"a": {"b": "1"}, "c": None, "d": ""})
        self.assertEqual(serde_qs.loads(""), {})
        self.assertEqual(serde_qs.dumps({"a": {"b": [1, True, None]}}), "a[b][0]=1&a[b][1]=true&a[b][2]")
        for text in (b"a=1", bytearray(b"a=1"), memoryview(b"a=1")):
            self.assertEqual(serde_qs.loads(text), {"a": "1"})

    def test_what_is_written_comes_back(self):
        for value in ({"a": "1", "b": ""}, {"ids": {"17": "on", "23": "on"}}, {"2024": "x"}, {"a": [["1", None], [["2"]], {"b": ["3"]}]}, ["a", {"b": "c"}], {"é &=[b]": {"+%": "#"}}):
            self.assertEqual(serde_qs.loads(serde_qs.dumps(value)), value)

    def test_a_value_is_got(self):
        query = "user[name]=John+B.&ids[]=7&ids[]=8&raw=%FF"
        self.assertEqual(serde_qs.get("user[name]", query), "John B.")
        self.assertEqual(serde_qs.get("ids", query), "8")
        self.assertIsNone(serde_qs.get("user[age]", query))
        self.assertEqual(serde_qs.get("user[age]", query, "30"), "30")
        for path, status in (("raw", 6), ("user", 5), ("a=b", 13)):
            with self.assertRaises(serde_qs.QuerystringError) as caught:
                serde_qs.get(path, query, "none")
            self.assertEqual(caught.exception.status, status)

    def test_what_is_no_text_is_a_type_error(self):
        for value in (5, None, ["a=1"], 1.5):
            for call in (serde_qs.parse, serde_qs.encode, serde_qs.decode, lambda it: serde_qs.read("any", it), lambda it: serde_qs.read(it, "")):
                self.assertRaises(TypeError, call, value)
            self.assertRaises(TypeError, serde_qs.get, "a", value)
        self.assertRaises(TypeError, serde_qs.parse, "a=1", depth=5)

    def test_no_value_is_lost(self):
        query, pairs = "1=a&%31=b", [("1", "a"), ("1", "b")]
        calls = (lambda: serde_qs.parse(query), "duplicate field `1`"), (lambda: serde_qs.read("any", query), "two keys of a map have the text `1`")
        for call, message in calls:
            with self.assertRaisesRegex(serde_qs.QuerystringError, message) as caught:
                call()
            self.assertEqual((caught.exception.status, caught.exception.position), (5, 0))
        self.assertRaises(serde_qs.QuerystringError, serde_qs.read_as, typing.Dict[str, str], query)
        self.assertEqual(serde_qs.read("map(text, text)", query, pairs=True), pairs)

    def test_a_broken_key_with_a_bracket_has_a_hint(self):
        with self.assertRaisesRegex(serde_qs.QuerystringError, "consider using form encoding mode"):
            serde_qs.parse("a=1&b%5B%FF%5D=1")

    def test_a_lone_surrogate_is_an_error_of_this_module(self):
        for call in (serde_qs.parse, serde_qs.write, serde_qs.encode, serde_qs.decode):
            with self.assertRaises(serde_qs.QuerystringError) as caught:
                call("a=\ud800")
            self.assertEqual(caught.exception.status, 6)

    def test_errors(self):
        with self.assertRaises(ValueError) as caught:
            serde_qs.parse("user=John&user[ids][0]=1")
        copy = pickle.loads(pickle.dumps(caught.exception))
        self.assertEqual((copy.status, copy.position, str(copy)), (Status.PARSE_ERROR, 16, str(caught.exception)))
        with self.assertRaises(serde_qs.QuerystringError) as caught:
            serde_qs.read("{user: {age: u8}, ids: [u8]}", "user[age]=300&ids[]=1")
        self.assertEqual((caught.exception.path, pickle.loads(pickle.dumps(caught.exception)).path), ("user[age]", "user[age]"))
        self.assertRaises(TypeError, serde_qs.write, {"a": object()})
        self.assertRaises(ValueError, serde_qs.write, {"a": float("nan")})
        self.assertRaises(serde_qs.QuerystringError, serde_qs.write, {"a": b"\xff"})

    def test_a_number_without_room_is_rejected(self):
        for name in ("max_depth", "array_format"):
            for number in (-1, 256, 1 << 64):
                with self.assertRaises(serde_qs.QuerystringError) as caught:
                    serde_qs.parse("a=1", **{name: number})
                self.assertEqual(caught.exception.status, 3)

    def test_limits(self):
        self.assertEqual(serde_qs.parse("a=1&b=2", max_length=7, max_pairs=2, max_output=17), {"a": "1", "b": "2"})
        for limit, status in (({"max_length": 6}, 10), ({"max_pairs": 1}, 10), ({"max_output": 16}, 11), ({"max_pairs": -1}, 3)):
            with self.assertRaises(serde_qs.QuerystringError) as caught:
                serde_qs.parse("a=1&b=2", **limit)
            self.assertEqual(caught.exception.status, status)

    def test_settings_for_the_web(self):
        self.assertEqual(serde_qs.parse("a%5Bb%5D=1", **serde_qs.WEB), {"a": {"b": "1"}})
        for query in ("&" * 4096, "a=" + "x" * (1 << 20)):
            with self.assertRaises(serde_qs.QuerystringError) as caught:
                serde_qs.parse(query, **serde_qs.WEB)
            self.assertEqual(caught.exception.status, Status.TOO_LARGE)

    def test_a_library_of_another_version_is_an_import_error(self):
        for wanted in ((1, 1, 4, 1), (1, 2, 0, 1), (2, 0, 0, 1), (0, 9, 0, 1), (1, 1, 3, 2)):
            with unittest.mock.patch.object(_library, "WANTED", wanted):
                self.assertRaises(ImportError, _library._version_of, _library.library)
        with unittest.mock.patch.object(_library, "WANTED", (1, 0, 9, 1)):
            self.assertEqual(_library._version_of(_library.library)[0], 1)

    def test_as_a_command(self):
        def printed(text, *words):
            ran = subprocess.run([sys.executable, "-m", "serde_qs", *words], input=text, capture_output=True, text=True)
            return ran.returncode, ran.stdout or ran.stderr

        self.assertEqual(printed("a[b]=1\n"), (0, json.dumps({"a": {"b": "1"}}, indent=4) + "\n"))
        self.assertEqual(printed("a%5Bb%5D=1", "{a: {b: u8}}", "--form", "--compact"), (0, '{"a": {"b": 1}}\n'))
        self.assertEqual(printed("a[b]=x", "{a: {b: u8}}"), (1, "a[b]: invalid type: string, expected u8\n"))
        self.assertEqual(printed('{"a": [1]}', "--write"), (0, "a[0]=1\n"))

    def test_a_shape_with_many_names_takes_little_time(self):
        """No more than four times a querystring as long."""
        names = [f"name{at}" for at in range(100_000)]
        shape = "{" + ", ".join(f"{name}: u8?" for name in names) + "}"
        query = "&".join(f"{name}=1234" for name in names)
        self.assertEqual(serde_qs.read(shape, "name7=3")["name7"], 3)
        self.assertLess(len(shape), 1.1 * len(query))
        self.assertLessEqual(fastest(lambda: serde_qs.read(shape, "name7=3")), 4 * fastest(lambda: serde_qs.parse(query)))


class Shapes(unittest.TestCase):
    def test_a_class_has_a_shape(self):
        self.assertEqual(serde_qs.shape_of(User), USER_SHAPE)
        self.assertEqual(serde_qs.shape_of(typing.Optional[bool]), "bool?")
        self.assertEqual(serde_qs.shape_of(typing.Dict[Sort, typing.Any]), 'map(enum(new, "old%20one"), any)')

    def test_an_instance_is_read_and_written(self):
        self.assertEqual(serde_qs.read_as(User, QUERY), USER)
        written = dataclasses.replace(USER, data="ü".encode())
        self.assertEqual(serde_qs.read_as(User, serde_qs.dumps(written)), written)
        self.assertEqual(serde_qs.read_as(typing.Dict[bool, typing.List[Address]], "true[0][city]=x&true[0][floor]=-2"), {True: [Address("x", -2)]})

    def test_what_is_made_of_texts(self):
        order = serde_qs.read_as(Order, ORDER_QUERY + "&factor=8")
        self.assertEqual((order, order.factor_given), (ORDER, 8))
        self.assertRaises(TypeError, serde_qs.dumps, ORDER)  # keys as in json
        written = dataclasses.replace(ORDER, counts={}, factor=1)
        self.assertEqual(serde_qs.read_as(Order, serde_qs.dumps(written)), written)
        self.assertEqual(serde_qs.dumps({"at": [Point(1)], "sizes": {Size.LARGE}}), "at[0][x]=1&at[0][y]=0.5&sizes[0]=2")
        both = typing.Union[int, str]
        self.assertEqual([serde_qs.read_as(typing.List[both], f"[]={text}")[0] for text in ("07", "%2B7", "7.0", "9223372036854775808", "")], [7, 7, "7.0", "9223372036854775808", ""])

    def test_what_is_no_such_text_has_a_path(self):
        wrong = {
            "weight": ("weight=1.", "weight"), "at": ("at=2024-01-01", "at"), "id": ("id=7", "id"), "born": ("born=2024-02-30", "born"),
            "counts": ("counts[x+y]=1", "counts[x+y]"), "points": ("points[items][0][x]=1&points[items][1][x]=2&points[items][1][y]=1e999", "points[items][1][y]"),
        }
        for name, (part, path) in wrong.items():
            others = [pair for pair in ORDER_QUERY.split("&") if not pair.startswith(name)]
            with self.assertRaisesRegex(serde_qs.QuerystringError, "expected a .*, found the text") as caught:
                serde_qs.read_as(Order, "&".join([*others, part]))
            self.assertEqual((caught.exception.path, caught.exception.status), (path, Status.MISMATCH))
        with self.assertRaisesRegex(serde_qs.QuerystringError, "two keys of a map are equal"):
            serde_qs.read_as(typing.Dict[float, str], "1.5=a&1.50=b")

    def test_a_shape_of_its_own(self):
        upper = typing.Annotated[str, Shape("text", str.upper)]
        self.assertEqual(serde_qs.read_as(typing.Dict[str, upper], "a=x"), {"a": "X"})
        self.assertEqual(serde_qs.shape_of(typing.Annotated[int, "a string is no shape"]), "i64")
        number = typing.Annotated[int, Shape("text", lambda text: int(text, 16))]
        with self.assertRaises(serde_qs.QuerystringError) as caught:
            serde_qs.read_as(typing.List[number], "[]=ff&[]=x")
        self.assertEqual(caught.exception.path, "1")

    @unittest.skipUnless(hasattr(typing, "NotRequired"), "NotRequired is of Python 3.11")
    def test_marks_of_a_typed_dict(self):
        self.assertEqual(serde_qs.shape_of(Marked), "{a: i64, b?: text, c?: i64}")

    def test_a_class_that_holds_itself(self):
        self.assertEqual(serde_qs.read_as(Node, "value=1"), Node(1))
        chain = Node(1, [Node(2, [Node(3, [Node(4)])])])
        self.assertEqual(serde_qs.read_as(Node, serde_qs.dumps(chain, max_depth=9), max_depth=9), chain)
        with self.assertRaises(serde_qs.QuerystringError):
            serde_qs.read_as(Node, serde_qs.dumps(chain, max_depth=9))

    def test_names_are_quoted(self):
        names = ['a"b', "a b", "a%b", "a[b]", "é", "a&b=c"]
        record = typing.TypedDict("record", {name: str for name in names})
        query = "a%22b=x&a+b=x&a%25b=x&a%5Bb%5D=x&%C3%A9=x&a%26b%3Dc=x"
        self.assertEqual(serde_qs.read_as(record, query), dict.fromkeys(names, "x"))

    def test_what_has_no_shape_is_a_type_error(self):
        hints = (complex, typing.Union[int, typing.List[int]], typing.Dict[bytes, int], typing.Literal[1, "1"], enum.Flag("Flag", "A B"), "text", typing.Callable)
        for hint in hints:
            self.assertRaises(TypeError, serde_qs.shape_of, hint)
        self.assertEqual([serde_qs.shape_of(hint) for hint in (typing.List, dict, typing.Tuple, typing.Sequence)], ["[any]", "map(text, any)", "[any]", "[any]"])
        inner = dataclasses.make_dataclass("Inner", [("x", typing.List[complex])])
        fields = {"inner": inner, "x": "Nowhere", "y": typing.Annotated[int, Shape("u9")], "z": typing.Optional[complex]}
        for name, hint in fields.items():
            outer = dataclasses.make_dataclass("Outer", [("a", int), (name, hint)])
            with self.assertRaisesRegex(TypeError, rf"^Outer\.{name}(\.x)?: "):
                serde_qs.shape_of(outer)

    def test_what_does_not_fit_is_an_error(self):
        for query in ("city=x&floor=200", "floor=1", "city[a]=1"):
            self.assertRaises(serde_qs.QuerystringError, serde_qs.read_as, Address, query)

    def test_each_wrong_field_is_explained(self):
        form = dataclasses.make_dataclass("Form", [("name", str), ("price", decimal.Decimal), ("home", Address), ("ids", typing.List[int])])
        text, wrong = "expected a text, found nothing", serde_qs.explain_fields(form, "price=x&home[floor]=1&ids[]=1&ids[]=y")
        number = ("price", 'expected a number, found the text "x"')
        self.assertEqual(wrong, [("name", text), number, ("home[city]", text), ("ids[1]", 'expected i64, found the text "y"')])
        self.assertEqual(serde_qs.explain_fields(form, "name=a&price=x&home[city]=Ely&ids[]=1"), [number])
        self.assertEqual(serde_qs.explain_fields(form, "name=a&price=1&home[city]=Ely&ids[]=1"), [])
        self.assertEqual([path for path, _ in serde_qs.explain_fields(form, "a[")], [""])
        prices = typing.List[decimal.Decimal]
        self.assertEqual([serde_qs.explain_fields(prices, query) for query in ("0=1&1=x", "0=1&1[a]=2", "0=1")], [
            [("1", 'expected a number, found the text "x"')], [("1", "expected a text, found nested keys")], []
        ])


def load_tests(loader, tests, pattern):
    for module in (serde_qs, _shapes):
        tests.addTests(doctest.DocTestSuite(module))
    return tests
