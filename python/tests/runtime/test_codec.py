"""Values as JSON, and back by their types."""

import collections.abc
import dataclasses
import datetime
import enum
import unittest
import uuid
from decimal import Decimal
from typing import Any, Literal, NamedTuple, Optional, Protocol, TypedDict

import support  # noqa: F401  isort: skip
import needs
from palqytun.runtime.codec import JsonCodec

codec = JsonCodec()


class Plain:
    """Of which the codec knows nothing."""


class Typed(TypedDict):
    name: str


class Name(str):
    pass


class Pair(NamedTuple):
    one: int
    other: int


class Counts(Protocol):
    def count(self) -> int: ...


class Colour(enum.Enum):
    RED = "red"


@dataclasses.dataclass
class Part:
    name: str
    weight: float = 1.0


@dataclasses.dataclass
class Other:
    name: str
    more: int = 0


@dataclasses.dataclass
class Whole:
    parts: list[Part]
    colour: Colour
    made: datetime.datetime
    id: uuid.UUID
    pair: tuple[int, str] = (0, "")
    note: Optional[str] = None
    more: dict[str, Part] = dataclasses.field(default_factory=dict)


WHOLE = Whole([Part("a"), Part("b", 2.5)], Colour.RED, datetime.datetime(2026, 1, 2, 3, 4), uuid.UUID(int=7), (1, "x"), more={"c": Part("c")})


VALUES = [
    (None, Any), (None, None), (1, int), ("é", str), ([1, None], Any), ({"a": 1}, dict[str, int]), ((1, 2, 3), tuple[int, ...]), ({1, 2}, set[int]),
    (Decimal("19.90"), Decimal), ({"price": Decimal("-1E+3")}, dict[str, Decimal]), (b"\xff\x00", bytes), (b"", bytes | None),
    (WHOLE, Whole), ([WHOLE], list[Whole]), (Colour.RED, Colour), ("a", Literal["a", "b"]), (None, int | None), (Part("a"), Part | None), (True, bool),
]  # fmt: skip
REFUSED = [
    (b"1", str, "1 is no str"), (b"true", int, "no int"), (b'"a"', float, "no float"), (b"", int, "null is no int"), (b"{}", Part, "name"),
    (b'{"name":"a","size":1}', Part, "Part has no field size"), (b'{"name":1}', Part, "1 is no str"), (b"[1]", tuple[int, int], "tuple of 2"),
    (b'"c"', Literal["a", "b"], "one of"), (b"[]", dict[str, int], "no dict"), (b"{}", list[int], "no list"), (b'"blue"', Colour, "blue"),
    (b"1.5", Decimal, "1.5 is no Decimal"), (b"true", Decimal, "no Decimal"), (b'"NaN"', Decimal, "NaN is no JSON"), (b'"1,5"', Decimal, "'1,5' is no decimal number"),
    (b'"*"', bytes, ""), (b"1", bytes, "no bytes"), (b"{", Any, "Expecting"), (b'"x"', int | None, "none of the types"), (b"1", tuple, "no tuple"),
]  # fmt: skip


class Codec(unittest.TestCase):
    def test_there_and_back(self):
        for value, kind in VALUES:
            with self.subTest(value=value, kind=kind):
                self.assertEqual(codec.decode(codec.encode(value), kind), value)

    def test_what_is_not_of_the_type_is_refused(self):
        for data, kind, said in REFUSED:
            with self.subTest(data=data, kind=kind), self.assertRaisesRegex(ValueError, said):
                codec.decode(data, kind)

    def test_a_plain_class_is_refused_by_name(self):
        for kind in (Plain, Plain | None, list[Plain]):
            data = b'[{"name":"a"}]' if kind == list[Plain] else b'{"name":"a"}'
            with self.subTest(kind), self.assertRaisesRegex(ValueError, "^JSON isn't read as Plain: make it a dataclass, an enum or a model of pydantic, or give |is of none of the types"):
                codec.decode(data, kind)

    def test_classes_of_which_json_has_the_values(self):
        for data, kind, value in [
            (b'{"name":"a"}', Typed, {"name": "a"}), (b'{"name":"a"}', collections.abc.Mapping, {"name": "a"}), (b'"a"', Name, "a"), (b"[1,2]", Pair, [1, 2]), (b"1", Counts, 1),
        ]:  # fmt: skip
            with self.subTest(kind):
                self.assertEqual(codec.decode(data, kind), value)

    def test_an_int_is_a_float_and_a_decimal(self):
        self.assertIsInstance(codec.decode(b"1", float), float)
        self.assertEqual(repr(codec.decode(b"-12", Decimal)), "Decimal('-12')")

    def test_a_union_is_the_first_of_its_types_that_takes_the_value(self):
        rows = [(b"1", float | int, 1), (b"1", str | float, 1.0), (b'{"name":"a"}', Whole | Part, Part("a")), (b'{"name":"a"}', Part | Other, Part("a"))]
        for data, kind, value in [*rows, (b'{"name":"a","more":1}', Part | Other, Other("a", 1)), (b'"red"', Colour | str, "red"), (b"null", int | None, None)]:
            with self.subTest(data=data, kind=kind):
                found = codec.decode(data, kind)
                self.assertEqual((type(found), found), (type(value), value))

    def test_what_is_not_json_is_refused(self):
        with self.assertRaisesRegex(TypeError, "type object is not JSON"):
            codec.encode(object())
        for number in (float("nan"), float("inf"), float("-inf"), Decimal("NaN"), Decimal("-Infinity")):
            with self.subTest(number), self.assertRaisesRegex(ValueError, "not JSON compliant|is no JSON"):
                codec.encode({"n": [number]})
        for text in (b"NaN", b'{"n":Infinity}', b"[-Infinity]"):
            with self.subTest(text), self.assertRaises(ValueError):
                codec.decode(text, Any)

    def test_pydantic_models(self):
        if lacks := needs.lacks_module("pydantic"):
            self.skipTest(lacks)
        import pydantic

        class Model(pydantic.BaseModel):
            name: str
            count: int = 1

        self.assertEqual(codec.encode(Model(name="a")), b'{"name":"a","count":1}')
        self.assertEqual(codec.decode(b'[{"name":"b","count":2}]', list[Model]), [Model(name="b", count=2)])
        with self.assertRaises(ValueError):
            codec.decode(b'{"count":2}', Model)


if __name__ == "__main__":
    unittest.main()
