"""Filters of WFS and boxes, as tests of features. Needs no package."""
from __future__ import annotations

import operator
import re
from collections.abc import Iterable
from typing import TYPE_CHECKING, Any, Callable, Optional
from xml.etree.ElementTree import Element

from ..faults import Refused
from ..geometry.gml import SYSTEM, local
from ..geometry.shapes import Box
from ..geometry.world import EARTH, WORLD
from .actions import OF_IDS, fids_in, type_in
from .tables import Table, View, meets

if TYPE_CHECKING:
    from .sessions import Session

# What is asked of a feature, and of a value.
Test = Callable[[View], bool]
ValueTest = Callable[[Any], bool]
COMPARED: dict[str, Callable[[Any, Any], bool]] = {
    "PropertyIsEqualTo": operator.eq,
    "PropertyIsNotEqualTo": operator.ne,
    "PropertyIsLessThan": operator.lt,
    "PropertyIsGreaterThan": operator.gt,
    "PropertyIsLessThanOrEqualTo": operator.le,
    "PropertyIsGreaterThanOrEqualTo": operator.ge,
}
NULLS, NAMES = ("PropertyIsNull", "PropertyIsNil"), ("PropertyName", "ValueReference")


def box_of(text: str | None) -> Box | None:
    """The box of the parameter BBOX in the units of the map; None without one."""
    if not text:
        return None
    parts = text.split(",")
    if len(parts) > 4 and not SYSTEM.search(parts[4]):
        raise Refused(f"BBOX in {parts[4]}: EPSG:3857 is needed")
    return corners(numbers(parts[:4]))


def numbers(parts: list[str]) -> list[float]:
    """Four coordinates."""
    try:
        found = [float(part) for part in parts]
    except ValueError:
        found = []
    if len(found) != 4 or any(part != part for part in found):
        raise Refused(f"{','.join(parts)} is no box")
    return found


def corners(metres: Iterable[float]) -> Box:
    """The units of the map of a box in metres, which may reach beyond the world."""
    west, south, east, north = (min(max(part / EARTH, -0.5), 0.5) for part in metres)
    return (west + 0.5) * WORLD, (0.5 - north) * WORLD, (east + 0.5) * WORLD, (0.5 - south) * WORLD


def test_of(element: Element, table: Table, session: Session) -> Test:
    """What a filter asks of a feature, as a function of its view."""
    name = local(element)
    if name in ("Filter", "Or") and len(element) and all(local(child) in OF_IDS for child in element):
        return test_of_ids([fid for child in element for fid in fids_in(child)], session)
    if name in ("Filter", "And", "Or", "Not"):
        return joined_test(name, element, [test_of(child, table, session) for child in element])
    if name in OF_IDS:
        return test_of_ids(fids_in(element), session)
    if name in ("BBOX", "Intersects"):
        box = box_in(element)
        return lambda view: meets(view.box, box)
    named = [type_in((child.text or "").split("/")[-1]) for child in element if local(child) in NAMES]
    test = value_test(name, element, [child.text or "" for child in element.iter() if local(child) == "Literal"])
    if len(named) != 1 or test is None:
        # A GIS shows no feature then, and no reason.
        raise Refused(f"a filter with {name} isn't taken")
    known: ValueTest = test
    return lambda view: known(table.cell(view, named[0]))


def box_within(element: Element) -> Box | None:
    """A box that all features of a filter are in: that of the filter, or of a part that has to be true; None if there
    is none."""
    name = local(element)
    if name in ("BBOX", "Intersects"):
        return box_in(element)
    parts = list(element) if name == "And" or (name == "Filter" and len(element) == 1) else []
    return next((box for box in map(box_within, parts) if box is not None), None)


def ids_within(element: Element, session: Session) -> set[int] | None:
    """The numbers of the features that a filter names, if it names them by their ids alone, or a part that has to be
    true does; otherwise None."""
    name = local(element)
    if name in OF_IDS or (
        name in ("Filter", "Or") and len(element) and all(local(child) in OF_IDS for child in element)
    ):
        return {session.held(fid)[0] for part in element.iter() if local(part) in OF_IDS for fid in fids_in(part)}
    parts = list(element) if name == "And" or (name == "Filter" and len(element) == 1) else []
    return next((found for part in parts for found in [ids_within(part, session)] if found is not None), None)


def test_of_ids(fids: Iterable[str], session: Session) -> Test:
    """Whether a feature has one of these ids."""
    wanted = {session.held(fid)[0] for fid in fids}
    return lambda view: view.number in wanted


def joined_test(name: str, element: Element, tests: list[Test]) -> Test:
    """A test that joins others."""
    if not tests:
        raise Refused(f"a filter with {name} of nothing isn't taken")
    if name == "Not":
        return lambda view: not tests[0](view)
    some = any if name == "Or" else all
    return lambda view: some(test(view) for test in tests)


def box_in(element: Element) -> Box:
    """The box of an element of a filter."""
    found = [child.text or "" for child in element.iter() if local(child) in ("lowerCorner", "upperCorner")]
    if len(found) != 2:
        raise Refused(f"a filter with {local(element)} has no box with two corners")
    return corners(numbers(" ".join(found).split()))


def value_test(name: str, element: Element, literals: list[str]) -> ValueTest | None:
    """What a comparison asks of a value, as a function of it; None if it isn't known. A value that isn't there meets
    none but the null tests."""
    if name in NULLS:
        return lambda value: value is None
    if name == "PropertyIsBetween" and len(literals) == 2:
        return (
            lambda value: value is not None
            and compared(operator.ge, value, literals[0])
            and compared(operator.le, value, literals[1])
        )
    if name == "PropertyIsLike" and len(literals) == 1:
        parts = parts_of_like(element, literals[0])
        return lambda value: value is not None and is_like(parts, str(value))
    if name in COMPARED and len(literals) == 1:
        return lambda value: value is not None and compared(COMPARED[name], value, literals[0])
    return None


def parts_of_like(element: Element, literal: str) -> list[tuple[int, re.Pattern[str]]]:
    """What a PropertyIsLike has between its wildcards: the length and the regular expression of each part. In one
    expression of all, each wildcard would multiply the time by the length of the text."""
    wild, single = element.get("wildCard"), element.get("singleChar")
    escape, letters = element.get("escapeChar", element.get("escape")), iter(literal)
    made: list[list[str]] = [[]]
    for letter in letters:
        if letter == escape:
            made[-1] += map(re.escape, next(letters, ""))
        elif letter == single:
            made[-1].append(".")
        elif letter == wild:
            made.append([])
        else:
            made[-1].append(re.escape(letter))
    case = re.IGNORECASE if element.get("matchCase") == "false" else 0
    return [(len(part), re.compile("".join(part), re.DOTALL | case)) for part in made]


def is_like(parts: list[tuple[int, re.Pattern[str]]], text: str) -> bool:
    """Whether a text has these parts in their order: the first one at its beginning, the last one at its end, and each
    between them as soon as it comes."""
    (at, first), *others = parts
    if not others:
        return bool(first.fullmatch(text))
    *middle, (length, last) = others
    if not first.match(text):
        return False
    for _, part in middle:
        found = part.search(text, at)
        if not found:
            return False
        at = found.end()
    return at + length <= len(text) and bool(last.fullmatch(text, len(text) - length))


def compared(how: Callable[[Any, Any], bool], value: int | str, literal: str) -> bool:
    """Whether a value and the text of another compare so: as numbers if the value is one."""
    if isinstance(value, int):
        try:
            return how(value, float(literal))
        except ValueError:
            return how(str(value), literal)
    return how(value, literal)
