"""The picture of the house, docs/pictures/house.svg: the families and on what they stand, and the five ways of data through the crates."""

from __future__ import annotations

from dataclasses import dataclass
from pathlib import Path

from .courses import COURSES, Course, Stop, passing
from .families import FAMILIES, families, family_of, stands_on
from .svg import Box, Sheet, Tint, width_of, wrapped
from .tree import House

PICTURE = Path("docs", "pictures", "house.svg")
TITLE = "The families of crates, each on those below it, and the five ways of data through them."
WIDTH, EDGE, GAP, ROW = 1120.0, 24.0, 14.0, 26.0
PAD, LINE = 12.0, 16.0
PILL, HOP = 36.0, 24.0
GREY = Tint(("#f6f8fa", "#8c959f"), ("#161b22", "#6e7681"))
TINTS = {
    "ground": Tint(("#eaeef2", "#6e7781"), ("#21262d", "#8b949e")),
    "journal": Tint(("#dafbe1", "#1a7f37"), ("#033a16", "#3fb950")),
    "await": Tint(("#ffeff7", "#bf3989"), ("#42062a", "#db61a2")),
    "vm": Tint(("#ddf4ff", "#0969da"), ("#0c2d6b", "#58a6ff")),
    "store": Tint(("#fff8c5", "#9a6700"), ("#3b2300", "#d29922")),
    "world": Tint(("#fff1e5", "#bc4c00"), ("#3d1300", "#f0883e")),
    "engine": Tint(("#ffebe9", "#cf222e"), ("#490202", "#f85149")),
    "handler": Tint(("#fbefff", "#8250df"), ("#271052", "#a371f7")),
    "line": Tint(("#d2f4f1", "#0f766e"), ("#06302d", "#2dd4bf")),
    "c": Tint(("#e6e6fa", "#4f46b8"), ("#1e1b4b", "#a5b4fc")),
    "program": Tint(("#f0f6d8", "#4d7c0f"), ("#1f2f05", "#a3c644")),
}
# What calls the crates from outside; it stands on C.
CALLERS = "callers"


@dataclass(frozen=True)
class Room:
    """What is drawn of a family: its words, the names of its crates, the ways that pass by it, and its box."""

    name: str
    title: str
    about: list[str]
    names: list[str]
    ways: list[int]
    box: Box


def levels(on: dict[str, list[str]]) -> list[list[str]]:
    """Returns the families by their height: each one above all that it stands on. They come bottom up."""
    height: dict[str, int] = {}
    for name, below in on.items():
        height[name] = 1 + max((height[it] for it in below), default=-1)
    return [[name for name in on if height[name] == at] for at in range(max(height.values(), default=-1) + 1)]


def said(house: House) -> dict[str, tuple[str, str, list[str], list[int]]]:
    """Returns the title, the sentence, the crates and the ways of each part of the picture but the tests."""
    members = families(house)
    found = {it.name: (it.title, it.about, members[it.name], passing(members[it.name])) for it in FAMILIES if members[it.name]}
    found.pop("test", None)
    callers = [stop.place for course in COURSES for stop in course.stops if stop.is_python]
    found[CALLERS] = ("Callers", "C programs, Rust, Go, Java, Node, Ruby, the Python package and its durable runtime.", ["bindings/", "python/"], passing(callers))
    return found


def stack(house: House) -> tuple[dict[str, list[str]], list[list[str]]]:
    """Returns on what each part stands, and the parts of each height."""
    parts = said(house)
    on = {name: [it for it in below if it in parts] for name, below in stands_on(house).items() if name in parts}
    on[CALLERS] = ["c"]
    return on, levels(on)


def rooms(house: House, top: float) -> tuple[list[Room], float]:
    """Returns the rooms of the house, and where they end."""
    parts, (_, rows) = said(house), stack(house)
    found: list[Room] = []
    y = top
    for row in reversed(rows):
        room_of = (WIDTH - 2 * EDGE - GAP * (len(row) - 1)) / len(row)
        wide = room_of - 2 * PAD
        cut = {name: (wrapped(parts[name][1].split(), wide, 12.5), wrapped(parts[name][2], wide, 11.5, True, "  ")) for name in row}
        high = max(PAD * 2 + LINE * (1 + len(about) + len(names)) for about, names in cut.values())
        for at, name in enumerate(row):
            title, _, _, ways = parts[name]
            box = Box(EDGE + at * (room_of + GAP), y, room_of, high)
            found.append(Room(name, title, *cut[name], ways, box))
        y += high + ROW
    return found, y - ROW


def draw_room(sheet: Sheet, room: Room) -> None:
    box = room.box
    sheet.rect(box, f"of-{room.name}")
    y = box.y + PAD + 11
    sheet.text(box.x + PAD, y, room.title, "who")
    for at, way in enumerate(reversed(room.ways)):
        sheet.badge(box.right - PAD - 8 - at * 22, y - 4, str(way))
    for kind, lines in (("note", room.about), ("name", room.names)):
        for line in lines:
            y += LINE
            sheet.text(box.x + PAD, y, line, kind)


def draw_arrow(sheet: Sheet, upper: Room, lower: Room, is_next: bool, lane: float) -> None:
    """Draws that one stands on another: straight down, or at the edge past what is between."""
    one, other = upper.box, lower.box
    if not is_next:
        x = WIDTH - EDGE / 2 + lane
        sheet.path([(one.right, one.y + one.height / 2), (x, one.y + one.height / 2), (x, other.y + 12), (other.right, other.y + 12)], "on-way")
        return
    left, right = max(one.x, other.x), min(one.right, other.right)
    start = one.middle if left >= right else (left + right) / 2
    end = other.middle if left >= right else start
    middle = (one.bottom + other.y) / 2
    points = [(start, one.bottom), (start, middle), (end, middle), (end, other.y)] if start != end else [(start, one.bottom), (start, other.y)]
    sheet.path(points, "on-way")


def draw_house(sheet: Sheet, house: House, top: float) -> float:
    """Draws the families; returns where they end."""
    on, rows = stack(house)
    found, end = rooms(house, top)
    by_name = {it.name: it for it in found}
    height = {name: at for at, row in enumerate(rows) for name in row}
    past = 0
    for name, below in on.items():
        for other in below:
            is_next = height[name] - height[other] == 1
            past += not is_next
            draw_arrow(sheet, by_name[name], by_name[other], is_next, -3.0 * past)
    for room in found:
        draw_room(sheet, room)
    return end


def tint_of(stop: Stop) -> str:
    return CALLERS if stop.is_python else family_of(stop.place).name


def draw_course(sheet: Sheet, course: Course, at: int, top: float) -> float:
    """Draws one way: a pill a stop, with its function; returns where it ends."""
    sheet.badge(EDGE + 9, top + 10, str(at))
    sheet.text(EDGE + 26, top + 14.5, course.title, "who")
    x, y = EDGE, top + 28
    has_turned = False
    for place, stop in enumerate(course.stops):
        has_turned = has_turned or stop.back
        wide = 16 + max(width_of(stop.label, 11.5, True), width_of(stop.function, 10.5, True))
        if place and x + HOP + wide > WIDTH - EDGE:
            x, y = EDGE, y + PILL + 12
        if place:
            sheet.path([(x + 2, y + PILL / 2), (x + HOP - 2, y + PILL / 2)], "way-back" if has_turned else "on-way")
            x += HOP
        sheet.rect(Box(x, y, wide, PILL), f"of-{tint_of(stop)}", PILL / 2 if stop.is_python else 5)
        sheet.text(x + wide / 2, y + 15, stop.label, "name", "middle")
        sheet.text(x + wide / 2, y + 28.5, stop.function, "small", "middle")
        x += wide
    return y + PILL


def picture(house: House) -> str:
    """Returns the picture."""
    sheet = Sheet(WIDTH, TITLE, {**TINTS, CALLERS: GREY})
    sheet.text(EDGE, 34, "The house: each family of crates depends on those to which its arrows lead", "head")
    tests = len(families(house)["test"])
    sheet.text(EDGE, 54, f"A number says which way of data passes. Not drawn: {tests} crates of tests, on which nothing stands.", "note")
    y = draw_house(sheet, house, 70)
    sheet.text(EDGE, y + 48, "Five ways of data: crate and function, one after another", "head")
    sheet.text(EDGE, y + 68, "A full arrow goes on, a dashed one comes back. Colours are those of the families; round ends are files of Python.", "note")
    y += 86
    for at, course in enumerate(COURSES, 1):
        y = draw_course(sheet, course, at, y) + 22
    return sheet.drawn(y + 2)
