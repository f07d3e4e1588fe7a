"""Pieces of an SVG picture: texts, boxes, arrows, and a sheet with a ground that follows the reader's light or dark scheme."""

from __future__ import annotations

from collections.abc import Iterable, Mapping
from dataclasses import dataclass, field
from xml.sax.saxutils import escape

# The width of a sign on the average, as a part of the font's size.
PLAIN, MONO = 0.53, 0.605
DARK = "@media (prefers-color-scheme: dark)"


@dataclass(frozen=True)
class Tint:
    """The colours of what belongs together: ground and edge, in the light scheme and in the dark one."""

    light: tuple[str, str]
    dark: tuple[str, str]

    def rule(self, name: str, is_dark: bool) -> str:
        fill, stroke = self.dark if is_dark else self.light
        return f".of-{name} {{ fill: {fill}; stroke: {stroke}; stroke-width: 1.5; }}"


@dataclass(frozen=True)
class Box:
    """A rectangle."""

    x: float
    y: float
    width: float
    height: float

    @property
    def right(self) -> float:
        return self.x + self.width

    @property
    def bottom(self) -> float:
        return self.y + self.height

    @property
    def middle(self) -> float:
        return self.x + self.width / 2


def width_of(text: str, size: float, is_mono: bool = False) -> float:
    return len(text) * size * (MONO if is_mono else PLAIN)


def wrapped(words: Iterable[str], width: float, size: float, is_mono: bool = False, gap: str = " ") -> list[str]:
    """Returns words as lines that fit a width."""
    lines: list[str] = []
    for word in words:
        longer = f"{lines[-1]}{gap}{word}" if lines else word
        if lines and width_of(longer, size, is_mono) <= width:
            lines[-1] = longer
        else:
            lines.append(word)
    return lines


def number(value: float) -> str:
    return f"{value:.1f}".rstrip("0").rstrip(".")


@dataclass
class Sheet:
    """A picture that is drawn from top to bottom."""

    width: float
    title: str
    tints: Mapping[str, Tint]
    parts: list[str] = field(default_factory=list)

    def text(self, x: float, y: float, text: str, kind: str = "", anchor: str = "start") -> None:
        how = f' class="{kind}"' * bool(kind) + f' text-anchor="{anchor}"' * (anchor != "start")
        self.parts.append(f'<text{how} x="{number(x)}" y="{number(y)}" xml:space="preserve">{escape(text)}</text>')

    def rect(self, box: Box, kind: str, radius: float = 5) -> None:
        place = f'x="{number(box.x)}" y="{number(box.y)}" width="{number(box.width)}" height="{number(box.height)}"'
        self.parts.append(f'<rect class="{kind}" {place} rx="{number(radius)}"/>')

    def path(self, points: Iterable[tuple[float, float]], kind: str) -> None:
        """Draws a line from point to point that ends in an arrow."""
        first, *rest = points
        steps = "".join(f"L{number(x)} {number(y)}" for x, y in rest)
        self.parts.append(f'<path class="{kind}" d="M{number(first[0])} {number(first[1])}{steps}" marker-end="url(#arrow)"/>')

    def badge(self, x: float, y: float, text: str) -> None:
        self.parts.append(f'<circle class="badge" cx="{number(x)}" cy="{number(y)}" r="9"/>')
        self.text(x, y + 4, text, "on", "middle")

    def style(self) -> str:
        light = [
            "text { font: 12.5px system-ui, 'DejaVu Sans', sans-serif; fill: #1f2328; }",
            ".who { font-weight: 600; font-size: 14px; }",
            ".head { font-weight: 600; font-size: 17px; }",
            ".name { font: 11.5px ui-monospace, 'DejaVu Sans Mono', monospace; }",
            ".small { font: 10.5px ui-monospace, 'DejaVu Sans Mono', monospace; fill: #59636e; }",
            ".note { fill: #59636e; }",
            ".on { font-weight: 600; font-size: 11.5px; fill: #ffffff; }",
            ".sheet { fill: #ffffff; }",
            ".badge { fill: #1f2328; }",
            ".on-way { stroke: #1f2328; stroke-width: 1.5; fill: none; }",
            ".way-back { stroke: #59636e; stroke-width: 1.5; stroke-dasharray: 3 2.5; fill: none; }",
            ".tip { fill: #1f2328; }",
            *(tint.rule(name, False) for name, tint in self.tints.items()),
        ]
        dark = [
            "text { fill: #e6edf3; }",
            ".small, .note { fill: #9198a1; }",
            ".on { fill: #0d1117; }",
            ".sheet { fill: #0d1117; }",
            ".badge, .tip { fill: #e6edf3; }",
            ".on-way { stroke: #e6edf3; }",
            ".way-back { stroke: #9198a1; }",
            *(tint.rule(name, True) for name, tint in self.tints.items()),
        ]
        return "\n".join([*(f"    {it}" for it in light), f"    {DARK} {{", *(f"      {it}" for it in dark), "    }"])

    def drawn(self, height: float) -> str:
        """Returns the picture."""
        size = f'width="{number(self.width)}" height="{number(height)}"'
        head = [
            f'<svg xmlns="http://www.w3.org/2000/svg" viewBox="0 0 {number(self.width)} {number(height)}" {size} role="img" aria-labelledby="title">',
            f'  <title id="title">{escape(self.title)}</title>',
            "  <style>",
            self.style(),
            "  </style>",
            '  <defs><marker id="arrow" viewBox="0 0 10 10" refX="9" refY="5" markerWidth="7" markerHeight="7" orient="auto">',
            '    <path class="tip" d="M0 0 10 5 0 10z"/></marker></defs>',
            f'  <rect class="sheet" {size}/>',
        ]
        return "\n".join([*head, *(f"  {it}" for it in self.parts), "</svg>", ""])
