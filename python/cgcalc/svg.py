"""SVG: tags, and pictures that can stand side by side."""
from __future__ import annotations

from dataclasses import dataclass
from typing import Sequence, Union

FONT = "Helvetica, Arial, 'DejaVu Sans', sans-serif"
FONT_SIZE = 12
TITLE_SIZE = 14
LETTER = 7.2
INK = "#222222"
FAINT = "#e4e4e4"
LEFT = "#1f5fbf"
RIGHT = "#c62f2f"
EITHER = "#2e8b57"

Number = Union[int, float]


def tag(name: str, *content: str, **attributes: Union[str, Number]) -> str:
    """A tag with attributes, of which `_` stands for a dash; numbers have two places at most.

    >>> tag("line", x1=0, y1=2.50, stroke_width=1.005)
    '<line x1="0" y1="2.5" stroke-width="1"/>'
    """
    words = [name]
    for key, value in attributes.items():
        text = value if isinstance(value, str) else number_text(value)
        words.append(f"{key.rstrip('_').replace('_', '-')}={quoteattr(text)}")
    head = " ".join(words)
    return f"<{head}>{''.join(content)}</{name}>" if content else f"<{head}/>"


def escape(text: str) -> str:
    """A text as it stands between tags."""
    return text.replace("&", "&amp;").replace("<", "&lt;").replace(">", "&gt;")


def quoteattr(text: str) -> str:
    """A text as the value of an attribute, in quotation marks.

    >>> print(quoteattr('Snort("..","ab")'), quoteattr("it's"), quoteattr("both ' and \\""))
    'Snort("..","ab")' "it's" "both ' and &quot;"
    """
    written = escape(text)
    for letter, name in (("\n", "&#10;"), ("\r", "&#13;"), ("\t", "&#9;")):
        written = written.replace(letter, name)
    if '"' in written and "'" not in written:
        return f"'{written}'"
    return '"' + written.replace('"', "&quot;") + '"'


def number_text(number: Number) -> str:
    """A number with two places at most.

    >>> number_text(2.504), number_text(-0.001), number_text(3)
    ('2.5', '0', '3')
    """
    text = f"{number:.2f}".rstrip("0").rstrip(".")
    return "0" if text == "-0" else text


def words(text: str, x: Number, y: Number, **attributes: Union[str, Number]) -> str:
    """A text at a place."""
    return tag("text", escape(text), x=x, y=y, **attributes)


def path(*points: tuple[Number, Number], **attributes: Union[str, Number]) -> str:
    """A line through points."""
    places = " ".join(f"{number_text(x)},{number_text(y)}" for x, y in points)
    attributes.setdefault("fill", "none")
    return tag("polyline", points=places, **attributes)


def width_of(text: str) -> float:
    """About how wide a text is."""
    return LETTER * len(text)


@dataclass(frozen=True)
class Picture:
    """What is drawn on a white ground of some width and height, and what it shows, in words."""

    width: float
    height: float
    shows: str
    body: str

    def svg(self) -> str:
        """The picture as a document of its own."""
        return self._tag(xmlns="http://www.w3.org/2000/svg") + "\n"

    def at(self, x: Number, y: Number) -> str:
        """The picture at a place of another."""
        return self._tag(x=x, y=y)

    def _tag(self, **attributes: Union[str, Number]) -> str:
        box = f"0 0 {number_text(self.width)} {number_text(self.height)}"
        ground = tag("rect", width="100%", height="100%", fill="white")
        drawn = tag(
            "g", f"\n{self.body}\n", font_family=FONT, font_size=FONT_SIZE, stroke_linecap="round"
        )
        return tag(
            "svg",
            f"\n<title>{escape(self.shows)}</title>\n{ground}\n{drawn}\n",
            **attributes,
            width=self.width,
            height=self.height,
            viewBox=box,
            role="img",
        )


def side_by_side(pictures: Sequence[Picture]) -> Picture:
    """Pictures in a row, their lower edges on one line."""
    height = max(picture.height for picture in pictures)
    placed, x = [], 0.0
    for picture in pictures:
        placed.append(picture.at(x, height - picture.height))
        x += picture.width
    return Picture(x, height, "; ".join(picture.shows for picture in pictures), "\n".join(placed))
