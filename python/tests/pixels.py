"""The pixels of pictures that rsvg-convert draws, as Pillow reads them."""
from __future__ import annotations

import io
import subprocess
from importlib import import_module
from typing import Any

Pixel = tuple[int, int, int]


class Pixels:
    """A picture, by its pixels."""

    def __init__(self, content: bytes) -> None:
        self._image: Any = import_module("PIL.Image").open(io.BytesIO(content)).convert("RGB")
        self.width, self.height = self._image.size

    def pixel(self, x: int, y: int) -> Pixel:
        """The colour at a place."""
        red, green, blue = self._image.getpixel((x, y))
        return red, green, blue

    def columns(self, y: int, colour: Pixel) -> list[int]:
        """Where in a row the colour is nearly this one."""
        return [x for x in range(self.width) if near(self.pixel(x, y), colour)]


def near(first: Pixel, second: Pixel) -> bool:
    """Whether two colours are nearly the same."""
    return all(abs(one - two) < 40 for one, two in zip(first, second))


def rendered(svg: str, zoom: int = 2) -> Pixels:
    """What rsvg-convert draws of a picture, so many pixels for one."""
    done = subprocess.run(
        ["rsvg-convert", "--zoom", str(zoom)],
        input=svg.encode(),
        capture_output=True,
        check=True,
        timeout=60,
    )
    return Pixels(done.stdout)
