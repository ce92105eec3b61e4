"""The words of the command line."""
import re

RANGES = {"workers": (1, 64, 4), "cells": (1, 67108864, 4194304), "positions": (1, 1048576, 65536), "sample": (1, 4096, 0)}


def settings_of(words):
    """The settings by their names, or None where the words aren't accepted.

    An option has two hyphens and its whole name, and its value is the next word or stands behind `=`: digits, with a plus
    before them as one likes. Each comes once at most. Two hyphens alone may stand last.
    """
    settings = {}
    words = list(words)
    if words[-1:] == ["--"]:
        words.pop()
    while words:
        name, equals, value = words.pop(0).partition("=")
        if name[:2] != "--" or name[2:] not in RANGES or name[2:] in settings:
            return None
        if not equals:
            if not words:
                return None
            value = words.pop(0)
        low, high, _ = RANGES[name[2:]]
        if not re.fullmatch(r"\+?[0-9]+", value) or not low <= int(value) <= high:
            return None
        settings[name[2:]] = int(value)
    return {name: settings.get(name, default) for name, (_, _, default) in RANGES.items()}
