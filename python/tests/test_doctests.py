"""The examples of the docstrings, of the package's README and of two pages of docs/."""
from __future__ import annotations

import doctest
import importlib
import pkgutil
from typing import Iterator

import pytest

import cgcalc
from tests.places import ROOT

PAGES = ("python/README.md", "docs/TOOLS.md", "docs/BATCHES.md")


def examples() -> Iterator[doctest.DocTest]:
    """The examples: those of a docstring, or of a page, together."""
    names = [found.name for found in pkgutil.walk_packages(cgcalc.__path__, "cgcalc.")]
    for name in [cgcalc.__name__, *names]:
        module = importlib.import_module(name)
        found = doctest.DocTestFinder(exclude_empty=True).find(module, name)
        yield from (test for test in found if test.examples)
    for page in PAGES:
        text = (ROOT / page).read_text()
        yield doctest.DocTestParser().get_doctest(text, {}, page, page, 0)


@pytest.mark.parametrize("test", [pytest.param(test, id=test.name) for test in examples()])
def test_examples(test: doctest.DocTest) -> None:
    told: list[str] = []
    result = doctest.DocTestRunner().run(test, out=told.append)
    assert result.attempted and not result.failed, "".join(told)
