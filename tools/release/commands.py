"""The commands that a release has, each with the parser that reads its words."""
import argparse
import configparser
import importlib
import importlib.util
import os
import re
import sys
from importlib.machinery import SourceFileLoader
from unittest import mock

from release import Unfit


class Caught(BaseException):
    """A parser that was about to read words."""

    def __init__(self, parser):
        super().__init__()
        self.parser = parser


def catch(parser, *_, **__):
    raise Caught(parser)


def entries(top):
    """The commands of the Python package: for each the module and the function that it calls."""
    with open(os.path.join(top, "python", "pyproject.toml"), encoding="utf-8") as file:
        part = re.search(r"^\[project\.scripts\]\n(.*?)(?=^\[|\Z)", file.read(), re.M | re.S)
    reader = configparser.ConfigParser()
    reader.read_string("[scripts]\n" + (part[1] if part else ""))
    return {name: tuple(place.strip('"').split(":")) for name, place in reader["scripts"].items()}


def parser_of(name, module, function):
    """The parser of a command, as it is when the command begins to read its words."""
    try:
        main = getattr(importlib.import_module(module), function)
        with mock.patch.object(argparse.ArgumentParser, "parse_known_args", catch):
            main([])
    except Caught as caught:
        return caught.parser
    except Exception as fault:  # whatever a command does before it reads words
        raise Unfit(f"the command {name} can't be loaded: {fault}") from fault
    raise Unfit(f"the command {name} reads its words by no parser")


def parsers(top):
    """The parser of each command of the Python package, from the sources below a folder."""
    sys.path.insert(0, os.path.join(top, "python"))
    return {name: parser_of(name, *place) for name, place in sorted(entries(top).items())}


def manual_maker(top):
    """The tool that makes the manual page of cg."""
    loader = SourceFileLoader("make_manual", os.path.join(top, "tools", "make-manual"))
    module = importlib.util.module_from_spec(importlib.util.spec_from_loader("make_manual", loader))
    loader.exec_module(module)
    return module


def program_parser(top):
    """A parser with the options of cg, from the manual's table."""
    maker = manual_maker(top)
    with open(os.path.join(top, "docs", "LANGUAGE.md"), encoding="utf-8") as file:
        ends = maker.section(file.read(), "The command line")
    parser = argparse.ArgumentParser(prog="cg", add_help=False)
    for tag, span, _, says in maker.table(ends, "Option", "Range", "Default", "What it says"):
        parser.add_argument(tag.strip("`"), metavar="N", help=f"{re.split('[;,]', says)[0]} ({span})")
    return parser
