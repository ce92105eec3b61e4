"""Completions for bash, zsh and fish, each from the parser that reads a command's words."""
import argparse
import os

import shtab

PLACES = {
    "bash": os.path.join("share", "bash-completion", "completions"),
    "zsh": os.path.join("share", "zsh", "site-functions"),
    "fish": os.path.join("share", "fish", "vendor_completions.d"),
}
NAMES = {"bash": "{}", "zsh": "_{}", "fish": "{}.fish"}
FILE = "FILE"


def takes_file(action):
    """Whether a word is the name of a file."""
    return action.metavar == FILE


def told_files(parser):
    """The parser, whose words that name files say so to shtab."""
    for action in parser._actions:  # pylint: disable=protected-access
        if takes_file(action):
            action.choices = [shtab.Choice("file")]
    return parser


def quoted(text):
    """A text as a word of fish."""
    return "'" + text.replace("\\", "\\\\").replace("'", "\\'") + "'"


def fish_lines(parser):
    """The lines of fish that complete the words of a command."""
    actions = [action for action in parser._actions if action.help is not argparse.SUPPRESS]
    yield f"complete -c {parser.prog}{'' if any(takes_file(it) for it in actions if not it.option_strings) else ' -f'}"
    for action in (it for it in actions if it.option_strings):
        words = [f"complete -c {parser.prog}"]
        words += [f"-l {name[2:]}" if name.startswith("--") else f"-s {name[1:]}" for name in action.option_strings]
        if action.nargs != 0:
            words.append("-r -F" if takes_file(action) else "-x")
        if action.choices and not takes_file(action):
            words.append(f"-a {quoted(' '.join(map(str, action.choices)))}")
        if action.help:
            says = parser._get_formatter()._expand_help(action)  # pylint: disable=protected-access
            words.append(f"-d {quoted(says)}")
        yield " ".join(words)


def completions(parsers):
    """The files that complete the words of commands, by their places."""
    for name, parser in parsers.items():
        fish = "\n".join(fish_lines(parser)) + "\n"
        told = told_files(parser)
        for shell in ("bash", "zsh"):
            yield os.path.join(PLACES[shell], NAMES[shell].format(name)), shtab.complete(told, shell) + "\n"
        yield os.path.join(PLACES["fish"], NAMES["fish"].format(name)), fish
