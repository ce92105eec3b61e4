"""The manual pages of the Python commands, each from the parser that reads the command's words."""
import argparse
import os
import re
import sys

PAGE = r"""
.\" Made by tools/make-packages from the words that the command reads.
.TH {title} 1 "{date}" "cg {version}" "User Commands"
.SH NAME
{name} \- {short}
.SH SYNOPSIS
{usage}
.SH DESCRIPTION
{about}
.SH OPTIONS
{options}
.SH ENVIRONMENT
.TP
\fBCG\fR
The program that is asked. Without it that is the one that came with the command, else
.B cg
on the path.
{example}.SH SEE ALSO
.BR cg (1){others}
"""


def usage_of(parser, roff):
    """The words of a command, as its page shows them."""
    words = parser.format_usage().partition(":")[2].split()
    return roff(re.sub(r"(^|\[)(-[-\w]*|%s)" % re.escape(parser.prog), r"\1`\2`", " ".join(words)))


def tags(parser):
    """What can stand in the words of a command, each with what it says."""
    shown = parser._get_formatter()  # it knows how a value is named  # pylint: disable=protected-access
    for action in parser._actions:  # pylint: disable=protected-access
        if action.help is argparse.SUPPRESS:
            continue
        value = "" if action.nargs == 0 else shown._format_args(action, action.dest.upper())
        names = ", ".join(f"`{name}` {value}".strip() for name in action.option_strings) or f"`{action.metavar or action.dest}`"
        says = shown._expand_help(action) if action.help else ""
        yield names, says[:1].upper() + says[1:] + "."


def example_of(parser, module, plain):
    """The example that the first lines of the command's module have, where there is one."""
    found = re.search(rf"^    ({parser.prog} .*)$", sys.modules[module].__doc__ or "", re.M)
    return f".SH EXAMPLES\n.nf\n{plain(found[1])}\n.fi\n" if found else ""


def page(parser, module, others, maker, version, date):
    """The manual page of a command."""
    about = " ".join((parser.description or "").split())
    first = re.split(r"(?<=[.;])\s", about)[0].rstrip(".;")
    texts = [about, " ".join((parser.epilog or "").split())]
    return PAGE.lstrip("\n").format(
        title=maker.plain(parser.prog.upper()), date=date, version=version, name=maker.plain(parser.prog),
        short=maker.plain(first[:1].lower() + first[1:]), usage=usage_of(parser, maker.roff),
        about="\n.PP\n".join(maker.roff(text) for text in texts if text),
        options=maker.tagged(tags(parser)), example=example_of(parser, module, maker.plain),
        others="".join(f",\n.BR {maker.plain(name)} (1)" for name in others))


def pages(parsers, modules, maker, version, date):
    """The manual pages of commands, by their files' names."""
    os.environ["COLUMNS"] = "10000"
    for name, parser in parsers.items():
        others = [other for other in parsers if other != name]
        yield f"{name}.1", page(parser, modules[name], others, maker, version, date)
