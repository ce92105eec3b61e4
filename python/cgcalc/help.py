"""What the shell tells of questions, games and refusals: the tables and lists of the manual."""
from __future__ import annotations

from typing import Optional

from cgcalc.refusals import CAUSES, KINDS

QUESTIONS = {
    "value": ("value E", "the name of the canonical form of E"),
    "compare": ("compare E ; F", "`<`, `>`, `=`, or two bars if E and F are confused"),
    "outcome": (
        "outcome E",
        "who wins E: `L` Left, `R` Right, `P` the previous player, `N` the next player",
    ),
    "stops": ("stops E", "`left x right y`, the Left stop and the Right stop"),
    "mean": ("mean E", "the mean"),
    "temp": ("temp E", "the temperature"),
    "thermo": (
        "thermo E",
        "`mean m temp t left C right D`, with C and D the corners of the walls",
    ),
    "proof": ("proof E ; F", "whether E >= F, with a proof of it"),
    "check": ('check E ; F ; "P"', "`yes` if P is such a proof, else `no`"),
}
"""The manual's table of questions."""
EXPRESSIONS = {
    "Tiny": ("Tiny(2)", "tiny, `{0|{0|-2}}`, and its negative"),
    "Miny": ("Miny(2)", "tiny, `{0|{0|-2}}`, and its negative"),
    "Strip": ('Strip("rules","row")', "a position of a game on a strip, with rules of one's own"),
    "Hackenbush": ('Hackenbush("0b1,1r2")', "a position of Hackenbush, by its edges"),
    "Col": ('Col("..","ab")', "a position of the game on a graph, by its vertices and its edges"),
    "Snort": (
        'Snort("..","ab")',
        "a position of the game on a graph, by its vertices and its edges",
    ),
    "Octal": ('Octal("0.77",9)', "a heap of 9 tokens in the octal game 0.77"),
}
"""Lines of the manual's list of expressions."""
BOARDS = {
    "Domineering": (
        "`.` empty, `#` filled",
        "fill two empty cells, one above the other",
        "fill two empty cells side by side",
    ),
    "Clobber": (
        "`x` Left's, `o` Right's, `.` empty",
        "move an `x` onto an adjacent `o`, which is removed",
        "the same with `o` onto `x`",
    ),
    "Amazons": (
        "`x` Left's, `o` Right's, `.` empty, `#` blocked",
        "move an `x` as a queen along empty cells, then shoot from there along empty cells;"
        " the arrow's cell is blocked for good",
        "the same with an `o`",
    ),
    "Toads": (
        "`T` toad, `F` frog, `.` empty; one row",
        "a toad moves one cell right onto an empty cell, or jumps over one frog into the empty cell"
        " behind it",
        "a frog moves left likewise",
    ),
}
"""The manual's table of boards: the symbols, Left's moves and Right's."""
COMMANDS = {
    ":names": "lists the definitions",
    ":save": "`:save FILE` writes what was asked and defined, as a session for cg",
    ":load": "`:load FILE` answers the lines of a file, as `:save` writes them",
    ":share": "`:share N` gives each line N cells of the table from now on",
    ":positions": "`:positions P` allows each list of a line P items from now on",
    ":help": "tells the questions and commands; `:help thermo` tells of thermo, and so on",
    ":quit": "ends the shell, as Ctrl-D does; Ctrl-C stops a question",
    "plot": "`plot E` draws the thermograph of E",
}
TOPICS = sorted([*QUESTIONS, *EXPRESSIONS, *BOARDS, *COMMANDS, *KINDS, *CAUSES])


def overview() -> str:
    """What can be typed."""
    rows = [*QUESTIONS.values(), ("plot E", "the thermograph of E, drawn")]
    rows.append(("E", "the value of E"))
    rows.append(("g := E", "defines g, which stands for E from then on"))
    rows += [
        (":names", COMMANDS[":names"]),
        (":share N", "gives each line N cells of the table from now on"),
        (":positions P", "allows each list of a line P items from now on"),
        (":save FILE", "writes what was asked and defined, as a session for cg"),
        (":load FILE", "answers the lines of a file, as `:save` writes them"),
        (":help TOPIC", "tells of a question, a game, a command or a refusal"),
        (":quit", COMMANDS[":quit"]),
    ]
    width = max(len(form) for form, _ in rows)
    return "\n".join(f"{form:{width}}  {says}" for form, says in rows)


def help_on(topic: str) -> Optional[str]:
    """What there is to tell of a topic.

    >>> print(help_on("temp"))
    temp E: the temperature
    """
    named = topic if topic in COMMANDS else f":{topic}"
    game = topic[:1].upper() + topic[1:]
    if topic in QUESTIONS:
        return ": ".join(QUESTIONS[topic])
    if game in EXPRESSIONS:
        return ": ".join(EXPRESSIONS[game])
    if game in BOARDS:
        symbols, left, right = BOARDS[game]
        return f'{game}("..|.."): {symbols}\nLeft: {left}\nRight: {right}'
    if named in COMMANDS:
        return f"{named}: {COMMANDS[named]}"
    told = {**KINDS, **CAUSES}.get(topic)
    return told and f"! {topic}: " + told.format(column="C", place="P")
