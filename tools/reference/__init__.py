"""A second program for the sessions of docs/LANGUAGE.md, written from the manual (that page, the columns and places of
docs/ERRORS.md, the costs of docs/COSTS.md, the limits of docs/LIMITS.md) and the textbook's definitions alone.

It shares no code with the calculator beside which it is run by `tools/compare-reference`. It is slow: a line is read by trying
all ways to read it, items are listed as they are defined, and forms are trees that are compared by the definition of the
order. Nothing of it is proved.

It has these methods in common with the calculator:

- boards of Domineering and Clobber are cut into pieces, whose values are added up;
- a heap of an octal game is the least nimber that none of its options is, and two heaps together are the nimber of the
  exclusive or of theirs;
- a sum of canonical forms has the sums of their options as its options, but a number is added to the options of the other alone;
- a form is reduced by bypassing reversible options and removing dominated ones, and where a number fits it is the simplest,
  looked for between the stops.

So on boards of up to eight cells, and on heaps of up to twelve tokens, it does without all of these as well: `whole` builds the
whole tree of moves and reduces it by the definition alone, and a difference ends the comparison. On larger ones a fault of such
a method that both programs had would not be seen.

    python3 tools/reference [--workers W] [--cells N] [--positions P] [--sample n] < session
"""
