"""Values: canonical forms, each by its name."""
from __future__ import annotations

from dataclasses import dataclass
from fractions import Fraction
from typing import ClassVar, Iterable, Optional

from cgcalc.exact import exact_number
from cgcalc.latex import latex_of
from cgcalc.names import birthday_of, may_be_name, no_name, options_of, read_plain, with_bars
from cgcalc.operands import Operand
from cgcalc.tree_pictures import tree_picture


@dataclass(frozen=True, eq=False)
class Value(Operand):
    """A canonical form, by its name. Equal games have equal values.

    A value stands wherever a game can, and a sum with a value is a game. The options are those of
    the canonical form, in the order of the program. A name of your own has to be as the program
    writes it; `Game("{2,1|0}").value` finds that.

    >>> value = Value("{2|^*}")
    >>> value.left_options, value.right_options
    ((Value(name='2'),), (Value(name='^*'),))
    >>> Value("3/4").number, Value("{2|0}").number
    (Fraction(3, 4), None)
    """

    name: str
    is_told: ClassVar[bool] = False
    """Whether it is known that the program writes the name so."""

    def __post_init__(self) -> None:
        if not may_be_name(self.name):
            raise no_name(self.name)

    @classmethod
    def told(cls, name: str) -> Value:
        """The value whose name the program told."""
        value = cls(name)
        object.__setattr__(value, "is_told", True)
        return value

    def _all(self, names: Iterable[str]) -> tuple[Value, ...]:
        """The values of names that are known as well as that of this one is."""
        return tuple(map(Value.told if self.is_told else Value, names))

    @property
    def expression(self) -> str:
        """The name, which can be typed back in."""
        return self.name

    @property
    def refused(self) -> bool:
        """Whether the line was refused: here never."""
        return False

    @property
    def number(self) -> Optional[Fraction]:
        """The number that the form is, or None for other forms."""
        plain = read_plain(self.name)
        return plain.number if plain and plain.is_number else None

    @property
    def left_options(self) -> tuple[Value, ...]:
        """Left's options in the canonical form.

        >>> Value("1/2*2").left_options
        (Value(name='1/2'), Value(name='1/2*'))
        """
        return self._all(options_of(self.name)[0])

    @property
    def right_options(self) -> tuple[Value, ...]:
        """Right's options in the canonical form.

        >>> Value("^^").right_options, Value("2").right_options
        ((Value(name='^*'),), ())
        """
        return self._all(options_of(self.name)[1])

    @property
    def birthday(self) -> int:
        """The birthday: 0 where there are no options, else 1 more than the latest of an option.

        >>> Value("{2|-1/2}").birthday
        3
        """
        return birthday_of(self.name)

    def __eq__(self, other: object) -> bool:
        if isinstance(other, Value):
            return self.name == other.name
        number = exact_number(other)
        if number is None:
            return NotImplemented
        return self.number == number

    def __bool__(self) -> bool:
        return self.name != "0"

    def __hash__(self) -> int:
        return hash(self.name if self.number is None else self.number)

    def __str__(self) -> str:
        return self.name

    def latex(self) -> str:
        r"""The value as papers write it, in LaTeX, for a formula.

        >>> print(Value("{{4|2}|-1/2}").latex())
        \{4 \mid 2 \parallel -\tfrac{1}{2}\}
        """
        return latex_of(with_bars(self.name))

    def tree_svg(self, *, title: Optional[str] = None) -> str:
        """A picture of the canonical form as a tree, in SVG; numbers stand for themselves."""
        return tree_picture(self, title).svg()

    def _repr_latex_(self) -> str:
        """The value as papers write it, for notebooks."""
        return f"${self.latex()}$"
