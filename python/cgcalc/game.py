"""Games: immutable objects that are added and compared, and that ask the program when they must."""
from __future__ import annotations

from fractions import Fraction
from typing import Any, Hashable, Optional

from cgcalc.answers import Answers, about
from cgcalc.board import Board, read_board
from cgcalc.defaults import default_session, session_so_far, shared_session
from cgcalc.definitions import Names
from cgcalc.errors import WrongCall
from cgcalc.exact import exact_number
from cgcalc.latex import latex_of
from cgcalc.moves.judged import SensibleMoves, judged_moves
from cgcalc.moves.sums import moves_in, sum_of
from cgcalc.operands import Expression, Operand, named, text_of
from cgcalc.replies import Proof, Stops
from cgcalc.session import Session
from cgcalc.terms import ZERO, Terms, added, multiplied, negated, terms_of, text_of_terms
from cgcalc.thermographs import Thermograph
from cgcalc.typed import Comparison
from cgcalc.values import Value


class Game(Operand):
    """A game, made of a text in the notation, a number, a value, a board or another game.

    A game never changes. What it is asked for, it asks the program once, when it is wanted: it
    asks `session`, or where that isn't given the default session. Names in its text mean what that
    session binds them to when the game is made, also if they are defined anew later. Refusals raise
    `Refused`. A game that equals 0 is false, as a number is.

    >>> g = Game("{2|-1}")
    >>> g.mean, g.temperature, g.outcome
    (Fraction(1, 2), Fraction(3, 2), 'N')
    >>> g + 1 == Game("{3|0}"), g > 0, g.is_confused_with(0), g < 3
    (True, False, True, True)
    >>> 2 * g - Game("^")
    Game('2.{2|-1} - ^')
    """

    __slots__ = ("_terms", "_board", "_session", "_answers", "_names", "__weakref__")
    _terms: Terms
    _board: Optional[Board]
    _session: Optional[Session]
    _answers: Answers
    _names: Names

    def __init__(self, made_of: Expression, *, session: Optional[Session] = None) -> None:
        if session is not None and not isinstance(session, Session):
            raise WrongCall(f"{session!r} is no session: give one such as Session()")
        terms, board, answers = _parts_of(made_of)
        asked = session or session_so_far()
        own = names = made_of._names if isinstance(made_of, Game) else Names()
        if asked is not None and asked.names.bound:
            names = own.completed(asked.names.used(text for _, text in terms))
        if names.bound != own.bound:
            answers = Answers()
        if isinstance(made_of, Game):
            session = session or made_of._session
        self._set(terms, board, session, answers, names)

    def _set(self, *contents: object) -> None:
        """Sets what the slots hold, in their order, once."""
        for name, content in zip(self.__slots__, contents):
            object.__setattr__(self, name, content)

    @classmethod
    def of_terms(cls, terms: Terms, session: Optional[Session], names: Names) -> Game:
        """The sum of terms in which names have these meanings."""
        made = cls.__new__(cls)
        made._set(terms, None, session, Answers(), names)
        return made

    def __setattr__(self, name: str, content: object) -> None:
        raise WrongCall(f"a game never changes, so its {name} can't be set: make another game")

    def __delattr__(self, name: str) -> None:
        raise WrongCall(f"a game never changes, so its {name} can't be deleted")

    @property
    def expression(self) -> str:
        """The text of the game in the notation."""
        return text_of_terms(self._terms)

    @property
    def names(self) -> Names:
        """What the names in the text stand for."""
        return self._names

    @property
    def board(self) -> Optional[Board]:
        """The board, where the game was made of one."""
        return self._board

    @property
    def session(self) -> Session:
        """The session that is asked."""
        return self._session or default_session()

    @property
    def own_session(self) -> Optional[Session]:
        """The session that the game was made with, or None where it asks the default one."""
        return self._session

    @property
    def value(self) -> Value:
        """The canonical form."""
        return self._answers.get("value", lambda: self.session.value(self))

    @property
    def outcome(self) -> str:
        """Who wins: `L` Left, `R` Right, `P` the previous player, `N` the next player."""
        return self._answers.get("outcome", lambda: self.session.outcome(self))

    @property
    def stops(self) -> Stops:
        """The Left stop and the Right stop."""
        return self._answers.get("stops", lambda: self.session.stops(self))

    @property
    def mean(self) -> Fraction:
        """The mean."""
        return self._answers.get("mean", lambda: self.session.mean(self))

    @property
    def temperature(self) -> Fraction:
        """The temperature."""
        return self._answers.get("temperature", lambda: self.session.temperature(self))

    @property
    def thermograph(self) -> Thermograph:
        """The thermograph."""
        return self._answers.get("thermograph", lambda: self.session.thermograph(self))

    def compare(self, other: Expression) -> Comparison:
        """How the game compares with another, by the `sign` of the answer.

        >>> Game("^").compare("*")
        Comparison(left='^', sign='||', right='*')
        """
        session = self._with(other)
        key = about("compare", named(other, session.names))
        return self._answers.get(key, lambda: session.compare(self, other))

    def is_confused_with(self, other: Expression) -> bool:
        """Whether neither game is at least the other."""
        return self.compare(other).sign == "||"

    def proof(self, other: Expression) -> Proof:
        """Whether the game is at least another, with a proof of it or against it."""
        session = self._with(other)
        key = about("proof", named(other, session.names))
        return self._answers.get(key, lambda: session.proof(self, other))

    def options(self, player: str) -> list[Game]:
        """What the moves of `"L"` or `"R"` leave: in a sum those in each of its parts.

        Where a part is no board, its options are those of its canonical form.

        >>> Game("{2|-1}").options("L"), Game('Toads("T.F")').options("R")
        ([Game('2')], [Game('Toads("TF.")')])
        """
        moves = moves_in(self._position(), player, self.session)
        return [Game(sum_of(move.after), session=self._session) for move in moves]

    def sensible_moves(self, player: str) -> SensibleMoves:
        """The moves that the canonical form has, and in `others` the rest, each with the reason.

        >>> moves = Game('Domineering("...|...")').sensible_moves("L")
        >>> [move.name for move in moves], str(moves.others[0])
        (['b1-b2'], 'a1-a2 is dominated by b1-b2')
        """
        return judged_moves(self._position(), player, self.session)

    def _position(self) -> tuple[str, ...]:
        """The parts of the sum that the game is, in which names are written out."""
        if self._terms == ZERO:
            return ()
        signed = [(minus, text, read_board(text)) for minus, text in self._written_out()]
        return tuple(
            text if not minus else f"-{text}" if board else f"-({text})"
            for minus, text, board in signed
        )

    def plus(self, other: Game) -> Game:
        """The sum, as `+` makes it."""
        terms, others = self._terms, other._terms
        names = self._names.joined(other._names)
        if names is None:
            terms, others, names = self._written_out(), other._written_out(), Names()
        session = shared_session(self._session, other._session)
        return Game.of_terms(added(terms, others), session, names)

    def negative(self) -> Game:
        """The negative, as `-` makes it."""
        return Game.of_terms(negated(self._terms), self._session, self._names)

    def times(self, count: int) -> Game:
        """So many copies, added up, as `*` makes them."""
        return Game.of_terms(multiplied(self._terms, count), self._session, self._names)

    def __eq__(self, other: object) -> bool:
        if isinstance(other, Game):
            same = self._terms == other._terms and self._names.bound == other._names.bound
            return same or self.value == other.value
        if isinstance(other, Board):
            return self.value == Game(other, session=self._session).value
        if isinstance(other, Value) or exact_number(other) is not None:
            return self.value == other
        return NotImplemented

    def __bool__(self) -> bool:
        return bool(self.value)

    def __hash__(self) -> int:
        return hash(self.value)

    def __str__(self) -> str:
        return self.expression

    def __repr__(self) -> str:
        return f"Game({self.expression!r})"

    def __copy__(self) -> Game:
        return self

    def __deepcopy__(self, memo: object) -> Game:
        return self

    def __reduce__(self) -> tuple[Any, ...]:
        """What is sent to another process, where the game asks the default session."""
        return _unpickled, (self._terms, self._board, self._names, self._answers.without_names())

    def latex(self) -> str:
        r"""The expression as papers write it, in LaTeX, for a formula.

        >>> print(Game("{1|0} + ^").latex())
        \{1 \mid 0\} + {\uparrow}
        """
        return latex_of(self.expression)

    def _repr_svg_(self) -> Optional[str]:
        """The board, for notebooks."""
        return self._board._repr_svg_() if self._board else None

    def _repr_latex_(self) -> Optional[str]:
        """The expression as papers write it, for notebooks, where there is no board to show."""
        return None if self._board else f"${self.latex()}$"

    def knows(self, name: str) -> bool:
        """Whether an answer is there already, so that the program isn't asked for it.

        >>> g = Game("{1|0}")
        >>> g.knows("mean"), g.mean, g.knows("mean")
        (False, Fraction(1, 2), True)
        """
        return self._answers.has(name)

    def learn(self, name: str, answer: object) -> None:
        """Takes an answer that was asked in a batch."""
        self._answers.learn(name, answer)

    def knows_order(self, other: Game) -> bool:
        """Whether it is known how the game compares with another."""
        return self._answers.has(about("compare", (other.expression, other._names)))

    def learn_order(self, other: Game, order: Comparison) -> None:
        """Takes the order to another game that was asked in a batch."""
        self._answers.learn(about("compare", (other.expression, other._names)), order)

    def _written_out(self) -> Terms:
        """The terms with what their names stand for in place of the names."""
        return tuple((minus, self._names.written_out(text)) for minus, text in self._terms)

    def _with(self, other: Expression) -> Session:
        """The session that knows both games."""
        theirs = other._session if isinstance(other, Game) else None
        return shared_session(self._session, theirs) or default_session()


def _unpickled(
    terms: Terms, board: Optional[Board], names: Names, known: dict[Hashable, Any]
) -> Game:
    """A game that came from another process."""
    made = Game.__new__(Game)
    made._set(terms, board, None, Answers(known), names)
    return made


def _parts_of(made_of: Expression) -> tuple[Terms, Optional[Board], Answers]:
    """The terms of a game, its board, and the answers that are known already."""
    if isinstance(made_of, Game):
        return made_of._terms, made_of._board, made_of._answers
    if isinstance(made_of, Board):
        return ((False, made_of.expression),), made_of, Answers()
    text = text_of(made_of)
    is_known = isinstance(made_of, Value) and made_of.is_told
    return terms_of(text), read_board(text), Answers({"value": made_of} if is_known else {})
