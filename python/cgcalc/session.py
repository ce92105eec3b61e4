"""Sessions: questions in, replies out."""
from __future__ import annotations

import os
import shutil
import threading
from concurrent.futures import Executor
from typing import Iterable, Optional, Sequence, Union

from cgcalc.asked import check_one_line, check_question, questions_in
from cgcalc.batch import Batch
from cgcalc.batch_limits import START_BYTES, Limits
from cgcalc.cache import Cache, cache_of
from cgcalc.definitions import BINDS_NOTHING, NAME, Definition, Names, needed_lines
from cgcalc.errors import Refused, WrongCall
from cgcalc.exact import whole_number
from cgcalc.filling import learn_from_table, questions_about
from cgcalc.limits import CELLS, MOST_CELLS, MOST_POSITIONS, MOST_PROCESSES, POSITIONS, SHARE
from cgcalc.operands import Operand
from cgcalc.processors import processors
from cgcalc.program import CgError, find_program
from cgcalc.questions import Sizes, questions_of
from cgcalc.refusals import Refusal
from cgcalc.replies import Failed, Reply
from cgcalc.stream import ProgressListener, Replies, read_text
from cgcalc.table import Table
from cgcalc.typed import TypedCalls
from cgcalc.values import Value

MOST_MEMORY = 1 << 62
_BINDING = threading.Lock()
"""Held where a name is bound, since several threads may define names; no process is forked then."""
os.register_at_fork(
    before=_BINDING.acquire, after_in_parent=_BINDING.release, after_in_child=_BINDING.release
)


class Session(TypedCalls):
    """Asks the program questions.

    Each question and each definition that it needs has `share` cells of a table, and no list of a
    line has more than `positions` items; a reply depends on these, on the line and on the
    definitions, and on nothing else. Long lists of questions are cut into runs of the program with
    tables of `cells` cells at most, or as many as one question needs, and up to `processes` of them
    are made at once. A cell takes 16 bytes, and twice that at the start. Lines are asked with a
    smaller share first where that saves time.

    A question may take `timeout` seconds, and a run `memory` bytes. A run that fails or takes too
    long is asked again line by line, and a line that fails alone gets the reply `Failed`.

    `cache` is the path of a file in which replies are looked up and kept, or True for the user's
    own, in ~/.cache/cgcalc.

    `executor` makes the runs, as any of `concurrent.futures` does whose workers have the program:
    `processes` says how many of them there are, and without `program` each finds its own.

    >>> session = Session()
    >>> session.define("g", "{2|-1} + ^")
    Value(name='{2^|-1^}')
    >>> temperature, order, refusal = session.ask(["temp g", "compare g ; *", "value {1,2}"])
    >>> temperature
    Temperature(temperature=Fraction(3, 2))
    >>> order.sign
    '||'
    >>> refusal
    Refusal(kind='syntax', column=11, cause=None, place=None)

    A question is a line of the program's notation, always read as one of a session with names. A
    blank line, a comment, a definition and a text of several lines are no questions, and raise
    WrongCall. `CgError` is raised where there are no answers at all: where the program isn't found,
    or is another one.
    """

    def __init__(
        self,
        *,
        share: int = SHARE,
        positions: int = POSITIONS,
        cells: int = CELLS,
        processes: Optional[int] = None,
        program: Union[None, str, "os.PathLike[str]"] = None,
        timeout: Optional[float] = None,
        memory: Optional[int] = None,
        executor: Optional[Executor] = None,
        cache: Union[None, bool, str, "os.PathLike[str]", Cache] = None,
    ) -> None:
        self.timeout = timeout
        self.memory = memory if memory is None else _within("memory", memory, MOST_MEMORY)
        self.set_limits(share=share, positions=positions)
        self.cells = _within("cells", cells, MOST_CELLS)
        if processes is None:
            processes = min(processors(), MOST_PROCESSES)
        self.processes = _within("processes", processes, MOST_PROCESSES)
        if timeout is not None and not (isinstance(timeout, (int, float)) and timeout > 0):
            raise WrongCall(f"timeout is a number of seconds above 0, not {timeout!r}")
        if executor is not None and not isinstance(executor, Executor):
            raise WrongCall("executor is one of concurrent.futures, or made like those")
        self.executor = executor
        self.program = _program_of(program, executor)
        self.cache = cache_of(cache)
        if self.cache is not None and self.program is None:
            raise WrongCall("a cache has to know the program that the executor runs: name it")
        self._names = Names()

    @property
    def definitions(self) -> dict[str, str]:
        """The names that are defined, with their texts."""
        return {name: bound.definition.text for name, bound in self._names.bound.items()}

    @property
    def names(self) -> Names:
        """What the names stand for now."""
        return self._names

    def set_limits(self, *, share: int, positions: int) -> None:
        """Says what each line may take from now on."""
        share = _within("share", share, MOST_CELLS)
        if self.memory is not None and share * START_BYTES > self.memory:
            raise WrongCall(
                f"a line with a share of {share} takes {share * START_BYTES} bytes at the start,"
                f" and memory allows {self.memory}: give more memory, or a smaller share"
            )
        self.positions = _within("positions", positions, MOST_POSITIONS)
        self.share = share

    def define(self, name: str, text: str) -> Value:
        """Defines a name for the questions and definitions that follow, and answers with its value.

        A refusal raises `Refused`. By `! syntax`, `! name` or `! parts` it defines nothing; by any
        other the name is defined, and a question that uses it is refused likewise.

        >>> session = Session()
        >>> session.define("g", "{2|0}")
        Value(name='{2|0}')
        >>> session.definitions
        {'g': '{2|0}'}
        """
        definition = Definition(name, text)
        reply = self.bind(definition)
        if isinstance(reply, Refusal):
            raise Refused(definition.line, reply)
        if not isinstance(reply, Value):
            raise CgError(f"{definition.line!r} asks for a value, and the reply is {reply!r}")
        return reply

    def bind(self, definition: Definition) -> Reply:
        """Defines a name as the program does, and gives its reply, be it a refusal.

        >>> session = Session()
        >>> session.bind(Definition("g", "{2|0")), session.definitions
        (Refusal(kind='syntax', column=10, cause=None, place=None), {})
        """
        if not isinstance(definition.name, str) or not NAME.fullmatch(definition.name):
            shape = "a small letter but v, then up to 15 small letters and digits"
            raise WrongCall(f"{definition.name!r} is no name, which is {shape}")
        if not isinstance(definition.text, str):
            raise WrongCall(f"a name stands for a text, not for {definition.text!r}")
        check_one_line(definition.line)
        reply = self._asked_alone(definition.line, "value", self._names.used([definition.text]))
        if not (isinstance(reply, Refusal) and reply.kind in BINDS_NOTHING):
            with _BINDING:
                self._names = self._names.bind(definition)
        return reply

    def ask(
        self, lines: Iterable[str], *, progress: Optional[ProgressListener] = None
    ) -> list[Reply]:
        """The replies to questions, in their order.

        >>> Session().ask(["mean {4||2|0}", "stops {0|1/2}"])
        [Mean(mean=Fraction(5, 2)), Stops(left=Fraction(1, 4), right=Fraction(1, 4))]
        """
        with self.replies(lines, progress=progress) as replies:
            return list(replies)

    def replies(
        self, lines: Iterable[str], *, progress: Optional[ProgressListener] = None
    ) -> Replies:
        """The replies to questions, in their order, each as soon as those before it are there.

        `progress` is a function that is told how many replies there are and are to be, or a class
        such as tqdm.

        >>> list(Session().replies(f"outcome {n}" for n in (-1, 0, 1)))
        [Outcome(winner='R'), Outcome(winner='P'), Outcome(winner='L')]
        """
        questions = questions_in(lines)
        return Replies(questions, self._batch(questions, self._names), progress)

    def table(
        self,
        questions: Union[str, Iterable[str]],
        *,
        boards: Optional[Iterable[object]] = None,
        rows: Optional[Sizes] = None,
        columns: Optional[Sizes] = None,
        fill: Optional[str] = None,
        progress: Optional[ProgressListener] = None,
    ) -> Table:
        """The replies to questions that are asked of each of many boards or sizes, as a table.

        A question is a template in which `{board}` stands for each of the boards, or for a board of
        each size filled with `fill`, and `{rows}` and `{columns}` for the sizes. Games among the
        boards keep what the table answers of them.

        >>> questions = ['value Toads("{board}")', 'outcome Toads("{board}")']
        >>> print(Session().table(questions, boards=["T.F", "TT..FF"]))
        board   value  outcome
        T.F     *      N
        TT..FF  *      N
        """
        if boards is not None and not isinstance(boards, str):
            boards = list(boards)
        listed = boards if isinstance(boards, list) else []
        texts = [self._board_text(board) for board in listed] if listed else boards
        table = Table(questions_of(questions, texts, rows, columns, fill))
        table.replies = self.ask([entry.question for entry in table.entries], progress=progress)
        learn_from_table(listed, table.templates, table.replies)
        return table

    def _board_text(self, board: object) -> object:
        """A board as it stands in a question; names that mean something else here, written out."""
        if not isinstance(board, Operand):
            return board
        known = self._names.bound
        if all(known.get(name) is bound for name, bound in board.names.bound.items()):
            return board.expression
        return board.names.written_out(board.expression)

    def fill(
        self,
        games: Iterable[object],
        *words: str,
        progress: Optional[ProgressListener] = None,
    ) -> None:
        """Asks for answers of many games in one batch, so that none of them has to ask for itself.

        The words are `value` (which is meant where none is given), `outcome`, `stops`, `mean`,
        `temperature` and `thermograph`, as games have them, and `compare` for all orders between
        two of the games, which sorting needs. What is refused raises when the game is asked.

        >>> from cgcalc import Game
        >>> session = Session()
        >>> games = [Game("{2|-1}", session=session), Game("^", session=session)]
        >>> session.fill(games, "mean", "compare")
        >>> [g.knows("mean") for g in games], games[0].is_confused_with(games[1])
        ([True, True], True)
        """
        for names, asked in questions_about(games, words or ("value",)).by_names.values():
            lines = questions_in([line for line, _ in asked])
            with Replies(lines, self._batch(lines, names), progress) as replies:
                for (_, take), reply in zip(asked, replies):
                    take(reply)

    def _ask_with(self, line: str, names: Names) -> Reply:
        """The reply to a question in which names stand for games of their own."""
        check_question(line)
        return self._asked_alone(line, line, names)

    def _asked_alone(self, line: str, question: str, names: Names) -> Reply:
        """The reply to one line, read as that to a question. ProgramFailed where its run failed."""
        (written,) = self._batch([line], names).texts()
        if isinstance(written, Failed):
            raise written.error()
        return read_text(question, written)

    def _batch(self, lines: Sequence[str], names: Names) -> Batch:
        """The lines on their way to the program, with what this session says from now on."""
        limits = Limits(
            self.share,
            self.positions,
            self.cells,
            self.processes,
            self.program,
            self.timeout,
            self.memory,
            self.executor,
        )
        return Batch(lines, lambda some: needed_lines(names, some), limits, self.cache)


def _program_of(given: object, executor: Optional[Executor]) -> Optional[str]:
    """The program that a session runs; None where each of an executor's workers finds its own.

    A relative path counts from the folder where the session is made, and a name is that of a
    command on the path; with an executor both mean what they do where each worker runs.
    """
    if given is None:
        return find_program() if executor is None else None
    if not isinstance(given, (str, os.PathLike)):
        raise WrongCall(f"program is the path of one, not {given!r}")
    path = os.fsdecode(given)
    if executor is not None:
        return path
    return os.path.abspath(path) if os.sep in path else shutil.which(path) or path


def _within(what: str, number: object, most: int) -> int:
    whole = whole_number(number)
    if whole is None or not 1 <= whole <= most:
        raise WrongCall(f"{what} must be a number from 1 to {most}")
    return whole
