"""Questions to be certified, with the program's answers, and the tables that they need."""
from __future__ import annotations

from dataclasses import dataclass
from itertools import groupby
from typing import Sequence

from cgcalc.certify_expressions import Expression, Position, language_text
from cgcalc.certify_positions import (
    Piece,
    boards_after,
    cells_of,
    check_known,
    pieces_after,
    pieces_of,
    reached,
    text_of_piece,
)
from cgcalc.certify_reader import NO_NAMES, Names, read_question_parts
from cgcalc.certify_tables import (
    Evaluator,
    Facts,
    Terms,
    expression_of_name,
    parts_of,
    terms_of,
)
from cgcalc.definitions import Definition
from cgcalc.errors import Refused, WrongCall
from cgcalc.lines import BLANKS
from cgcalc.refusals import Refusal
from cgcalc.replies import Failed, Order, Outcome, Proof, Reply
from cgcalc.session import Session
from cgcalc.values import Value

ONE, TWO = ("value", "outcome"), ("compare", "proof")


@dataclass(frozen=True)
class Question:
    """A question as it was typed, its word and its expressions."""

    text: str
    word: str
    expressions: tuple[Expression, ...]


@dataclass(frozen=True)
class Answered:
    """A question, the program's reply, and the name's expression where that is a value."""

    question: Question
    reply: Reply
    name: Expression


@dataclass
class Certificate:
    """All that a file for Coq says."""

    answers: list[Answered]
    facts: Facts
    pieces: dict[Piece, int]
    boards: dict[Position, int]


def read_question(text: str, names: Names = NO_NAMES) -> Question:
    """A question of the language that can be certified, and that may use names.

    >>> read_question("compare * ; 0").word
    'compare'
    """
    word, _, rest = text.strip(BLANKS).partition(" ")
    if word not in ONE + TWO:
        words = ", ".join(ONE + TWO)
        raise WrongCall(f"{text!r} can't be certified: the questions are {words}")
    count = 2 if word in TWO else 1
    return Question(text, word, tuple(read_question_parts(rest, count, names)))


def replies_of(session: Session, lines: Sequence[str]) -> list[Reply]:
    """The program's replies; the first refusal is raised."""
    replies = session.ask(lines)
    for line, reply in zip(lines, replies):
        if isinstance(reply, Refusal):
            raise Refused(line, reply)
        if isinstance(reply, Failed):
            raise reply.error()
    return replies


class Asked:
    """The values of expressions, asked in batches and kept."""

    def __init__(self, session: Session) -> None:
        self.session = session
        self.names: dict[str, str] = {}

    def ask(self, texts: Sequence[str]) -> None:
        """Asks for the values of expressions that aren't known."""
        new = [text for text in dict.fromkeys(texts) if text not in self.names]
        replies = replies_of(self.session, [f"value {text}" for text in new])
        self.names.update(zip(new, map(str, replies)))

    def value(self, expression: Expression) -> str:
        """The name of the value of an expression."""
        text = language_text(expression)
        if text not in self.names:
            self.ask([text])
        return self.names[text]


def read_questions(lines: Sequence[str], session: Session) -> tuple[list[Question], list[Reply]]:
    """The questions among some lines, with their replies; the other lines define names."""
    names: dict[str, Expression] = {}
    questions: list[Question] = []
    replies: list[Reply] = []
    for definition, group in groupby(lines, lambda line: Definition.read(line)):
        if definition is None:
            texts = list(group)
            replies += replies_of(session, texts)
            questions += [read_question(text, dict(names)) for text in texts]
            continue
        reply = session.define(definition.name, definition.text)
        if isinstance(reply, Refusal):
            raise Refused(definition.line, reply)
        (names[definition.name],) = read_question_parts(definition.text, 1, names)
    return questions, replies


def certificate_of(lines: Sequence[str], session: Session) -> Certificate:
    """The certificate of some questions, among which lines may define names."""
    questions, replies = read_questions(lines, session)
    asked, facts = Asked(session), Facts()
    wholes = [whole for question in questions for whole in question.expressions]
    names = [expression_of_name(str(reply)) for reply in replies if isinstance(reply, Value)]
    parts = [part for whole in (*wholes, *names) for part in parts_of(whole)]
    positions = [part for part in parts if isinstance(part, Position)]
    pieces, boards = listed(positions)
    asked.ask(
        [
            *map(language_text, parts),
            *(f'Domineering("{text_of_piece(piece)}")' for piece in pieces),
            *map(language_text, boards),
        ]
    )
    certificate = Certificate([], facts, {}, {})
    for piece in pieces:
        name = asked.names[f'Domineering("{text_of_piece(piece)}")']
        certificate.pieces[piece] = facts.values.place(name)
    for board in boards:
        certificate.boards[board] = facts.values.place(asked.value(board))
    evaluator = Evaluator(facts, asked.value)
    for position in positions:
        evaluator.positions[position] = terms_at(position, certificate)
    for question, reply in zip(questions, replies):
        add_answer(certificate, evaluator, question, reply)
    return certificate


def add_answer(
    certificate: Certificate, evaluator: Evaluator, question: Question, reply: Reply
) -> None:
    """Enters a question with all that its answer rests on."""
    for whole in question.expressions:
        evaluator.terms(whole)
    name = question.expressions[0]
    if isinstance(reply, Value):
        certificate.facts.values.place(reply.name)
        name = expression_of_name(reply.name)
        evaluator.enter_name(name)
    if not isinstance(reply, (Value, Order, Outcome, Proof)):
        raise WrongCall(f"the reply {reply} of {question.text!r} can't be certified")
    certificate.answers.append(Answered(question, reply, name))


def listed(positions: Sequence[Position]) -> tuple[list[Piece], list[Position]]:
    """The pieces of Domineering boards, and the positions of the other boards."""
    starts: list[Piece] = []
    others: list[Position] = []
    for position in positions:
        check_known(position)
        if position.game == "Domineering":
            starts += pieces_of(cells_of(position.texts[0]))
        else:
            others.append(position)
    return reached(starts, pieces_after), reached(others, boards_after)


def terms_at(position: Position, certificate: Certificate) -> Terms:
    """The formal sum to which a board is evaluated."""
    if position.game != "Domineering":
        return terms_of(certificate.boards[position])
    found: Terms = ()
    for piece in pieces_of(cells_of(position.texts[0])):
        found += terms_of(certificate.pieces[piece])
    return found
