"""What holds of all games, sums, batches and names, tried on what hypothesis thinks of."""
from __future__ import annotations

import pickle
import tempfile
from fractions import Fraction
from pathlib import Path

from hypothesis import HealthCheck, given, settings
from hypothesis import strategies as some
from hypothesis.configuration import set_hypothesis_home_dir

from cgcalc import Definition, Game, Session, Value, game
from cgcalc.definitions import Names, names_of, one_meaning
from cgcalc.latex import latex_of
from cgcalc.names import birthday_of, options_of, with_bars
from cgcalc.part_file import PartFile
from cgcalc.questions import Entry
from cgcalc.replies import Reply, read_reply
from tests.test_batch import at_once

HOME = tempfile.TemporaryDirectory()
# Else it keeps files in the folder that it runs in.
set_hypothesis_home_dir(HOME.name)  # type: ignore[no-untyped-call]
quick = settings(
    max_examples=25, deadline=None, database=None, suppress_health_check=list(HealthCheck)
)
SESSION = Session(share=65_536)

numbers = some.builds(Fraction, some.integers(-40, 40), some.sampled_from([1, 2, 4, 8]))
atoms = some.one_of(
    numbers.map(str),
    some.sampled_from(["*", "^", "v", "^^*", "*3", "+-1", "Tiny(2)", "Miny(1)", "1/2^"]),
    some.sampled_from(['Toads("T.F")', 'Clobber("xo|ox")', 'Domineering("..|..")']),
)
texts = some.recursive(
    atoms,
    lambda inner: some.one_of(
        some.builds("{{{}|{}}}".format, inner, inner),
        some.builds("{{{},{}|{}}}".format, inner, inner, inner),
        some.builds("({} + {})".format, inner, inner),
        some.builds("({} - ({}))".format, inner, inner),
        some.builds("{}.({})".format, some.integers(0, 3), inner),
    ),
    max_leaves=6,
)


def asked(text: str) -> Game:
    """A game that asks the session of these tests."""
    return Game(text, session=SESSION)


@quick
@given(texts, texts, some.integers(-3, 3))
def test_sums_negatives_and_multiples(one: str, two: str, count: int) -> None:
    g, h = asked(one), asked(two)
    rows = [
        (str(g + h), f"({one}) + ({two})"),
        (str(g - h), f"({one}) - ({two})"),
        (str(-(g - h)), f"({two}) - ({one})"),
        (str(count * g), f"({f'{count}.({one})' if count >= 0 else f'0 - ({-count}.({one}))'})"),
        (str(game([g, h], -g)), f"{{({one}),({two})|0 - ({one})}}"),
    ]
    for reply in SESSION.ask(f"compare {made} ; {meant}" for made, meant in rows):
        assert str(reply) == "="


@quick
@given(texts)
def test_the_options_of_a_canonical_form_make_it_again(text: str) -> None:
    value = asked(text).value
    again = game(value.left_options, value.right_options, session=SESSION)
    assert again.value == value and hash(again) == hash(value)
    assert with_bars(value.name) == "0" or Game(with_bars(value.name), session=SESSION) == value
    left, right = options_of(value.name)
    latest = max((birthday_of(name) for name in (*left, *right)), default=-1)
    assert value.birthday == latest + 1
    assert pickle.loads(pickle.dumps(again)) == value


@quick
@given(some.lists(texts, min_size=1, max_size=12), some.integers(3, 400))
def test_a_batch_answers_what_the_program_answers(games: list[str], share: int) -> None:
    lines = [f"value {text}" for text in [*games, *games[:3]]]
    session = Session(share=share, cells=share * 4, processes=2)
    assert [str(reply) for reply in session.ask(lines)] == at_once(lines, share)


@quick
@given(some.lists(some.tuples(some.sampled_from("abc"), some.sampled_from("abc")), max_size=8))
def test_names_mean_what_they_meant(pairs: list[tuple[str, str]]) -> None:
    """What a chain of definitions means is worked out beside, with numbers."""
    names = Names()
    meant: dict[str, int] = {}
    made: list[tuple[str, Names, int]] = []
    for name, used in pairs:
        number = meant.get(used, 0) + 1
        names = names.bind(Definition(name, f"{used} + 1" if used in meant else "1"))
        meant[name] = number
        made.append((name, names.used([name]), number))
    assert names_of(names.definitions).definitions == names.definitions
    for name, bound, number in made:
        assert SESSION._ask_with(f"value {name}", bound) == Value(str(number))
    if made:
        (one, two), joined = one_meaning([(name, bound) for name, bound, _ in (made[0], made[-1])])
        reply = SESSION._ask_with(f"value ({one}) + ({two})", joined)
        assert reply == Value(str(made[0][2] + made[-1][2]))


@quick
@given(some.text(max_size=60))
def test_any_text_gives_latex_with_matching_braces(text: str) -> None:
    depth = 0
    for sign in latex_of(text).replace(r"\{", "").replace(r"\}", ""):
        depth += {"{": 1, "}": -1}.get(sign, 0)
        assert depth >= 0
    assert depth == 0


replies = some.one_of(
    some.sampled_from(["1", "{2|0}", "! full", "! syntax 9", "! failed 5", "! board symbol 2"])
)


@settings(quick, max_examples=40)
@given(some.lists(replies, max_size=8), some.data())
def test_a_part_file_gives_back_what_it_took(kept: list[str], data: some.DataObject) -> None:
    entries = [Entry([str(at)], f"value g{at}\t") for at in range(len(kept) + 1)]
    wanted: list[Reply] = [read_reply("value 1", text) for text in kept]
    with tempfile.TemporaryDirectory() as folder:
        part = PartFile(Path(folder, "table"), "--share 1")
        part.begin()
        for entry, reply in zip(entries, wanted):
            part.add(entry, reply)
        if kept:
            number = data.draw(some.integers(0, len(kept) - 1))
            wanted[number] = Value("7")
            part.mend(number, wanted[number])
        part.close()
        path = Path(folder, "table.part")
        whole = path.read_bytes()
        path.write_bytes(whole + b"value g9\t{2"[: data.draw(some.integers(0, 11))])
        again = PartFile(Path(folder, "table"), "--share 1")
        assert again.take_up(entries) == wanted
        again.close()
        assert path.read_bytes() == whole
