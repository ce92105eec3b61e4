"""Texts of positions, made by dice: usual small ones, and wide, sparse and cornered ones of up to 64 cells, or large heaps."""

GRIDS = {"Domineering": ".#", "Clobber": "xo.", "Amazons": ".xo#", "Toads": "TF."}
SIZES = ((1, 64), (64, 1), (8, 8), (2, 32), (32, 2), (4, 16), (16, 4), (3, 21), (7, 9), (5, 12), (1, 33), (9, 7), (1, 17),
         (2, 17))
LETTERS = "abcdefghijklmnopqrstuvwxyzABCDEFGHIJKLMNOPQRSTUVWXYZ"
NODES = "0123456789ABCDEFGHIJKLMNOPQRSTUVWXYZ"
STRIPS = (
    (".=0,0,0;T=0,0,1;F=0,1,0;L:T.>.T;L:TF.>.FT;R:.F>F.;R:.TF>FT.", ".TF"),
    (".=1,0,0;A=0,0,0;B=0,0,0;L:..>AA;R:...>BBB", ".AB"),
    (".=0,0,0;x=1,0,0;o=1,0,0;L:xo>.x;L:ox>x.;R:ox>.o;R:xo>o.", ".xo"),
    ("a=3,0,0;b=2,0,0;c=1,0,0;.=0,0,0;L:a>b;R:b>.;L:bc>.c;R:ca>cc;L:c>.", "abc."),
    (".=0,0,0;x=0,1,0;y=0,0,2;L:.x>x.;R:y.>.y;L:xy>.y", ".xy"),
    (".=0,0,0", "."),
)


def board(rows):
    """The text of rows."""
    return "|".join("".join(row) for row in rows)


def small(dice, game):
    """A board of a few cells."""
    rows, columns = dice.choice([(1, 3), (2, 2), (2, 3), (3, 2), (1, 5), (3, 3), (2, 4), (1, 6), (1, 1), (4, 2)])
    if game == "Toads":
        rows, columns = 1, dice.randint(1, 7)
    if game == "Amazons":
        rows, columns = dice.choice([(1, 4), (2, 2), (2, 3), (1, 5), (3, 2)])
        cells = [["." if dice.random() < 0.7 else "#" for _ in range(columns)] for _ in range(rows)]
        for _ in range(dice.choice([1, 1, 2])):
            cells[dice.randrange(rows)][dice.randrange(columns)] = dice.choice("xo")
        return board(cells)
    weights = {"Domineering": (3, 1), "Clobber": (3, 3, 1), "Toads": (2, 2, 2)}[game]
    return board([dice.choices(GRIDS[game], weights, k=columns) for _ in range(rows)])


def sparse(dice, game):
    """A board of up to 64 cells in which little stands, at the corners, at the ends of rows and on diagonals."""
    rows, columns = (1, dice.randint(20, 64)) if game == "Toads" else dice.choice(SIZES)
    cells = [["#" if game in ("Domineering", "Amazons") else "."] * columns for _ in range(rows)]
    live = {"Domineering": ".....#", "Clobber": "xo", "Amazons": "..x#o", "Toads": "TF."}[game]
    queens = 0
    for _ in range(dice.randint(1, 4)):
        i, j = dice.choice([0, rows - 1, dice.randrange(rows)]), dice.choice([0, columns - 1, dice.randrange(columns)])
        if game == "Toads":
            cells[0] = [cell if cell != "." else dice.choice(["T", "F"]) for cell in cells[0]]
        for _ in range(dice.randint(2, 8)):
            symbol = dice.choice(live)
            queens += symbol in "xo"
            if game == "Amazons" and symbol in "xo" and queens > 2:
                symbol = "."
            cells[i][j] = symbol
            i, j = (i + dice.choice([-1, 0, 1])) % rows, (j + dice.choice([-1, 0, 1])) % columns
    if game == "Amazons" and not queens:
        cells[i][j] = dice.choice("xo")
    if game == "Toads":
        for _ in range(dice.randint(0, 3)):
            cells[0][dice.choice([0, columns - 1, dice.randrange(columns)])] = "."
    return board(cells)


def bent(dice, game):
    """A board of Domineering or Clobber on which a part goes round a corner, with cells of other parts inside its bounding
    rows and columns that don't touch it."""
    down, right = dice.choice([(2, 2), (2, 3), (3, 2), (3, 3), (2, 4)])
    part = [(i, 0) for i in range(down + 1)] + [(down, j) for j in range(1, right + 1)]
    part += [(i, right) for i in range(down - 1, dice.choice([0, 0, down]), -1)] if right > 2 else []
    inside = [(i, j) for i in range(down + 1) for j in range(right + 1)]
    apart = [(i, j) for i, j in inside if all(abs(i - a) + abs(j - b) > 1 for a, b in part)]
    live, blank = (".", "#") if game == "Domineering" else (dice.choice(["xxxo", "xo", "ooox"]), ".")
    rows, columns = dice.choice([(down + 1, right + 1), (8, 8), (5, 9), (4, 7), (down + 1, 12), (9, right + 1)])
    up, over = dice.choice([0, max(rows - down - 1, 0)]), dice.choice([0, max(columns - right - 1, 0)])
    turned, mirrored = dice.random() < 0.5, dice.random() < 0.5
    cells = [[blank] * max(columns, right + 1) for _ in range(max(rows, down + 1))]
    for i, j in part + [place for place in apart if dice.random() < 0.8]:
        cells[up + (down - i if turned else i)][over + (right - j if mirrored else j)] = dice.choice(live)
    return board(cells)


def sized(dice):
    """A board of about as many cells as there may be."""
    game = dice.choice(tuple(GRIDS))
    rows, columns = dice.choice([(1, 64), (1, 65), (5, 13), (13, 5), (65, 1), (8, 8), (8, 9), (9, 8), (66, 1)])
    if game == "Toads":
        rows, columns = 1, dice.choice([63, 64, 65, 66])
    cells = [["#" if game in ("Domineering", "Amazons") else "."] * columns for _ in range(rows)]
    return f'{game}("{board(cells)}")'


def light_rules(dice):
    """Rules whose weights are small, so that they lower the sum by little or not at all."""
    symbols = dice.choice([".x", ".xo", "abc"])
    items = [symbol + "=" + ",".join(str(dice.choice([0, 0, 1, 1, 2, 3])) for _ in range(3)) for symbol in symbols]
    for _ in range(dice.choice([1, 1, 2, 3])):
        length = dice.choice([1, 2, 2, 3])
        sides = ["".join(dice.choice(symbols) for _ in range(length)) for _ in range(2)]
        items.append(dice.choice("LR") + ":" + ">".join(sides))
    return ";".join(items), symbols


def strip(dice, wide):
    """A position of a game by rules."""
    rules, symbols = dice.choice(STRIPS)
    if not wide and dice.random() < 0.6:
        rules, symbols = light_rules(dice)
    if not wide:
        return rules, "".join(dice.choice(symbols) for _ in range(dice.randint(1, 6)))
    filler = dice.choice([symbol for symbol in symbols if symbol != "."] or ["."]) if symbols in (".TF", ".AB") else "."
    row = [filler] * dice.randint(20, 64)
    for _ in range(dice.randint(1, 3)):
        start = dice.choice([0, len(row) - 4, dice.randrange(len(row) - 3)])
        row[start : start + 4] = [dice.choice(symbols) for _ in range(4)]
    return rules, "".join(row)


def drawing(dice, wide):
    """Edges of Hackenbush; a wide drawing has many that aren't joined to the ground."""
    edges = []
    joined, near = ["0"], dice.sample(NODES, 6)
    for _ in range(dice.randint(1, 6)):
        a, b = dice.choice(joined), dice.choice(dice.choice([joined, near]))
        joined += [b]
        edges.append(dice.choice([a + dice.choice("brg") + b, b + dice.choice("brg") + a]))
    if wide:
        free = [node for node in NODES if node not in joined]
        free = dice.sample(free, 12)
        while len(edges) < dice.choice([20, 63, 64]):
            edges.append(dice.choice(free) + dice.choice("brg") + dice.choice(free))
        dice.shuffle(edges)
    return ",".join(edges)


def graph(dice, wide):
    """The vertices and edges of Col or Snort; in a wide one most vertices have a colour."""
    count = dice.randint(30, 52) if wide else dice.randint(1, 5)
    vertices = [dice.choice("xo") if wide else dice.choice("...xo") for _ in range(count)]
    for _ in range(4 if wide else 0):
        vertices[dice.choice([0, count - 1, dice.randrange(count)])] = "."
    edges = []
    for _ in range(dice.randint(0, 20 if wide else 5)):
        a, b = dice.randrange(count), dice.randrange(count)
        if a != b:
            edges.append(LETTERS[a] + LETTERS[b])
    return "".join(vertices), ",".join(edges)


def grid(game):
    """What makes the text of a board of a game on a grid."""

    def made(dice, wide):
        if wide and game in ("Domineering", "Clobber") and dice.random() < 0.5:
            return (bent(dice, game),)
        return ((sparse if wide else small)(dice, game),)

    return made


def heap(dice, wide):
    """The code of an octal game, and a heap; a wide one has hundreds of tokens."""
    code = "0." + "".join(dice.choice("01234567") for _ in range(dice.choice([1, 2, 2, 3, 16])))
    tokens = dice.choice([100, 250, 500, 999, 1000, dice.randint(100, 1000)] if wide else [0, 1, 2, 5, 9, 20, 70])
    return dice.choice([code, "0.77", "0.137", "0.07"]), tokens


# For each game of the program what makes the texts of a position, a usual or a wide one.
MAKERS = {
    "Domineering": grid("Domineering"),
    "Clobber": grid("Clobber"),
    "Amazons": grid("Amazons"),
    "Toads": grid("Toads"),
    "Strip": strip,
    "Hackenbush": lambda dice, wide: (drawing(dice, wide),),
    "Col": graph,
    "Snort": graph,
    "Octal": heap,
}
GAMES = tuple(game for game in MAKERS if game != "Octal")


def position(dice, game=None, wide=False):
    """A position as an expression."""
    game = game or dice.choice(GAMES)
    texts = MAKERS[game](dice, wide)
    return game + "(" + ",".join(f'"{text}"' if isinstance(text, str) else str(text) for text in texts) + ")"


def octal(dice, wide=False):
    """A heap of an octal game."""
    return position(dice, "Octal", wide)


def many_rules(dice):
    """A strip with about as many weights and rules as there may be, of which a few may have a fault."""
    symbols = dice.sample(LETTERS + ".", dice.choice([2, 15, 16, 17]))
    symbols += dice.choice([[], [], [dice.choice(symbols)]])
    weights = []
    for place, symbol in enumerate(symbols):
        weights.append(f"{symbol}={dice.choice([place, 999 - place])},{dice.choice([0, 0, 1])},{dice.choice([0, 0, 2])}")
    rules = []
    for _ in range(dice.choice([0, 1, 31, 32, 33])):
        length = dice.choice([1, 1, 2])
        sides = ["".join(dice.choice(symbols) for _ in range(length)) for _ in range(2)]
        rules.append(dice.choice("LR") + ":" + ">".join(sides) + (dice.choice(symbols + ["q"]) if dice.random() < 0.02 else ""))
    row = "".join(dice.choice(symbols) for _ in range(dice.choice([0, 1, 3])))
    return f'Strip("{";".join(weights + rules)}","{row}")'


def spoiled(dice, game):
    """A position with one of its texts changed at a byte, cut off or doubled."""
    text = octal(dice) if game == "Octal" else position(dice, game, dice.random() < 0.2)
    first = text.index('"') + 1
    at = dice.randrange(first, max(first + 1, len(text) - 2))
    way = dice.randrange(5)
    if way == 0:
        return text[:at] + dice.choice(".#xoTFabrg01789,;:=>|ABLR %") + text[at + 1 :]
    if way == 1:
        return text[:at] + dice.choice(".#xoTFabrg01789,;:=>|ABLR ~") + text[at:]
    if way == 2:
        return text[:at] + text[at + 1 :]
    if way == 3:
        length = dice.randint(1, 12)
        return text[:at] + text[at : at + length].replace('"', "") * dice.choice([2, 6, 12]) + text[at:]
    return text[:at] + text[text.index('"', at) :] if '"' in text[at:] else text
