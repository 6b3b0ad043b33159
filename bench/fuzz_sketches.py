"""Decides by itself, for fuzz.py and sketches.py, whether a sketch in a certificate supports a query, and where it first doesn't. docs/FORMATS.md has the rule."""
import functools
from typing import NamedTuple

from fuzz_rules import CASTLINGS, NEVER, OFFICERS, STEPS, Costs, Prices, Query, array, behind, beside, is_exposed, last_rank, least_cost, next_to, other, root_query, side_of
from fuzz_texts import read_nodes, square_of

# Knight, rook or queen: it isn't known which.
UNKNOWN = "nrq"


class Figure(NamedTuple):
    side: str
    # The letters of its kinds.
    kinds: str
    squares: frozenset
    marked: bool = False
    # How many pawns of its file stand below it, of both sides; 0 where it is none.
    place: int = 0

    def is_pawn(self):
        return self.kinds == "p"

    def is_fixed(self):
        return len(self.squares) == 1

    def is_on_file(self, file):
        return self.kinds == "p" and next(iter(self.squares)) % 8 == file


class Asked(NamedTuple):
    """What sketches are asked about: the array without the men who are left out, the homes of the rights that are held, the exact files."""

    first: list
    held: frozenset
    exact: frozenset


class Fault(NamedTuple):
    line: int
    word: str


class Refused(Exception):
    """The first fault of a sketch."""


def pawn_rank(side):
    return 1 if side == "w" else 6


def ahead(side, s, across=(0,)):
    return behind(other(side), s, across)


@functools.cache
def touched(side, kind, s):
    """The squares next to s, or a leap away, that such a man attacks."""
    return frozenset(ahead(side, s, (-1, 1)) if kind == "p" else next_to(kind, s))


@functools.cache
def surely_touched(side, kinds, s):
    return frozenset.intersection(*(touched(side, kind, s) for kind in kinds))


def enemy_king(sketch, side):
    """The square of the enemy king, None if it isn't one square."""
    return next((min(f.squares) for f in sketch if f.side != side and f.kinds == "k" and f.is_fixed()), None)


def gives_check(sketch, side):
    """Whether a man of the side surely attacks the enemy king next to him."""
    king = enemy_king(sketch, side)
    return king is not None and any(f.side == side and f.is_fixed() and king in surely_touched(side, f.kinds, min(f.squares)) for f in sketch)


def files_of(sketch):
    """The numbers of the pawns of each file, from the lowest up."""
    files = {}
    for i, f in enumerate(sketch):
        if f.is_pawn():
            files.setdefault(next(iter(f.squares)) % 8, []).append(i)
    return {file: sorted(pawns, key=lambda i: sketch[i].place) for file, pawns in files.items()}


def in_order(pawns, sets):
    """For each pawn of a file the rank above which and that below which he has to stand, since the others have room below and above him."""
    low, high = {}, {}
    least, most = -1, 8
    for i in pawns:
        low[i], least = least, max(least, min(sets[i]) // 8)
    for i in reversed(pawns):
        high[i], most = most, min(most, max(sets[i]) // 8)
    return {i: (low[i], high[i]) for i in pawns}


def trimmed(sketch):
    """The sketch of one moment, with places counted anew; None if somebody has no square."""
    if not all(f.squares for f in sketch):
        return None
    files = files_of(sketch).values()
    sets, old = [f.squares for f in sketch], None
    while sets != old:
        old = sets
        fixed = [squares for squares in sets if len(squares) == 1]
        taken = frozenset().union(*fixed)
        if len(taken) < len(fixed):
            return None
        sets = [squares if len(squares) == 1 else squares - taken for squares in sets]
        for pawns in files if all(sets) else ():
            for i, (low, high) in in_order(pawns, sets).items():
                sets[i] = frozenset(s for s in sets[i] if low < s // 8 < high)
            if not all(sets[i] for i in pawns):
                return None
        if not all(sets):
            return None
    places = {i: place for pawns in files for place, i in enumerate(pawns)}
    return [f._replace(squares=squares, place=places.get(i, 0)) for i, (f, squares) in enumerate(zip(sketch, sets))]


# All moments before: who never moved, and zones of pawns.


@functools.cache
def entries(side, kinds, marked, s):
    """Next to s, the squares by which the man may have come there."""
    if kinds == "p":
        return frozenset(behind(side, s, (0,) if marked else (-1, 0, 1)) if s // 8 != pawn_rank(side) else [])
    promoted = not marked and kinds != "k" and s // 8 == last_rank(side)
    return frozenset(behind(side, s) if promoted else []).union(*(next_to(kind, s) for kind in kinds))


class Terrain(NamedTuple):
    """The frozen squares of a sketch, where men never moved, and its zones: pairs of squares of pawns who stood on no others."""

    frozen: frozenset
    zones: frozenset

    def is_frozen(self, figure):
        return figure.is_fixed() and figure.squares <= self.frozen


def terrain_of(asked, sketch):
    wide, old = [f.squares for f in sketch], None
    while wide != old:
        old = wide
        frozen = frozenset().union(*(squares for squares in wide if len(squares) == 1))
        wide = [wider(asked, f, squares, frozen) for f, squares in zip(sketch, wide)]
    return Terrain(frozen, frozenset(squares for f, squares in zip(sketch, wide) if f.is_pawn() and len(squares) == 2))


def wider(asked, figure, squares, frozen):
    # Of officers and kings it is only asked whether they have a second square.
    if len(squares) == 1 and squares <= asked.held or len(squares) > 1 and not figure.is_pawn():
        return squares
    found = frozenset().union(*(entries(figure.side, figure.kinds, figure.marked, s) for s in squares))
    return squares | (found - frozen)


def homes(asked, figure):
    """The squares of the figure on which such a man begins."""
    men = [kind if figure.side == "b" else kind.upper() for kind in figure.kinds]
    return frozenset(s for s in figure.squares if asked.first[s] in men)


def is_void(asked, sketch):
    """Somebody never moved who doesn't begin where he stands."""
    terrain = terrain_of(asked, sketch)
    return any(terrain.is_frozen(f) and not homes(asked, f) for f in sketch)


# Between two steps: the least closed sketch.


@functools.cache
def line_from(s, step):
    """The squares behind s, each by this step from the one before."""
    squares = []
    while following := beside(squares[-1] if squares else s, [step]):
        squares += following
    return squares


@functools.lru_cache(maxsize=100_000)
def sources(kind, s, walls):
    """The squares from which an officer or a king may have come to s, past walls."""
    found = set()
    for step in STEPS[kind]:
        for t in line_from(s, step)[: 1 if kind in "nk" else 7]:
            if t in walls:
                break
            found.add(t)
    return frozenset(found)


@functools.lru_cache(maxsize=100_000)
def pawn_sources(side, s, walls):
    """The squares from which a pawn may have come straight to s, past walls."""
    found = []
    if s // 8 != pawn_rank(side):
        one = behind(side, s, (0,))[0]
        if one not in walls:
            found.append(one)
            found += [two for two in behind(side, one, (0,)) if two // 8 == pawn_rank(side) and two not in walls]
    return frozenset(found)


@functools.cache
def guards(side, kind, king):
    """The squares from which the man would attack the king next to him."""
    return frozenset(s for s in range(64) if king in touched(side, kind, s)) if king is not None else frozenset()


def closed(asked, sketch):
    """The least sets with all ways back."""
    files = files_of(sketch)
    order = {i: file for file, pawns in files.items() for i in pawns}
    sets, old = [f.squares for f in sketch], None
    while sets != old:
        old = sets
        now = [f._replace(squares=squares) for f, squares in zip(sketch, sets)]
        fixed = frozenset().union(*(f.squares for f in now if f.is_fixed()))
        touch = {side: frozenset().union(*(surely_touched(side, f.kinds, min(f.squares)) for f in now if f.side == side and f.is_fixed())) for side in "wb"}
        kings = {side: enemy_king(now, side) for side in "wb"}
        sets = []
        for i, f in enumerate(now):
            walls, reached = fixed - f.squares if f.is_fixed() else fixed, f.squares - asked.held
            if f.is_pawn():
                low, high = in_order(files[order[i]], old)[i]
                found = frozenset().union(*(pawn_sources(f.side, s, walls) for s in reached)) if order[i] not in asked.exact else frozenset()
                found = frozenset(e for e in found - guards(f.side, "p", kings[f.side]) if low < e // 8 < high)
            else:
                if f.kinds == "k":
                    reached -= touch[other(f.side)]
                ways = [frozenset().union(*(sources(kind, s, walls) for s in reached)) - guards(f.side, kind, kings[f.side]) for kind in f.kinds]
                found = frozenset().union(*ways)
            sets.append(f.squares | found)
    return now


def may_be_array(asked, sketch):
    """Each figure has as many homes as there are figures whose homes lie within his."""
    all_homes = [homes(asked, f) for f in sketch]
    return all(sum(theirs <= own for theirs in all_homes) <= len(own) for own in all_homes)


# Steps.


def name(s):
    return "abcdefgh"[s % 8] + str(s // 8 + 1)


class Steps:
    """The steps of a closed sketch in their order: labels, each with the trimmed sketch before it."""

    def __init__(self, asked, sketch):
        self.asked, self.sketch, self.found = asked, sketch, []
        men = {side: sum(man is not None and side_of(man) == side for man in asked.first) for side in "wb"}
        for i, f in enumerate(sketch):
            # Whoever else gives check now gave it before each step too.
            if gives_check(sketch[:i] + sketch[i + 1 :], f.side):
                continue
            self.may_take = not f.marked and sum(g.side != f.side for g in sketch) < men[other(f.side)]
            for t in sorted(f.squares):
                if f.is_pawn() and t // 8 != pawn_rank(f.side):
                    self.pawn_moves(i, t)
                elif f.kinds not in ("p", "k") and not f.marked and t // 8 == last_rank(f.side):
                    self.promotions(i, t)

    def give(self, label, side, sketch):
        sketch = trimmed(sketch)
        if sketch and not gives_check(sketch, side):
            self.found.append((label, sketch))

    def before(self, i, x, free):
        """The sketch in which the figure is a pawn on x, and nobody else stood there or on these squares."""
        free = {x, *free}
        sketch = [f._replace(squares=f.squares - free) for f in self.sketch]
        sketch[i] = sketch[i]._replace(kinds="p", squares=frozenset([x]))
        return sketch

    def placed(self, sketch, i, place):
        """The same with this place for the figure on its file."""
        file = min(sketch[i].squares) % 8
        moved = [f._replace(place=f.place + 1) if f.squares and f.is_on_file(file) and f.place >= place else f for f in sketch]
        moved[i] = sketch[i]._replace(place=place)
        return moved

    def pawns_beside(self, sketch, i, x):
        return sum(j != i and bool(f.squares) and f.is_on_file(x % 8) for j, f in enumerate(sketch))

    def pawn_moves(self, i, t):
        f = self.sketch[i]
        back = behind(f.side, t, (0,))[0]
        if t % 8 in self.asked.exact:
            two = [x for x in behind(f.side, back, (0,)) if x // 8 == pawn_rank(f.side)]
            for x in [back, *two]:
                self.give(f"{name(x)}-{name(t)}", f.side, self.before(i, x, [t, back]))
        for x in behind(f.side, t, (-1, 1)) if self.may_take else []:
            for victim in ("p", "b", UNKNOWN):
                self.captures(i, x, t, victim, victim, t, [t])
            if t // 8 == (5 if f.side == "w" else 2):
                home = ahead(f.side, t)[0]
                self.captures(i, x, t, "ep", "p", home, [t, back, home])

    def captures(self, i, x, t, word, kinds, s, free):
        """The captures of a man of these kinds on s, with each number of pawns above the one who made it."""
        f = self.sketch[i]
        before = self.before(i, x, free)
        victim = Figure(other(f.side), kinds, frozenset([s]), place=f.place if kinds == "p" else 0)
        beside_him = self.pawns_beside(before, i, x)
        for above in range(beside_him + 1):
            self.give(f"{name(x)}x{name(t)}{word}{above or ''}", f.side, self.placed(before, i, beside_him - above) + [victim])

    def promotions(self, i, t):
        f = self.sketch[i]
        for across in (0, -1, 1) if self.may_take else (0,):
            for x in behind(f.side, t, (across,)):
                before = self.before(i, x, [t])
                before = self.placed(before, i, self.pawns_beside(before, i, x) if f.side == "w" else 0)
                if across == 0:
                    self.give(f"{name(x)}={name(t)}", f.side, before)
                    continue
                for victim in ("b", UNKNOWN):
                    self.give(f"{name(x)}x{name(t)}{victim}=", f.side, before + [Figure(other(f.side), victim, frozenset([t]))])


# Accounts.


@functools.lru_cache(maxsize=100_000)
def room(terrain, kind, start):
    """The squares to which an officer goes from there, neither onto frozen ones nor from one of a zone to the other."""
    frozen, zones = terrain
    found, due = {start}, [start]
    while due:
        s = due.pop()
        beyond = [] if kind == "n" else [t for zone in zones if s in zone for t in zone]
        for t in next_to(kind, s):
            if t not in frozen and t not in found and t not in beyond:
                found.add(t)
                due.append(t)
    return frozenset(found)


class SketchCosts(Costs):
    """What the figures of a side and its missing men cost at a line of prices, 96 for each more than in the text."""

    def __init__(self, asked, terrain, prices, side):
        self.terrain = terrain
        super().__init__(None, terrain.frozen, prices, side)
        self.homes = [(h, asked.first[h]) for h in (range(16) if side == "w" else range(48, 64))]
        self.men = sum(man is not None for _, man in self.homes)
        self.pays = {s: prices.take(other(side), s) for s in range(64) if is_exposed(terrain.frozen, side, s)}
        self.figure_row, self.gone_row = functools.cache(self.figure_row), functools.cache(self.gone_row)

    def region(self, kind, start):
        return room(self.terrain, kind, start)

    def earned(self, squares):
        return max((self.pays[s] for s in squares if s in self.pays), default=0)

    def comes(self, figure, home, against):
        """What a way of the pawn from this home to the figure's squares pays, or one of those that a mark would rule out."""
        found = []
        for end, (straight, aside) in self.ways(home).items():
            if figure.is_pawn() and end in figure.squares:
                found.append(min(NEVER if against else straight, NEVER if figure.marked else aside))
            elif not figure.is_pawn() and end // 8 == last_rank(self.side) and any(self.region(kind, end) & figure.squares for kind in figure.kinds):
                found.append(min(straight, aside))
        return min(found, default=NEVER)

    def stood(self, figure, home, man, against):
        """What it costs that the figure's man began there; with `against` only in a way that a mark would rule out."""
        if home in self.frozen or self.terrain.is_frozen(figure):
            return 96 if figure.squares == {home} else NEVER
        if man == "p":
            return NEVER if figure.kinds == "k" or figure.marked and not figure.is_pawn() else 96 + self.comes(figure, home, against)
        stands = not against and man in figure.kinds and (man == "k" or self.region(man, home) & figure.squares)
        return 96 if stands else NEVER

    def row(self, cost):
        return [min(NEVER, cost(man.lower(), home)) if man else NEVER for home, man in self.homes]

    def figure_row(self, figure, against=False):
        return self.row(lambda man, home: self.stood(figure, home, man, against))

    def gone_row(self):
        return self.row(self.gone)

    def sketch_table(self, sketch):
        rows = [self.figure_row(f._replace(place=0)) for f in sketch if f.side == self.side]
        return rows + [self.gone_row() for _ in range(self.men - len(rows))]


class Account:
    """The account of a sketch at the prices of the costs of both sides."""

    def __init__(self, sketch, costs, gates):
        self.sketch, self.costs = sketch, costs
        self.tables = {side: costs[side].sketch_table(sketch) for side in "wb"}
        self.least = {side: least_cost(table) for side, table in self.tables.items()}
        self.most = 96 * sum(map(len, self.tables.values())) + gates

    def is_above(self):
        return sum(self.least.values()) > self.most

    def forces(self, number):
        """Whether the account is above 0 if what a mark would say of the figure is false."""
        figure = self.sketch[number]
        table = list(self.tables[figure.side])
        table[sum(f.side == figure.side for f in self.sketch[:number])] = self.costs[figure.side].figure_row(figure._replace(place=0), True)
        return least_cost(table) + self.least[other(figure.side)] > self.most


# The walk.


class Walk:
    """The walk over the nodes of a sketch, in preorder. It raises the first fault."""

    def __init__(self, asked, sketch):
        self.asked, self.prices = asked, [Prices({"w": white, "b": black}, gates) for white, black, gates in sketch.prices]
        # The costs at terrains and lines of prices that came last.
        self.costs = functools.lru_cache(maxsize=1000)(self.costs)
        self.lines = list(enumerate(sketch.lines, sketch.line + 1 + len(sketch.prices)))[::-1]

    def costs(self, terrain, price):
        return {side: SketchCosts(self.asked, terrain, self.prices[price - 1], side) for side in "wb"}

    def account(self, sketch, price):
        return Account(sketch, self.costs(terrain_of(self.asked, sketch), price), sum(self.prices[price - 1].gates.values()))

    def node(self, label, sketch):
        line, node = self.lines.pop()
        if node.label != label:
            raise Refused(Fault(line, "stray"))
        for _ in range(node.marks):
            sketch = self.marked(sketch)
        if node.end == "void":
            need(is_void(self.asked, sketch), line)
        elif node.end == "closed":
            need(self.account(sketch, node.value).is_above(), line)
        elif node.end == "steps":
            wide = closed(self.asked, sketch)
            need(not may_be_array(self.asked, wide), line)
            self.children(line, node.value, Steps(self.asked, wide).found)
        else:
            need(any(is_unknown_on(f, node.value) for f in sketch), line)
            self.children(line, 3, [(f"case {kind}", known(sketch, node.value, kind)) for kind in UNKNOWN])

    def marked(self, sketch):
        """The sketch with the marks of a line, all of which are forced."""
        line, marks = self.lines.pop()
        numbers = [number - 1 for number in marks.figures]
        need(all(i < len(sketch) and not sketch[i].marked and sketch[i].kinds != "k" for i in numbers), line)
        need(all(map(self.account(sketch, marks.price).forces, numbers)), line)
        return [f._replace(marked=True) if i in numbers else f for i, f in enumerate(sketch)]

    def children(self, line, listed, due):
        for number in range(listed):
            if number == len(due):
                raise Refused(Fault(self.lines[-1][0], "stray"))
            self.node(*due[number])
        need(listed >= len(due), line)


def need(so, line):
    """What the line says has to be so."""
    if not so:
        raise Refused(Fault(line, "rule"))


def is_unknown_on(figure, s):
    return figure.kinds == UNKNOWN and figure.squares == {s}


def known(sketch, s, kind):
    """The sketch in which the first man of unknown kind on that square is of this one."""
    at = next(i for i, f in enumerate(sketch) if is_unknown_on(f, s))
    return [f._replace(kinds=kind) if i == at else f for i, f in enumerate(sketch)]


def may_ask(query, first):
    """Whether sketches can be asked about the query's board."""
    for side in "wb":
        men = [man for man in query.board if man and side_of(man) == side]
        began = [man for man in first if man and side_of(man) == side]
        if len(men) > len(began) or sum(man.lower() == "k" for man in men) != 1:
            return False
    return not any(man and man.lower() == "p" for man in query.board[:8] + query.board[56:])


def first_sketch(board):
    """Each man on his square, unmarked."""
    return trimmed([Figure(side_of(man), man.lower(), frozenset([s]), place=s // 8 if man in "Pp" else 0) for s, man in enumerate(board) if man])


def held_homes(rights):
    return frozenset(home for right in rights for home in CASTLINGS[right])


def sketch_fault(query, sketch):
    """The first fault of a sketch that was read, None if it supports the query: its line, and `rule` or `stray`."""
    first = array(query.odds)
    if not may_ask(query, first):
        return Fault(sketch.line + 1 + len(sketch.prices), "rule")
    asked = Asked(first, held_homes(query.rights), frozenset("abcdefgh".index(letter) for letter in sketch.files))
    try:
        Walk(asked, sketch).node("now", first_sketch(query.board))
    except Refused as refused:
        return refused.args[0]
    return None


def predecessor(query, label):
    """The query before a retraction of its list, with the rights of a castling that is taken back."""
    a, b, how = square_of(label), square_of(label[2:]), label[4:]
    men, rights, man = list(query.board), query.rights, query.board[b]
    men[b], men[a] = None, man
    taken = "p" if how == "ep" else how.partition("x")[2]
    if taken:
        s = 8 * (a // 8) + b % 8 if how == "ep" else b
        men[s] = taken if man.isupper() else taken.upper()
    if how[:1] in ("n", "b", "r", "q"):
        men[a] = "P" if man.isupper() else "p"
    if man in "Kk" and abs(a - b) == 2:
        right = ("K" if b > a else "Q") if man == "K" else ("k" if b > a else "q")
        rook = CASTLINGS[right][1]
        men[rook], men[(a + b) // 2] = men[(a + b) // 2], None
        rights = "".join(letter for letter in "KQkq" if letter in rights + right)
    return Query(men, rights, query.odds)


def sketches_before(text, root, line):
    """The sketches that begin before this line in a certificate with a good text, whose root's line has the number `root`, each with its query."""
    queries = []
    for node in read_nodes(text, root)[0]:
        if node.line >= line:
            return
        del queries[node.depth :]
        queries.append(predecessor(queries[-1], node.label) if queries else root_query(text))
        if node.sketch:
            yield node.sketch, queries[-1]
