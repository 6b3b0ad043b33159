"""Reads collections: `.olv` files, and lists of FEN or EPD lines. Each record becomes diagrams to study, or a word on why it was left out."""
import dataclasses
import re

try:
    import yaml
except ImportError:
    yaml = None

SQUARE = "[a-h][1-8]"
MEN = {"K": "K", "Q": "Q", "R": "R", "B": "B", "S": "N", "P": "P"}
# What is read of a record.
NEEDED = {"authors", "source", "source-id", "date", "algebraic", "stipulation", "options", "twins", "solution"}
# The options of a record that change nothing about how men move.
PLAIN_OPTIONS = {"setplay", "duplex", "halfduplex", "try", "defence", "variation", "nothreat", "quodlibet", "postkeyplay", "intelligent"}
# Stipulations by who moves first: White in direct play, selfmates, reflexmates, studies and helpselfmates, and in a series unless it is a
# series helpmate; Black in helpmates. A half move more (`h#2.5`) lets the other side begin.
WHITE_FIRST = re.compile(r"(?:ser-)?(?:s|r|semi-r)?[#=]|\+|hs[#=]|hr[#=]")
BLACK_FIRST = re.compile(r"(?:ser-)?h[#=]")
HALF = re.compile(r"h?[sr]?[#=]\d+\.5")


@dataclasses.dataclass
class Diagram:
    """A diagram: where it stands, who made it, where it was published, what is asked, a FEN for each side that may be to move, and the
    solution as it is printed."""

    place: str
    author: str
    source: str
    stipulation: str
    fens: list
    solution: str


@dataclasses.dataclass
class LeftOut:
    """What isn't studied: where it stands, why, and whether it couldn't be read at all."""

    place: str
    why: str
    is_broken: bool = False


class Unread(Exception):
    """A record that can't be read."""


class Unmade(Exception):
    """A twin that can't be made."""


def parse_plainly(text):
    """The record of an `.olv` text, of the part of YAML that those files use: scalars, lists, one level of names below a name, and `|`.
    What stands behind other names than those that are needed is passed over."""
    record, place, name = {}, {}, None
    lines = text.split("\n")
    while lines:
        line = lines.pop(0)
        found = re.fullmatch(r"( *)([\w-]+):\s*(.*?)\s*", line)
        item = re.fullmatch(r" +- +(.*?)\s*", line)
        if not line.strip() or (line.startswith(" ") and record and list(record)[-1] not in NEEDED):
            continue
        if item and isinstance(place.get(name), (list, type(None))) and record:
            place[name] = [*(place[name] or []), scalar(item[1])]
        elif found and (not found[1] or record):
            place, name = below(record) if found[1] else record, found[2]
            is_needed = place is not record or name in NEEDED
            place[name] = block(lines, len(found[1])) if found[3] in ("|", ">") else scalar(found[3]) if is_needed else None
        else:
            raise Unread(f"a line that isn't of the form of a record: {line.strip()[:40]!r}")
    return record


def below(record):
    """The names below the last name of a record."""
    name = list(record)[-1]
    if not isinstance(record[name], (dict, type(None))):
        raise Unread(f"a name below {name}, which has a value")
    record[name] = record[name] or {}
    return record[name]


def block(lines, depth):
    """Takes the lines of a block of text that stands deeper than a name, and gives the text."""
    taken = []
    while lines and (not lines[0].strip() or len(lines[0]) - len(lines[0].lstrip(" ")) > depth):
        taken.append(lines.pop(0).strip())
    return "\n".join(taken).strip()


def scalar(text):
    """The value that stands behind a name or in a list."""
    if text.startswith("["):
        if not text.endswith("]"):
            raise Unread(f"a list without an end: {text[:40]!r}")
        return [word.strip() for word in text[1:-1].split(",") if word.strip()]
    quoted = re.fullmatch(r'"(.*)"|\'(.*)\'', text)
    if text[:1] in ("'", '"') and not quoted:
        raise Unread(f"a text without an end: {text[:40]!r}")
    return (quoted[1] or quoted[2] or "") if quoted else text or None


def parse(text):
    """The record of an `.olv` text, by PyYAML if it is installed."""
    if yaml is None:
        return parse_plainly(text)
    try:
        # (dates and numbers stay as they were typed)
        return yaml.load(text, Loader=getattr(yaml, "CBaseLoader", yaml.BaseLoader))
    except yaml.YAMLError as error:
        mark = getattr(error, "problem_mark", None)
        raise Unread(f"not YAML: {getattr(error, 'problem', None) or error}{f', line {mark.line + 1} of it' if mark else ''}") from error


def listed(value):
    """A list of texts, of what a record has as a list, a text or nothing."""
    return [str(it) for it in value] if isinstance(value, list) else [str(value)] if value else []


def board_of(record):
    """The men by square, White's in capitals."""
    sides = record.get("algebraic")
    if not isinstance(sides, dict):
        raise Unread("no men")
    board = {}
    for side, men in sides.items():
        if side not in ("white", "black"):
            raise Unmade(f"not orthodox: {side} men")
        for man in listed(men):
            found = re.fullmatch(rf"(.*?)({SQUARE})", man)
            if not found:
                raise Unread(f"a man without a square: {man!r}")
            if found[1] not in MEN:
                raise Unmade(f"not orthodox: the man {man}")
            if found[2] in board:
                raise Unread(f"two men on {found[2]}")
            board[found[2]] = MEN[found[1]] if side == "white" else MEN[found[1]].lower()
    return board


def placement(board):
    """The first field of the FEN."""
    ranks = ("".join(board.get(f"{file}{rank}", "1") for file in "abcdefgh") for rank in range(8, 0, -1))
    return re.sub("1+", lambda ones: str(len(ones[0])), "/".join(ranks))


def sides_of(stipulation, options):
    """The sides that may be to move: one by the stipulation, both if it doesn't say or the problem is a duplex."""
    words = stipulation.strip().lower()
    black, white = bool(BLACK_FIRST.match(words)), bool(WHITE_FIRST.match(words))
    if not (black or white) or re.search(r"how many|who|retract|\bb\)", words) or "duplex" in options:
        return "wb"
    turned = bool(HALF.match(words)) != bool(re.search(r"\bblack\b", words))
    return "b" if black != turned else "w"


def lacking(board):
    """Which king is missing or one too many, for no reading of such a diagram is orthodox; None if there is one of each."""
    kings = [(side, list(board.values()).count(man)) for side, man in (("white", "K"), ("black", "k"))]
    return next((f"not orthodox: {count or 'no'} {side} king{'s' * (count > 1)}" for side, count in kings if count != 1), None)


def shifted(board, start, end):
    """The board with everything moved as from one square to the other."""
    files, ranks = ord(end[0]) - ord(start[0]), int(end[1]) - int(start[1])
    moved = {f"{chr(ord(square[0]) + files)}{int(square[1]) + ranks}": man for square, man in board.items()}
    if not all(re.fullmatch(SQUARE, square) for square in moved):
        raise Unmade("a shift off the board")
    return moved


def moved(board, start, end):
    """The board with the man of one square on the other."""
    if start not in board:
        raise Unmade(f"no man on {start}")
    return {**{square: man for square, man in board.items() if square != start}, end: board[start]}


def removed(board, square):
    if square not in board:
        raise Unmade(f"no man on {square}")
    return {it: man for it, man in board.items() if it != square}


def added(board, side, man, square):
    letter = MEN[man.upper()]
    return {**board, square: letter if side[0].lower() == "w" else letter.lower()}


def turned(board):
    """The board seen from the other end."""
    return {f"{chr(201 - ord(square[0]))}{9 - int(square[1])}": man for square, man in board.items()}


def exchanged(board, one, other):
    return {**board, one: board[other], other: board[one]} if one in board and other in board else moved(board, *((one, other) if one in board else (other, one)))


# What the text of a twin says, and what it makes of the board.
CHANGES = [
    (rf"[Mm]ove ({SQUARE}) ({SQUARE})", moved),
    (rf"[KQRBSP]?({SQUARE})-(?:-|>)?({SQUARE})", moved),
    (rf"[Ss]hift ({SQUARE})(?: |==?>?)({SQUARE})", shifted),
    (rf"[Rr]emove ({SQUARE})", removed),
    (rf"[Ee]xchange ({SQUARE}) ({SQUARE})", exchanged),
    (rf"[Aa]dd ([Ww]hite |[Bb]lack |w|b)\s*([KQRBSPkqrbsp])({SQUARE})", added),
    (r"[Rr]otate 180", turned),
]
CONTINUED = re.compile(r"cont(?:inued?)?\b", re.I)


def twin_of(board, text):
    """The board that the text of a twin makes of another, change by change."""
    rest = text.strip()
    while rest:
        for form, change in CHANGES:
            if found := re.match(form + r"(?=$|[\s,;])[\s,;]*", rest):
                board, rest = change(board, *found.groups()), rest[found.end() :]
                break
        else:
            raise Unmade(f"a twin that the record doesn't say how to make: {text.strip()!r}")
    return board


def section(solution, letter):
    """The part of a solution that is headed by the letter of a twin; the whole if it has no such heads."""
    parts = re.split(r'(?m)^\s*"?\s*([a-z])\)', solution)
    sections = dict(zip(parts[1::2], parts[2::2]))
    return sections.get(letter, solution if len(sections) < 2 else "")


def in_place(problem, name, board, stipulation, sides):
    """The diagram or what is left out, of a board and the letter of its twin."""
    if why := lacking(board):
        return LeftOut(problem.place + name, why)
    fens = [f"{placement(board)} {side} - -" for side in sides]
    return dataclasses.replace(problem, place=problem.place + name, fens=fens, stipulation=stipulation, solution=section(problem.solution, name or "a"))


def twins_of(problem, board, options, twins):
    """The diagrams of the twins, and those that can't be made; a twin that continues one that can't be made can't be either."""
    last = board
    for name, text in twins.items():
        text = str(text or "").strip()
        asked = re.search(r"[Ss]tipulation (\S+(?: [Bb]lack)?)$", text)
        stipulation = asked[1] if asked else problem.stipulation
        change = text[: asked.start()] if asked else text
        continued = CONTINUED.match(change)
        try:
            if continued and last is None:
                raise Unmade("a twin of one that wasn't made")
            made = twin_of(last if continued else board, change[continued.end() :] if continued else change)
        except Unmade as why:
            last = None
            yield LeftOut(f"{problem.place}{name}", str(why))
            continue
        last = made
        yield in_place(problem, name, made, stipulation, sides_of(stipulation, options))


def diagrams_of(record, place):
    """The diagrams of an `.olv` record, and what is left out of it."""
    if not isinstance(record, dict):
        raise Unread("not a record")
    board = board_of(record)
    options = {option.lower() for option in listed(record.get("options"))}
    if strange := sorted(option for option in options if option.split(" ")[0] not in PLAIN_OPTIONS):
        raise Unmade(f"not orthodox: {', '.join(strange)}")
    stipulation = str(record.get("stipulation") or "").strip()
    source = ", ".join(str(record[name]).strip() for name in ("source", "source-id", "date") if record.get(name))
    problem = Diagram(place, ", ".join(listed(record.get("authors"))), source, stipulation, [], str(record.get("solution") or "").strip())
    twins = record.get("twins")
    if twins and not isinstance(twins, dict):
        raise Unread("twins that have no letters")
    yield in_place(problem, "", board, stipulation, sides_of(stipulation, options))
    yield from twins_of(problem, board, options, twins or {})


def read_olv(name, text):
    """The diagrams of an `.olv` file, record by record."""
    bodies = (body for body in re.split(r"(?m)^---[ \t]*$", text) if body.strip())
    for number, body in enumerate(bodies, 1):
        place = f"{name}:{number}"
        try:
            yield from list(diagrams_of(parse(body), place))
        except Unmade as why:
            yield LeftOut(place, str(why))
        except Unread as why:
            yield LeftOut(place, str(why), is_broken=True)


FIELDS = re.compile(r"([1-8PNBRQKpnbrqk]+(?:/[1-8PNBRQKpnbrqk]+){7})(?: ([wb])(?: (-|[KQkq]+) (-|[a-h][36]))?)?(?: (.*))?")


def read_line(name, number, line):
    """The diagram of a line of FEN or EPD. A placement alone may have either side to move."""
    found = FIELDS.fullmatch(" ".join(line.split()))
    if not found:
        return LeftOut(f"{name}:{number}", f"not FEN or EPD: {line.strip()[:60]!r}", is_broken=True)
    men, side, rights, square, rest = found.groups()
    board = "".join(man for man in men if man.isalpha())
    if why := lacking(dict(enumerate(board))):
        return LeftOut(f"{name}:{number}", why)
    letters = "".join(it for it in "KQkq" if it in (rights or "")) or "-"
    fens = [f"{men} {it} {letters} {square or '-'}" for it in side or "wb"]
    operations = dict(re.findall(r'\b(bm|pv|dm|id)\s+("[^"]*"|[^;]*)', rest or ""))
    key = operations.get("bm") or operations.get("pv")
    stipulation = f"#{operations['dm'].strip()}" if "dm" in operations else ""
    return Diagram(f"{name}:{number}", "", operations.get("id", "").strip('"'), stipulation, fens, f"1.{key.strip()}" if key else "")


def read_lines(name, text):
    """The diagrams of a list of FEN or EPD lines. Empty lines and lines that begin with `#` are none."""
    for number, line in enumerate(text.split("\n"), 1):
        if line.strip() and not line.startswith("#"):
            yield read_line(name, number, line)


def read(path):
    """The diagrams of a file, and what is left out of it, in order."""
    try:
        text = path.read_bytes().decode("utf-8-sig").replace("\r\n", "\n")
    except (OSError, UnicodeDecodeError) as error:
        return [LeftOut(path.name, f"can't be read: {error}", is_broken=True)]
    return list((read_olv if path.suffix == ".olv" else read_lines)(path.name, text))
