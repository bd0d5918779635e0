"""A refusal as people know it from good compilers: the place, a sentence, the line, a caret, and what would help.

The place and the cause are the program's. What could stand at the place of a syntax error is found by asking the
program which kinds of token let it read on there; what is counted is counted in the text.
"""

from __future__ import annotations

import difflib
import re
from concurrent.futures import ThreadPoolExecutor
from typing import Callable, Dict, List, Optional, Sequence, Set, Tuple, Union

from .columns import cut, width_of, width_of_character
from .errors import Error, Refused
from .outputs import Refusal
from .program import Program, asked
from .tokens import Places, Token, WrittenGrammar, grammars_of, tokens_of
from .trees import visible

KINDS: Tuple[Tuple[str, str], ...] = (
    ("X", "a label"),
    ("A*", "a label variable (as A*)"),
    ("I*", "a tree variable (as I*)"),
    ("U*", "a forest variable (as U*)"),
    ("(", "'('"),
    (")", "')'"),
    (",", "','"),
    ("+", "'+'"),
    ("==", "'=='"),
    ("/", "'/'"),
    (".", "'.'"),
    ("-1-", "a node (as -1-)"),
    ("-SYSTEME-", "-SYSTEME-"),
    ("-GRAPHE-", "-GRAPHE-"),
    ("-FIN-", "-FIN-"),
    ("-DANS-", "-DANS-"),
    ("-HORS-", "-HORS-"),
    ("-EGAL-", "-EGAL-"),
    ("-NON-", "-NON-"),
    ("-ET-", "-ET-"),
    ("-OU-", "-OU-"),
    ("-UNIQUE-", "-UNIQUE-"),
    ("-VERSION-", "-VERSION-"),
)
"""The kinds of token, each with one of it and its name. A program that doesn't know a word says so when it is asked."""

WORDS = {
    "-SYSTEM-": "-SYSTEME-",
    "-GRAMMAR-": "-SYSTEME-",
    "-GRAPH-": "-GRAPHE-",
    "-END-": "-FIN-",
    "-IN-": "-DANS-",
    "-NOTIN-": "-HORS-",
    "-OUT-": "-HORS-",
    "-NOT-": "-NON-",
    "-AND-": "-ET-",
    "-OR-": "-OU-",
    "-EQUAL-": "-EGAL-",
}
"""What the words of decks, which are French, are in English."""

UNREAD = ("BadCharacter", "OpenQuote", "BadWord", "BadVariable", "TooDeep", "Syntax")
"""The causes with which the program says that it can't read on at a place."""

WINDOW = 96
"""How many columns of a line are shown."""

Told = Tuple[str, List[str]]


def message(
    refused: Union[Refused, Refusal],
    text: Union[None, str, bytes] = None,
    *,
    name: str = "deck",
    color: bool = False,
    program: Union[None, str, Program] = None,
    ask: bool = True,
) -> str:
    """The message for a refusal of this text, which `name` names: some lines, without a line feed at the end.

    `text` may be left out where what was raised knows it. With `ask` the program is asked what could stand at the place
    of a syntax error.
    """
    refusal = refused.refusal if isinstance(refused, Refused) else refused
    if text is None and isinstance(refused, Refused):
        text = refused.text
    if text is None:
        return _headline(name, refusal, _sentence(refusal), color)
    if isinstance(text, str):
        text = text.encode("utf-8", "surrogatepass")
    places = Places(text.decode("utf-8", "replace"))
    at = places.place(refusal.line, refusal.column)
    token = next(tokens_of(places.text, at), None)
    if token is not None and token.start != at:
        token = None
    tell = CAUSES.get(refusal.cause)
    sentence, notes = tell(places, at, token) if tell else (_sentence(refusal), [])
    if refusal.cause == "Syntax" and ask:
        try:
            could = expected(places.text, refusal, program)
        except Error:
            could = []
        if could:
            sentence += f": expected {_either(could)}"
    if refusal.cause == "NotUtf8":
        latin = Places(text.decode("latin-1")).line(refusal.line).strip()
        notes = [f"is the text in Latin-1? then this line says: {cut(visible(latin), 72)}", *notes]
    lines = [_headline(name, refusal, sentence, color)]
    lines += _shown(places, refusal, token, color)
    gutter = " " * len(str(refusal.line))
    lines += [f"  {gutter} {_paint('=', '1;34', color)} {note}" for note in notes]
    return "\n".join(lines)


def expected(text: str, refusal: Refusal, program: Union[None, str, Program] = None) -> List[str]:
    """The kinds of token that could stand at the place of a syntax error, as the program says when it is asked."""
    found = Program.find(program)
    places = Places(text)
    front = text[: places.place(refusal.line, refusal.column)]
    if front and not front.endswith((" ", "\n")):
        front += "\n" if "#" in front.rsplit("\n", 1)[-1] else " "
    ends = Places(front)
    line, column = len(ends), ends.column_of(len(front))
    with ThreadPoolExecutor(8) as pool:
        answers = list(pool.map(lambda kind: _answer(found, front + kind[0]), KINDS))
    could = []
    for (_, kind), answer in zip(KINDS, answers):
        if answer is None or (answer.line, answer.column) != (line, column) or answer.cause not in UNREAD:
            could.append(kind)
    if refusal.line < len(places) or places.place(refusal.line, refusal.column) < len(text):
        answer = _answer(found, front)
        if answer is None or answer.cause not in UNREAD:
            could.append("the end of the text")
    return could


def _answer(program: Program, text: str) -> Optional[Refusal]:
    try:
        for _ in asked(program, ["check"], text):
            pass
    except Refused as refused:
        return refused.refusal
    return None


def _either(kinds: Sequence[str]) -> str:
    return kinds[0] if len(kinds) == 1 else ", ".join(kinds[:-1]) + " or " + kinds[-1]


def _paint(text: str, code: str, color: bool) -> str:
    return f"\x1b[{code}m{text}\x1b[0m" if color else text


def _headline(name: str, refusal: Refusal, sentence: str, color: bool) -> str:
    place = f"{visible(name)}:{refusal.line}:{refusal.column}:"
    return f"{_paint(place, '1', color)} {_paint('error:', '1;31', color)} {_paint(sentence, '1', color)}"


def _shown(places: Places, refusal: Refusal, token: Optional[Token], color: bool) -> List[str]:
    """The line of the place, and a caret under it; of a long line the part around it."""
    line = places.line(refusal.line)
    at = refusal.column - 1
    while len(line) > 1 and line.endswith("\r") and at < len(line) - 1:
        line = line[:-1]
    long = len(token.text) if token and refusal.cause not in ("NotUtf8", "BadCharacter") else 1
    length = max(1, min(long, len(line) - at))
    first = 0
    if width_of(line[:at]) > WINDOW - 24:
        first = max(0, at - (WINDOW - 32))
    while first < at and width_of(line[first:at]) > WINDOW - 24:
        first += 1
    before = _columns("…" if first else "", line[first:at])
    last = at
    width = width_of(before)
    while last < len(line) and (width < WINDOW or last == at):
        width += max(1, width_of_character(line[last]))
        last += 1
    under = _columns("", line[at : min(at + length, last)])
    behind = _columns("", line[min(at + length, last) : last]) + ("…" if last < len(line) else "")
    carets = "^" * max(1, width_of(under))
    number = str(refusal.line)
    bar = _paint("|", "1;34", color)
    caret = _paint(carets, "1;31", color)
    return [
        f"  {_paint(number, '1;34', color)} {bar} {before}{under}{behind}".rstrip(),
        f"  {' ' * len(number)} {bar} {' ' * width_of(before)}{caret}",
    ]


def _columns(front: str, text: str) -> str:
    """The text as it is shown: a tab as spaces up to a column that 8 divides, other controls as signs."""
    shown = front
    for character in text:
        shown += " " * (8 - width_of(shown) % 8) if character == "\t" else visible(character)
    return shown


def _sentence(refusal: Refusal) -> str:
    return f"the text is refused here: {refusal.cause}"


def _not_utf8(places: Places, at: int, token: Optional[Token]) -> Told:
    return "the bytes from here on aren't UTF-8", ["a deck is written in UTF-8"]


def _bad_character(places: Places, at: int, token: Optional[Token]) -> Told:
    character = places.text[at : at + 1]
    shown = f"'{visible(character)}' (U+{ord(character):04X})" if character else "what stands here"
    if character == "=":
        return "a single '=' is no sign", ["the two sides of a rule are joined by '=='"]
    if character == "*":
        return "a '*' stands here without a letter", ["a variable's star follows its letter at once, as in A*"]
    sentence = f"no token begins with {shown}"
    if character in ";:":
        return sentence, ["a rule and a chain of the graph end with '.'"]
    return sentence, ["a label with other characters than letters, digits, _ and ' stands between quotes, as \"A.B\""]


def _open_quote(places: Places, at: int, token: Optional[Token]) -> Told:
    return "the quote that opens here isn't closed in its line", [
        "a quote inside of a quoted label is written twice, as in \"le \"\"chat\"\"\""
    ]


def _bad_word(places: Places, at: int, token: Optional[Token]) -> Told:
    found = re.compile("-[A-Z0-9]*-?").match(places.text, at)
    word = found.group() if found else "-"
    if re.fullmatch("-[0-9]+-", word):
        return f"{_short(word)} is no node", ["a node is a number from 1 to 999,999,999 without leading zero"]
    if not word.endswith("-") or word == "-":
        return "a '-' begins neither a word nor a node here", [
            "a word is written as -DANS-, a node as -1-, and a label with a hyphen between quotes, as \"NORD-OUEST\""
        ]
    if word == "--":
        return "between these two '-' stands neither a word nor a number", []
    known = [token for token, _ in KINDS if token.startswith("-") and token != "-1-"]
    near = [WORDS[word]] if word in WORDS else difflib.get_close_matches(word, known, 1, 0.6)
    return f"{_short(word)} is no word of decks", [f"is {near[0]} meant?"] if near else []


def _bad_variable(places: Places, at: int, token: Optional[Token]) -> Told:
    text = token.text if token else "this"
    run, _, number = text.partition("*")
    kinds = "A* to F* stand for labels, I* to N* for trees, U* to Z* for lists of trees"
    if len(run) > 1:
        return f"{_short(text)} is no variable: a star stands behind a single letter", [kinds]
    if not re.fullmatch("[A-FI-NU-Z]", run):
        return f"{_short(text)} is no variable: none has the letter {visible(run)}", [kinds]
    return f"{_short(text)} is no variable: its number isn't one from 1 to 99 without leading zero", []


def _too_deep(places: Places, at: int, token: Optional[Token]) -> Told:
    return "more than 1,000 parentheses are open here", ["at most 1,000 may be open at a place"]


def _syntax(places: Places, at: int, token: Optional[Token]) -> Told:
    if token is None:
        return "the text ends too early", []
    notes: List[str] = []
    if token.kind == "variable" and token.text[0] in "UVWXYZ":
        notes = [
            "U* to Z* stand for lists of trees, so they stand inside of parentheses or in the lists of a condition"
        ]
    return f"{_named(token)} can't stand here", notes


def _too_many_systems(places: Places, at: int, token: Optional[Token]) -> Told:
    grammars, _ = grammars_of(places.text)
    return f"the deck has {len(grammars):,} grammars; at most 256 are allowed", ["the 257th begins here"]


def _side_too_long(places: Places, at: int, token: Optional[Token]) -> Told:
    rule = _rule_at(places.text, at)
    sides = _sides(rule)
    right = bool(sides[1]) and at >= sides[1][0].start
    count = _trees(sides[1 if right else 0])
    return f"the {'right' if right else 'left'} side has {count:,} trees; at most 16 are allowed", [
        "the 17th begins here"
    ]


def _too_many_cells(places: Places, at: int, token: Optional[Token]) -> Told:
    count = sum(token.kind in ("label", "variable") for token in _rule_at(places.text, at))
    return f"the rule has {count:,} labels and variables; at most 256 are allowed", ["the 257th stands here"]


def _too_many_variables(places: Places, at: int, token: Optional[Token]) -> Told:
    count = len(_variables(_rule_at(places.text, at)))
    return f"the rule has {count:,} different variables; at most 32 are allowed", [
        "the 33rd stands here for the first time"
    ]


def _unbound(places: Places, at: int, token: Optional[Token]) -> Told:
    name = token.text if token else "this"
    sides = _sides(_rule_at(places.text, at))
    there = _variables(sides[0])
    inside = "condition" if sides[2] and at >= sides[2][0].start else "right side"
    has = f"the left side has {', '.join(there)}" if there else "the left side has no variable"
    return f"the variable {name} of the {inside} isn't in the left side of its rule", [has]


def _too_many_arcs(places: Places, at: int, token: Optional[Token]) -> Told:
    _, graph = grammars_of(places.text)
    count, depth = 0, 0
    for one in graph:
        depth += (one.text == "(") - (one.text == ")")
        count += depth == 0 and one.kind == "label"
    return f"the graph has {count:,} trees, each on an arc; at most 65,536 are allowed", ["the 65,537th begins here"]


def _cycle(places: Places, at: int, token: Optional[Token]) -> Told:
    chains = _chains(places.text)
    into: Dict[int, Set[int]] = {}
    for start, end in chains:
        into.setdefault(end, set()).add(start)
    nodes = {node for chain in chains for node in chain}
    while True:
        free = {node for node in nodes if not into.get(node, set()) & nodes}
        if not free:
            break
        nodes -= free
    notes: List[str] = []
    if nodes:
        way = [min(nodes)]
        while len(set(way)) == len(way):
            way.append(min(into[way[-1]] & nodes))
        way = way[way.index(way[-1]) :][::-1]
        notes = ["a way back: " + " to ".join(f"-{node}-" for node in way[:12]) + (" .." if len(way) > 12 else "")]
    return "the arcs of the graph have a cycle: a path comes back to where it begins", notes


def _entries(places: Places, at: int, token: Optional[Token]) -> Told:
    return _ends(places, 1, "into", "entry")


def _exits(places: Places, at: int, token: Optional[Token]) -> Told:
    return _ends(places, 0, "out of", "exit")


def _ends(places: Places, side: int, way: str, name: str) -> Told:
    chains = _chains(places.text)
    met = {chain[side] for chain in chains}
    nodes = sorted({chain[1 - side] for chain in chains} - met)
    shown = ", ".join(f"-{node}-" for node in nodes[:12]) + (" .." if len(nodes) > 12 else "")
    return f"{len(nodes):,} nodes have no arc {way} them; exactly one, the {name}, may have none", [
        f"no arc leads {way} {shown}"
    ]


CAUSES: Dict[str, Callable[[Places, int, Optional[Token]], Told]] = {
    "NotUtf8": _not_utf8,
    "BadCharacter": _bad_character,
    "OpenQuote": _open_quote,
    "BadWord": _bad_word,
    "BadVariable": _bad_variable,
    "TooDeep": _too_deep,
    "Syntax": _syntax,
    "TooManySystems": _too_many_systems,
    "SideTooLong": _side_too_long,
    "TooManyCells": _too_many_cells,
    "TooManyVariables": _too_many_variables,
    "Unbound": _unbound,
    "TooManyArcs": _too_many_arcs,
    "Cycle": _cycle,
    "Entries": _entries,
    "Exits": _exits,
}
"""For each cause what makes its sentence and its notes of the text, the place, and the token at the place."""


def _named(token: Token) -> str:
    text = _short(token.text)
    if token.kind == "sign":
        return f"'{text}'"
    if token.kind == "mark":
        return f"the node {text}"
    return f"the {token.kind} {text}"


def _short(text: str) -> str:
    return visible(text if len(text) <= 30 else text[:29] + "…")


def _rule_at(text: str, at: int) -> Tuple[Token, ...]:
    """The tokens of the rule in which the place is."""
    grammars, _ = grammars_of(text)
    for grammar in _from_last(grammars, at):
        for rule in grammar.rules:
            if rule[0].start <= at < rule[-1].end:
                return rule
    return ()


def _from_last(grammars: List[WrittenGrammar], at: int) -> List[WrittenGrammar]:
    return [grammar for grammar in reversed(grammars) if grammar.heading[0].start <= at][:1]


def _sides(rule: Sequence[Token]) -> Tuple[List[Token], List[Token], List[Token]]:
    """The tokens of the left side, of the right side and of the condition."""
    parts: Tuple[List[Token], List[Token], List[Token]] = ([], [], [])
    at = 0
    for token in rule:
        if token.kind == "sign" and token.text in ("==", "/"):
            at = 1 if token.text == "==" else 2
        else:
            parts[at].append(token)
    return parts


def _trees(side: Sequence[Token]) -> int:
    return 1 + sum(token.kind == "sign" and token.text == "+" for token in side)


def _variables(tokens: Sequence[Token]) -> List[str]:
    return list(dict.fromkeys(token.text for token in tokens if token.kind == "variable"))


def _chains(text: str) -> List[Tuple[int, int]]:
    """The first and the last node of each chain of the graph."""
    marks = [int(token.text[1:-1]) for token in grammars_of(text)[1] if token.kind == "mark"]
    return list(zip(marks[::2], marks[1::2]))
