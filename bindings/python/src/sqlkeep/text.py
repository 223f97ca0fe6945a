"""Texts of SQL: their words, where their statements end, and where a fault is.

The engine alone decides what a text means. This is for what the engine doesn't tell: where the statements are of a text with faults, or of
one that is still being typed, and which columns a SELECT asks for.
"""
import re
from typing import List, NamedTuple, Tuple

__all__ = ["KEYWORDS", "Ends", "Place", "Token", "folded", "is_name", "lexical_fault", "place_of", "select_list", "spans", "tokens"]

KEYWORDS = frozenset(
    """ACTION ADD AFTER ALL ALTER AND AS ATOMIC BEFORE BEGIN CASCADE CHAR CHARACTER CHECK COMMIT CONSTRAINT CONSTRAINTS
    COUNT CREATE DEFAULT DEFERRABLE DEFERRED DELETE DISTINCT DROP EACH END EXISTS FOR FOREIGN FROM FULL IMMEDIATE
    INITIALLY INSERT INT INTEGER INTO IS KEY MATCH NEW NO NOT NULL NULLS OF OLD ON OR PRIMARY REFERENCES REFERENCING
    RELEASE RESTRICT ROLLBACK ROW SAVEPOINT SELECT SET SIGNAL SIMPLE START STATEMENT TABLE TO TRANSACTION TRIGGER
    UNIQUE UPDATE VALUES VARCHAR VARYING WHEN WHERE WORK""".split()
)

BLANK = re.compile(r"(?:[ \t\r\n]|--[^\n]*)+")
PIECE = re.compile(r"(?P<word>[A-Za-z_][A-Za-z0-9_]*)|(?P<number>[0-9]+)|(?P<text>'[^']*(?:''[^']*)*'(?!'))|(?P<sign><=|>=|<>|[(),;.=<>+*?-])")
LONGEST_NAME = 128
GREATEST = "9223372036854775807"


class Token(NamedTuple):
    """A word in upper case, a number, a text or a sign, and where it begins and ends. Of kind `fault` where no token begins."""

    kind: str
    word: str
    start: int
    end: int


class Place(NamedTuple):
    """A place of a text: its line and its column, both from 1, and the words there."""

    line: int
    column: int
    words: str


def kind_of(word: str, kind: str) -> str:
    """The kind of a token; `fault` for a name or a number that is too long."""
    digits = word.lstrip("0") if kind == "number" else ""
    too_long = (kind == "word" and len(word) > LONGEST_NAME) or (len(digits), digits) > (len(GREATEST), GREATEST)
    return "fault" if too_long else kind


def tokens(text: str) -> List[Token]:
    """The tokens of a text, up to the first fault, which is the last of them."""
    found: List[Token] = []
    at = 0
    while True:
        blank = BLANK.match(text, at)
        at = blank.end() if blank is not None else at
        if at == len(text) or (found and found[-1].kind == "fault"):
            return found
        piece = PIECE.match(text, at)
        if piece is None or piece.lastgroup is None:
            return [*found, Token("fault", text[at], at, at + 1)]
        found.append(Token(kind_of(piece[0], piece.lastgroup), piece[0].upper() if piece.lastgroup == "word" else piece[0], at, piece.end()))
        at = piece.end()


class Ends:
    """Says of each token of a text whether it ends a statement. Semicolons in a trigger's body end none."""

    def __init__(self) -> None:
        # The first word of the statement that is open; empty between statements.
        self.first = ""
        self.in_body = False

    def take(self, token: Token) -> bool:
        """Whether the next token ends its statement."""
        self.first = self.first or token.word
        if token.kind == "word" and token.word in ("BEGIN", "END"):
            self.in_body = token.word == "BEGIN" and self.first == "CREATE"
        if token.word != ";" or self.in_body:
            return False
        self.first = ""
        return True


def spans(text: str) -> List[Tuple[int, int]]:
    """Where each statement of a text begins and ends, with its semicolon; and, as the last, what is left behind them."""
    found: List[Tuple[int, int]] = []
    ends = Ends()
    start, end = -1, 0
    for token in tokens(text):
        start, end = token.start if start < 0 else start, token.end
        if ends.take(token):
            found.append((start, end))
            start = -1
    return found if start < 0 else [*found, (start, end)]


def folded(name: str) -> str:
    """A name as the engine folds it: its letters from a to z in upper case."""
    return "".join(character.upper() if character.isascii() else character for character in name)


def is_name(word: str) -> bool:
    """Whether a word can be a name."""
    return re.fullmatch(r"[A-Za-z_][A-Za-z0-9_]*", word) is not None and len(word) <= LONGEST_NAME and word.upper() not in KEYWORDS


def place_of(text: str, at: int) -> Place:
    """The line and the column of a character, and the rest of its line, of 60 characters at most."""
    start = text.rfind("\n", 0, at) + 1
    words = re.match(r"[^\x00-\x08\x0a-\x1f\x7f]{0,60}", text[at:])
    return Place(text.count("\n", 0, at) + 1, at - start + 1, words[0].rstrip() if words is not None else "")


def lexical_fault(token: Token) -> str:
    """Why no token begins there."""
    if token.word == "'":
        return "a text doesn't end"
    if token.word == '"':
        return "a text is written between single quotes"
    return "a name or a number is too long" if len(token.word) > 1 else "no word begins so"


def select_list(text: str) -> List[List[Token]]:
    """The expressions of a SELECT and, as the last item, its table's name."""
    items: List[List[Token]] = [[]]
    depth = 0
    found = iter(tokens(text)[1:])
    for token in found:
        depth += (token.word == "(") - (token.word == ")")
        if depth == 0 and token.word == "FROM":
            return [*items, [next(found, token)]]
        if depth == 0 and token.word == ",":
            items.append([])
        else:
            items[-1].append(token)
    return [*items, []]
