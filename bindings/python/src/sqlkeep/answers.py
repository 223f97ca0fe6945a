"""What the engine answers to a statement, as errors and columns."""
from __future__ import annotations

from .errors import ProgrammingError, faulted

TYPE_CHECKING = False
if TYPE_CHECKING:
    from typing import Any

    from ._engine import Engine

__all__ = ["CHANGED", "DONE", "EMPTY", "ROWS", "columns_of", "encoded", "error_of", "fault_in"]

# What the engine answers: kinds of an outcome, and why nothing was executed. It raises the error of a refusal.
DONE, CHANGED, ROWS, _, FAULT, COUNT, MANY, EMPTY = range(8)


def encoded(text: str) -> bytes:
    """The bytes of a text; ProgrammingError where UTF-8 can't hold it."""
    try:
        return text.encode()
    except UnicodeEncodeError:
        raise ProgrammingError("the text has a surrogate, which UTF-8 can't hold") from None


def error_of(answer: tuple[Any, ...], text: str, given: int, engine: Engine, statement: int | None = None) -> ProgrammingError:
    """The error of a text that wasn't executed. `given` is the number of parameters."""
    kind = answer[0]
    if kind == FAULT:
        return fault_in(text, answer[1], engine, statement)
    error = ProgrammingError(count_fault(text, given) if kind == COUNT else "there are several statements; execute takes one, and executescript many")
    error.statement = statement
    return error


def count_fault(text: str, given: int) -> str:
    from .text import tokens  # pylint: disable=import-outside-toplevel

    holes = sum(token.word == "?" for token in tokens(text))
    return f"the statement has {holes} placeholder{'' if holes == 1 else 's'}, and {given} value{' is' if given == 1 else 's are'} given"


def wrong_word(text: str, engine: Engine) -> tuple[int, int] | None:
    """Where the first word of a text begins and ends that can't stand where it does, in characters; the end of the text where it ends
    within a statement. A question mark is read as a number."""
    from .text import tokens  # pylint: disable=import-outside-toplevel

    characters = list(text)
    for token in tokens(text):
        if token.word == "?":
            characters[token.start] = "0"
    data = encoded("".join(characters))
    found = engine.word(data)
    return None if found is None else (len(data[: found[0]].decode()), len(data[: found[1]].decode()))


def fault_of(text: str, whole: int, word: tuple[int, int] | None) -> tuple[int, str]:
    """Where something of a text is left, behind so many whole statements, that is no statement: at the place where no word begins, or
    at the word that a hint is about, or at the first word that can't stand where it does; and what is probably the matter, which may be empty."""
    from .hints import hint_of  # pylint: disable=import-outside-toplevel
    from .text import lexical_fault, spans, tokens  # pylint: disable=import-outside-toplevel

    places = spans(text)
    behind = places[whole - 1][1] if 0 < whole <= len(places) else 0
    end = places[whole][1] if whole < len(places) else len(text)
    rest = [token for token in tokens(text) if behind <= token.start < end]
    if not rest:
        return len(text), "there is no statement"
    if rest[-1].kind == "fault":
        return rest[-1].start, lexical_fault(rest[-1])
    hint = hint_of(rest)
    if hint is not None:
        return hint.token.start, hint.reason
    return rest[0].start if word is None else word[0], ""


def fault_in(text: str, whole: int, engine: Engine, statement: int | None = None) -> ProgrammingError:
    """The error of such a text."""
    from .text import place_of  # pylint: disable=import-outside-toplevel

    word = wrong_word(text, engine)
    at, reason = fault_of(text, whole, word)
    error = faulted(at, reason, place_of(text, at), statement)
    error.word = None if word is None else text[word[0] : word[1]]
    return error


def columns_of(text: str, names: list[str], engine: Engine) -> list[tuple[str, str | None]]:
    """The columns of a SELECT with the names that the engine gave, each with its type where it is known. An expression is called by
    its text."""
    from .text import select_list  # pylint: disable=import-outside-toplevel

    items = select_list(text)
    table = items.pop()
    tables = {name: {column[0]: "INTEGER" if column[1] == 1 else "VARCHAR" for column in columns} for name, columns in engine.catalogue()[0]}
    types = tables.get(table[0].word, {}) if table else {}
    is_count = bool(items[0]) and items[0][0].word == "COUNT"
    parts = [text[item[0].start : item[-1].end] if item else "" for item in items]
    return [(name or parts[at], "INTEGER" if is_count else type_of(name, parts[at : at + 1], types)) for at, name in enumerate(names)]


def type_of(name: str, part: list[str], types: dict[str, str]) -> str | None:
    """The type of a column; that of an expression with an operator is an integer."""
    if name:
        return types.get(name)
    return "INTEGER" if part and not part[0].startswith("'") and part[0] != "NULL" else None
