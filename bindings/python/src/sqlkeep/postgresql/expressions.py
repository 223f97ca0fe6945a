"""Expressions, conditions and data statements as PostgreSQL writes them."""
from __future__ import annotations

from typing import Iterable, Mapping, Sequence

from ..text import Token
from .quoting import EMPTY, Sql, joined, name, of_token, sql

__all__ = ["columns", "expression", "names"]

ARITHMETIC = ("+", "-", "*")
COMPARISONS = ("=", "<>", "<", "<=", ">", ">=")
NONE = Token("", "", 0, 0)
SIDES = {"OLD": sql("OLD"), "NEW": sql("NEW")}


def names(words: Iterable[str]) -> Sql:
    """Names with commas between them."""
    return joined(", ", map(name, words))


def columns(words: Iterable[str]) -> Sql:
    """A list of names in parentheses."""
    return sql("({})", names(words))


def around(tokens: Sequence[Token], at: int) -> tuple[Token, Token]:
    """The words before and behind a word, outside of the parentheses that hold nothing else."""
    before, behind = at - 1, at + 1
    while before >= 0 and tokens[before].word == "(":
        before -= 1
    while behind < len(tokens) and tokens[behind].word == ")":
        behind += 1
    return tokens[before] if before >= 0 else NONE, tokens[behind] if behind < len(tokens) else NONE


def is_operand(tokens: Sequence[Token], at: int) -> bool:
    """Whether a word stands beside an operator of arithmetic."""
    return any(word.word in ARITHMETIC for word in around(tokens, at))


def is_wide(tokens: Sequence[Token], at: int) -> bool:
    """Whether a number stands beside an operator with no column on its other side, so that PostgreSQL would reckon in 32 bits."""
    before = tokens[at - 1].word if at else ""
    behind = tokens[at + 1].word if at + 1 < len(tokens) else ""
    meets_column = (before in ARITHMETIC and at > 1 and tokens[at - 2].kind == "word") or (behind in ARITHMETIC and at + 2 < len(tokens) and tokens[at + 2].kind == "word")
    return is_operand(tokens, at) and not meets_column


def meets_text(tokens: Sequence[Token], at: int) -> bool:
    """Whether a text is compared with another text that follows, so that PostgreSQL would take the collation of the database."""
    ahead = at + 1
    while ahead < len(tokens) and (tokens[ahead].word in ("(", ")") or (tokens[ahead].word in COMPARISONS and tokens[ahead].kind == "sign")):
        ahead += 1
    return ahead < len(tokens) and tokens[ahead].kind == "text" and any(each.word in COMPARISONS for each in tokens[at + 1 : ahead])


def piece(tokens: Sequence[Token], at: int, rows: Mapping[str, str]) -> Sql:
    """A word of an expression."""
    token = tokens[at]
    if token.word == "NULL" and is_operand(tokens, at):
        return sql("NULL::bigint")
    if token.kind == "number" and is_wide(tokens, at):
        return sql("{}::bigint", of_token(token))
    if token.kind == "text" and meets_text(tokens, at):
        return sql('{} COLLATE "C"', of_token(token))
    if token.word in rows and at + 1 < len(tokens) and tokens[at + 1].word == ".":
        return SIDES[rows[token.word]]
    return of_token(token)


def is_close(before: Token, token: Token) -> bool:
    """Whether no space stands between two words: around a dot, before a comma and inside of parentheses."""
    return token.word in (",", ")", ".", ";") or before.word in ("", "(", ".") or (token.word == "(" and before.word == "COUNT")


def expression(tokens: Sequence[Token], rows: Mapping[str, str] | None = None) -> Sql:
    """Words of an expression, a condition or a data statement. `rows` has OLD or NEW for each row variable."""
    pieces = (sql("{}" if is_close(before, tokens[at]) else " {}", piece(tokens, at, rows or {})) for at, before in enumerate((NONE, *tokens[:-1])))
    return joined("", pieces) if tokens else EMPTY
