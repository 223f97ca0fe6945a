"""What a statement asks of the caller, by its first words."""
from __future__ import annotations

__all__ = ["COMMIT", "DATA", "PLAIN", "WANTS_TRANSACTION", "plan_of", "plans"]

# COMMIT is executed with its account asked for; SAVEPOINT and SET CONSTRAINTS want a transaction to be open; INSERT, UPDATE and
# DELETE are data statements.
PLAIN, DATA, COMMIT, WANTS_TRANSACTION = range(4)
FIRST = {"INSERT": DATA, "UPDATE": DATA, "DELETE": DATA, "COMMIT": COMMIT, "SAVEPOINT": WANTS_TRANSACTION, "SET": WANTS_TRANSACTION}
BLANKS = " \t\r\n"
# As many plans are kept; then all are dropped.
MOST_KEPT = 1024

plans: dict[str, int] = {}


def behind_comments(text: str) -> str:
    """The text from its first word on."""
    text = text.lstrip(BLANKS)
    while text.startswith("--"):
        text = text.partition("\n")[2].lstrip(BLANKS)
    return text


def first_word(text: str) -> str:
    """The first word of a text, in upper case."""
    rest = behind_comments(text)[:32].replace(";", " ").replace("-", " ").replace("(", " ").split(None, 1)
    return rest[0].upper() if rest else ""


def plan_of(text: str) -> int:
    """The plan of a statement, kept for the next time."""
    plan = plans.get(text)
    if plan is None:
        plan = FIRST.get(first_word(text), PLAIN)
        if len(plans) >= MOST_KEPT:
            plans.clear()
        plans[text] = plan
    return plan
