"""The 22 causes of a refusal: their names, the class of the exception, and what they say where no account tells more."""
from __future__ import annotations

__all__ = ["CAUSES"]

CAUSES: dict[int, tuple[str, str, str]] = {
    1: ("Unknown", "ProgrammingError", "a name names nothing"),
    2: ("Duplicate", "ProgrammingError", "a new name is in use, or a name comes twice where it may come once"),
    3: ("SchemaFault", "ProgrammingError", "no database can have such a definition"),
    4: ("InTransaction", "ProgrammingError", "tables, constraints and triggers are made and dropped outside a transaction; COMMIT or ROLLBACK first"),
    5: ("NoTransaction", "ProgrammingError", "no transaction is open; START TRANSACTION first"),
    6: ("ActiveTransaction", "ProgrammingError", "a transaction is open already"),
    7: ("UnknownSavepoint", "ProgrammingError", "there is no savepoint of that name"),
    8: ("NotDeferrable", "ProgrammingError", "the constraint isn't deferrable"),
    9: ("WrongShape", "ProgrammingError", "the number of values isn't that of the columns, or an integer meets a text"),
    10: ("NumberOutOfRange", "DataError", "a result has more than 64 bits"),
    11: ("TextTooLong", "DataError", "a text has more characters than its column holds"),
    12: ("Restrict", "IntegrityError", "a row refers to a key that was lost under RESTRICT"),
    13: ("Violation", "IntegrityError", "a constraint is violated"),
    14: ("ActionConflict", "IntegrityError", "two foreign keys set one column of a row to different values"),
    15: ("Signal", "IntegrityError", "a trigger ran SIGNAL"),
    16: ("DepthLimit", "OperationalError", "the statements of triggers are nested too deep"),
    17: ("TooManyChanges", "OperationalError", "the statement, with all that follows from it, changes too many rows"),
    18: ("TransactionTooLarge", "OperationalError", "the transaction has too many row changes; COMMIT in between"),
    19: ("CommitRefused", "IntegrityError", "COMMIT found a constraint violated, and rolled the transaction back"),
    20: ("AddRefused", "IntegrityError", "a row violates the constraint that ALTER TABLE adds"),
    21: ("Limit", "OperationalError", "there are more tables, columns, constraints or other things than there may be"),
    22: ("OutOfMemory", "OperationalError", "memory was refused; nothing was changed"),
}
