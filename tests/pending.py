"""The violations of deferred constraints that are pending after each statement, as the lines of accounts tell them: which came and which went."""
import re

CAME = re.compile(rb'^  now pending (\w+)(?: \([A-Z][\w ,()]*\))?: \w+ row (\d+) ', re.M)
WENT = re.compile(rb'^  no longer pending (\w+)(?: \([A-Z][\w ,()]*\))?: \w+ row (\d+)$', re.M)
LINES = re.compile(rb"^  (?:now pending \w+(?: \([A-Z][\w ,()]*\))?: \w+ row \d+ (?:n't|[^'\n]|'[^']*')*|no longer pending \w+(?: \([A-Z][\w ,()]*\))?: \w+ row \d+)\n", re.M)
# The end of a transaction, as a statement is written.
END = re.compile(rb'(?:\s|--[^\n]*\n)*(?:COMMIT|ROLLBACK)(?:\s+WORK)?\s*;?\s*', re.I)


def followed(statements, outcomes):
    """What is pending after each statement, by the lines of its outcome. A transaction's end leaves nothing."""
    pending, after = set(), []
    for statement, outcome in zip(statements, outcomes):
        came, went = ({(name, int(row)) for name, row in lines.findall(outcome)} for lines in (CAME, WENT))
        wrong = came & pending or went - pending
        pending = set() if END.fullmatch(statement) else (pending | came) - went
        after.append(None if wrong else set(pending))
    return after


def without(text):
    """The text without these lines."""
    return LINES.sub(b'', text)
