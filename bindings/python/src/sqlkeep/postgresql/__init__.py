"""Going to PostgreSQL: a script of this engine as a script for psql, and a comparison of both over a server.

`translated(script)` gives the statements of PostgreSQL for each statement, with what is known to differ. `compared(script, connect)`
runs both. `python -m sqlkeep to-postgresql FILE` and `python -m sqlkeep compare FILE --postgresql DSN` are the commands.
"""
from .compare import Comparison, Difference, compared
from .translate import Translation, psql_script, translated

__all__ = ["Comparison", "Difference", "Translation", "compared", "psql_script", "translated"]
