"""Runs the script on standard input, as the program does; its transcript goes to standard output.

    python3 script.py [--depth N] [--changes N] [--explain] [--statements] < ../authors.sql

With --statements the script is read into statements, which are executed one after the other in the session."""
import argparse
import sys

import sqlkeep


def run_statements(session, script):
    """Executes the statements of a script, and gives the transcript and whether one was refused or is none."""
    count, fault = session.read(script)
    transcript, refused = "", fault is not None
    for place in range(count):
        refused |= session.execute_at(place).kind == sqlkeep.REFUSED
        session.call("lines", place + 1)
        transcript += session.copied("transcript")
    if fault is not None:
        transcript += "%d fault %d\n" % (count + 1, fault)
    return transcript + ("end rolled back\n" if session.in_transaction else ""), refused


def main():
    parser = argparse.ArgumentParser()
    parser.add_argument("--depth", type=int, default=16)
    parser.add_argument("--changes", type=int, default=65536)
    parser.add_argument("--explain", action="store_true")
    parser.add_argument("--statements", action="store_true")
    given, script = parser.parse_args(), sys.stdin.buffer.read()
    try:
        with sqlkeep.open(given.depth, given.changes) as session:
            session.explain(given.explain)
            if given.statements:
                transcript, refused = run_statements(session, script)
            else:
                transcript, summary = session.run(script)
                refused = summary.refused > 0 or summary.has_fault
    except sqlkeep.Failed as failed:
        print("sqlkeep: %s" % failed, file=sys.stderr)
        return 2
    sys.stdout.buffer.write(transcript.encode())
    return int(refused)


if __name__ == "__main__":
    sys.exit(main())
