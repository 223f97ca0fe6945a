"""A PostgreSQL beside the engine: what postgresql.py runs."""
