"""The shell of `python -m sqlkeep`."""
