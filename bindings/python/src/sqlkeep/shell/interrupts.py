"""Ctrl-C while statements are executed."""
from __future__ import annotations

import signal
from types import FrameType

__all__ = ["Interrupts"]


class Interrupts:
    """While the block runs, Ctrl-C raises nothing and is noted: the engine can't stop within a statement, and the answer of one that
    was executed must not be lost."""

    def __init__(self) -> None:
        self.came = False

    def __enter__(self) -> Interrupts:
        self.before = signal.signal(signal.SIGINT, self.note)
        return self

    def __exit__(self, *_: object) -> None:
        signal.signal(signal.SIGINT, self.before)

    def note(self, number: int, frame: FrameType | None) -> None:
        """Notes that Ctrl-C came."""
        self.came = True
