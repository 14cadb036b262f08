"""Tells how far a call is."""

from __future__ import annotations

from typing import Any, Callable, Protocol, Union


class HasUpdate(Protocol):
    """What has a bar of progress, as ``tqdm``."""

    def update(self, n: int) -> Any:
        """Note that this number more are done."""


#: Told, after each piece, how many more are done: a function, or a bar of progress.
Progress = Union[None, Callable[[int], Any], HasUpdate]


def teller(progress: Progress) -> Callable[[int], Any]:
    """Return the function that is told."""
    if progress is None:
        return lambda done: None
    bar: Any = progress
    tell: Callable[[int], Any] = getattr(bar, "update", bar)
    return tell
