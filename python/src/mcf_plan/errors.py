"""Why tables are not written as a text of the formats."""

from __future__ import annotations

from typing import List


class CannotRewrite(Exception):
    """No text of the formats has the meaning of these tables. The message names the row and the reason."""


class Unbounded(CannotRewrite):
    """There is no best plan: around the circle of arcs `arcs` (numbers from 0), which has no capacity, each unit more
    makes the plan better. In `max` the arcs are a path from source to sink."""

    def __init__(self, words: str, arcs: List[int]):
        super().__init__(words)
        self.arcs = arcs


class BeyondLimits(CannotRewrite):
    """The tables are too large or too fine for the formats' limits: says which row, and what would do."""


class Meaningless(CannotRewrite):
    """A row says something that has no meaning in this kind of problem, as a cost in `max`."""


class DoesNotFit(Exception):
    """A number is no whole number of a text's units, or an edit does not fit in a text: another text is needed."""
