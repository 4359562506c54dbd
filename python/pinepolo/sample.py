"""A sample of what streams by."""
from __future__ import annotations

import random
from collections.abc import Callable
from typing import Generic, TypeVar

LEAST = 20_000
Item = TypeVar("Item")


class Sample(Generic[Item]):
    """Items drawn evenly from all that were taken: all of them, or 20,000 to 40,000. The same ones in every run."""

    def __init__(self) -> None:
        self.items: list[Item] = []
        self.chance, self.step = random.Random(1), 1

    def take(self, size: int, item: Callable[[int], Item]) -> None:
        """Takes so many items, of which those that are drawn are asked for by their places."""
        for at in self.chance.sample(range(size), -(-size // self.step)):
            self.items.append(item(at))
        if len(self.items) > 2 * LEAST:
            self.step *= 2
            self.items = self.chance.sample(self.items, len(self.items) // 2)
