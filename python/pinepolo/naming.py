"""Names of a catalog: 1 to 32 bytes, `a` to `z` first, then also digits and `_`."""
from __future__ import annotations

import re
from collections.abc import Iterable

LONGEST = 32
# What a name may have if `_2` to `_8` are to follow it.
ROOM = LONGEST - 2


def first_repeated(names: Iterable[str]) -> str | None:
    """The first name that came before already, or None."""
    seen: set[str] = set()
    for name in names:
        if name in seen:
            return name
        seen.add(name)
    return None


def name_of(text: str, taken: Iterable[str] = ()) -> str:
    """A name like a text, and none of those that are taken."""
    name = re.sub(r"[^a-z0-9]+", "_", text.lower()).strip("_")
    name = name if name[:1].isalpha() else f"c_{name}".rstrip("_")
    name, used = name[:ROOM].rstrip("_"), set(taken)
    found, number = name, 1
    while found in used:
        number += 1
        tail = f"_{number}"
        found = name[:ROOM - len(tail)].rstrip("_") + tail
    return found
