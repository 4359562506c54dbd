"""TOML as the package writes it."""
from __future__ import annotations

import re
from collections.abc import Sequence

# Control characters, the quote and the backslash. Any other character stands as it is.
ESCAPED = re.compile(r'[\x00-\x1f\x7f"\\]')


def toml_string(text: str) -> str:
    """A basic string of TOML."""
    return '"' + ESCAPED.sub(lambda found: f"\\u{ord(found[0]):04x}", text) + '"'


def toml_list(texts: Sequence[str]) -> str:
    """A list of strings."""
    return f"[{', '.join(map(toml_string, texts))}]"
