"""What a command costs: its time and its memory."""
import os
import statistics
import subprocess
import sys
import tempfile
from collections.abc import Sequence
from dataclasses import dataclass

ALONE = f"{os.path.dirname(os.path.abspath(__file__))}/alone.py"
# What a process takes that does nothing, and a little more: less is not told apart.
LEAST = 12_000_000


class Failed(Exception):
    """A command ended with another status than it has to."""


@dataclass(frozen=True)
class Cost:
    """Seconds by the clock, and the largest resident memory in bytes."""

    seconds: float
    memory: int

    def __str__(self) -> str:
        return f"{seconds_text(self.seconds)}, {memory_text(self.memory)}"


def seconds_text(seconds: float) -> str:
    return f"{seconds:.2f} s" if seconds < 1 else f"{seconds:.1f} s" if seconds < 100 else f"{seconds:.0f} s"


def memory_text(size: int) -> str:
    """A size in MB, or from a thousand of them on in GB."""
    if size < LEAST:
        return f"below {LEAST / 1e6:.0f} MB"
    return f"{size / 1e6:.0f} MB" if size < 1e9 else f"{size / 1e9:.2f} GB"


def median(costs: Sequence[Cost]) -> Cost:
    return Cost(statistics.median(it.seconds for it in costs), round(statistics.median(it.memory for it in costs)))


def measured(words: Sequence[str], output: str = os.devnull, folder: str | None = None, status: int = 0) -> Cost:
    """Runs a command that has to end with a status, and answers its cost. What was written before is on the disk then."""
    os.sync()
    with tempfile.NamedTemporaryFile("r", encoding="ascii") as told, open(output, "wb") as file:
        done = subprocess.run([sys.executable, "-I", "-S", ALONE, told.name, *words], stdin=subprocess.DEVNULL, stdout=file,
                              stderr=subprocess.PIPE, cwd=folder, check=False)
        found = told.read().split()
    if len(found) != 3 or int(found[2]) != status:
        said = done.stderr.decode(errors="replace").strip()
        raise Failed(f"{' '.join(words)}: {f'status {found[2]}' if found else 'not run'}{said and f': {said}'}")
    return Cost(float(found[0]), int(found[1]))
