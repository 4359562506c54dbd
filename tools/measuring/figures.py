"""The figures that were measured, a run for each number of rows, as docs/performance.json keeps them."""
import datetime
import hashlib
import json
import os
import subprocess
import tempfile
import time
from collections.abc import Iterable

from measuring.costs import Cost
from measuring.steps import Room

# A run as it is kept: plain data, by the names of `run_record`.
Run = dict


def machine() -> str:
    """The processor, how many there are, the memory, the system, and the file system of the room."""
    with open("/proc/cpuinfo", encoding="utf-8") as file:
        model = next((line.partition(":")[2].strip() for line in file if line.startswith("model name")), os.uname().machine)
    with open("/proc/meminfo", encoding="ascii") as file:
        memory = int(file.readline().split()[1]) * 1024
    kind = said(["df", "--output=fstype", tempfile.gettempdir()]).rpartition("\n")[2]
    return f"{len(os.sched_getaffinity(0))} processors ({model}), {memory / 1e9:.0f} GB, Linux {os.uname().release.partition('-')[0]}, {kind}"


def busy_processors(seconds: float = 3.0) -> float:
    """How many processors work on something else, looked at for some seconds."""
    before = processor_ticks()
    time.sleep(seconds)
    idle, everything = (now - then for now, then in zip(processor_ticks(), before))
    return round(len(os.sched_getaffinity(0)) * (1 - idle / everything), 1)


def processor_ticks() -> tuple[int, int]:
    """Idle ticks and all ticks of all processors so far."""
    with open("/proc/stat", encoding="ascii") as file:
        ticks = [int(it) for it in file.readline().split()[1:9]]
    return ticks[3] + ticks[4], sum(ticks)


def said(words: list[str], folder: str | None = None) -> str:
    """What a command prints, or nothing."""
    try:
        return subprocess.run(words, cwd=folder, capture_output=True, text=True, check=True).stdout.strip()
    except (OSError, subprocess.CalledProcessError):
        return ""


def versions(tools: Iterable[str]) -> dict[str, str]:
    """The versions of the public tools."""
    found = {"sha256sum": said(["sha256sum", "--version"]).partition("\n")[0].rpartition(" ")[2]}
    if "sqlite3" in tools:
        found["sqlite3"] = said(["sqlite3", "--version"]).partition(" ")[0]
    if "par2" in tools:
        found["par2"] = said(["par2", "--version"]).rpartition(" ")[2]
    return found


def digest(path: str) -> str:
    with open(path, "rb") as file:
        return hashlib.file_digest(file, "sha256").hexdigest()


def run_record(top: str, room: Room, rounds: int, measured: tuple[dict[str, Cost], int, int], busy: float) -> Run:
    """What is kept of a run. The commit is the last one of this tree that changed the code of the programs."""
    costs, table, store = measured
    commit = said(["git", "log", "-1", "--format=%h", "--", "crates", "crates.txt"], top) or "unknown"
    changed = said(["git", "status", "--porcelain", "--", "crates", "crates.txt"], top)
    return {
        "date": datetime.date.today().isoformat(),
        "commit": commit + (", changed" if changed else ""),
        "program": digest(room.program),
        "machine": machine(),
        "versions": versions(room.tools),
        "busy": busy,
        "rounds": rounds,
        "table": table,
        "store": store,
        "steps": {name: {"seconds": round(it.seconds, 3), "memory": it.memory} for name, it in costs.items()},
    }


def read_runs(path: str) -> dict[int, Run]:
    """The runs of a file, by their rows; none if there is no such file."""
    if not os.path.exists(path):
        return {}
    with open(path, encoding="utf-8") as file:
        return {int(rows): run for rows, run in json.load(file).items()}


def write_runs(path: str, runs: dict[int, Run]) -> None:
    with open(path, "w", encoding="utf-8") as file:
        json.dump({str(rows): runs[rows] for rows in sorted(runs)}, file, indent=1)
        file.write("\n")


def cost(run: Run, name: str) -> Cost | None:
    step = run["steps"].get(name)
    return step and Cost(step["seconds"], step["memory"])
