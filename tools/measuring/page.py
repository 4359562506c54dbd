"""The tables of docs/performance.md and the lines of README.md, as texts, and the marks between which they stand."""
from measuring.costs import memory_text, seconds_text
from measuring.figures import Run, cost
from measuring.steps import TOOLS, VERBS

BEGIN, END = "<!-- measure: begin -->", "<!-- measure: end -->"
PAIRS = [
    ("load", "sqlite3 .import"), ("check", "sha256sum -c"), ("dump", "sqlite3 -csv"), ("recover",),
    ("restore", "par2 create", "par2 repair"), ("diagnose",),
]
# A machine is not quiet if more processors than this work on something else.
QUIET = 0.2
# What the first page tells: of this many rows and more, if there are any.
README_ROWS = 1_000_000


def size_text(size: int) -> str:
    return f"{size / 1e6:.1f} MB" if size < 1e7 else f"{size / 1e6:.0f} MB" if size < 1e9 else f"{size / 1e9:.1f} GB"


def row(*cells: str) -> str:
    return f"| {' | '.join(cells)} |"


def head(*cells: str) -> list[str]:
    return [row(*cells), f"|{'---|' * len(cells)}"]


def alike(texts: dict[int, str]) -> str:
    """Texts that are one, or each behind the rows that it is of."""
    kinds: dict[str, list[str]] = {}
    for rows, text in texts.items():
        kinds.setdefault(text, []).append(f"{rows:,}")
    return next(iter(kinds)) if len(kinds) == 1 else "; ".join(f"{text} ({', '.join(sizes)} rows)" for text, sizes in kinds.items())


def setting(runs: dict[int, Run]) -> list[str]:
    machine = alike({rows: run["machine"] for rows, run in runs.items()})
    tools = alike({rows: ", ".join(f"{name} {version}" for name, version in run["versions"].items()) for rows, run in runs.items()})
    lines = [row(f"{rows:,}", size_text(run["table"]), size_text(run["store"]), str(run["rounds"]), f"`{run['commit']}`", run["date"])
             for rows, run in runs.items()]
    busy = [f"{rows:,} rows" for rows, run in runs.items() if run["busy"] > QUIET]
    said = [f"On {machine}. Tools: {tools}.", *([f"Other work was running: {', '.join(busy)}."] if busy else [])]
    return [*said, "", *head("Rows", "CSV", "Store", "Rounds", "Commit", "Day"), *lines]


def step_row(name: str, runs: dict[int, Run]) -> str | None:
    does = VERBS.get(name) or TOOLS[name]
    costs = [cost(run, name) for run in runs.values()]
    cells = [str(it) if it else "" for it in costs]
    first = f"**`{name}`** {does}" if name in VERBS else f"`{name}` {does}"
    return row(first, *cells) if any(costs) else None


def page_text(runs: dict[int, Run]) -> str:
    """The marked part of docs/performance.md."""
    rows = [step_row(name, runs) for names in PAIRS for name in names]
    return "\n".join([*setting(runs), "", *head("", *(f"{it:,} rows" for it in runs)), *filter(None, rows), "",
                      "![Time and memory of each verb and tool by rows](pictures/performance.svg)"])


def readme_line(rows: int, run: Run) -> str:
    parts = [f"`{name}` {seconds_text(it.seconds)} and {memory_text(it.memory)}" for name in VERBS if (it := cost(run, name))]
    return f"- {rows:,} rows, a store of {size_text(run['store'])}: {', '.join(parts)}."


def readme_text(runs: dict[int, Run]) -> str:
    """The marked part of README.md."""
    told = {rows: run for rows, run in runs.items() if rows >= README_ROWS} or runs
    return "\n".join(readme_line(*it) for it in told.items())


def with_part(page: str, text: str) -> str:
    """A page with another text between its marks. ValueError if it lacks them."""
    before, begin, rest = page.partition(f"{BEGIN}\n")
    _, end, after = rest.partition(END)
    if not begin or not end:
        raise ValueError(f"lacks the marks {BEGIN} and {END}")
    return f"{before}{begin}{text}\n{end}{after}"
