"""What is measured of a store: the verbs in turns, and public tools on the same bytes beside them."""
import filecmp
import os
import shutil
import subprocess
from collections.abc import Callable, Iterator
from dataclasses import dataclass

from fault_injection.stores import LOST, lost_names, names_of
from measuring.costs import Cost, Failed, measured, median
from measuring.store import redundancy, write_inputs

# The site that lies.
LIAR = "2"
# With more rows par2 takes hours.
PAR2_ROWS = 1_000_000
PAR2_BLOCKS = 200
# Each step, and what it does.
VERBS = {
    "load": "makes the store from the CSV",
    "check": "checks the store",
    "dump": "writes the table as CSV",
    "recover": "makes the files of two sites in a new folder",
    "restore": "makes them in place, and reads all back",
    "diagnose": "finds the site that lies about one row",
}
TOOLS = {
    "sqlite3 .import": "imports the CSV, with an index for each order",
    "sha256sum -c": "compares all files with a manifest",
    "sqlite3 -csv": "writes the table as CSV",
    "par2 create": "makes blocks to repair any two sites",
    "par2 repair": "makes the files of two sites in place",
}
SCHEMA = """create table sales (id integer primary key, day text, customer text, quantity integer, price text, discount text,
colour text, note text)"""
INDEXES = "create index by_day on sales (day, id); create index by_customer on sales (customer, id)"


@dataclass(frozen=True)
class Step:
    """A command that is measured."""

    name: str
    words: list[str]
    output: str = os.devnull
    folder: str | None = None
    status: int = 0


@dataclass(frozen=True)
class Room:
    """A folder with the inputs and outputs of one size, and the programs."""

    folder: str
    rows: int
    program: str
    tools: frozenset[str]

    def path(self, name: str) -> str:
        return f"{self.folder}/{name}"

    def verb(self, name: str, *words: str, output: str = os.devnull, status: int = 0) -> Step:
        return Step(name, [self.program, name, "--quiet", *words], output, status=status)


def emptied(path: str) -> str:
    shutil.rmtree(path, ignore_errors=True)
    if os.path.isfile(path):
        os.remove(path)
    return path


def loads(room: Room) -> Iterator[Step]:
    store, database = emptied(room.path("store")), emptied(room.path("table.db"))
    yield room.verb("load", room.path("catalog.toml"), room.path("table.csv"), store)
    if "sqlite3" in room.tools:
        yield Step("sqlite3 .import", ["sqlite3", database, SCHEMA, ".import --csv --skip 1 table.csv sales", INDEXES], folder=room.folder)


def checks(room: Room) -> Iterator[Step]:
    yield room.verb("check", room.path("store"))
    with open(room.path("manifest"), "wb") as file:
        subprocess.run([room.program, "manifest", room.path("store")], stdout=file, check=True)
    yield Step("sha256sum -c", ["sha256sum", "-c", "--quiet", room.path("manifest")], folder=room.path("store"))


def dumps(room: Room) -> Iterator[Step]:
    dumped = room.path("dumped.csv")
    yield room.verb("dump", room.path("store"), output=dumped)
    if not filecmp.cmp(dumped, room.path("table.csv"), shallow=False):
        raise Failed("dump: other rows than those that went in")
    if "sqlite3" in room.tools:
        yield Step("sqlite3 -csv", ["sqlite3", "-csv", "-header", room.path("table.db"), "select * from sales order by id"], dumped)
    emptied(dumped)


def repairs(room: Room) -> Iterator[Step]:
    store, out = room.path("store"), emptied(room.path("out"))
    yield room.verb("recover", store, out, *LOST)
    lost = lost_names(store)
    if filecmp.cmpfiles(store, out, lost, shallow=False)[0] != lost:
        raise Failed("recover: other files than those that were lost")
    emptied(out)
    if "par2" in room.tools and room.rows <= PAR2_ROWS:
        yield from par2(room, lost)
    for name in lost:
        os.remove(f"{store}/{name}")
    yield room.verb("restore", store, *LOST)
    subprocess.run(["sha256sum", "-c", "--quiet", room.path("manifest")], cwd=store, check=True)


def par2(room: Room, lost: list[str]) -> Iterator[Step]:
    """The same files, as links to them."""
    store, folder = room.path("store"), emptied(room.path("par2"))
    os.mkdir(folder)
    for name in names_of(store):
        os.link(f"{store}/{name}", f"{folder}/{name}")
    block, count = redundancy(store, PAR2_BLOCKS)
    yield Step("par2 create", ["par2", "create", "-q", "-q", f"-s{block}", f"-c{count}", "-n1", "all.par2", *names_of(store)], folder=folder)
    for name in lost:
        os.remove(f"{folder}/{name}")
    yield Step("par2 repair", ["par2", "repair", "-q", "-q", "all.par2"], folder=folder)
    if filecmp.cmpfiles(store, folder, lost, shallow=False)[0] != lost:
        raise Failed("par2 repair: other files than those that were lost")
    emptied(folder)


def diagnoses(room: Room) -> Iterator[Step]:
    """One site's files are those of the other table."""
    store, other = room.path("store"), room.path("other")
    if not os.path.isdir(other):
        subprocess.run([room.program, "load", "--quiet", room.path("catalog.toml"), room.path("other.csv"), other], stdout=subprocess.DEVNULL, check=True)
        for name in set(os.listdir(other)) - set(lost_names(other, (LIAR,))) - {"catalog.toml"}:
            os.remove(f"{other}/{name}")
    for name in names_of(other):
        shutil.copyfile(f"{other}/{name}", f"{store}/{name}")
    yield room.verb("diagnose", store, output=room.path("diagnosis"), status=1)
    with open(room.path("diagnosis"), encoding="utf-8") as file:
        if f"explained by the loss of {LIAR}:" not in file.read():
            raise Failed("diagnose: another site than the one that lies")


def steps(room: Room) -> Iterator[Step]:
    """The steps of a round, in turns. Each is measured before the next one is asked for."""
    for part in (loads, checks, dumps, repairs, diagnoses):
        yield from part(room)


def measure(room: Room, rounds: int, tell: Callable[[str], None]) -> tuple[dict[str, Cost], int, int]:
    """The medians of some rounds, by step, and the bytes of the table and of the store."""
    write_inputs(room.folder, room.rows)
    found: dict[str, list[Cost]] = {}
    for number in range(1, rounds + 1):
        for step in steps(room):
            cost = measured(step.words, step.output, step.folder, step.status)
            found.setdefault(step.name, []).append(cost)
            tell(f"{room.rows:,} rows, round {number}, {step.name}: {cost}")
    store = room.path("store")
    sizes = os.path.getsize(room.path("table.csv")), sum(os.path.getsize(f"{store}/{it}") for it in names_of(store))
    return {name: median(costs) for name, costs in found.items()}, *sizes
