"""Rows of a table of eight columns, about 66 bytes each, that the tools which measure make as they are read."""
import random
from collections.abc import Iterator
from datetime import date

HEADER = "id,day,customer,quantity,price,discount,colour,note\n"
COLOURS = ["red", "green", "blue", "black", "white", "grey"]
DAYS = [date.fromordinal(738_000 + it).isoformat() for it in range(2500)]
CUSTOMERS = 20_000


def drawn_rows(count: int) -> Iterator[str]:
    """Lines of CSV behind the header, the same in every run, by the key `id`."""
    chance = random.Random(1)
    for number in range(1, count + 1):
        price = chance.randrange(90_000, 9_000_000)
        yield (f"{number},{chance.choice(DAYS)},{customer(chance.randrange(CUSTOMERS))},{chance.randrange(1, 51)},{price // 100}.{price % 100:02},"
               f"0.{chance.randrange(11):02},{chance.choice(COLOURS)},note {chance.randrange(10**6)}\n")


def customer(number: int) -> str:
    return f"customer{number:05}"


def write_table(path: str, count: int) -> None:
    with open(path, "w", encoding="utf-8") as file:
        file.write(HEADER)
        file.writelines(drawn_rows(count))
