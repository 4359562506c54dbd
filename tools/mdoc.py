"""Markdown as the notes and the documents write it, as text of manual pages in mdoc."""
import re
import textwrap


def escaped(text):
    return text.replace("\\", "\\e").replace("-", "\\-")


def text_lines(text):
    """Lines of running text: a sentence begins a line, code is bold, a link is its text."""
    linked = re.sub(r"\[([^\]]+)\]\([^)]+\)", r"\1", " ".join(text.split()))
    marked = re.sub(r"`([^`]+)`", lambda it: f"\\fB{escaped(it[1])}\\fR", re.sub(r"(?<!\S)\*(\w+)\*", r"\\fI\1\\fR", linked))
    # (neither "e.g." nor ".." nor a file's name ends a sentence)
    sentences = re.split(r"(?<=[a-z0-9)RK][.?!])\s+(?=[A-Z\\`])", marked)
    lines = [line for it in sentences for line in textwrap.wrap(it, 78, break_long_words=False, break_on_hyphens=False)]
    return [f"\\&{it}" if it[0] in "'." else it for it in lines]


def tagged(pairs):
    """A tagged list of macros and texts."""
    pairs = list(pairs)
    if pairs:
        yield ".Bl -tag -width Ds"
        for tag, text in pairs:
            yield f".It {tag}"
            yield from text_lines(text if text.endswith(".") else f"{text}.")
        yield ".El"


def literal(lines):
    yield from (".Bd -literal -offset indent", *(escaped(it) or "\\&" for it in lines), ".Ed")


def table(rows):
    """A table as a tagged list. The first cell has the tags, a line each if there are several texts; the others follow it."""
    yield ".Bl -tag -width Ds"
    for first, *cells in rows:
        for tag in re.split(r"(?<=`), (?=`)", first):
            yield " ".join([".It", *text_lines(tag)])
        yield from text_lines(sentence(cells))
    yield ".El"


def sentence(cells):
    """The cells behind the tag: a meaning, a status and a meaning, or a meaning and what to do."""
    if len(cells) == 2 and cells[0].isdigit():
        return f"Status {cells[0]}: {cells[1]}."
    first = cells[0][:1].upper() + cells[0][1:]
    return f"{first}." if len(cells) == 1 else f"{first}. What to do: {cells[1]}."


def rows_of(block):
    """The rows of a table below its head."""
    return [[it.strip() for it in line.strip("|").split(" | ")] for line in block.split("\n")[2:]]


def block_lines(block):
    """A paragraph, a list, a table, or code between fences."""
    if block.startswith("|"):
        yield from table(rows_of(block))
    elif block.startswith("```"):
        yield from literal(block.split("\n")[1:-1])
    elif found := re.search(r"(?m)^(- |1\. )", block):
        kind = "dash" if found[1] == "- " else "enum"
        head, *items = re.split(r"(?m)^(?:- |\d+\. )", block)
        yield from (*text_lines(head), f".Bl -{kind} -compact")
        for item in items:
            yield from (".It", *text_lines(item))
        yield ".El"
    else:
        yield from text_lines(block)


def blocks_lines(blocks):
    for at, block in enumerate(blocks):
        if at and not block.startswith(("|", "```")):
            yield ".Pp"
        yield from block_lines(block)


def section(path, title):
    """The blocks of a section of a document."""
    with open(path, encoding="utf-8") as file:
        body = re.split(rf"(?m)^## {re.escape(title)}$", file.read())[1]
    body = re.split(r"(?m)^## [A-Z]", body)[0]
    return [it.strip() for it in re.findall(r"(?ms)^```.*?^```$|^(?!```)\S.*?(?=\n\n|\Z)", body)]
