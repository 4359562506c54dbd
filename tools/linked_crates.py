"""Which crates of the kit are linked into programs, and their licences."""
import os
import re


def libraries(path):
    """The crates of crates.txt, each with the names of the libraries that it lists."""
    with open(path, encoding="utf-8") as file:
        lines = (line.partition("#")[0].partition(":") for line in file)
        return {head.strip(): names.split() for head, colon, names in lines if colon}


def named(folder):
    """The crates that the files of a crate of the kit name, tests left out."""
    found = set()
    for at, inner, names in os.walk(f"{folder}/src"):
        inner[:] = [it for it in inner if it != "tests"]
        for name in names:
            if name.endswith(".rt") and name != "tests.rt":
                with open(f"{at}/{name}", encoding="utf-8") as file:
                    found.update(re.findall(r"(?<![\w:])(\w+)::", file.read()))
    return found


def licences(crates, kit, programs):
    """Each crate of the kit that the programs need, also through others, with the paths of its licence files."""
    listed, found, waiting = libraries(crates), {}, list(programs)
    there = {it for it in os.listdir(kit) if os.path.isdir(f"{kit}/{it}/src")}
    seen = set()
    while waiting:
        crate = waiting.pop()
        if crate in seen:
            continue
        seen.add(crate)
        if crate in listed:
            waiting += listed[crate]
        elif crate not in there:
            raise FileNotFoundError(f"{kit}/{crate} is missing: give --kit KIT")
        else:
            folder = f"{kit}/{crate}"
            found[crate] = [f"{folder}/{it}" for it in sorted(os.listdir(folder)) if it.startswith("LICENSE")]
            waiting += named(folder) & there
    return found
