"""Stores for the verbs to work on: what stands in them, how they lose sites, and how their sites get folders of their own."""
import json
import os
import shutil
import stat
import subprocess
import tempfile
import tomllib

LOST = ("2", "3")
# What comes to stand under the names of the lost sites, in turn.
RUINS = ("half", "pipe", "nothing", "folder", "empty", "sound")
# The mode of each half of a file.
HALF_MODE = 0o640
# Where the copies of a larger store may be cut, by their sort columns: each at the first of these.
CUTS = {"part": list(range(101, 116)), "name": list("bcdefghijklmnop"), "shelf": [f"{it}{at}" for it in "ABCDE" for at in (1, 2, 3)]}


def thing(path):
    """What stands at a path, with all that is in it."""
    try:
        mode = os.lstat(path).st_mode
    except FileNotFoundError:
        return None
    if stat.S_ISDIR(mode):
        return {name: thing(f"{path}/{name}") for name in sorted(os.listdir(path))}
    if stat.S_ISREG(mode):
        with open(path, "rb") as file:
            return file.read()
    return os.readlink(path) if stat.S_ISLNK(mode) else "pipe"


def copied(folder, parent):
    """A copy of a folder, links and pipes too, in another one."""
    room = tempfile.mkdtemp(dir=parent)
    subprocess.run(["cp", "-a", f"{folder}/.", room], check=True)
    return room


def is_name(name):
    """Whether this is the name of a file of a store."""
    return name[0] == "p" and name[1:2].isdigit() and not name.endswith(".restoring")


def names_in(folders):
    """The path of each name in some folders."""
    return {name: f"{folder}/{name}" for folder in folders if os.path.isdir(folder) for name in sorted(os.listdir(folder))}


def files_of(folders):
    """What stands under the names of a store's files."""
    return {name: thing(path) for name, path in sorted(names_in(folders).items()) if is_name(name)}


def site_of(catalog):
    """The site of each segment, by the begin of the names of its files."""
    with open(catalog, "rb") as file:
        projections = tomllib.load(file)["projection"]
    return {f"p{at}.s{part}": str(site) for at, it in enumerate(projections) for part, site in enumerate(it["sites"])}


def names_of(store):
    """The names of the files of a store in one folder, each with its site."""
    sites = site_of(f"{store}/catalog.toml")
    found = {name: sites.get(".".join(name.split(".")[:2])) for name in sorted(os.listdir(store))}
    return {name: site for name, site in found.items() if site}


def lost_names(store, lost=LOST):
    """The names of the files of the lost sites."""
    return [name for name, site in names_of(store).items() if site in lost]


def ruin(path, how):
    """Puts something else in the place of a file."""
    if how == "half":
        os.truncate(path, os.path.getsize(path) // 2)
        os.chmod(path, HALF_MODE)
    elif how == "empty":
        os.truncate(path, 0)
    elif how != "sound":
        os.remove(path)
    if how == "pipe":
        os.mkfifo(path)
    elif how == "folder":
        os.mkdir(path)
        with open(f"{path}/inner", "w") as file:
            file.write("inner")


def name_folders(room, file, sites, kind):
    """Writes a SITES file: a folder for each site, whose name begins with `kind`."""
    with open(f"{room}/{file}", "w") as text:
        text.writelines(f"[[site]]\nnumber = {site}\nfolder = \"{kind}{site}\"\n" for site in sites)


def spread(room):
    """Gives each site of the store of a room a folder of its own."""
    sites = site_of(f"{room}/store/catalog.toml")
    name_folders(room, "sites.toml", sorted(set(sites.values())), "s")
    for site in set(sites.values()):
        os.mkdir(f"{room}/s{site}")
        shutil.copy(f"{room}/store/catalog.toml", f"{room}/s{site}")
    for name, site in names_of(f"{room}/store").items():
        os.rename(f"{room}/store/{name}", f"{room}/s{site}/{name}")


def larger_store(program, examples, parent, segments):
    """Loads the table of examples/two-of-six into three copies of so many segments. Each is on a site and leads to the others."""
    with open(f"{examples}/two-of-six/catalog.toml") as file:
        head, *copies = file.read().replace("sites = 6", "sites = 3").split("[[projection]]")
    for site, (copy, (column, cuts)) in enumerate(zip(copies, CUTS.items()), 1):
        kept = copy.partition("cuts =")[0]
        joins = [f"by_{it}" for it in CUTS if it != column]
        head += f"[[projection]]{kept}cuts = {json.dumps(cuts[:segments - 1])}\nsites = {[site] * segments}\njoins = {json.dumps(joins)}\n"
    with open(f"{parent}/catalog.toml", "w") as file:
        file.write(head)
    store = f"{parent}/larger"
    subprocess.run([program, "load", f"{parent}/catalog.toml", f"{examples}/two-of-six/parts.csv", store], check=True, stdout=subprocess.DEVNULL)
    return store
