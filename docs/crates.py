#!/usr/bin/env python3
"""Figures of the crates: how many there are, what is built on what, what lies below a crate, and how large each is.

  docs/crates.py           prints the figures
  docs/crates.py --list    prints the crates by group, each with the first sentence of its root file, and in brackets
                           the kit's crates that it lists
  docs/crates.py --sizes   prints each crate's functions, and its lines of code, definitions and proofs
  docs/crates.py --check   prints what is above a bound, and the lines that name `Wait` in crates that wait for nobody;
                           the status is 1 if there is any

A path begins at a crate and goes from a crate to one that its line lists, one step or more; the kit's crates end it.
So the number of a crate's paths is the sum, over the crates listed, of 1 and the number of the crate listed.
"""
import functools, glob, os, re, sys, textwrap

os.chdir(os.path.join(os.path.dirname(os.path.abspath(__file__)), ".."))

BOUNDS = {"crates of the product": 70, "above tomex_cycle": 4}
PATHS = {"tomex_command": 4200, "tomex_page": 610}
MOST_FUNCTIONS = 100
# What a worker does with what it shares: no lock, so nothing that may wait.
WAIT_FOR_NOBODY = ["tomex_board", "tomex_lanes", "tomex_plateaus", "tomex_workers"]


def read():
    """Each crate with its list and its group."""
    lists, groups, group = {}, {}, ""
    for line in open("crates.txt", encoding="utf8"):
        if line.startswith("# "):
            group = line[2:].strip()
        elif ":" in line:
            head, listed = line.split(":")
            lists[head.split()[0]] = listed.split()
            groups[head.split()[0]] = group
    own = {name: [x for x in listed if x in lists] for name, listed in lists.items()}
    kits = {name: [x for x in listed if x not in lists] for name, listed in lists.items()}
    return own, kits, groups


LISTS, KITS, GROUPS = read()
PRODUCT = [name for name in LISTS if GROUPS[name] != "tests"]


@functools.lru_cache(None)
def paths(name):
    return sum(1 + paths(x) for x in LISTS[name])


@functools.lru_cache(None)
def below(name):
    return frozenset(LISTS[name]).union(*(below(x) for x in LISTS[name]))


@functools.lru_cache(None)
def chain(name):
    return 1 + max((chain(x) for x in LISTS[name]), default=0)


def later():
    """Crates that list one of a later group."""
    order = list(dict.fromkeys(GROUPS.values()))
    return [
        f"{name} lists {x}"
        for name in PRODUCT
        for x in LISTS[name]
        if order.index(GROUPS[x]) > order.index(GROUPS[name])
    ]


def figures():
    above = [name for name in PRODUCT if "tomex_cycle" in below(name)]
    yield "crates of the product", len(PRODUCT), ""
    yield "crates of tests", len(LISTS) - len(PRODUCT), ""
    yield "longest chain of the product", max(chain(name) for name in PRODUCT), ""
    yield "above tomex_cycle", len(above), " ".join(above)
    yield "that list one of a later group", len(later()), ", ".join(later())
    for name in ("tomex_page", "tomex_report", "tomex_command"):
        yield f"paths below {name}", paths(name), ""


def summary(name):
    """The first sentence of the comment at the head of a crate's root file."""
    root = next(x for x in (f"crates/{name}/src/lib.rt", f"crates/{name}/src/main.rt") if os.path.exists(x))
    head = [line[3:].strip() for line in open(root, encoding="utf8") if line.startswith("//!")]
    text = " ".join(head[: head.index("")] if "" in head else head)
    return re.split(r"\.(?: |$)", text)[0]


def listing():
    """The crates by group, in the order of crates.txt, with their summaries."""
    for group in dict.fromkeys(GROUPS.values()):
        yield f"{group[0].upper()}{group[1:]}"
        for name in (x for x in LISTS if GROUPS[x] == group):
            kit = f" ({' '.join(KITS[name])})" if KITS[name] else ""
            yield from textwrap.wrap(f"  {name:22} {summary(name)}{kit}", 119, subsequent_indent=" " * 25)


def lines_of(name, part, ending):
    """The lines of the files of one part of a crate."""
    files = glob.glob(f"crates/{name}/{part}/**/*{ending}", recursive=True)
    return [line for file in files for line in open(file, encoding="utf8")]


def size(name):
    """The functions of a crate, and its lines of code, definitions and proofs."""
    code = lines_of(name, "src", ".rt")
    functions = sum(bool(re.match(r"\s*(pub(\([a-z]+\))? )?(const )?fn ", line)) for line in code)
    return functions, len(code), len(lines_of(name, "specs", ".antt")), len(lines_of(name, "proofs", ".antt"))


def sizes():
    yield "functions   code  definitions  proofs"
    for name in LISTS:
        functions, code, definitions, proofs = size(name)
        yield f"{functions:9} {code:6} {definitions:12} {proofs:7}  {name}"


def waiting():
    """The lines that name `Wait` in crates that wait for nobody."""
    for name in WAIT_FOR_NOBODY:
        for file in sorted(glob.glob(f"crates/{name}/src/**/*.rt", recursive=True)):
            for number, line in enumerate(open(file, encoding="utf8"), 1):
                if re.search(r"\bWait\b", line):
                    yield f"{file}:{number}: Wait"


def faults():
    for what, number, _ in figures():
        bound = BOUNDS.get(what, PATHS.get(what.removeprefix("paths below "), number))
        if number > bound:
            yield f"{what}: {number}, above {bound}"
    yield from later()
    yield from waiting()
    for name in LISTS:
        if size(name)[0] > MOST_FUNCTIONS:
            yield f"functions of {name}: {size(name)[0]}, above {MOST_FUNCTIONS}"


VIEWS = {"--list": listing, "--sizes": sizes, "--check": faults}
words = sys.argv[1:]
if words:
    printed = list(VIEWS[words[0]]())
    print("\n".join(printed), end="\n" if printed else "")
    sys.exit(1 if printed and words[0] == "--check" else 0)
for what, number, names in figures():
    print(f"{number:6}  {what}{': ' if names else ''}{names}")
