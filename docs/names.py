#!/usr/bin/env python3
"""Checks what pages say of the tree: whatever they name in backticks is there, and the counts of DEFINITIONS are right.

  docs/names.py [PAGE..]     all pages, or these

Checked are paths and files, the names of crates, functions, types, fields, definitions and laws, and the number in
brackets behind a file of definitions: its lines without imports and blanks. A path begins at the page, at the top or in
crates/; a file without a folder is beside the one before it, in the same crate, or the only one of its name. In a row
of MAP a name has to be in a crate of that row. Pages for users name much else, so there only names of several words are
checked; nor are blocks of code, which docs/check.sh runs. Prints what isn't there, each with its page and line; the
status is 1 if there is any.
"""
import glob, os, re, subprocess, sys

os.chdir(os.path.join(os.path.dirname(os.path.abspath(__file__)), ".."))

LISTED = ["git", "ls-files", "-co", "--exclude-standard"]
FILES = {file for file in subprocess.run(LISTED, check=True, capture_output=True, text=True).stdout.split("\n")
         if os.path.exists(file)} - {""}
FOLDERS = {file[:at] for file in FILES for at in range(len(file)) if file[at] == "/"}
ENDINGS = "rt antt py sh md toml mjs c h s html txtar edit elf bin csv svg png txt".split()

# A name in a source: of a function, a type, or anything else of several words; and, on pages about the code, of one.
LONG_NAME = re.compile(r"[a-z]+(_[a-z0-9]+)+|([A-Z][a-z0-9]+){2,}|\w+(::\w+)+")
NAME = re.compile(r"[A-Za-z_]\w*([.:]+\w+)*")
ABOUT_CODE = {f"docs/{name}.md" for name in ("CHANGING", "DECISIONS", "DEFINITIONS", "MAP", "PROOFS")}
# A word in capitals stands for any, and these are made by a command or a reader's own.
NOT_HERE = re.compile(r"\b[A-Z]{2,}\b(?!\.md)|^/|^\.\.$|^(\w+/)*out(/|$)|^build/")
# What pages name of other projects, and the logic's own number.
OTHERS = {"update_test_checks", "insta", "dlmalloc.c", "dac8208d650f15bf", "push_"}


def read(file):
    with open(file, encoding="utf8") as it:
        return it.read()


def crate_of(place):
    found = re.match(r"crates/\w+", place)
    return found[0] if found else ""


def words_by_crate():
    """Each word of each crate's sources, definitions and proofs, and of scripts; and the names of files and folders."""
    found = {}
    for file in FILES:
        words = found.setdefault(crate_of(file), set())
        words |= {part.split(".")[0] for part in file.split("/")}
        if file.endswith((".rt", ".antt", ".c", ".mjs", ".py")):
            words |= set(re.findall(r"[A-Za-z_][A-Za-z0-9_]*", read(file)))
    return found


WORDS = words_by_crate()
COMMANDS = {os.path.basename(file)[:-3] for file in FILES if file.startswith("crates/tomex_command_line/src/line/")}
ALL_WORDS = set().union(*WORDS.values())


def lines_of(file):
    """How many lines a file of definitions has, without imports and blanks."""
    return len([line for line in read(file).split("\n") if line.strip() and not re.match(r"(pub )?use\b", line)])


def is_there(place):
    return place in FILES or place in FOLDERS


def place_of(path, place, page):
    """Where a path leads, after a path to `place` on this page."""
    path = path.rstrip("/")
    crate = crate_of(place)
    folder = place if place in FOLDERS else os.path.dirname(place)
    starts = [folder, os.path.dirname(folder), os.path.dirname(page), "", "crates"]
    starts += [crate, *(f"{crate}/{part}" for part in ("src", "specs", "proofs"))] if crate else []
    # `tomex_cut/Part` is a file of definitions, `tomex_cut/cutting.rt` one of code.
    head, _, tail = path.partition("/")
    if f"crates/{head}" in FOLDERS and tail:
        starts, path = [f"crates/{head}", f"crates/{head}/src", f"crates/{head}/specs"], tail
    for start in starts:
        for end in ("", ".antt"):
            if is_there(os.path.normpath(os.path.join(start, path + end))):
                return os.path.normpath(os.path.join(start, path + end))
    same = [file for file in FILES if file.endswith("/" + path)]
    within = [file for file in same if crate and file.startswith(f"{crate}/")]
    if len(within or same) == 1:
        return (within or same)[0]
    # `src/lib.rt`, with no crate before it, is that of any crate.
    return "" if any(folder.endswith("/" + path) for folder in FOLDERS) or (same and "/" in path) else None


def spans(page):
    """The pieces in backticks outside of blocks: the line's number, the text, and what follows it."""
    is_block = False
    for number, line in enumerate(read(page).split("\n"), 1):
        if line.lstrip().startswith("```"):
            is_block = not is_block
        elif not is_block:
            for found in re.finditer(r"`([^`]+)`", line):
                yield number, found[1], line[found.end() :]


def is_path(text):
    has_ending = re.search(rf"\.({'|'.join(ENDINGS)})$", text) is not None
    return re.fullmatch(r"[\w./-]+", text) is not None and ("/" in text or has_ending)


def words_of_row(page, number):
    """The words that a name in this line may be: in a row of MAP those of the crates that it names, else all."""
    line = read(page).split("\n")[number - 1]
    crates = [f"crates/{name}" for name in re.findall(r"`(tomex\w*)", line) if f"crates/{name}" in FOLDERS]
    is_row = page == "docs/MAP.md" and line.startswith("|") and crates
    return COMMANDS.union(*(WORDS[crate] for crate in crates)) if is_row else ALL_WORDS


def faults(page):
    """What a page says that isn't so."""
    place = ""
    for number, text, after in spans(page):
        where = f"{page}:{number}: `{text}`"
        counted = re.match(r" \[(\d+)\]", after)
        if f"crates/{text}" in FOLDERS:
            place = f"crates/{text}"
        elif text in OTHERS or NOT_HERE.search(text):
            continue
        elif is_path(text) or counted:
            found = place_of(text, place, page)
            if found is None:
                yield f"{where}: there is no such file"
                continue
            place = found or place
            if counted and lines_of(place) != int(counted[1]):
                yield f"{where} [{counted[1]}]: {place} has {lines_of(place)} lines"
        elif LONG_NAME.fullmatch(text) or page in ABOUT_CODE and NAME.fullmatch(text):
            for word in set(re.findall(r"\w+", text)) - words_of_row(page, number):
                yield f"{where}: nothing has the name {word}"


def main(pages):
    pages = pages or sorted({"README.md", *glob.glob("*/README.md"), *glob.glob("docs/*.md")} & FILES)
    found = [fault for page in pages for fault in faults(page)]
    print("\n".join(found) if found else f"what {len(pages)} pages name is there")
    return 1 if found else 0


sys.exit(main(sys.argv[1:]))
