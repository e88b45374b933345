#!/usr/bin/env bash
# Runs the commands of all pages, and compares what they print with what the pages say.
#
#   docs/check.sh [--slow] [PAGE..]
#
# A block that is fenced as `console` is run: each line after `$ ` in one shell, which begins at the
# top of a copy of the repository, with the examples as they are there. What follows a command is what
# it prints, on standard output and standard error: a line `..` stands for any lines, and `..` in a line
# for any part of it. A command with no lines after it has to succeed, and may print anything. `console
# slow` is run only with --slow, and in the repository itself: it proves and builds. A `toml` block is a
# study, of which `tomex all` makes a report. No other block is run. The examples in the help texts are
# run too, in the folder examples. What needs a program that isn't installed is skipped, and reported;
# so are the slow blocks without --slow. What only a terminal shows is tried on one: progress, hints, and that
# no image is written there. The pages in examples and the program's own page are opened in a browser, if there is one.
#
# Only what pages show is tried here. The gate compares whole outputs: the golden cases in crates/tomex_cases.
#
# TOMEX names the program, a path or a name on PATH, by default crates/tomex/out/tomex, which `rt run`
# leaves there.
set -eu
cd "$(dirname "$0")/.."
top=$PWD
TOMEX=${TOMEX:-$top/crates/tomex/out/tomex}
TOMEX=$(command -v "$TOMEX") || { echo "no program to try: build it by (cd crates/tomex && rt run)"; exit 1; }
work=$(mktemp -d)
trap 'rm -rf "$work"' EXIT
mkdir "$work/bin" "$work/top"
ln -s "$(realpath "$TOMEX")" "$work/bin/tomex"
if git rev-parse --git-dir >/dev/null 2>&1; then
  git ls-files -co --exclude-standard
else
  find . -name out -prune -o -type f -print
fi | tar -c -T - | tar -x -C "$work/top"
PATH="$work/bin:$PATH" TOP=$top python3 - "$work/top" "$@" <<'PYTHON'
import glob, os, pty, re, shutil, subprocess, sys, time

copy, words = sys.argv[1], sys.argv[2:]
slow = "--slow" in words
os.chdir(copy)
pages = [w for w in words if w != "--slow"] or ["README.md"] + sorted(glob.glob("docs/*.md"))
counts = {"passed": 0, "failed": 0, "skipped": 0}


def report(outcome, place, detail=""):
    counts[outcome] += 1
    if outcome != "passed":
        print(f"{outcome}: {place}{detail}")


def blocks(page):
    """The blocks of a page that are to be run: their first line's number, and their lines."""
    lines, kind, start = open(page).read().split("\n"), None, 0
    for number, line in enumerate(lines, 1):
        bare = line.lstrip()
        if not bare.startswith("```"):
            continue
        if kind is None:
            kind, start = bare[3:].strip(), number
            continue
        if kind == "console slow" and not slow:
            report("skipped", f"{page}:{start}", ": slow")
        elif kind in ("console", "toml", "console slow"):
            margin = len(line) - len(bare)
            yield start, kind, [inner[margin:] for inner in lines[start : number - 1]]
        kind = None


def steps(lines):
    """The commands of a block, each with the lines that it is to print."""
    found = []
    for line in lines:
        if line.startswith("$ "):
            found.append(([line[2:]], []))
        elif found and found[-1][0][-1].endswith("\\") and not found[-1][1]:
            found[-1][0].append(line)
        elif found:
            found[-1][1].append(line)
    return [("\n".join(command), wanted) for command, wanted in found]


def matches(wanted, printed):
    """The lines are these but for blanks at their ends; `..` stands for any lines, or any part of one."""
    printed = re.sub(r" +$", "", printed, flags=re.M)
    pattern = ""
    for line in wanted:
        if line == "..":
            pattern += r"(?:[^\n]*\n)*?"
        else:
            pattern += r"[^\n]*".join(map(re.escape, line.rstrip().split(".."))) + r"\n"
    return re.fullmatch(pattern, printed) is not None


def missing(command):
    """A program of the command that isn't installed."""
    bare = re.sub(r"'[^']*'|\"[^\"]*\"", "", command.replace("\\\n", " "))
    for name in re.findall(r"(?:^|[|;&(]\s*)([a-z/][\w./-]+)", bare):
        if name not in ("cd", "for", "do", "done") and shutil.which(name) is None:
            return name


def fresh_examples():
    """Drops what an earlier block made: each begins with the examples as they are in the repository."""
    shutil.rmtree("examples")
    shutil.copytree(os.path.join(os.environ["TOP"], "examples"), "examples")


def run(commands, folder):
    """Runs the commands in one shell; gives what each printed, and its status."""
    mark = "--8<--"
    script = "".join(f"{command}\necho '{mark}' $?\n" for command in commands)
    done = subprocess.run(["bash", "-c", script], cwd=folder, stdout=subprocess.PIPE,
                          stderr=subprocess.STDOUT, text=True)
    return re.findall(rf"(.*?){mark} (\d+)\n", done.stdout, re.S)


for page in pages:
    for start, kind, lines in blocks(page):
        fresh_examples()
        if kind == "toml":
            with open("examples/page.toml", "w") as study:
                study.write("\n".join(lines) + "\n")
            lines = ["$ cd examples && tomex all page.toml"]
        commands = steps(lines)
        lacks = [name for name in (missing(command) for command, _ in commands) if name]
        if lacks:
            report("skipped", f"{page}:{start}", f": no {lacks[0]}")
            continue
        folder = os.environ["TOP"] if kind == "console slow" else copy
        answers = run([command for command, _ in commands], folder)
        for (command, wanted), (printed, status) in zip(commands, answers):
            if "No module named" in printed:
                report("skipped", f"{page}:{start}", f": {printed.splitlines()[-1]}")
                continue
            right = matches(wanted, printed) if wanted else status == "0"
            shown = "" if right else f"\n$ {command}\n{printed[:2000]}[status {status}]"
            report("passed" if right else "failed", f"{page}:{start}", shown)

fresh_examples()
listed = run(["tomex --help"], copy)[0][0].split("Commands:")[1].split("Options:")[0]
for command in [""] + [name for name in re.findall(r"^  (\w+)", listed, re.M) if name != "help"]:
    text = run([f"tomex {command} --help"], copy)[0][0]
    examples = re.findall(r"^  (tomex .*)$", text, re.M)
    printed = ""
    for example in examples:
        answer, status = run([example], os.path.join(copy, "examples"))[0]
        printed += answer
        report("passed" if status == "0" else "failed", f"help {command}: {example}")
    after = text.split("Example")[-1]
    for line in re.findall(r"^  (.+)$", after, re.M):
        if not line.startswith("tomex "):
            begins = line[:-2] if line.endswith("..") else line + "\n"
            report("passed" if "\n" + begins in "\n" + printed else "failed", f"help {command}: {line}")



def on_terminal(command, folder, output=subprocess.DEVNULL):
    """What a command shows on the terminal of standard error, for how many seconds, and its status."""
    above, terminal = pty.openpty()
    start = time.monotonic()
    running = subprocess.Popen(command.split(), cwd=folder, stdout=terminal if output is pty else output,
                               stderr=terminal)
    os.close(terminal)
    pieces = []
    while True:
        try:
            piece = os.read(above, 4096)
        except OSError:  # the end, on Linux
            piece = b""
        if not piece:
            break
        pieces.append(piece)
    status = running.wait()
    os.close(above)
    return b"".join(pieces).decode(errors="replace").replace("\r\n", "\n"), time.monotonic() - start, status


def check_terminal(what, shown, right):
    report("passed" if right else "failed", f"{what} on a terminal", "" if right else f"\n{shown!r}")


# A refused command: on a terminal a second line names `tomex explain`, a pipe gets one line.
hint = "tomex: `tomex explain` and these words say what it means\n"
piped = subprocess.run(["tomex", "run", "none"], cwd=copy, stderr=subprocess.PIPE, text=True).stderr
shown, _, status = on_terminal("tomex run none", copy)
right = (piped, shown, status) == ("tomex: cannot read none\n", piped + hint, 3)
check_terminal("a refusal", shown, right)

# An image isn't written there.
fresh_examples()
shown, _, status = on_terminal("tomex cut examples/mul.bin 2 1", copy, output=pty)
check_terminal("an image", shown, (shown, status) == ("tomex: output is a terminal\n" + hint, 3))

# Long work is shown, at most ten times a second, and removed at its end.
with open("examples/ever.bin", "wb") as ever:
    ever.write(b"\x6f\x00\x00\x00")  # jal x0,0
LONG = [
    ("tomex cut ever.bin 300000001 1", "of 300000000 steps", "tomex: no end\n" + hint),
    ("tomex parts ever.bin 15000", "of at most 245760000 steps", "tomex: too long\n" + hint),
    ("tomex all explore.toml", "of 384 configurations", ""),
]
for command, text, end in LONG:
    shown, seconds, _ = on_terminal(command, "examples")
    lines = re.fullmatch(rf"((?:\r\x1b\[K\d+ {text})+)\r\x1b\[K{re.escape(end)}", shown)
    count = lines.group(1).count("\r") if lines else 0
    check_terminal(command, shown[:2000], 1 <= count <= 10 * seconds + 1)

# The pages that the program printed, in a browser: TOMEX_BROWSER names a script that opens a file and says what is
# wrong.
browser = os.environ.get("TOMEX_BROWSER", os.path.join(os.environ["TOP"], "..", "shared", "tools", "browser"))
fresh_examples()
for made in sorted(glob.glob("examples/*.html")):
    if not (shutil.which("chromium") and os.path.exists(browser)):
        report("skipped", made, ": no browser to open it")
        continue
    looked = subprocess.run([browser, made], stdout=subprocess.PIPE, stderr=subprocess.STDOUT, text=True)
    shown = "" if looked.returncode == 0 else f"\n{looked.stdout[:2000]}"
    report("passed" if looked.returncode == 0 else "failed", made, shown)

# The program as WebAssembly: whether it is of these sources, and its page, in a browser.
web = os.path.join(os.environ["TOP"], "web")
current = subprocess.run([f"{web}/build.py", "--is-current"], stdout=subprocess.PIPE, text=True)
report("failed" if current.returncode else "passed", "web/tomex.html", f": {current.stdout}")
if shutil.which("node") and shutil.which("chromium"):
    looked = subprocess.run(["node", f"{web}/try-page.mjs"], stdout=subprocess.PIPE, stderr=subprocess.STDOUT,
                            text=True)
    report("failed" if looked.returncode else "passed", "web/try-page.mjs", f"\n{looked.stdout[:2000]}")
else:
    report("skipped", "web/try-page.mjs", ": no browser to open the page, or no node")

print(", ".join(f"{count} {outcome}" for outcome, count in counts.items()))
sys.exit(1 if counts["failed"] else 0)
PYTHON
