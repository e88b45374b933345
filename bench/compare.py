#!/usr/bin/env python3
"""Times tomex beside plain.rs, a program that prints the same and is written for speed, not proved.

  bench/compare.py BINARY [WHAT..] [--grid small|medium|large] [--rounds N] [--programs NAME,..] [--workers N]

BINARY      tomex, as `rt run` leaves it: crates/tomex/out/tomex
WHAT        of run, times, all, explore and rows; all five if none is given
--grid      64, 1,024 (the default) or 16,384 configurations
--rounds    how often the two take turns: 9 by default
--programs  of primes, matrix, o2, o3, gcc and clang; the first four by default, since the others are very short
--workers   of explore and rows: 1 by default; with 1 both run on the same processor, else on any

It builds plain.rs by rustc into a temporary folder, makes the studies there, and prints a table in Markdown. What the
two print must be the same, byte for byte, or the status is 1. README.md says how to read the table.
"""
import argparse, itertools, math, os, platform, shutil, statistics, subprocess, sys, tempfile

HERE = os.path.dirname(os.path.abspath(__file__))
EXAMPLES = os.path.join(HERE, "..", "examples")
TIME = shutil.which("time")

# Each program's file in examples, and its base. All have 65,536 bytes of memory.
PROGRAMS = {
    "primes": ("primes.elf", 65536),
    "matrix": ("matrix.elf", 65536),
    "o2": ("builds/o2.elf", 0),
    "o3": ("builds/o3.elf", 0),
    "gcc": ("filter/gcc.elf", 0),
    "clang": ("filter/clang.elf", 0),
}
USUAL = ["primes", "matrix", "o2", "o3"]
COMMANDS = ["run", "times", "all", "explore", "rows"]
COMMANDS_WITH_WORKERS = ["explore", "rows"]

PRICES = {"alu": 10, "mul": 12, "div": 20, "load": 8, "store": 8, "bru": 6, "bus": 15}
# Options of units: how many, their latency, their price.
SLOW = {"alu": [(1, 1, 20), (2, 1, 38)], "mul": [(1, 3, 30)], "div": [(1, 20, 15)], "mem": [(1, 2, 25)]}
BOTH = {
    "alu": [(1, 1, 20), (2, 1, 38)],
    "mul": [(1, 3, 30), (1, 5, 18)],
    "div": [(1, 20, 15), (1, 10, 32)],
    "mem": [(1, 2, 25), (2, 2, 45)],
}
GRIDS = {
    "small": (
        {"alu": [1, 3], "mul": [1, 2], "load": [1, 3], "store": [1, 2], "buses": [1, 2]},
        SLOW | {"bru": [(1, 1, 5)]},
    ),
    "medium": (
        {"alu": [1, 2, 3, 4], "mul": [1, 2], "load": [1, 3], "store": [1, 2], "buses": [1, 2]},
        BOTH | {"bru": [(1, 1, 5)]},
    ),
    "large": (
        {
            "alu": [1, 2, 3, 4],
            "mul": [1, 2],
            "div": [1, 2],
            "load": [1, 2, 3, 4],
            "store": [1, 2],
            "bru": [1, 2],
            "buses": [1, 2],
        },
        BOTH | {"bru": [(1, 1, 5), (1, 2, 2)]},
    ),
}
# A turn takes about this long: short runs are repeated in it, and their mean counts.
SECONDS_OF_A_TURN = 0.1
MOST_REPEATS = 40


def study_text(name, grid):
    """A study of one program on all configurations of a grid."""
    file, base = PROGRAMS[name]
    axes, units = GRIDS[grid]
    lines = ["[[program]]", f'name = "{name}"', f'file = "{file}"', f"base = {base}"]
    lines += ["[prices]"] + [f"{key} = {price}" for key, price in PRICES.items()]
    lines += ["[axes]"] + [f"{key} = {counts}" for key, counts in axes.items()]
    for kind, options in units.items():
        for count, latency, price in options:
            lines += [f"[[unit.{kind}]]", f"units = {count}", f"latency = {latency}", f"price = {price}"]
    return "\n".join(lines) + "\n"


def build(folder):
    """Builds plain.rs as the line at its head says."""
    plain = os.path.join(folder, "plain")
    flags = ["--edition", "2021", "-O", "-C", "codegen-units=1", "-C", "panic=abort"]
    subprocess.run(["rustc", *flags, "-o", plain, os.path.join(HERE, "plain.rs")], check=True)
    return plain


def run(command):
    """Runs a command in the folder of examples; gives its processor seconds and what it printed."""
    process = subprocess.Popen(command, cwd=EXAMPLES, stdin=subprocess.DEVNULL, stdout=subprocess.PIPE)
    printed = process.stdout.read()
    process.stdout.close()
    _, status, usage = os.wait4(process.pid, 0)
    process.returncode = os.waitstatus_to_exitcode(status)
    if process.returncode != 0:
        sys.exit(f"status {process.returncode}: {' '.join(command)}")
    return usage.ru_utime + usage.ru_stime, printed


def turn(command, repeats):
    """The mean processor seconds of some runs."""
    return sum(run(command)[0] for _ in range(repeats)) / repeats


def take_turns(tomex, plain, rounds):
    """Processor seconds of both, round by round; who begins changes from round to round."""
    repeats = max(1, min(MOST_REPEATS, round(SECONDS_OF_A_TURN / max(run(plain)[0], 1e-4))))
    pairs = []
    for number in range(rounds):
        if number % 2 == 0:
            first = turn(tomex, repeats)
            pairs.append((first, turn(plain, repeats)))
        else:
            second = turn(plain, repeats)
            pairs.append((turn(tomex, repeats), second))
    return pairs


def peak_memory(command):
    """The most memory that a run had, in MB, as GNU time says; nothing if that isn't installed."""
    # What wait4 says is of no use here: it counts this script, which the run was a copy of.
    if not TIME:
        return "-"
    done = subprocess.run([TIME, "-f", "%M", *command], cwd=EXAMPLES, stdout=subprocess.DEVNULL, stderr=subprocess.PIPE)
    last = done.stderr.decode().split("\n")[-2:][0]
    return f"{int(last) / 1024:.1f}" if last.isdigit() else "-"


def words_of(what, name, study, workers):
    """The words after the program's name, which are the same for both."""
    if what == "run":
        return ["run", PROGRAMS[name][0], "--base", str(PROGRAMS[name][1])]
    if what == "times":
        return ["times", study, "0", name]
    return [what, study] + (["--workers", str(workers)] if what in COMMANDS_WITH_WORKERS else [])


def text_of_seconds(seconds):
    return f"{seconds * 1000:.1f} ms" if seconds < 0.1 else f"{seconds:.2f} s"


def record(what, name, tomex, plain, rounds):
    """A line of the table."""
    pairs = take_turns(tomex, plain, rounds)
    ratios = sorted(a / b for a, b in pairs)
    fields = [
        f"`{what}`",
        name,
        text_of_seconds(statistics.median(a for a, _ in pairs)),
        text_of_seconds(statistics.median(b for _, b in pairs)),
        f"{statistics.median(ratios):.2f}",
        f"{ratios[0]:.2f}, {ratios[-1]:.2f}",
        f"{peak_memory(tomex)}, {peak_memory(plain)} MB",
    ]
    return "| " + " | ".join(fields) + " |"


def first_line(command):
    """What a command prints first, or nothing if it can't be run."""
    try:
        done = subprocess.run(command, cwd=HERE, stdout=subprocess.PIPE, stderr=subprocess.DEVNULL, text=True)
    except OSError:
        return ""
    return done.stdout.split("\n")[0]


def surroundings():
    """The commit, the compiler and the processor."""
    commit = first_line(["git", "rev-parse", "--short", "HEAD"]) or "unknown"
    if first_line(["git", "status", "--porcelain", "--untracked-files=no"]):
        commit += " with changes"
    processor = platform.processor() or platform.machine()
    try:
        with open("/proc/cpuinfo") as lines:
            processor = next(line.split(":")[1].strip() for line in lines if line.startswith("model name"))
    except (OSError, StopIteration):
        pass
    return f"Commit {commit}, {' '.join(first_line(['rustc', '--version']).split()[:2])}, {processor}"


def asked():
    parser = argparse.ArgumentParser(description=__doc__, formatter_class=argparse.RawDescriptionHelpFormatter)
    parser.add_argument("binary")
    parser.add_argument("what", nargs="*")
    parser.add_argument("--grid", choices=list(GRIDS), default="medium")
    parser.add_argument("--rounds", type=int, default=9)
    parser.add_argument("--programs", type=lambda names: names.split(","), default=USUAL)
    parser.add_argument("--workers", type=int, default=1)
    words = parser.parse_intermixed_args()
    unknown = [x for x in words.what if x not in COMMANDS] + [x for x in words.programs if x not in PROGRAMS]
    if unknown:
        parser.error(f"unknown: {', '.join(unknown)}")
    return words


def heading(words, plain):
    """What the table is of, and its head."""
    axes, units = GRIDS[words.grid]
    rows = math.prod(len(choices) for choices in itertools.chain(axes.values(), units.values()))
    workers = "one worker" if words.workers == 1 else f"{words.workers} workers"
    ends = {name: run([plain, *words_of("run", name, "", 1)])[1] for name in words.programs}
    steps = ", ".join(f"{name} {int(end.split()[-1]):,}" for name, end in ends.items())
    return (
        f"{surroundings()}; {words.grid} grid ({rows:,} configurations), {workers}, rounds: {words.rounds}.\n"
        f"Steps: {steps}.\n\n"
        "| Command | Program | tomex | plain.rs | Ratio | Least, most | Memory |\n|---|---|---|---|---|---|---|"
    )


def main():
    words = asked()
    binary = os.path.abspath(words.binary)
    if words.workers == 1 and hasattr(os, "sched_setaffinity"):
        os.sched_setaffinity(0, {max(os.sched_getaffinity(0))})
    with tempfile.TemporaryDirectory() as folder:
        plain = build(folder)
        print(heading(words, plain), flush=True)
        for what, name in itertools.product(words.what or COMMANDS, words.programs):
            study = os.path.join(folder, f"{name}.toml")
            with open(study, "w") as file:
                file.write(study_text(name, words.grid))
            command = words_of(what, name, study, words.workers)
            tomex, peer = [binary, *command], [plain, *command]
            if run(tomex)[1] != run(peer)[1]:
                sys.exit(f"the two print different texts: {' '.join(command)}")
            print(record(what, name, tomex, peer, words.rounds), flush=True)


main()
