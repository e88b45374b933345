#!/usr/bin/env python3
"""Makes web/tomex.html, the program as WebAssembly in one page, of the proved program.

  web/build.py                  builds it, and web/tomex.sum
  web/build.py --check          builds it in a folder of its own, and compares it with the one that is there
  web/build.py --is-current     says whether web/tomex.sum is of these sources; builds nothing, needs only Python
  web/build.py --module FILE    begins with a module that an earlier build left in web/out: LLVM's, or WebAssembly's

The crates below `tomex` have to be built first: by `rt ci`, or by `rt lib` in crates/tomex_command. BUILT names another
checkout of the same sources that has them. Needs the kit, node, and of Debian's packages binaryen,
libclang-common-14-dev and emscripten, of which only four files of C are taken (`apt-get download emscripten` is enough:
EMSCRIPTEN names the folder where it is unpacked).

`rattle build` proves `tomex` and lowers the whole program to one LLVM module, which it gives the clang of a toolchain
folder to compile. Here that folder's clang keeps the module. It was made for x86-64: its few lines that name the target
are replaced, and the kit's clang compiles it for wasm64, with the words that rattle gives it for that target. Memories
of 64 bits are new, and no browser of some years ago has them: so binaryen cuts each address to 32 bits. The program's
pointers stay as they were, numbers of 64 bits whose upper half is 0. web/libc.c stands for the C library.
"""
import hashlib, os, re, shutil, subprocess, sys, tempfile

HERE = os.path.dirname(os.path.abspath(__file__))
TOP = os.path.dirname(HERE)
EMSCRIPTEN = os.environ.get("EMSCRIPTEN", "") + "/usr/share/emscripten/system/lib"
HEADERS = "/usr/lib/llvm-14/lib/clang/14.0.6/include"

# What rattle gives clang for wasm64 (kit rattle-kit-13f), and the data layout of that target.
TARGET = """--target=wasm64-unknown-unknown -mcpu=lime1 -ffunction-sections -fdata-sections
 -mllvm -expand-div-rem-bits=64 -mllvm -expand-fp-convert-bits=64 -mllvm -trap-unreachable
 -mllvm -disable-machine-licm -mllvm -disable-postra-machine-licm -mllvm -sink-common-insts=false
 --no-default-config -no-canonical-prefixes -fintegrated-cc1 -fno-crash-diagnostics -Werror""".split()
LAYOUT = "e-m:e-p:64:64-p10:8:8-p20:8:8-i64:64-i128:128-n32:64-S128-ni:1:10:20"
# At the bottom of the memory, so that going below it traps.
STACK = 4 << 20

# The heap: no maps of pages, no locks, nothing of the C library but what clang itself knows.
HEAP = """-DUSE_DL_PREFIX=1 -DHAVE_MMAP=0 -DMORECORE=more_core -DMORECORE_CANNOT_TRIM=1 -DMORECORE_CONTIGUOUS=1
 -DNO_MALLOC_STATS=1 -DNO_MALLINFO=1 -DMALLOC_ALIGNMENT=16 -Dmalloc_getpagesize=65536 -DMALLOC_FAILURE_ACTION=
 -DABORT=__builtin_trap() -DEINVAL=22 -DENOMEM=12 -Dmemcpy=__builtin_memcpy -Dmemset=__builtin_memset
 -DLACKS_SYS_TYPES_H -DLACKS_UNISTD_H -DLACKS_SYS_PARAM_H -DLACKS_SYS_MMAN_H -DLACKS_STRING_H -DLACKS_STRINGS_H
 -DLACKS_STDLIB_H -DLACKS_ERRNO_H -DLACKS_TIME_H -DLACKS_SCHED_H -DLACKS_FCNTL_H""".split()

# What clang's processor lime1 has of WebAssembly, for binaryen, and the memory of 64 bits that is to go.
FEATURES = """memory64 bulk-memory sign-ext nontrapping-float-to-int
 mutable-globals multivalue reference-types""".split()

# What of this folder isn't in the page.
BESIDE = {"tomex.html", "tomex.sum", "README.md", "tomex.mjs", "packed.mjs", "golden.mjs", "cases.mjs", "chromium.mjs",
          "try-page.mjs"}


def run(*words, **how):
    return subprocess.run(words, check=True, **how)


def kit():
    return os.environ.get("KIT") or os.path.dirname(os.path.dirname(os.path.realpath(shutil.which("rt"))))


def clang():
    return f"{kit()}/toolchain/bin/clang"


def read(file):
    with open(file, encoding="utf8") as it:
        return it.read()


def write(file, text):
    with open(file, "w", encoding="utf8") as it:
        it.write(text)


# ---- the LLVM module of the proved program ----

CLANG_THAT_KEEPS = """#!/bin/sh
# The words name module.bc; what is to be made of it, after -o, is left empty.
while [ $# -gt 0 ]; do
  case $1 in
    *module.bc) cp "$1" "{kept}";;
    -o) : > "$2";;
  esac
  shift
done
"""


def crates():
    """Each crate of the repository with what it lists."""
    lines = [line.split("#")[0] for line in read(f"{TOP}/crates.txt").splitlines()]
    pairs = [line.split(":") for line in lines if ":" in line]
    return {head.split()[0]: listed.split() for head, listed in pairs}


def below(name, lists):
    found = [name] if name in lists else []
    for it in lists.get(name, []):
        found += [more for more in below(it, lists) if more not in found]
    return found


def module_of(built, kept, place):
    """Has rattle prove and lower the program, and keeps the module that it gives clang."""
    tools = f"{place}/toolchain"
    os.makedirs(f"{tools}/bin")
    os.symlink(f"{kit()}/toolchain/lib", f"{tools}/lib")
    for name in ("ld.lld", "llvm-ar", "rattle-x64"):
        os.symlink(f"{kit()}/toolchain/bin/{name}", f"{tools}/bin/{name}")
    write(f"{tools}/bin/clang", CLANG_THAT_KEEPS.format(kept=kept))
    os.chmod(f"{tools}/bin/clang", 0o755)
    lists = crates()
    words = ["--crate-name", "tomex", "src/main.rt", "-L", f"dependency={kit()}/rlibs"]
    words += ["--extern", f"std={kit()}/rlibs/std.rlib"]
    for name in below("tomex", lists)[1:]:
        words += ["-L", f"dependency={built}/crates/{name}/out/rlib"]
    for name in lists["tomex"]:
        words += ["--extern", f"{name}={built}/crates/{name}/out/rlib/{name}.rlib"]
    words += ["--antt-project", f"{kit()}/rattle/logic/antt-project.json", "--logic-built", f"{kit()}/logic_built"]
    # The oldest of these processors, so that the program doesn't ask which one it runs on.
    words += ["--cpu=x86-64", "--jobs", str(os.cpu_count()), "--backend", "llvm", "--toolchain", tools]
    run(f"{kit()}/bin/rattle", "build", *words, "-o", f"{place}/program.o", cwd=f"{built}/crates/tomex")


# ---- for another target ----

# Attributes that name the processor.
PROCESSOR = re.compile(r' "(?:probe-stack|stack-probe-size|target-cpu|target-features|tune-cpu)"="[^"]*"')
# Names that would be taken for those of the C library, which there is none of.
NO_BUILTINS = ' "no-builtin-bcmp" "no-builtin-memcmp" "no-builtin-strlen" }'


def for_wasm(text):
    """The module's text with wasm64 as its target."""
    # The assembler reads no names in quotes. Other texts in quotes, which may end with @, are passed over.
    names = {}
    shorter = lambda it: names.setdefault(it[0], f"@f{len(names)}") if it[0][0] == "@" else it[0]
    text = re.sub(r'@?"[^"]*"', shorter, text)
    text = re.sub(r"^target datalayout = .*$", f'target datalayout = "{LAYOUT}"', text, flags=re.M)
    text = re.sub(r"^target triple = .*$", 'target triple = "wasm64-unknown-unknown"', text, flags=re.M)
    # A hint to the processor in a loop that waits.
    text = re.sub(r"^(  call void|declare void) @llvm\.x86\.sse2\.pause\(\).*\n", "", text, flags=re.M)
    lines = re.compile(r"^attributes .*$", re.M)
    return lines.sub(lambda it: PROCESSOR.sub("", it[0]).replace(" }", NO_BUILTINS), text)


def object_of(name, *words):
    """Compiles to an object whose indirect calls find their place in the table by 32 bits, which binaryen 108 wants."""
    run(clang(), *TARGET, "-S", *words, "-o", f"{name}.s")
    write(f"{name}.s", re.sub(r"^(\tcall_indirect\t)", r"\ti32.wrap_i64\n\1", read(f"{name}.s"), flags=re.M))
    run(clang(), "--target=wasm64-unknown-unknown", "-mcpu=lime1", "-Wa,--no-type-check", "-c", "-x", "assembler",
        f"{name}.s", "-o", f"{name}.o")
    return f"{name}.o"


def numbers(body, at):
    """The number at a place, in LEB128, and the place after it."""
    value = shift = 0
    while True:
        byte = body[at]
        value |= (byte & 127) << shift
        at, shift = at + 1, shift + 7
        if byte < 128:
            return value, at


TABLES, ELEMENTS = 4, 9
SIXTY_FOUR_BITS = 4
I32_CONST, I64_CONST = 0x41, 0x42


def with_small_table(module):
    """The linked module, whose table of functions is one of 32 bits."""
    at, out = 8, module[:8]
    while at < len(module):
        kind = module[at]
        size, start = numbers(module, at + 1)
        body = bytearray(module[start : start + size])
        if kind == TABLES:
            assert body[0] == 1 and body[2] & SIXTY_FOUR_BITS, "there is one table, of 64 bits"
            body[2] &= ~SIXTY_FOUR_BITS
        elif kind == ELEMENTS:
            assert body[0] == 1 and body[1] == 0 and body[2] == I64_CONST, "its elements begin at one constant place"
            body[2] = I32_CONST
        out += module[at:start] + bytes(body)
        at = start + size
    return out


def wasm_of(module, place):
    """The module as WebAssembly with a memory of 32 bits."""
    os.chdir(place)
    run(clang(), "-x", "ir", module, "-S", "-emit-llvm", "-Xclang", "-disable-llvm-passes", "-o", "given.ll")
    write("module.ll", for_wasm(read("given.ll")))
    write("heap.h", "#include <stddef.h>\nvoid *more_core(ptrdiff_t);\n")
    ours = ["-O2", "-fwrapv", "-ffreestanding", "-fno-builtin", "-nostdinc", "-x", "c"]
    theirs = ["-O2", "-nostdinc", "-isystem", HEADERS, "-x", "c"]
    builtins = [f"{EMSCRIPTEN}/compiler-rt/lib/builtins/{name}.c" for name in ("multi3", "ashlti3", "lshrti3")]
    objects = [object_of("module", "-O2", "-x", "ir", "module.ll")]
    objects += [object_of("libc", *ours, f"{HERE}/libc.c")]
    objects += [object_of("heap", *theirs, *HEAP, "-include", "heap.h", f"{EMSCRIPTEN}/dlmalloc.c")]
    objects += [object_of(os.path.basename(it)[:-2], *theirs, it) for it in builtins]
    os.symlink(clang(), "ld.lld")
    run("./ld.lld", "-flavor", "wasm", "-mwasm64", "--no-entry", "--stack-first", "-z", f"stack-size={STACK}",
        "--export=main", "--gc-sections", "--fatal-warnings", "--threads=1", "--strip-all", "-o", "wide.wasm", *objects)
    with open("wide.wasm", "rb") as it:
        wide = with_small_table(it.read())
    with open("wide.wasm", "wb") as it:
        it.write(wide)
    enabled = [f"--enable-{it}" for it in FEATURES]
    run("wasm-opt", *enabled, "--memory64-lowering", "-O2", "wide.wasm", "-o", "tomex.wasm")
    return f"{place}/tomex.wasm"


# ---- the page ----


def sources():
    """What the page is made of: the product's sources, this folder's, and the examples that the page names."""
    found = []
    for name in below("tomex", crates()):
        for folder, _, files in os.walk(f"{TOP}/crates/{name}/src"):
            found += [f"{folder}/{file}" for file in files]
    found += [f"{HERE}/{it}" for it in os.listdir(HERE) if "." in it and it not in BESIDE]
    lists = re.findall(r"files: \[(.*?)\]", read(f"{HERE}/views.mjs"), flags=re.S)
    found += [f"{TOP}/examples/{name}" for it in lists for name in re.findall(r'"([^"]+)"', it)]
    return sorted(set(found))


def sum_of_sources():
    lists = crates()
    total = hashlib.sha256(repr(sorted((name, lists[name]) for name in below("tomex", lists))).encode())
    for file in sources():
        with open(file, "rb") as it:
            total.update(f"{os.path.relpath(file, TOP)} {hashlib.sha256(it.read()).hexdigest()}\n".encode())
    return total.hexdigest()


def build(page, module, folder, place):
    """Makes the page; the modules of which it is made are left in a folder."""
    if not module:
        module = f"{folder}/module.bc"
        module_of(os.path.abspath(os.environ.get("BUILT", TOP)), module, place)
    wasm = module if module.endswith(".wasm") else wasm_of(module, place)
    run("node", f"{HERE}/pack.mjs", wasm, page)
    if os.path.dirname(wasm) != folder:
        shutil.copy(wasm, folder)


def is_current():
    sums = f"{HERE}/tomex.sum"
    if os.path.exists(sums) and f"sources {sum_of_sources()}" in read(sums).splitlines():
        print("web/tomex.html is of these sources")
        return True
    print("web/tomex.html is of older sources: web/build.py builds it again")
    return False


def is_same(place, module):
    """Builds the page in this folder, and compares it with the one that is there."""
    build(f"{place}/tomex.html", module, place, place)
    with open(f"{place}/tomex.html", "rb") as new, open(f"{HERE}/tomex.html", "rb") as old:
        same = new.read() == old.read()
    print("the same bytes" if same else "web/tomex.html isn't what these sources give")
    return same


def build_here(place, module):
    os.makedirs(f"{HERE}/out", exist_ok=True)
    build(f"{HERE}/tomex.html", module, f"{HERE}/out", place)
    binaryen = run("wasm-opt", "--version", capture_output=True, text=True).stdout.strip()
    made_with = f"kit {read(f'{kit()}/KIT-ID').strip()}\nbinaryen {binaryen}\n"
    write(f"{HERE}/tomex.sum", f"{made_with}sources {sum_of_sources()}\n")
    return True


def main(words):
    module = os.path.abspath(words[words.index("--module") + 1]) if "--module" in words else None
    with tempfile.TemporaryDirectory() as place:
        if "--is-current" in words:
            done = is_current()
        elif "--check" in words:
            done = is_same(place, module)
        else:
            done = build_here(place, module)
    return 0 if done else 1


if __name__ == "__main__":
    try:
        sys.exit(main(sys.argv[1:]))
    except subprocess.CalledProcessError as error:
        sys.exit(f"web/build.py: {os.path.basename(error.cmd[0])} failed, with status {error.returncode}")
