"""Makes out/sqlkeep.wasm of the library for C: the engine for a browser or for node, in a memory of 32 bits; and out/sqlkeep.html, a page
that shows it at work.

    page.py              of the proved library, over the crates that `./build --library` proved
    page.py --unproved   of the sources without proof, into out/unproved

The compiler hands the whole library to the clang of its toolchain as one module. Here it is kept, gets wasm's layout, is compiled by the
same clang and linked with a small memory of its own (page/wasm), and binaryen gives it addresses of 32 bits, which every engine runs.
It wants the packages binaryen and node: apt-get install binaryen nodejs.
"""
import json
import os
import re
import shlex
import shutil
import signal
import subprocess
import sys
from pathlib import Path

sys.dont_write_bytecode = True
sys.path.insert(0, os.path.dirname(os.path.realpath(__file__)))
sys.path.insert(0, str(Path(os.path.realpath(__file__)).parent.parent / "page"))
import bundle
import front_end
import libraries
import parts
import repository
import sandboxes
import toolchains
import unproved
from repository import ROOT, kit, say

TARGET = "wasm64-unknown-unknown"
LAYOUT = "e-m:e-p:64:64-p10:8:8-p20:8:8-i64:64-i128:128-n32:64-S128-ni:1:10:20"
WASM = Path(ROOT, "page", "wasm")
STACK = 8 << 20
FEATURES = ["memory64", "bulk-memory", "sign-ext", "mutable-globals", "nontrapping-float-to-int", "multivalue"]
KEEP = "[ -f module.bc ] && cp module.bc {sandbox}/module.bc\n"
# The number of the section of tables, and the length of the head of a module.
TABLES, HEAD = 4, 8


def keep_proved_module(sandbox):
    """Puts the module of the proved library into the folder; whether it is proved."""
    crate, rlibs = repository.LIBRARY, libraries.left_by_gate(repository.LIBRARY)
    if rlibs is None:
        say("the crates below the library aren't proved here; ./build --library proves them")
        return False
    toolchain = toolchains.stand_in(sandbox / "kit", before=KEEP.format(sandbox=shlex.quote(str(sandbox))))
    words = [*libraries.words("build", crate, rlibs), "--crate-type", "staticlib", "--toolchain", str(toolchain), "--backend", "llvm", "--jobs", "2", "-o", str(sandbox / "library.a")]
    done = subprocess.run(words, cwd=repository.folder(crate), stdin=subprocess.DEVNULL, stdout=subprocess.PIPE, stderr=subprocess.STDOUT, text=True, check=False)
    if not (sandbox / "module.bc").exists():
        say(done.stdout)
    return (sandbox / "module.bc").exists()


def keep_unproved_module(sandbox):
    """Puts the module of the sources into the folder, whose exports have their own names; whether it compiles."""
    try:
        (sandbox / "module.ll").write_text(parts.whole(repository.LIBRARY, sandbox / "whole"), "utf-8")
    except front_end.NotCompiled as why:
        say(str(why))
        return False
    run(sandbox, kit("toolchain", "bin", "clang"), "--target=x86_64-unknown-linux-gnu", "-emit-llvm", "-Xclang", "-disable-llvm-passes", "-x", "ir", "-c", "module.ll", "-o", "module.bc")
    return True


def run(sandbox, *words):
    subprocess.run([str(word) for word in words], cwd=sandbox, check=True)


def retarget(text):
    """The module as text, for wasm64. What is said of the processor and of the stack's probes is of x86-64 alone."""
    text = re.sub(r'^target datalayout = ".*"', f'target datalayout = "{LAYOUT}"', text, flags=re.M)
    text = re.sub(r'^target triple = ".*"', f'target triple = "{TARGET}"', text, flags=re.M)
    text = re.sub(r"^(attributes #\d+ = \{.*\})$", lambda line: re.sub(r' "[\w-]+"="[^"]*"', "", line[1]).replace(" sanitize_address", ""), text, flags=re.M)
    text = re.sub(r"^(attributes #\d+ = )\{ *\}$", r"\1{ nounwind }", text.replace(" sanitize_address", ""), flags=re.M)
    return re.sub(r"^declare i64 @__sysv_signal.*\n", "", text, flags=re.M)


def without_tables(code):
    """The linked module without its table, through which nothing calls: lowering refuses one of 64 bits."""
    kept, at = bytearray(code[:HEAD]), HEAD
    while at < len(code):
        place, size, shift = at + 1, 0, 0
        while True:
            byte = code[place]
            size |= (byte & 127) << shift
            place, shift = place + 1, shift + 7
            if byte < 128:
                break
        if code[at] != TABLES:
            kept += code[at : place + size]
        at = place + size
    return bytes(kept)


def link(sandbox):
    """Compiles module.bc and the parts beside it for wasm64, and links them."""
    clang = kit("toolchain", "bin", "clang")
    run(sandbox, clang, "--target=x86_64-unknown-linux-gnu", "-emit-llvm", "-Xclang", "-disable-llvm-passes", "-x", "ir", "-S", "module.bc", "-o", "module.ll")
    text = retarget((sandbox / "module.ll").read_text("utf-8"))
    (sandbox / "wasm.ll").write_text(text, "utf-8")
    exports = sorted(set(re.findall(r"^define (?!internal)[^@\n]*@(sqlkeep_\w+)\(", text, re.M)))
    shared = [clang, f"--target={TARGET}", "-mcpu=lime1", "-O3", "-c", "-Wno-override-module"]
    run(sandbox, *shared, "-x", "ir", "wasm.ll", "-o", "module.o")
    run(sandbox, *shared, "-x", "ir", WASM / "heap.ll", "-o", "glue.o")
    for name in ("heap", "wide"):
        run(sandbox, *shared, "-ffreestanding", "-fno-builtin", WASM / f"{name}.c", "-o", f"{name}.o")
    words = [kit("toolchain", "bin", "ld.lld"), "-flavor", "wasm", "-mwasm64", "--no-entry", "--stack-first", "-z", f"stack-size={STACK}", "--gc-sections", "--strip-all"]
    run(sandbox, *words, *(f"--export={name}" for name in exports), "module.o", "glue.o", "heap.o", "wide.o", "-o", "wide.wasm")
    (sandbox / "wide.wasm").write_bytes(without_tables((sandbox / "wide.wasm").read_bytes()))


def lower(sandbox, to):
    """Gives the module addresses of 32 bits."""
    run(sandbox, "wasm-opt", *(f"--enable-{feature}" for feature in FEATURES), "--memory64-lowering", "wide.wasm", "-o", "low.wasm")
    to.mkdir(parents=True, exist_ok=True)
    shutil.copyfile(sandbox / "low.wasm", to / "sqlkeep.wasm")
    package = json.loads(Path(ROOT, "page", "package.json").read_text("utf-8"))
    for file in ("package.json", *(each for each in package["files"] if Path(ROOT, "page", each).suffix in (".mjs", ".ts"))):
        shutil.copyfile(Path(ROOT, "page", file), to / file)


def main(words):
    if shutil.which("wasm-opt") is None:
        say("wasm-opt isn't here: apt-get install binaryen")
        return 2
    signal.signal(signal.SIGTERM, unproved.ended)
    is_unproved = "--unproved" in words
    to = Path(ROOT, "out", "unproved") if is_unproved else Path(ROOT, "out")
    with sandboxes.held() as folder:
        sandbox = Path(folder)
        if not (keep_unproved_module(sandbox) if is_unproved else keep_proved_module(sandbox)):
            return 1
        link(sandbox)
        lower(sandbox, to)
    bundle.write(to, not is_unproved)
    say(f"sqlkeep.wasm, sqlkeep.mjs, sqlkeep-element.mjs and sqlkeep.html are in {os.path.relpath(to, ROOT)}")
    return 0


if __name__ == "__main__":
    sys.exit(main(sys.argv[1:]))
