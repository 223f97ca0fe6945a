"""Compiles a program without proof in parts side by side, since the kit's front end is one thread.

A part has a `main`, and libraries of which some come without the bodies of their functions. What it calls there another part makes:
few functions lead to those that run statements, to those that read, resolve and write them, and to the command line, and none of these
has a type parameter of its own. Such a function becomes a declaration in the one part, and the other hands it out. If no part makes it,
the program is compiled in one piece.
"""
import os
import re
import subprocess
from collections.abc import Callable
from concurrent.futures import ThreadPoolExecutor, wait
from dataclasses import dataclass
from pathlib import Path

import front_end
import repository
from front_end import calls
from repository import LIBRARY, PROGRAM, kit

# What the linker does to a module before it makes code. What is never called goes first.
SIMPLIFY = "sroa,early-cse<memssa>,simplifycfg,instcombine<no-verify-fixpoint;max-iterations=1>"
PASSES = f"globaldce,cgscc(inline,function-attrs,function({SIMPLIFY})),globalopt,globaldce,function(jump-threading,memcpyopt,dse,{SIMPLIFY})"
TARGET = "x86_64-unknown-linux-gnu"
AS_IT_IS = ("-emit-llvm", "-Xclang", "-disable-llvm-passes", "-x", "ir")

# The crates that run statements, and those that read, resolve and write them.
RUNNING = re.compile(r"iv_(exec_\w+|store|store_\w+|modes|state|session)$")
READING = re.compile(r"iv_(parse|parse_\w+|template|write|restate|resol\w+)$")
# All that is behind the calls of other parts, with the catalogue and expressions, whose functions those parts have too.
BEHIND = re.compile(rf"({RUNNING.pattern})|({READING.pattern})|iv_(catalogue|expr|numbers)$")
# The files of iv_program that speak of the command line. The kit's crate for it is clap.
WORDS = ("command.rt", "reading.rt")
# Files of the kit's libraries, of which no part calls a function.
UNUSED = {
    "core": r"atomic|chan|rw|cell|sync|time|f32|f64|simd|alloc/|char/(case_)?tables|char/e|convert/try|fmt/(float|radix|fixed|inline|type_impls)"
    r"|int/(bits|checked|mixed|more|strict|i8|i16|isize|u16)|iter/(accum|ends|escapes)|num/(casts|fused|modular|nonzero|rounding|saturating)"
    r"|ops/(arith|bits)|slice/(cuts_mut|exact|splits|sort/(merge|short|stable))",
    "std": r"fs/(dir|remove)|io/(buffered|traits)|net|path|process/(command|status|system)|rows|thread|time",
    "std_alloc": r"borrow",
    "std_collections": r"btree/(cut|merge|owned|rehome|sift)|fmt|index_table|linked_list",
    "indexmap": r"set|map/(entry|traits)",
}
# What a body that isn't there calls. Nothing defines it.
LEFT_OUT = "sqlkeep_left_out"

LIFETIMES = r"(?:<(?:'\w+(?:, )?)+>)?"
# A type's own methods.
METHODS = re.compile(rf"^impl{LIFETIMES} (\w+){LIFETIMES} \{{\n(.*?)^\}}", re.M | re.S)
HEAD = re.compile(r"^( *)(?:pub(?:\([a-z ]+\))? )?fn (\w+)")
# A function of a module: what it gives, its name, its parameters and its body.
FUNCTION = re.compile(r"^define ([^\n]*?)(@\"[^\"\n]*\"|@[\w.]+)(\([^\n]*\)) [^\n()]*\{\n(.*?)^\}\n", re.M | re.S)
# The kit fills each local before it is written.
FILL = re.compile(r"^  call void @llvm\.memset\.p0\.i64\(ptr %\w+, i8 -86, i64 \d+, i1 false\)\n", re.M)


class NoPart(Exception):
    """A part calls a function that none makes; the text says which."""


class Module:
    """A module for LLVM as text, with its functions by their names."""

    def __init__(self, text):
        self.text = text
        self.functions = {function[2]: function for function in FUNCTION.finditer(text)}
        self.without_body = {name for name, function in self.functions.items() if LEFT_OUT in function[4] and LEFT_OUT not in name}

    def joined(self, names, has_main):
        """The text with these functions handed out, or declared if the module doesn't make them; and without `main`, if that isn't wanted."""
        pieces, at = [], 0
        for name in sorted(({"@main"} | names) & self.functions.keys(), key=lambda name: self.functions[name].start()):
            function = self.functions[name]
            pieces += [self.text[at : function.start()], self.changed(name, function, has_main)]
            at = function.end()
        return "".join([*pieces, self.text[at:]])

    def changed(self, name, function, has_main):
        """What stands for a function that parts share, or for `main`."""
        if name == "@main":
            return function[0] if has_main else ""
        if name in self.without_body:
            return f"declare hidden {function[1].removeprefix('internal ')}{name}{function[3]}\n"
        return function[0].replace("define internal ", "define weak_odr hidden ", 1)


@dataclass
class Part:
    """A program, the libraries that it names, and the files of libraries whose functions come without bodies, by crate and name."""

    name: str
    sources: dict[str, str]
    names: list[str]
    is_left_out: Callable[[str, str], bool]


def files_of(crate):
    """The texts of a crate's files, by name."""
    return {file.name: file.read_text("utf-8") for file in sorted(front_end.source(crate).glob("*.rt"))}


def sources_of(crate):
    """The files of a program. The library becomes one that calls each function for C: only what `main` reaches is compiled."""
    texts = files_of(crate)
    if crate == LIBRARY:
        lines = [line for name, text in texts.items() for line in calls(name.removesuffix(".rt"), text, r"^pub extern \"C\" fn (\w+)\(")]
        texts["main.rt"] = texts.pop("lib.rt") + front_end.a_main_of(lines).removeprefix(front_end.TACTIC)
    return texts


def exported_calls(crate):
    """Rattle code that calls each function and each method without type parameters that the root of a crate offers."""
    texts = files_of(crate)
    offered = sorted({name for names in re.findall(r"^pub use \w+::(.*?);", texts["lib.rt"], re.M | re.S) for name in re.findall(r"\w+", names)})
    lines = [line for text in texts.values() for line in calls(crate, text, rf"^pub fn ({'|'.join(offered)}){LIFETIMES}\(")]
    methods = [(kind, block) for text in texts.values() for kind, block in METHODS.findall(text) if kind in offered]
    return lines + [line for kind, block in methods for line in calls(f"{crate}::{kind}", block, rf"^    pub fn (\w+){LIFETIMES}\(")]


def running():
    """All that a session does in the store that the program has."""
    texts = files_of("iv_session")
    lines = [line for text in texts.values() for line in calls("Session::<IndexStore>", text, r"^    pub fn (\w+)\(")]
    lines += calls("<Session<IndexStore> as Executor>", texts["executor.rt"], r"^    fn (\w+)\(")
    uses = "use iv_session::Session;\nuse iv_step::Executor;\nuse iv_store_index::IndexStore;\n"
    return Part("running", {"main.rt": front_end.a_main_of(lines, uses)}, ["iv_session", "iv_step", "iv_store_index"], lambda each, file: READING.match(each))


def reading(crate):
    """All that reads, resolves and writes statements below a crate."""
    names = [each for each in sorted(repository.below([crate], repository.crates())) if READING.match(each)]
    lines = [line for each in names for line in exported_calls(each)]
    return Part("reading", {"main.rt": front_end.a_main_of(lines)}, names, lambda each, file: False)


def parts_of(crate):
    """The parts of the program or of the library, of which the first has the crate's own `main`."""
    own, names = sources_of(crate), repository.listed(crate)
    if crate == LIBRARY:
        return [Part("calls", own, names, lambda each, file: BEHIND.match(each)), running(), reading(crate)]

    def is_left_out(each, file):
        return BEHIND.match(each) or each == "clap" or (each == "iv_program" and file in WORDS)

    def is_left_out_of_words(each, file):
        return each.startswith("iv_") and each not in ("iv_program", "iv_machine")

    return [Part("telling", own, names, is_left_out), running(), reading(crate), Part("words", own, names, is_left_out_of_words)]


def body(lines, at):
    """The first and the last line of the body of the function whose head is at a line, by the layout of `rt fmt`; none if it has none or
    is written in one line."""
    indent = HEAD.match(lines[at])[1]
    for first in range(at, len(lines)):
        line = lines[first]
        if line == indent + "{" or (line.endswith(" {") and (first == at or line.startswith(indent + ")"))):
            return first, lines.index(indent + "}", first)
        if first > at and line.strip() and not line.startswith((indent + " ", indent + ")")):
            break
    return None


def without_bodies(text):
    """The text of a file whose functions call what isn't there. Drops stay, and so do bodies of one line, which are quickly compiled."""
    lines, kept, at = text.split("\n"), [], 0
    while at < len(lines):
        head = HEAD.match(lines[at])
        found = body(lines, at) if head and head[2] != "drop" else None
        if found is None or found[1] - found[0] <= 2:
            kept.append(lines[at])
            at += 1
            continue
        indent = head[1]
        kept += [*lines[at : found[0] + 1], f"{indent}    loop {{", f"{indent}        crate::{LEFT_OUT}();", f"{indent}    }}", indent + "}"]
        at = found[1] + 1
    return "\n".join(kept)


def is_unused(library, path):
    """Whether a file of the kit, by its path, is one of which no part calls a function."""
    return library in UNUSED and re.match(UNUSED[library], path.as_posix()) is not None


def lay_out(part, libraries, sandbox):
    """Writes the libraries of a part whose functions come without bodies, and gives their folders."""
    folders = {}
    for each in libraries:
        source = front_end.source(each)
        files = sorted(source.rglob("*.rt"))
        left_out = {file for file in files if part.is_left_out(each, file.name) or is_unused(each, file.relative_to(source))}
        if not left_out:
            continue
        folders[each] = sandbox / "left_out" / each / "src"
        for file in files:
            to, text = folders[each] / file.relative_to(source), file.read_text("utf-8")
            to.parent.mkdir(parents=True, exist_ok=True)
            to.write_text(without_bodies(text) if file in left_out else text, "utf-8")
        with (folders[each] / "lib.rt").open("a", encoding="utf-8") as root:
            root.write(f'\nunsafe extern "C" {{\n    pub(crate) safe fn {LEFT_OUT}();\n}}\n')
    return folders


def clang(*words):
    return [kit("toolchain", "bin", "clang"), f"--target={TARGET}", *words]


def given(sandbox):
    """The kit's own words for LLVM, which keep known faults of it away."""
    return [word for pair in re.findall(r"^(-mllvm)\n(.*)$", (sandbox / "words").read_text("utf-8"), re.M) for word in pair]


def linker(sandbox):
    return [kit("toolchain", "bin", "ld.lld"), "-r", "--plugin-opt=disable-verify", *given(sandbox)]


def module_of(part, sandbox):
    """The module of a part, with only what its `main` reaches. If it doesn't compile, the other parts needn't end."""
    (sandbox / "src").mkdir(parents=True)
    for name, text in part.sources.items():
        (sandbox / "src" / name).write_text(text, "utf-8")
    libraries = front_end.libraries(part.names)
    try:
        front_end.keep_module(sandbox, libraries, lay_out(part, libraries, sandbox))
    except front_end.NotCompiled:
        front_end.end_all()
        raise
    subprocess.run([*linker(sandbox), "--lto-newpm-passes=globaldce", "--lto-emit-llvm", "module.bc", "-o", "reached.bc"], cwd=sandbox, check=True)
    subprocess.run(clang(*AS_IT_IS, "-S", "reached.bc", "-o", "reached.ll"), cwd=sandbox, check=True)
    return Module(FILL.sub("", (sandbox / "reached.ll").read_text("utf-8")))


def handed_over(modules):
    """The names of the functions that some part calls and doesn't make. Each has to be in another part."""
    wanted = {name for module in modules for name in module.without_body}
    missing = wanted - {name for module in modules for name in module.functions.keys() - module.without_body}
    if missing:
        raise NoPart("no part makes " + ", ".join(sorted(missing)))
    return wanted


def with_exports(text):
    """The module of the library with the functions for C under their own names."""
    named = re.sub(r'@"sqlkeep_main::\w+::(sqlkeep_\w+)"', r"@\1", text)
    return re.sub(r"^define internal ([^@\n]*@sqlkeep_)", r"define \1", named, flags=re.M)


def compiled(text, sandbox, optimised, threads):
    """Compiles a module that is there as text; the object's path. With several threads functions get names that other modules have too, so
    that only a module in one piece may have them."""
    (sandbox / "joined.ll").write_text(text, "utf-8")
    to = sandbox / f"{sandbox.name}.o"
    if optimised:
        subprocess.run(clang("-O3", "-fPIC", *given(sandbox), "-x", "ir", "-c", "joined.ll", "-o", to), cwd=sandbox, stderr=subprocess.DEVNULL, check=True)
        return to
    subprocess.run(clang(*AS_IT_IS, "-c", "joined.ll", "-o", "joined.bc"), cwd=sandbox, check=True)
    words = [f"--lto-newpm-passes={PASSES}", "--lto-CGO2", f"--lto-partitions={threads}", "-mllvm", "-relocation-model=pic"]
    subprocess.run([*linker(sandbox), *words, "joined.bc", "-o", to], cwd=sandbox, check=True)
    return to


def side_by_side(pool, function, *lists):
    """What a function gives for each item. Of several that fail the one that says most is told, since the others may only have been ended."""
    futures = [pool.submit(function, *items) for items in zip(*lists)]
    wait(futures)
    failures = [future.exception() for future in futures if future.exception()]
    if failures:
        raise max(failures, key=lambda failure: len(str(failure)))
    return [future.result() for future in futures]


def make(crate, sandbox, optimised):
    """Compiles the program or the library in parts, in a folder; the objects. The program has a `main`, the library its exports."""
    parts = parts_of(crate)
    with ThreadPoolExecutor(len(parts)) as pool:
        modules = side_by_side(pool, lambda part: module_of(part, sandbox / part.name), parts)
        names = handed_over(modules)
        texts = [module.joined(names, crate == PROGRAM and part is parts[0]) for part, module in zip(parts, modules)]
        if crate == LIBRARY:
            texts[0] = with_exports(texts[0])
        return side_by_side(pool, lambda part, text: compiled(text, sandbox / part.name, optimised, 1), parts, texts)


def whole(crate, sandbox):
    """The module of the program or the library in one piece, as text."""
    module = module_of(Part("whole", sources_of(crate), repository.listed(crate), lambda each, file: False), sandbox)
    return with_exports(module.joined(set(), False)) if crate == LIBRARY else module.text


def make_whole(crate, sandbox, optimised):
    """Compiles it in one piece, which takes longer; the objects."""
    return [compiled(whole(crate, sandbox / "whole"), sandbox / "whole", optimised, len(os.sched_getaffinity(0)))]
