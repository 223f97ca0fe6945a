"""The library for C, put together of what the kit built."""
import os
import shutil
import subprocess
import tempfile

from repository import LIBRARY, ROOT, below, crates, folder, kit, listed, say

# Changes when a program that was linked with an earlier library can't run with a later one.
SONAME = "libsqlkeep.so.0"
FILES = ("libsqlkeep.a", "libsqlkeep.so")


def put_together(archive, to):
    """Makes libsqlkeep.a and libsqlkeep.so in a folder of the archive that rt built and the kit's, with the header."""
    compiler = os.environ.get("CC", "cc")
    with tempfile.TemporaryDirectory() as sandbox:
        for each in (archive, kit("c", "liblibc_c.a")):
            subprocess.run(["ar", "x", each], cwd=sandbox, check=True)
        objects = sorted(file for file in os.listdir(sandbox) if file.endswith(".o"))
        subprocess.run(["ar", "rcs", "libsqlkeep.a", *objects], cwd=sandbox, check=True)
        subprocess.run([compiler, "-shared", "-o", "libsqlkeep.so", f"-Wl,-soname,{SONAME}", *objects], cwd=sandbox, check=True)
        for file in FILES:
            shutil.copy2(os.path.join(sandbox, file), to)
    # A program that is linked with the library looks for it by this name when it starts.
    link = os.path.join(to, SONAME)
    if not os.path.islink(link):
        os.symlink("libsqlkeep.so", link)
    shutil.copy2(os.path.join(ROOT, "include", "sqlkeep.h"), to)


def left_by_gate(crate):
    """The folders of the libraries below the crate that `rt ci` left, by crate; none where one is missing."""
    found = {low: os.path.join(folder(low), "out", "rlib") for low in below([crate], crates()) - {crate}}
    missing = [low for low in sorted(found) if not os.path.isdir(os.path.join(found[low], f"{low}.rlib"))]
    return None if missing else found


def words(command, crate, rlibs):
    """The words by which rattle checks or builds a crate over libraries that are built. It is called in the crate's folder. Libraries of
    the repository that aren't among those given are left out."""
    root = next(file for file in ("src/lib.rt", "src/main.rt") if os.path.exists(os.path.join(folder(crate), file)))
    given, named = [kit("bin", "rattle"), command, "--crate-name", crate, root], crates()
    for name in ["std", *(low for low in listed(crate) if low in rlibs or low not in named)]:
        given += ["--extern", f"{name}=" + os.path.join(rlibs.get(name, kit("rlibs")), f"{name}.rlib")]
    for place in [kit("rlibs"), *rlibs.values()]:
        given += ["-L", f"dependency={place}"]
    given += ["--antt-project", kit("rattle", "logic", "antt-project.json"), "--logic-built", kit("logic_built"), "--links", f"{crate}="]
    return [*given, "--incremental", "out/incremental"]


def library_over_gate():
    """Proves the library for C and builds it over the libraries that `rt ci` left, which `rt lib` would build again."""
    to, rlibs = os.path.join(ROOT, "out"), left_by_gate(LIBRARY)
    if rlibs is None:
        say("rt ci left no library of some crate")
        return 1
    os.makedirs(os.path.join(folder(LIBRARY), "out", "incremental"), exist_ok=True)
    os.makedirs(to, exist_ok=True)
    archive = os.path.join(folder(LIBRARY), "out", f"lib{LIBRARY}.a")
    given = [*words("build", LIBRARY, rlibs), "--crate-type", "staticlib", "--toolchain", kit("toolchain"), "--backend", "llvm", "--jobs", "2", "-o", archive]
    done = subprocess.run(given, cwd=folder(LIBRARY), stdin=subprocess.DEVNULL, stdout=subprocess.PIPE, stderr=subprocess.STDOUT, text=True, errors="replace", check=False)
    if done.returncode:
        say(done.stdout)
        say(f"{LIBRARY}: not built")
        return 1
    put_together(archive, to)
    return 0
