"""Folders that stand in for the kit's toolchain: the compiler in them is a script of ours, all else is the kit's."""
import shlex

from repository import kit

SHARED = ("lib", "bin/llvm-ar", "bin/rattle-x64")
# The kit has one program for both, which tells by its name what it is to be.
CALL = '#!/bin/bash\n{before}exec -a "$0" {program} "$@"\n'


def stand_in(folder, before):
    """Lays out a folder in which clang does something before it begins."""
    (folder / "bin").mkdir(parents=True)
    for file in SHARED:
        (folder / file).symlink_to(kit("toolchain", file))
    for name, first in (("clang", before), ("ld.lld", "")):
        script = folder / "bin" / name
        script.write_text(CALL.format(before=first, program=shlex.quote(kit("toolchain", "bin", name))), "utf-8")
        script.chmod(0o755)
    return folder
