"""Installs the program, the library for C, their pages and the examples below a folder, or takes them away again.

What is installed is listed in share/sqlkeep/installed: its files, and with a slash at the end the folders that weren't there before. A removal
takes exactly these away, and of the folders those that are empty then. All files are made beside their places first, so an installation that
fails leaves everything as it was.
"""
import argparse
import contextlib
import os
import re
import shutil
import sys
from pathlib import Path

sys.path.insert(0, os.path.dirname(os.path.realpath(__file__)))
import builds
from libraries import SONAME
from repository import PROGRAM, ROOT

LIST = "share/sqlkeep/installed"
# What ends a value of a file of pkg-config, or is more than itself there.
SPECIAL = re.compile(r'["\\$#\x00-\x1f\x7f]')
PKG_CONFIG = """prefix={prefix}
libdir=${{prefix}}/lib
includedir=${{prefix}}/include

Name: sqlkeep
Description: An in-memory SQL engine for integrity constraints
Version: {version}
Libs: -L"${{libdir}}" -lsqlkeep
Cflags: -I"${{includedir}}"
"""
CMAKE = """# find_package(sqlkeep) defines the targets sqlkeep::sqlkeep, the shared library, and sqlkeep::static.
get_filename_component(_sqlkeep_prefix "${{CMAKE_CURRENT_LIST_DIR}}/../../.." ABSOLUTE)
foreach(_sqlkeep_target sqlkeep static)
  if(NOT TARGET sqlkeep::${{_sqlkeep_target}})
    if(_sqlkeep_target STREQUAL "static")
      add_library(sqlkeep::static STATIC IMPORTED)
      set(_sqlkeep_file "libsqlkeep.a")
    else()
      add_library(sqlkeep::sqlkeep SHARED IMPORTED)
      set_target_properties(sqlkeep::sqlkeep PROPERTIES IMPORTED_SONAME "{soname}")
      set(_sqlkeep_file "{soname}")
    endif()
    set_target_properties(sqlkeep::${{_sqlkeep_target}} PROPERTIES
      IMPORTED_LOCATION "${{_sqlkeep_prefix}}/lib/${{_sqlkeep_file}}"
      INTERFACE_INCLUDE_DIRECTORIES "${{_sqlkeep_prefix}}/include")
  endif()
endforeach()
unset(_sqlkeep_prefix)
unset(_sqlkeep_file)
"""
CMAKE_VERSION = """set(PACKAGE_VERSION "{version}")
if(PACKAGE_FIND_VERSION VERSION_GREATER PACKAGE_VERSION)
  set(PACKAGE_VERSION_COMPATIBLE FALSE)
else()
  set(PACKAGE_VERSION_COMPATIBLE TRUE)
  if(PACKAGE_FIND_VERSION VERSION_EQUAL PACKAGE_VERSION)
    set(PACKAGE_VERSION_EXACT TRUE)
  endif()
endif()
"""


class Refused(Exception):
    """What is asked for can't be done; the text says why."""


class Plan:
    """What is to be installed: for each path below the prefix what makes the file."""

    def __init__(self):
        self.files = {}

    def copy(self, source, path, mode=0o644):
        def make(to):
            shutil.copyfile(source, to)
            to.chmod(mode)

        self.files[path] = make

    def write(self, text, path):
        def make(to):
            to.write_text(text, "utf-8")
            to.chmod(0o644)

        self.files[path] = make

    def link(self, name, path):
        self.files[path] = lambda to: to.symlink_to(name)


class Target:
    """The folder that things are installed below."""

    def __init__(self, prefix, stage):
        self.prefix = prefix
        self.root = Path(stage + str(prefix)) if stage else prefix

    def place(self, path):
        """Where a path is, if neither it nor a link leads out of the folder."""
        inside = not Path(path).is_absolute() and ".." not in Path(path).parts and "\0" not in path
        if not inside or not (self.root / path).parent.resolve().is_relative_to(self.root.resolve()):
            raise Refused(f"{path!r} leads out of {self.root}")
        return self.root / path

    def listed(self):
        """The files and the folders that an installation put here; none if there is no list."""
        try:
            lines = list(filter(None, (self.root / LIST).read_bytes().decode("utf-8").split("\n")))
        except (FileNotFoundError, NotADirectoryError):
            return None
        except UnicodeDecodeError:
            raise Refused(f"{self.root / LIST} isn't UTF-8, so it is no list of an installation") from None
        return {line for line in lines if not line.endswith("/")}, {line for line in lines if line.endswith("/")}

    def take_away(self, files, folders):
        """Takes these files away, the list last, and these folders if they are empty then; how many files that were, and why which stay.
        The list stays if a file couldn't be taken away."""
        count, why, is_whole = 0, [], True
        for path in sorted(files, key=lambda each: (each == LIST, each)):
            try:
                place = self.place(path)
                if place.is_dir() and not place.is_symlink():
                    why.append(f"{path!r} is a folder, and stays")
                elif is_whole or path != LIST:
                    place.unlink()
                    count += 1
            except (FileNotFoundError, NotADirectoryError):
                continue
            except OSError as error:
                is_whole = False
                why.append(f"{path!r} stays: {error.strerror}")
            except Refused as error:
                why.append(f"{error}, and stays")
        for path in sorted(folders, key=lambda each: -each.count("/")):
            with contextlib.suppress(OSError, Refused):
                self.place(path).rmdir()
        return count, why


class Installation:
    """An installation that is being made, and that is undone where it fails."""

    def __init__(self, target):
        self.target = target
        self.folders, self.beside, self.new = [], {}, []

    def make(self, plan):
        """Makes all files. Those of an older installation that this one doesn't have are taken away."""
        files, folders = self.target.listed() or (set(), set())
        try:
            for path in [*plan.files, LIST]:
                self.make_folder(self.target.place(path).parent)
            own = {str(self.target.root / each) for each in folders} | {str(each) for each in self.folders}
            needed = {folder for path in [*plan.files, LIST] for folder in Path(path).parents if str(self.target.root / folder) in own and folder != Path(".")}
            plan.write("".join(f"{line}\n" for line in [*plan.files, LIST, *sorted(f"{folder}/" for folder in needed)]), LIST)
            self.make_files(plan)
        except BaseException:
            self.undo()
            raise
        return self.target.take_away(files - set(plan.files), folders)

    def make_folder(self, folder):
        missing = []
        while not folder.exists():
            missing.append(folder)
            folder = folder.parent
        for each in reversed(missing):
            each.mkdir()
            self.folders.append(each)

    def make_files(self, plan):
        for path, make in plan.files.items():
            place = self.target.place(path)
            if place.is_dir() and not place.is_symlink():
                raise Refused(f"{place} is a folder")
            self.beside[place] = place.with_name(f".{place.name}.{os.getpid()}")
            make(self.beside[place])
        for place, beside in self.beside.items():
            if not os.path.lexists(place):
                self.new.append(place)
            os.replace(beside, place)

    def undo(self):
        for file in [*self.beside.values(), *self.new]:
            with contextlib.suppress(OSError):
                file.unlink()
        for folder in reversed(self.folders):
            with contextlib.suppress(OSError):
                folder.rmdir()


def program(unproved):
    """The program to install: the proved one of these sources, wherever it is, or the one without proof."""
    if unproved:
        return Path(ROOT, "out", "unproved", PROGRAM)
    made = Path(ROOT, "out", PROGRAM)
    return builds.DIST / PROGRAM if not made.exists() and builds.is_of_these_sources() else made


def plan_library(plan, out, prefix):
    version = builds.version()
    plan.copy(out / "libsqlkeep.a", "lib/libsqlkeep.a")
    plan.copy(out / "libsqlkeep.so", f"lib/libsqlkeep.so.{version}", 0o755)
    plan.link(f"libsqlkeep.so.{version}", f"lib/{SONAME}")
    plan.link(SONAME, "lib/libsqlkeep.so")
    plan.copy(Path(ROOT, "include", "sqlkeep.h"), "include/sqlkeep.h")
    plan.copy(Path(ROOT, "include", "sqlkeep.hpp"), "include/sqlkeep.hpp")
    if SPECIAL.search(str(prefix)):
        raise Refused(f"the prefix {str(prefix)!r} has a character that no file of pkg-config can have")
    plan.write(PKG_CONFIG.format(prefix=prefix, version=version), "lib/pkgconfig/sqlkeep.pc")
    plan.write(CMAKE.format(soname=SONAME), "lib/cmake/sqlkeep/sqlkeepConfig.cmake")
    plan.write(CMAKE_VERSION.format(version=version), "lib/cmake/sqlkeep/sqlkeepConfigVersion.cmake")


def plan_documents(plan):
    for section in ("1", "3"):
        plan.copy(Path(ROOT, "man", f"sqlkeep.{section}"), f"share/man/man{section}/sqlkeep.{section}")
    plan.copy(Path(ROOT, "completions", "sqlkeep.bash"), "share/bash-completion/completions/sqlkeep")
    plan.copy(Path(ROOT, "completions", "_sqlkeep"), "share/zsh/site-functions/_sqlkeep")
    examples = Path(ROOT, "examples")
    for file in sorted(path for path in examples.rglob("*") if path.is_file() and "__pycache__" not in path.parts):
        plan.copy(file, f"share/doc/sqlkeep/examples/{file.relative_to(examples)}")


def install(target, unproved):
    """Installs what is there of the program and the library, and tells what isn't."""
    out, words, plan = Path(ROOT, "out", "unproved") if unproved else Path(ROOT, "out"), " --unproved" if unproved else "", Plan()
    missing = []
    if program(unproved).is_file():
        plan.copy(program(unproved), "bin/sqlkeep", 0o755)
    else:
        missing.append(f"the program isn't there; ./build{words} makes it, with the kit")
    if (out / "libsqlkeep.a").is_file() and (out / "libsqlkeep.so").is_file():
        plan_library(plan, out, target.prefix)
    else:
        missing.append(f"the library for C isn't there; ./build --library{words} makes it, with the kit")
    if not plan.files:
        raise Refused(f"{missing[0]}; {missing[1]}")
    plan_documents(plan)
    count, why = Installation(target).make(plan)
    print(f"{len(plan.files)} files were installed below {target.root}{' without proof' if unproved else ''}")
    if count:
        print(f"{count} files of an older installation were taken away")
    return [f"not installed: {each}" for each in missing] + why


def remove(target):
    """Takes away what an installation listed, and tells what stays."""
    listed = target.listed()
    if listed is None:
        raise Refused(f"{target.root / LIST} isn't there, so nothing is known to be installed below {target.root}")
    count, why = target.take_away(*listed)
    print(f"{count} files were taken away from {target.root}")
    return why


def main():
    parser = argparse.ArgumentParser(prog="install", description="Installs the program and the library for C, or takes them away again.")
    parser.add_argument("--prefix", type=Path, default=Path("/usr/local"), help="the folder to install below, /usr/local if not given")
    parser.add_argument("--unproved", action="store_true", help="installs what was compiled without proof")
    parser.add_argument("--remove", action="store_true", help="takes away what was installed below the folder")
    words = parser.parse_args()
    target = Target(Path(os.path.abspath(words.prefix)), os.environ.get("DESTDIR", ""))
    try:
        told = remove(target) if words.remove else install(target, words.unproved)
    except Refused as why:
        print(f"install: {why}", file=sys.stderr)
        return 1
    except OSError as error:
        print(f"install: {error.filename2 or error.filename}: {error.strerror}", file=sys.stderr)
        return 1
    for each in told:
        print(f"install: {each}", file=sys.stderr)
    return int(words.remove and bool(told))


if __name__ == "__main__":
    sys.exit(main())
