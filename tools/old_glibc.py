"""Lets a program that was linked with a new glibc start with an old one.

The programs of the kit use a dozen functions of the C library, all of them in glibc since 2.14 or longer. Only the start of the process is
bound to a newer version: since 2.34 `__libc_start_main` has a second version, which the linker prefers. Here the program's table of versions
names the first one, which every glibc has.

With it a C library before 2.34 doesn't call what the program has in its table of first calls (DT_INIT_ARRAY): the part of the process that
starts a program did that then. So the table is named as the one that the loader itself goes through, in all versions (DT_PREINIT_ARRAY).
What stands in it only notes where the words of the command line are.
"""
import struct
import sys
from pathlib import Path

START = b"__libc_start_main"
OLD = b"GLIBC_2.2.5"
DYNAMIC, DYNAMIC_SYMBOLS, NEEDED, VERSIONS = 6, 11, 0x6FFFFFFE, 0x6FFFFFFF
# The tags of the table of first calls and of its size, as the linker writes them and as the loader heeds them.
FIRST_CALLS = {25: 32, 27: 33}


class Section:
    """A section of an ELF file of 64 bits: its type, where it is in the file, and the section that it names."""

    def __init__(self, header):
        _, self.kind, _, _, self.at, self.size, self.link, _, _, _ = struct.unpack("<IIQQQQIIQQ", header)


def sections(code):
    """The sections of the file."""
    if code[:6] != b"\x7fELF\x02\x01":
        raise ValueError("it is no ELF file of 64 bits")
    start, size, count = struct.unpack_from("<Q", code, 0x28)[0], *struct.unpack_from("<HH", code, 0x3A)
    return [Section(code[start + size * place : start + size * (place + 1)]) for place in range(count)]


def text(code, texts, place):
    """A name of a section of names."""
    begin = texts.at + place
    return bytes(code[begin : code.index(b"\0", begin)])


def needed(code, found):
    """For each version that the program needs: its name, its number, and where its entry is."""
    section = next(each for each in found if each.kind == NEEDED)
    at, entries = section.at, {}
    while True:
        _, count, _, first, following = struct.unpack_from("<HHIII", code, at)
        entry = at + first
        for _ in range(count):
            _, _, number, name, further = struct.unpack_from("<IHHII", code, entry)
            entries[text(code, found[section.link], name)] = number, entry
            entry += further
        if following == 0:
            return entries
        at += following


def start_symbol(code, found):
    """The number of the symbol that starts the process."""
    symbols = next(each for each in found if each.kind == DYNAMIC_SYMBOLS)
    for place in range(symbols.size // 24):
        if text(code, found[symbols.link], struct.unpack_from("<I", code, symbols.at + 24 * place)[0]) == START:
            return place
    raise ValueError("it doesn't call " + START.decode())


def rename_first_calls(code, found):
    """Names the table of first calls as the one that the loader goes through."""
    dynamic = next(each for each in found if each.kind == DYNAMIC)
    for at in range(dynamic.at, dynamic.at + dynamic.size, 16):
        tag = struct.unpack_from("<Q", code, at)[0]
        struct.pack_into("<Q", code, at, FIRST_CALLS.get(tag, tag))


def bind(path):
    """Binds the program's start to the first version of the function; whether that changed the file."""
    code = bytearray(Path(path).read_bytes())
    found = sections(code)
    versions, entries, symbol = next(each for each in found if each.kind == VERSIONS), needed(code, found), start_symbol(code, found)
    place = versions.at + 2 * symbol
    newer = struct.unpack_from("<H", code, place)[0]
    if newer == entries[OLD][0]:
        return False
    struct.pack_into("<H", code, place, entries[OLD][0])
    # No symbol has the newer version now, so its entry may ask for the old one too: its sum, and its name.
    old = entries[OLD][1]
    for number, entry in entries.values():
        if number == newer:
            code[entry : entry + 4], code[entry + 8 : entry + 12] = code[old : old + 4], code[old + 8 : old + 12]
    rename_first_calls(code, found)
    Path(path).write_bytes(code)
    return True


if __name__ == "__main__":
    bind(sys.argv[1])
