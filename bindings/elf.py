#!/usr/bin/env python3
"""Symbols of object files and shared libraries (ELF, 64 bits, little-endian), without a tool that may be missing.

usage: elf.py localize OBJECT NAME..    makes each symbol that OBJECT defines local, but for these
       elf.py manylinux LIBRARY         fails if LIBRARY needs another library than glibc 2.17 or later (manylinux2014)
"""

import collections
import pathlib
import struct
import sys

SYMTAB, RELA, DYNAMIC, GROUP, ADDRSIG, VERNEED = 2, 4, 6, 17, 0x6FFF4C03, 0x6FFFFFFE
SECTION, SYMBOL = struct.Struct("<IIQQQQIIQQ"), struct.Struct("<IBBHQQ")

Section = collections.namedtuple("Section", "name type flags address offset size link info align entry")


class Elf:
    def __init__(self, path):
        self.path = pathlib.Path(path)
        self.data = bytearray(self.path.read_bytes())
        if self.data[:6] != b"\x7fELF\x02\x01":
            raise ValueError(f"{path} is no such file")
        self.at, count = struct.unpack_from("<Q", self.data, 40)[0], struct.unpack_from("<H", self.data, 60)[0]
        self.sections = [Section(*SECTION.unpack_from(self.data, self.at + SECTION.size * index)) for index in range(count)]

    def of_type(self, kind):
        return [section for section in self.sections if section.type == kind]

    def put_section(self, section, **changes):
        SECTION.pack_into(self.data, self.at + SECTION.size * self.sections.index(section), *section._replace(**changes))

    def text(self, strings, at):
        begin = self.sections[strings].offset + at
        return self.data[begin : self.data.index(0, begin)].decode()

    def places(self, section, size):
        return range(section.offset, section.offset + section.size, size)

    def localize(self, names):
        """Makes each defined symbol local but for these. Local symbols come first, so all get other numbers."""
        (table,) = self.of_type(SYMTAB)
        symbols = [SYMBOL.unpack_from(self.data, place) for place in self.places(table, SYMBOL.size)]
        hidden = [info >> 4 == 0 or (section != 0 and self.text(table.link, name) not in names) for name, info, _, section, _, _ in symbols]
        order = sorted(range(len(symbols)), key=lambda index: not hidden[index])
        number = {old: new for new, old in enumerate(order)}
        for place, old in zip(self.places(table, SYMBOL.size), order):
            name, info, *others = symbols[old]
            SYMBOL.pack_into(self.data, place, name, info & 15 if hidden[old] else info, *others)
        self.put_section(table, info=sum(hidden))
        for section in self.of_type(RELA):
            for place in self.places(section, 24):
                info = struct.unpack_from("<Q", self.data, place + 8)[0]
                struct.pack_into("<Q", self.data, place + 8, number[info >> 32] << 32 | info & 0xFFFFFFFF)
        for section in self.of_type(GROUP):
            self.put_section(section, info=number[section.info])
        for section in self.of_type(ADDRSIG):  # it holds such numbers, and may be left out
            self.put_section(section, size=0)
        self.path.write_bytes(self.data)

    def needed(self):
        """The libraries that a shared library needs, and the versions of their symbols."""
        (dynamic,) = self.of_type(DYNAMIC)
        entries = [struct.unpack_from("<QQ", self.data, place) for place in self.places(dynamic, 16)]
        libraries, versions = {self.text(dynamic.link, value) for tag, value in entries if tag == 1}, set()
        for section in self.of_type(VERNEED):
            at = section.offset
            for _ in range(section.info):
                _, count, _, first, after = struct.unpack_from("<HHIII", self.data, at)
                of = at + first
                for _ in range(count):
                    name, following = struct.unpack_from("<II", self.data, of + 8)
                    versions.add(self.text(section.link, name))
                    of += following
                at += after
        return libraries, versions


def is_old(version):
    """Whether glibc 2.17 has symbols of this version."""
    name, _, number = version.partition("_")
    return name == "GLIBC" and tuple(map(int, number.split("."))) <= (2, 17)


def main(verb, path, *names):
    if verb == "localize":
        Elf(path).localize(set(names))
    elif verb == "manylinux":
        libraries, versions = Elf(path).needed()
        wrong = [*(libraries - {"libc.so.6"}), *(version for version in versions if not is_old(version))]
        if wrong:
            sys.exit(f"{path} needs {', '.join(sorted(wrong))}")
    else:
        sys.exit(__doc__)


if __name__ == "__main__":
    main(*sys.argv[1:])
