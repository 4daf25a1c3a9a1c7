"""What the tests share: where the toolchain, the C library and the programs are, copies of crates to check, and what is read of an ELF file and of a
library of such files."""

import glob
import os
import re
import shutil
import struct
import subprocess
import sys
from collections import namedtuple

TOP = os.path.dirname(os.path.dirname(os.path.abspath(__file__)))
LIBRARY = "target/staticlib/libcapi.a"
WRITE, ALLOC, EXECUTE = 1, 2, 4  # flags of a section
SYMTAB = 2  # a type of section
UNDEFINED, COMMON = 0, 0xFFF2  # no section; data without one, which the linker makes room for

Section = namedtuple("Section", "name type flags address offset size link")
Symbol = namedtuple("Symbol", "name binding section value size")


def fail(text):
    print("%s: %s" % (os.path.relpath(sys.argv[0]), text), file=sys.stderr)
    sys.exit(1)


# ---- the toolchain, and what it makes of the crates

def kit():
    """The folder of the toolchain, in which `rt doc` stands."""
    shutil.which("rt") or fail("no rt on the path")
    return os.path.dirname(subprocess.run(["rt", "doc"], stdout=subprocess.PIPE, text=True, check=True).stdout.strip())


def toolchain():
    """The folder of the toolchain's programs for C: clang, ld.lld and llvm-ar."""
    return os.path.join(kit(), "toolchain", "bin")


def is_newer(path):
    """Whether a file is there, and no older than the code of the crates."""
    code = glob.glob(os.path.join(TOP, "crates", "*", "src", "**", "*.rt"), recursive=True)
    return os.path.exists(path) and all(os.path.getmtime(file) <= os.path.getmtime(path) for file in code)


def given(words):
    """The library that a test is given, or the C library, if that is not older than the crates."""
    path = words[0] if words else LIBRARY
    if not os.path.exists(path):
        fail("no %s: tests/c/library" % path)
    if path == LIBRARY and not is_newer(path):
        fail("%s is older than the crates: tests/c/library" % path)
    return path


def program(name):
    """A program of ours, proved and built: where `rt ci` or `rt run` left it, or made anew where it is missing or older than the code."""
    crate = os.path.join(TOP, "crates", name)
    path = os.path.join(crate, "out", name)
    if not os.path.isfile(os.path.join(crate, "src", "main.rt")):
        fail("crates/%s is no program" % name)
    if not is_newer(path):
        ran = subprocess.run(["rt", "run"], cwd=crate, stdin=subprocess.DEVNULL, stdout=subprocess.DEVNULL, stderr=subprocess.PIPE, text=True)
        # rt's status is then the program's own
        if not re.search("^rt: running out/%s;" % name, ran.stderr, re.M):
            fail("%s is not proved and built: rt run in crates/%s says\n%s" % (name, name, ran.stderr[-2000:]))
        os.utime(path)
    return path


# ---- copies of crates

def listed():
    """The crates of crates.txt, in its order: for each its line, and the crates of ours that it names."""
    rows = {}
    with open(os.path.join(TOP, "crates.txt"), encoding="utf-8") as file:
        for line in file:
            line = line.split("#")[0].strip()
            if line:
                head, _, named = line.partition(":")
                rows[head.split()[0]] = line, named.split()
    return {name: (line, [it for it in named if it in rows]) for name, (line, named) in rows.items()}


def below(crate):
    """The crates of ours that a crate stands on, each after those that it stands on itself."""
    rows, found = listed(), []

    def add(name):
        for one in rows[name][1]:
            if one not in found:
                add(one)
                found.append(one)
    add(crate)
    return found


def linked(one, other):
    """Gives a file that no check changes in place a second name, or copies it where that can't be done."""
    try:
        os.link(one, other)
    except OSError:
        shutil.copy2(one, other)


def copied(one, other):
    """Copies what a check kept: what it checked by links, since a check replaces such a file and changes none."""
    linked(one, other) if one.endswith(".oantt") else shutil.copy2(one, other)


def lay(room, crate, kept=None, line=None):
    """Makes `room` a repository of a copy of this crate, which begins with the checks in folder `kept`, and of the crates below it, as they stand and are
    built; with another line of crates.txt for the crate, if one is given. rt takes no link to a folder, so files are linked one by one."""
    rows = listed()
    os.makedirs(os.path.join(room, "crates"), exist_ok=True)
    for name in below(crate):
        to = os.path.join(room, "crates", name)
        if not os.path.isdir(to):
            for part in ("src", "specs", "proofs", "out/rlib"):
                if os.path.isdir(os.path.join(TOP, "crates", name, part)):
                    shutil.copytree(os.path.join(TOP, "crates", name, part), os.path.join(to, part), copy_function=linked)
    to = os.path.join(room, "crates", crate)
    shutil.rmtree(to, ignore_errors=True)
    for part in ("src", "specs", "proofs"):
        if os.path.isdir(os.path.join(TOP, "crates", crate, part)):
            shutil.copytree(os.path.join(TOP, "crates", crate, part), os.path.join(to, part))
    if kept and os.path.isdir(kept):
        shutil.copytree(kept, os.path.join(to, "out", "incremental"), copy_function=copied)
    with open(os.path.join(room, "crates.txt"), "w", encoding="utf-8") as file:
        file.write("".join(rows[name][0] + "\n" for name in below(crate)) + (line or rows[crate][0]) + "\n")
    return to


# ---- libraries

def members(data):
    """The members of an ar archive, its tables of symbols and of names left out."""
    if data[:8] != b"!<arch>\n":
        fail("not a library")
    at = 8
    while at < len(data):
        name, size = data[at:at + 16].decode().strip(), int(data[at + 48:at + 58])
        if name not in ("/", "//", "/SYM64/"):
            yield data[at + 60:at + 60 + size]
        at += 60 + size + size % 2


def text(data, at):
    return data[at:data.index(b"\0", at)].decode()


def sections(data):
    """The sections of a 64-bit ELF file."""
    if data[:6] != b"\x7fELF\x02\x01":
        fail("not a 64-bit little-endian ELF file")
    start, = struct.unpack_from("<Q", data, 40)
    size, count, names = struct.unpack_from("<HHH", data, 58)
    headers = [struct.unpack_from("<IIQQQQI", data, start + i * size) for i in range(count)]
    return [Section(text(data, headers[names][4] + h[0]), *h[1:]) for h in headers]


def symbols(data):
    """Its symbols."""
    every = sections(data)
    for section in every:
        if section.type == SYMTAB:
            for at in range(section.offset, section.offset + section.size, 24):
                name, info, _, where, value, size = struct.unpack_from("<IBBHQQ", data, at)
                yield Symbol(text(data, every[section.link].offset + name), info >> 4, where, value, size)
