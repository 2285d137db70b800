#!/usr/bin/env python3
"""Takes the GSUB and GDEF tables out of the fonts of Debian packages, and has a program check them.

usage: font_tables.py FOLDER PACKAGE..              writes FOLDER/FONT.gsub and FOLDER/FONT.gdef
       font_tables.py --check PROGRAM FOLDER        runs PROGRAM check on each of them

The packages are fetched by `apt-get download` and unpacked below FOLDER; nothing is installed.
A font file is an sfnt: 12 bytes, of which bytes 4 and 5 count the tables, then 16 bytes for each table: its tag,
a checksum, its offset and its length. A collection (ttcf) holds several; the first is taken.
--check prints a line for each table: its bytes, milliseconds (the best of five runs, with the program's start) and
what the program says; and a count of what was accepted. The results are for a person to read: no test uses them.
"""
import pathlib
import struct
import subprocess
import sys
import time

KINDS = (".ttf", ".otf", ".ttc")
TABLES = {b"GSUB": ".gsub", b"GDEF": ".gdef"}


def tables_of(font):
    """The tables of an sfnt by their tags."""
    base = struct.unpack_from(">I", font, 12)[0] if font[:4] == b"ttcf" else 0
    count = struct.unpack_from(">H", font, base + 4)[0]
    for k in range(count):
        tag, _, offset, length = struct.unpack_from(">4sIII", font, base + 12 + 16 * k)
        yield tag, font[offset:offset + length]


def fetch(folder, package):
    """Where a package's files lie, once it was fetched and unpacked."""
    unpacked = folder / package
    if not unpacked.exists():
        subprocess.run(["apt-get", "download", "-q", package], cwd=folder, check=True, stdout=subprocess.DEVNULL)
        archive = next(folder.glob(package + "_*.deb"))
        subprocess.run(["dpkg-deb", "-x", archive, unpacked], check=True)
        archive.unlink()
    return unpacked


def extract(folder, packages):
    folder.mkdir(parents=True, exist_ok=True)
    for package in packages:
        for path in sorted(fetch(folder, package).rglob("*")):
            if path.suffix.lower() in KINDS and path.is_file() and not path.is_symlink():
                for tag, table in tables_of(path.read_bytes()):
                    if tag in TABLES:
                        (folder / (f"{package}.{path.stem}" + TABLES[tag])).write_bytes(table)


def milliseconds(command):
    best, run = None, None
    for _ in range(5):
        begin = time.perf_counter()
        run = subprocess.run(command, capture_output=True, text=True)
        spent = 1000 * (time.perf_counter() - begin)
        best = spent if best is None else min(best, spent)
    return best, run


def check(program, folder):
    accepted = total = 0
    for gsub in sorted(folder.glob("*.gsub")):
        gdef = gsub.with_suffix(".gdef")
        command = [program, "check", "--gsub", gsub] + (["--gdef", gdef] if gdef.exists() else [])
        spent, run = milliseconds(command)
        total += 1
        accepted += run.returncode == 0
        said = run.stdout.replace("\n", " ") or run.stderr.strip()
        print(f"{gsub.stem}: {gsub.stat().st_size} bytes, {spent:.1f} ms: {said}")
    print(f"{accepted} of {total} fonts accepted")


def main(words):
    if len(words) == 3 and words[0] == "--check":
        check(words[1], pathlib.Path(words[2]))
    elif len(words) >= 2 and not words[0].startswith("-"):
        extract(pathlib.Path(words[0]), words[1:])
    else:
        sys.exit(__doc__)


if __name__ == "__main__":
    main(sys.argv[1:])
