#!/usr/bin/env python3
"""Packs files of this folder into an archive that is called by the version of the sources and by the machine, and writes its SHA-256 sum
beside it, as sha256sum reads it. What its owner may run all may run, and all may be read. Of the same files comes the same archive, byte for byte.

    tools/archive.py FOLDER FILE..
"""
import datetime
import gzip
import hashlib
import os
import pathlib
import sys
import tarfile

from blocks import TOP
from version import version


def name(word):
    machine = os.uname()
    return f"kinduzar-{word}-{machine.machine}-{machine.sysname.lower()}"


def entry(archive, front, file, day):
    """A file of the archive, of which neither its owner nor its time say by whom and when it was made."""
    row = archive.gettarinfo(TOP / file, f"{front}/{file}")
    row.mode = 0o755 if row.mode & 0o100 else 0o644
    row.mtime = int(datetime.datetime.fromisoformat(f"{day}T00:00:00+00:00").timestamp())
    row.uid = row.gid = 0
    row.uname = row.gname = "root"
    return row


def pack(archive, front, files, day):
    with tarfile.open(archive, "w", format=tarfile.USTAR_FORMAT) as packed:
        for file in sorted(files):
            with open(TOP / file, "rb") as content:
                packed.addfile(entry(packed, front, file, day), content)


def compress(packed, archive):
    with open(packed, "rb") as plain, open(archive, "wb") as out, gzip.GzipFile("", "wb", 6, out, mtime=0) as compressed:
        while piece := plain.read(1 << 20):
            compressed.write(piece)


def main():
    folder, *files = sys.argv[1:]
    word, day = version()
    folder, front = pathlib.Path(folder), name(word)
    folder.mkdir(parents=True, exist_ok=True)
    packed, archive = folder / f"{front}.tar", folder / f"{front}.tar.gz"
    pack(packed, front, files, day)
    compress(packed, archive)
    packed.unlink()
    digest = hashlib.sha256(archive.read_bytes()).hexdigest()
    (folder / f"{front}.sha256").write_text(f"{digest}  {archive.name}\n")
    print(archive)


if __name__ == "__main__":
    main()
