"""What the stop-watches of the linker's parts share: libraries as bytes, and programs of their own over the crates, which
tools/build-unproved builds without any proof.
"""
import os
import shutil
import struct
import subprocess
import sys

from rows import TOP, row

OBJECT_CHUNKS = (b"OBJ_HEAD", b"OBJ_AREA", b"OBJ_IDFN", b"OBJ_SYMT", b"OBJ_STRT")
# The exit status of tools/build-unproved where it doesn't know the kit.
UNKNOWN_KIT = 3


def chunk_file(contents):
    at = 12 + 16 * len(contents)
    table, body = [], []
    for name, content in contents:
        content += b"\0" * (-len(content) % 4)
        table.append(name + struct.pack("<II", at, len(content)))
        body.append(content)
        at += len(content)
    return struct.pack("<III", 0xC3CBC6C5, len(contents), len(contents)) + b"".join(table + body)


def library_file(objects):
    directory = []
    for k, (name, _) in enumerate(objects):
        data = name + b"\0" * (4 - len(name) % 4) + b"\0" * 8
        directory.append(struct.pack("<III", 2 + k, len(data) + 12, len(data)) + data)
    chunks = [(b"LIB_DIRY", b"".join(directory)), (b"LIB_VSRN", struct.pack("<I", 1))]
    return chunk_file(chunks + [(b"LIB_DATA", content) for _, content in objects])


def left_out(name, why):
    """Tells that a stop-watch has no program, and ends it."""
    row(f"bench/{name.partition('_')[0]}", remark=f"left out: {why}")
    sys.exit(0)


def built(folder, name, below, source):
    """The program of this source over the crates that are named, built beside a copy of them; the stop-watch ends where it can't be."""
    if not shutil.which("rt"):
        left_out(name, "no kit's rt is on the path")
    shutil.copytree(os.path.join(TOP, "crates"), os.path.join(folder, "crates"), ignore=shutil.ignore_patterns("out"))
    for file in ("HANDLES", ".gitignore", "crates.txt"):
        shutil.copy(os.path.join(TOP, file), folder)
    crate = os.path.join(folder, "crates", name)
    os.makedirs(os.path.join(crate, "src"))
    with open(os.path.join(crate, "src", "main.rt"), "w") as file:
        file.write(source)
    with open(os.path.join(folder, "crates.txt"), "a") as file:
        file.write(f"{name}: {below}\n")
    # crates.txt must stand at the top of a repository
    os.mkdir(os.path.join(folder, ".git"))
    out = os.path.join(folder, name)
    words = [os.path.join(TOP, "tools", "build-unproved"), name, out, folder]
    done = subprocess.run(words, stdout=subprocess.DEVNULL, stderr=subprocess.PIPE, text=True)
    if done.returncode == UNKNOWN_KIT:
        left_out(name, done.stderr.strip())
    if done.returncode != 0:
        sys.exit(done.stderr)
    return out
