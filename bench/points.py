#!/usr/bin/env python3
"""Times `fgb check` and a query that finds nothing on 1,000,000 Points, against `cat` of the same file; and `fgb check`, a
query that finds nothing and one that finds all points on the same points behind an index, against `cat` of that file.

    bench/points.py [PROGRAM]

Run it by hand; the gate does not. Printed are, for each, the best of ten runs, its ratio to `cat` in the same run,
and its peak memory. PROGRAM is the built `fgb`, which `./fgb` builds.
"""

import os
import pathlib
import struct
import sys
import tempfile
import time

POINTS = 1_000_000
RUNS = 10

# A file of type Point without features, and the feature of the Point (1, 2) with its size prefix (docs/FORMAT.md).
EMPTY = bytes.fromhex(
    "6667620366676201 18000000 10000000 0a000500000000000400 0000 0c000000 01 000000"
)
POINT = bytes.fromhex(
    "54000000 10000000 060008000400 000000000000 0c000000 1c000000"
    "120009000000040000000000000000000800 000000000000 18000000 0c000000 01000000 00000000"
    "02000000 000000000000f03f 0000000000000040"
)

# The same start and header, which say how many points there are and leave the node size at 16, and the box of a node.
COUNTED = bytes.fromhex(
    "6667620366676201 30000000 20000000 16000d00000000000c00000000000000000000000400 000000000000 1c000000"
) + struct.pack("<Q", POINTS) + bytes.fromhex("01 000000")
BOX = POINT[-16:] * 2


def index(node_size=16):
    """The index over the points: the levels from the root down, each a list of offsets."""
    widths = [POINTS]
    while len(widths) == 1 or widths[-1] > 1:
        widths.append(-(-widths[-1] // node_size))
    nodes = bytearray()
    below = 0
    for level in range(len(widths) - 1, -1, -1):
        below += widths[level]
        for i in range(widths[level]):
            nodes += BOX + struct.pack("<Q", below + node_size * i if level else len(POINT) * i)
    return bytes(nodes)


def start(command):
    """The child that runs a command, whose output is thrown away."""
    child = os.fork()
    if child == 0:
        os.dup2(os.open(os.devnull, os.O_WRONLY), 1)
        os.execvp(command[0], command)
    return child


def seconds(command):
    """How long a run takes."""
    begun = time.perf_counter()
    _, status = os.waitpid(start(command), 0)
    if status != 0:
        sys.exit(f"{command[0]} ended with {os.waitstatus_to_exitcode(status)}")
    return time.perf_counter() - begun


def peak(command):
    """The most KiB that a run held, by looking at it again and again."""
    child = start(command)
    most = 0
    while os.waitpid(child, os.WNOHANG)[0] == 0:
        status = pathlib.Path(f"/proc/{child}/status").read_text()
        if f"Name:\t{os.path.basename(command[0])[:15]}\n" not in status:
            continue
        for line in status.splitlines():
            if line.startswith("VmHWM:"):
                most = max(most, int(line.split()[1]))
    return most


def main():
    top = pathlib.Path(__file__).resolve().parent.parent
    program = sys.argv[1] if len(sys.argv) > 1 else str(top / "crates/fgb/out/fgb")
    with tempfile.TemporaryDirectory() as folder:
        plain = os.path.join(folder, "points.fgb")
        with open(plain, "wb") as out:
            out.write(EMPTY + POINT * POINTS)
        indexed = os.path.join(folder, "indexed.fgb")
        with open(indexed, "wb") as out:
            out.write(COUNTED + index() + POINT * POINTS)
        rows = [
            ("cat", ["cat", plain]),
            ("check", [program, "check", plain]),
            ("query", [program, "query", plain, "--box=200,200,201,201"]),
            ("cat indexed", ["cat", indexed]),
            ("check indexed", [program, "check", indexed]),
            ("query none", [program, "query", indexed, "--box=200,200,201,201"]),
            ("query all", [program, "query", indexed, "--box=1,2,1,2"]),
        ]
        base = None
        for name, command in rows:
            best = min(seconds(command) for _ in range(RUNS))
            if command[0] == "cat":
                base = best
            print(f"{name:13} {best * 1000:8.1f} ms {best / base:6.1f} times cat {peak(command) / 1024:6.1f} MiB")


if __name__ == "__main__":
    main()
