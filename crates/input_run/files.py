#!/usr/bin/env python3
"""files.py MODEL: writes the journals that input_run reads (data/, stdin) and, by another implementation of the rules (as in
replay_run/cases.py), what it has to print (stdout)."""
import pathlib
import sys

sys.dont_write_bytecode = True
here = pathlib.Path(__file__).parent
sys.path.insert(0, str(here.parent / "replay_run"))
from cases import EINVAL, EEXIST, ENOTSUP, OK, flood, flow, flow_del, group, group_del, header, journal, record, route, said_of, stop

BUFFER = 65536  # one read of replay


def noise(n):
    """Bytes of which each place in a record has another: one that is lost or doubled moves what stands behind it."""
    return bytes(7 * k % 251 for k in range(n))


def long():
    """More than one read: a longest record ends one byte behind the first, so that as much is kept as may be."""
    journal = header() + b"".join(record(OK, flow(3, k), k) for k in range(20)) + record(OK, group(7), 20)
    change = record(OK, flow(4, 7, priority=9), 21)
    start = BUFFER + 1 - 6 - 4096
    while len(journal) + len(change) + 6 + 4096 <= start:
        journal += change
    while len(journal) < start:
        journal += record(EINVAL, noise(min(4096, start - len(journal) - 6)), 22)
    longest = record(EINVAL, noise(4096), 23)
    assert len(journal) == start and len(longest) == 4102
    return journal + longest + record(OK, group_del(), 24) + record(OK, flow_del(3), 25) + record(EEXIST, flow(3, 7), 26)


def over_long():
    return header() + record(OK, group(7)) + record(EINVAL, noise(9000), 1) + record(OK, group_del(), 2)


def version_1():
    """The version is that of every record, whichever read has brought it."""
    return journal(1, *[(OK, flow(3, k)) for k in range(9)], (OK, group(7)), (OK, flood(7, 1, 2, 3)), (EINVAL, noise(4096)), (OK, flood(8, 3)),
                   (EEXIST, group(7)), (OK, group_del()), (OK, flow_del(3)))


def version_2():
    """The same of version 2: a route is ENOTSUP in its first record and in its last."""
    return journal(2, (ENOTSUP, stop(3, 99)), *[(OK, flow(3, k)) for k in range(9)], (OK, group(7)), (EINVAL, noise(4096)), (EEXIST, group(7)),
                   (OK, flow_del(3)), (ENOTSUP, route(3, 99, 64, True)))


FILES = {
    "long.trail": long(),
    "version-1.trail": version_1(),
    "version-2.trail": version_2(),
    "over-long.trail": over_long(),
    "over-long-cut.trail": over_long()[:-len(record(OK, group_del())) - 1],
}
UNREADABLE = (".", "none.trail")  # a folder can be opened and not be read; no file has the other name

lines = b""
for name, journal in FILES.items():
    (here / "data" / name).write_bytes(journal)
    lines += name.encode() + b"\n" + said_of(journal)
for name in UNREADABLE:
    lines += name.encode() + b"\ncannot be read\n"
(here / "stdin").write_bytes(header() + record(OK, group(7)))
lines += b"-\n" + said_of(header() + record(OK, group(7)))
(here / "args").write_text("".join(f"{name}\n" for name in (*FILES, *UNREADABLE, "-")))
(here / "stdout").write_bytes(lines)
print(len(FILES), "files,", sum(map(len, FILES.values())), "bytes")
