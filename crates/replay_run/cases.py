#!/usr/bin/env python3
"""cases.py MODEL: writes the journals that replay_run reads (stdin) and, by another implementation of the rules, what it has to
print (stdout). MODEL is the command of that implementation: `MODEL replay FILE` prints the lines of one journal, and
`MODEL generate-journal SEED` writes one. A payload is its TLVs as (type, value); its bytes are those of the journal's version."""
import collections
import pathlib
import struct
import subprocess
import sys
import tempfile

sys.dont_write_bytecode = True
here = pathlib.Path(__file__).resolve().parent
sys.path.append(str(here.parents[1] / "tests"))
from tlvs import HEADER_OF, VERSION, in_two_meanings, of_version, region, tlv, with_length

OK, ENOENT, ENXIO, ENOMEM, EEXIST, EINVAL, EMSGSIZE, ENOTSUP = 0, 2, 6, 12, 17, 22, 90, 95
ROOM = 65536  # what the program reads at most

# Of the journals that MODEL generates by the seeds below SEEDS: for each answer and version the first EACH that have at most SHORT bytes.
EACH, SHORT, SEEDS = 2, 500, 400


def command(kind, *fields):
    return [(1, struct.pack("<H", kind)), (2, list(fields))]


def flow(kind, cookie, priority=1, table=0):
    return command(kind, (1, struct.pack("<H", table)), (2, struct.pack("<I", priority)), (5, struct.pack("<Q", cookie)),
                   (6, struct.pack("<I", 1)), (7, struct.pack("<I", 0xFFFFFFFF)), (9, struct.pack("<H", 10)))


def flow_del(cookie):
    return command(5, (5, struct.pack("<Q", cookie)))


def group(kind, id=0x00050002, port=2):
    return command(kind, (10, struct.pack("<I", id)), (8, struct.pack("<I", port)), (43, b"\1"))


def flood(kind, *ports):
    """The group 1 of type 4 of VLAN 5, with these ports."""
    ids = [(k, struct.pack("<I", 5 << 16 | port)) for k, port in enumerate(ports, 1)]
    return command(kind, (10, struct.pack("<I", 4 << 28 | 5 << 16 | 1)), (12, struct.pack("<H", len(ids))), (13, ids))


def stop(kind, cookie, port=1, ethertype=0x0800):
    """A flow of table 20."""
    return command(kind, (1, struct.pack("<H", 20)), (2, bytes(4)), (5, struct.pack("<Q", cookie)), (6, struct.pack("<I", port)),
                   (9, struct.pack("<H", 30)), (14, struct.pack(">H", 5)), (23, struct.pack(">H", ethertype)), (24, bytes(range(2, 8))))


def route(kind, cookie, ones=24, six=False, index=1):
    """A flow of table 30, to a prefix of so many bits."""
    width = 16 if six else 4
    mask = (2 ** (8 * width) - 2 ** (8 * width - ones)).to_bytes(width, "big")
    return command(kind, (1, struct.pack("<H", 30)), (2, bytes(4)), (5, struct.pack("<Q", cookie)), (9, struct.pack("<H", 60)),
                   (10, struct.pack("<I", 2 << 28 | index)), (23, struct.pack(">H", 0x86DD if six else 0x0800)),
                   (38 if six else 36, bytes([0x20, 1]) + bytes(width - 2)), (39 if six else 37, mask))


def neighbour(kind, index=1, vlan=5):
    """A group of type 2."""
    return command(kind, (10, struct.pack("<I", 2 << 28 | index)), (11, struct.pack("<I", vlan << 16 | 2)), (14, struct.pack(">H", vlan)),
                   (24, bytes(6)), (26, bytes(range(6))))


def group_del(id=0x00050002):
    return command(9, (10, struct.pack("<I", id)))


def record(status, payload=b"", slot=0, bit=0x8000, length=None, version=VERSION):
    data = of_version(payload, version)
    return struct.pack("<HHH", bit | status, len(data) if length is None else length, slot) + data


def header(ports=4, mark=b"RKT", version=VERSION):
    return mark + struct.pack("<HB", version, ports)


def journal(version, *told):
    """A journal of that version; of each record the status and the payload."""
    return header(version=version) + b"".join(record(status, payload, k, version=version) for k, (status, payload) in enumerate(told))


def full():
    """128 groups, then one more; and with one group less again one more."""
    ids = [n << 16 | 2 for n in range(1, 130)]
    return (header() + b"".join(record(OK, group(7, id), k) for k, id in enumerate(ids[:128])) + record(ENOMEM, group(7, ids[128]), 128) +
            record(EEXIST, group(7, ids[0]), 129) + record(OK, group_del(ids[5]), 130) + record(OK, group(7, ids[128]), 131))


def versions():
    """1, 2 and 3 are known, no other number; for all of them the rest of the header is the same."""
    for version in (0, 4, 5, 0x0100, 0x0101, 0x0102, 0x0103, 0x0200, 0x0201, 0x0300, 0x0303, 0xFFFF):
        yield header(version=version)
    for version in HEADER_OF:
        for ports in (0, 1, 62, 63):
            yield header(ports, version=version)
        yield header(version=version)[:5]
        yield header(mark=b"RKX", version=version)


def in_all():
    """Journals that come to the same in each version: valid, cut in a payload and in the first bytes of a record, disagreeing."""
    told = [(OK, group(7)), (EEXIST, group(7)), (OK, flood(7, 1, 2, 3)), (OK, flood(8, 3, 1)), (OK, flow(3, 7)), (OK, flow(4, 7, 9)),
            (ENOENT, flow_del(8)), (ENOTSUP, command(6)), (ENOTSUP, flow(3, 1, table=60)), (EINVAL, b""), (EINVAL, b"\0"), (ENXIO, b""),
            (EMSGSIZE, b""), (OK, group_del())]
    for version in HEADER_OF:
        yield journal(version, *told)
        yield journal(version, *told[:2])[:-1]
        yield journal(version, *told[:1], (ENXIO, b""))[:-1]
        yield journal(version, *told[:1], *told[:1])
        yield journal(version, *told[:1], (EINVAL, flow_del(8)))


def other_meaning():
    """Payloads with the lengths of the other version are ill formed: recorded as EINVAL they agree, as OK they disagree."""
    for version, other in ((1, 2), (2, 1), (3, 1)):
        ill = [of_version(payload, other) for payload in (group(7), flood(7, 1, 2), flow(3, 7), flow_del(7))]
        yield journal(version, (OK, group(7)), *[(EINVAL, payload) for payload in ill])
        for payload in ill:
            yield journal(version, (OK, payload))


def nested(kind, *headers):
    """A flood to ports 1 and 2 with the meanings of the top, of CMD_INFO and of GROUP_IDS chosen apart."""
    (_, command_type), (_, ((_, id), (_, count), (_, ids))) = flood(kind, 1, 2)
    top, info, members = headers
    return region([(1, command_type), (2, region([(10, id), (12, count), (13, region(ids, members))], info))], top)


def all_regions():
    """A version's meaning is that of all its regions: of eight floods one is well formed, the first or the last."""
    for version in HEADER_OF:
        own = HEADER_OF[version]
        choices = [(top, info, members) for top in (0, 8) for info in (0, 8) for members in (0, 8)]
        yield journal(version, *[(OK if choice == (own,) * 3 else EINVAL, nested(7, *choice)) for choice in choices])
        yield journal(version, (OK, nested(7, own, own, 8 - own)))
        yield journal(version, (OK, nested(7, own, 8 - own, own)))


def shortest():
    """A TLV without value is skipped where its type is not listed: length 0 in version 1, 8 in versions 2 and 3, where 0 and 7 are ill formed.
    In version 1 the lengths 7 and 8 are those of values, which have to be there."""
    for version, statuses in ((1, (EEXIST, EINVAL, EINVAL, EINVAL)), (2, (EINVAL, EINVAL, EEXIST, EINVAL)), (3, (EINVAL, EINVAL, EEXIST, EINVAL))):
        own, change = HEADER_OF[version], of_version(group(7), version)
        alone = [(status, change + with_length(99, length)) for status, length in zip(statuses, (0, 7, 8, 9))]
        filled = [(EEXIST, change + tlv(99, bytes(size), own)) for size in (7, 8)]
        yield journal(version, (OK, [(99, b""), *group(7), (99, b"")]), *alone, *filled, (EINVAL, change + with_length(99, own + 9, bytes(8))))
        yield journal(version, (OK, command(7, (99, b""), *group(7)[1][1], (99, b""))), (EINVAL, command(9, (10, b""))))
    yield journal(2, (OK, group(7)), (EEXIST, of_version(group(7), 2) + with_length(99, 0)))
    yield journal(1, (OK, group(7)), (EEXIST, of_version(group(7), 1) + with_length(99, 8)))


def read_twice():
    """The same records, in each version: a flow or a group, and the flow or the group once more."""
    both = in_two_meanings(flow(3, 7), group(7))
    for version, again in ((1, flow(3, 7)), (2, group(7)), (3, group(7))):
        yield journal(version, (OK, both))
        yield journal(version, (OK, both), (EEXIST, both), (EEXIST, again))
    yield journal(1, (OK, both), (EEXIST, group(7)))
    yield journal(2, (OK, both), (EEXIST, flow(3, 7)))


def routed():
    """Tables 20 and 30 and type 2 are version 3's alone: there all of it is OK, in the others the tables are ENOTSUP, in add and mod, and the
    type is EINVAL, in add, mod and del. A flow is deleted by its cookie in each. Recorded as in the other version they disagree."""
    new = [stop(3, 1), stop(3, 2, ethertype=0x86DD), route(3, 3), route(3, 4, 64, True), neighbour(7)]
    changes = [stop(4, 1, port=2), route(4, 3, 0, index=9), neighbour(8, vlan=6)]
    dels = [group_del(2 << 28 | 1), flow_del(3)]
    yield journal(3, *[(OK, one) for one in (*new, *changes)])
    yield journal(3, *[(OK, one) for one in (*new, *changes, *dels)], (ENOENT, dels[0]), (ENOENT, stop(4, 9)), (ENOENT, route(4, 3)),
                  (EEXIST, stop(3, 1)), (ENOENT, neighbour(8)))
    refused = [ENOTSUP] * 4 + [EINVAL] + [ENOTSUP] * 2 + [EINVAL] * 2 + [ENOENT]
    for version in (1, 2):
        yield journal(version, *zip(refused, (*new, *changes, *dels)))
        yield journal(version, (OK, flow(3, 3)), (ENOTSUP, stop(4, 3)), (ENOTSUP, route(4, 3)), (OK, flow_del(3)))
        for status, one in zip((EINVAL, EINVAL, OK, OK), (stop(3, 1), route(3, 3), neighbour(7), route(3, 4, 64, True))):
            yield journal(version, (status, one))
        yield journal(version, (ENOTSUP, neighbour(7)))
        yield journal(version, (ENOENT, dels[0]))
    for status, one in ((ENOTSUP, stop(3, 1)), (ENOTSUP, route(3, 3)), (EINVAL, neighbour(7)), (EINVAL, dels[0])):
        yield journal(3, (status, one))
    # fields that only version 3 has are skipped by the forms of the others, of any width and twice
    odd = [(kind, b"\1" * width) for kind in (11, 23, 26, 36, 37, 38, 39) for width in (1, 3)]
    for version in HEADER_OF:
        yield journal(version, (OK, command(7, *odd, *group(7)[1][1])), (OK, command(9, *group_del()[1][1], *odd)))
    # a mask that is no prefix, a multicast address, the other pair, another type of group, a lower group of another VLAN
    bad = route(3, 3)
    yield journal(3, *[(EINVAL, command(3, *[field if field[0] != kind else (kind, value) for field in bad[1][1]])) for kind, value in
                       ((37, b"\xff\0\xff\0"), (36, b"\xe0\0\0\1"), (10, struct.pack("<I", 1)), (23, b"\x86\xdd"), (9, b"\x32\0"))],
                  (EINVAL, command(3, *bad[1][1], (38, bytes(16)))), (EINVAL, command(7, *[f if f[0] != 14 else (14, b"\0\6") for f in neighbour(7)[1][1]])))


def cases():
    change = header() + record(OK, group(7))
    long = bytes(4097)
    most = [(99, bytes(4088))]
    # the change of document 01 in a journal of each version
    yield change
    yield journal(1, (OK, group(7)))
    yield journal(2, (OK, group(7)))
    # the header, and where it is cut
    for n in range(6):
        yield change[:n]
    yield header(1)
    yield header(62)
    yield header(0)
    yield header(63)
    yield header(255)
    yield header(4, b"RKX")
    yield header(4, b"rkt")
    yield header(4, b"XKT", 4)
    yield header(0, b"RKT", 4)
    # too short for a header, and another mark
    yield header(4, b"RKX")[:5]
    yield header(4, b"XKT")[:3]
    yield header(63, b"RKT", 4)
    # cut at each kind of place: in the first six bytes, behind them, in the payload, one byte short
    for n in (7, 8, 9, 10, 11, 12, 13, 50, 83):
        yield change[:n]
    for n in (1, 5, 6, 77):
        yield change + record(EEXIST, group(7))[:n]
    # agreeing
    yield change + record(EEXIST, group(7), 1)
    yield change + record(OK, group(8), 2) + record(OK, group_del(), 3) + record(ENOENT, group_del(), 4)
    yield header() + b"".join(record(OK, flow(3, k), k) for k in range(20)) + record(OK, flow_del(7), 20)
    yield header() + record(EINVAL) + record(EINVAL, b"\0") + record(ENXIO) + record(EMSGSIZE)
    yield header() + record(ENOTSUP, command(6)) + record(ENOTSUP, flow(3, 1, table=60))
    yield header() + record(EINVAL, most)
    yield header(1) + record(EINVAL, group(7))
    yield header() + record(OK, group(7), 0xFFFF) + record(OK, flow(3, 2**64 - 1), 0xABCD)
    # disagreeing
    yield header() + record(EINVAL, group(7))
    yield header() + record(OK, group(7)) + record(OK, group(7))
    yield header() + record(EEXIST, group(7))
    yield header() + record(OK, group_del())
    yield header() + record(ENXIO, group(7))
    yield header() + record(ENXIO, b"\0")
    yield header() + record(EMSGSIZE, group(7))
    yield header() + record(OK, b"")
    yield header() + record(OK, group(7), bit=0)
    yield header() + record(OK, group(7), bit=0x4000)
    yield header() + record(OK, group(7), bit=0xC000)
    yield header() + record(0x11, flow(4, 9), bit=0x8000)
    yield header() + record(EINVAL, long)
    yield header() + record(ENXIO) + record(3) + record(OK, group(7))
    # too long and cut
    yield header() + record(EINVAL, long[:4096], length=4097)
    yield header() + record(EINVAL, b"", length=0xFFFF)
    yield header() + record(EMSGSIZE, b"\0" * 9, length=5000)
    # the first fault decides
    yield header() + record(OK, group_del()) + b"\0"
    yield header(0) + record(OK, group_del())
    yield full()
    for some in (versions, in_all, other_meaning, all_regions, shortest, read_twice, routed):
        yield from some()
    yield from generated()


def model(*words):
    return subprocess.run([sys.argv[1], *words], stdout=subprocess.PIPE, check=True).stdout


def said_of(journal):
    """What the other implementation prints of a journal."""
    with tempfile.NamedTemporaryFile() as f:
        f.write(journal)
        f.flush()
        return model("replay", f.name)


def generated():
    """Valid journals, cut ones, those with a fault in the header, and those of which a record disagrees."""
    taken = collections.Counter()
    for seed in range(1, SEEDS):
        some = model("generate-journal", str(seed))
        answer = said_of(some).split()
        kind = answer[1] if answer[0] == b"refused" else b"0", struct.unpack("<H", some[3:5])[0] if len(some) >= 6 else None
        taken[kind] += len(some) <= SHORT
        if len(some) <= SHORT and taken[kind] <= EACH:
            yield some


def main():
    frames, lines = b"", b""
    for number, journal in enumerate(cases(), 1):
        frames += struct.pack("<I", len(journal)) + journal
        lines += b"journal %d\n" % number + said_of(journal)
    if len(frames) > ROOM:
        sys.exit(f"{len(frames)} bytes are more than {ROOM}")
    (here / "stdin").write_bytes(frames)
    (here / "stdout").write_bytes(lines)
    print(number, "journals,", len(frames), "bytes")


if __name__ == "__main__":
    main()
