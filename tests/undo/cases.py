#!/usr/bin/env python3
"""tests/undo/cases.py MODEL: writes the stored questions of request 2026-06 (crates/undo_run/stdin) and their outcomes (stdout beside it).
The outcomes come from the second implementation; each case has its list written out by hand, too, and the two must agree.

A question is n (8 bytes), the room's length (4), the journal's length (4) and the journal, as `model undo-all` reads them. A payload is its
TLVs as (type, value); its bytes are those of the journal's version, and in a list those of the device (version 3)."""
import ipaddress
import pathlib
import struct
import subprocess
import sys

sys.dont_write_bytecode = True
ROOT = pathlib.Path(__file__).resolve().parents[2]
sys.path.append(str(ROOT / "tests"))
from tlvs import VERSION, in_two_meanings, of_version, region

STORED = ROOT / "crates/undo_run"
OK, ENOENT, ENXIO, ENOMEM, EEXIST, EINVAL, EMSGSIZE, ENOTSUP = 0, 2, 6, 12, 17, 22, 90, 95
ADD, MOD = 0, 1
KEPT = 0xA5  # each byte of a room before the call


# ---- Payloads

def le(width, number):
    return number.to_bytes(width, "little")


def be(width, number):
    return number.to_bytes(width, "big")


def payload(code, fields):
    """Fields as (type, value), None for one that is not there; in rising type."""
    return [(1, le(2, code)), (2, [(kind, value) for kind, value in sorted(fields) if value is not None])]


def or_none(width, number):
    return None if number is None else le(width, number)


def flow(action, table, cookie, fields, priority=0, hard=0, idle=0, goto=0):
    """A flow with all its fields; None leaves a time out."""
    return payload(3 + action, [(1, le(2, table)), (2, le(4, priority)), (3, or_none(4, hard)), (4, or_none(4, idle)), (5, le(8, cookie)),
                                (9, le(2, goto)), *fields])


def flow0(action, cookie, port=1, mask=0xFFFF, **rest):
    return flow(action, 0, cookie, [(6, le(4, port)), (7, le(4, mask))], **rest)


def flow10(action, cookie, port=1, vlan=5, new=None, **rest):
    return flow(action, 10, cookie, [(6, le(4, port)), (14, be(2, vlan)), (19, None if new is None else be(2, new))], **rest)


def flow50(action, cookie, vlan=5, mac=None, group=None, **rest):
    return flow(action, 50, cookie, [(10, or_none(4, group)), (14, be(2, vlan)), (24, mac)], **rest)


def flow20(action, cookie, port=1, ethertype=0x0800, mac=bytes.fromhex("029900000001"), vlan=5, **rest):
    return flow(action, 20, cookie, [(6, le(4, port)), (14, be(2, vlan)), (23, be(2, ethertype)), (24, mac)], goto=30, **rest)


def flow30(action, cookie, to="10.1.2.3/24", group=None, **rest):
    """A route to a prefix, the address as it stands."""
    where = ipaddress.ip_interface(to)
    ethertype, first = {4: (0x0800, 36), 6: (0x86DD, 38)}[where.version]
    pair = [(first, where.ip.packed), (first + 1, where.network.netmask.packed)]
    return flow(action, 30, cookie, [(10, or_none(4, group)), (23, be(2, ethertype)), *pair], **rest)


def flow_del(cookie):
    return payload(5, [(5, le(8, cookie))])


def gid(kind, vlan, low):
    return kind << 28 | vlan << 16 | low


def port_group(action, vlan, port, pop=0):
    return payload(7 + action, [(10, le(4, gid(0, vlan, port))), (8, le(4, port)), (43, bytes([pop]))])


def list_group(action, kind, vlan, index, ports):
    members = [(k, le(4, gid(0, vlan, port))) for k, port in enumerate(ports, 1)]
    return payload(7 + action, [(10, le(4, gid(kind, vlan, index))), (12, le(2, len(ports))), (13, members)])


def route_group(action, index, vlan=5, port=2, source=bytes.fromhex("029900000002"), destination=bytes.fromhex("021122334455")):
    return payload(7 + action, [(10, le(4, rid(index))), (11, le(4, gid(0, vlan, port))), (14, be(2, vlan)), (24, destination), (26, source)])


def rid(index):
    """A group ID of type 2."""
    return 2 << 28 | index


def route_del(index):
    return payload(9, [(10, le(4, rid(index)))])


def group_del(kind, vlan, low):
    return payload(9, [(10, le(4, gid(kind, vlan, low)))])


# ---- Journals

def record(status, body, slot, version):
    data = of_version(body, version)
    return struct.pack("<HHH", 0x8000 | status, len(data), slot) + data


def journal(*bodies, ports=4, version=VERSION):
    """Records that are OK where a payload stands alone; others are (status, payload)."""
    pairs = [body if isinstance(body, tuple) else (OK, body) for body in bodies]
    header = b"RKT" + le(2, version) + bytes([ports])
    return header + b"".join(record(status, body, k % 8, version) for k, (status, body) in enumerate(pairs))


def as_list(payloads):
    return b"".join(le(2, len(one)) + one for one in map(region, payloads))


# ---- The cases

CASES = []  # name, journal, n, room, what is expected: payloads or the line that refuses


def case(name, trail, n, expected, room=None):
    if room is None:
        room = 5 if isinstance(expected, str) else len(as_list(expected)) + 5
    CASES.append((name, trail, n, room, expected))


def in_all(name, bodies, n, expected, older=(1, 2), **rest):
    """The same records in a journal of each version: one list."""
    case(name, journal(*bodies, **rest), n, expected)
    for version in older:
        case(f"{name}, version {version}", journal(*bodies, version=version, **rest), n, expected)


EXAMPLE = port_group(ADD, 5, 2, pop=1)  # the payload of document 01
EVEN, ODD, OTHER = bytes.fromhex("021122334455"), bytes.fromhex("01005e000001"), bytes.fromhex("02112233445a")


def numbers():
    """n: none of the lines, all of them, some, and more than there are."""
    example = journal(EXAMPLE)
    case("nothing was done", journal(), 0, [], 0)
    case("nothing was done, n above", journal(), 1, "refused 15", 0)
    case("the worked example, before it", example, 0, [group_del(0, 5, 2)])
    case("the worked example, after it", example, 1, [])
    case("an empty list, an empty room", example, 1, [], 0)
    case("one above", example, 2, "refused 15")
    # Lines that are not OK count, and lines without a payload.
    mixed = journal((EINVAL, b""), flow0(ADD, 1), (ENXIO, b""), (EEXIST, flow0(ADD, 1)), flow0(ADD, 2), (EMSGSIZE, b""), flow0(ADD, 3))
    gone = [flow_del(1), flow_del(2), flow_del(3)]
    for n, first in enumerate((0, 0, 1, 1, 1, 2, 2, 3)):
        case(f"line {n} of 7", mixed, n, gone[first:])
    case("line 8 of 7", mixed, 8, "refused 15")
    for high in (16, 32, 63):
        case(f"2^{high} and 2", mixed, 2**high + 2, "refused 15")
    case("the greatest n", mixed, 2**64 - 1, "refused 15")


def refusals():
    """10 to 14 from the whole journal, then 15, then 16; nothing is written."""
    good = journal(flow0(ADD, 1), flow0(ADD, 2))
    twice = journal(flow0(ADD, 1), flow0(ADD, 1))
    for what, trail, told in (("cut header", good[:5], "refused 10 line 0"),
                              ("mark", b"RKX" + good[3:], "refused 11 line 0"),
                              ("version", b"RKT\4" + good[4:], "refused 12 line 0"),
                              ("port count", b"RKT\3\0\0" + good[6:], "refused 13 line 0"),
                              ("disagrees in line 2", twice, "refused 14 line 2"),
                              ("cut in line 2", good[:-1], "refused 10 line 2"),
                              ("cut behind line 2", good + b"\0", "refused 10 line 3")):
        for n in (1, 2, 9):
            case(f"{what}, n = {n}", trail, n, told)
        case(f"{what}, n = 1, no room", trail, 1, told, 0)
        case(f"{what}, n = 9, no room", trail, 9, told, 0)
    case("15 before 16", good, 3, "refused 15", 0)
    case("15 before 16, some room", good, 9, "refused 15", 50)


def rooms():
    """The list's length, a byte less, what the payloads have alone, none, and more."""
    trail, back = journal(flow0(ADD, 1), flow0(ADD, 2)), [flow_del(1), flow_del(2)]
    case("a room of 84", trail, 0, back, 84)
    case("a room of 85", trail, 0, back, 85)
    case("a room of 100", trail, 0, back, 100)
    for room in (83, 80, 79, 42, 41, 1, 0):
        case(f"a room of {room}", trail, 0, "refused 16", room)


def order():
    """Six runs, and the keys rising in each."""
    evening = [flow0(ADD, 30, priority=1), flow10(ADD, 20, priority=2), flow0(ADD, 40, port=2), flow0(ADD, 10, port=3), flow0(ADD, 33),
               port_group(ADD, 5, 4), list_group(ADD, 3, 5, 1, [1]), port_group(ADD, 5, 2), list_group(ADD, 4, 5, 1, [1]),
               port_group(ADD, 5, 0)]
    night = [flow_del(30), flow_del(10), flow0(MOD, 40, port=4), flow10(MOD, 20, priority=9),
             group_del(0, 5, 4), group_del(3, 5, 1), port_group(MOD, 5, 2, pop=1), list_group(MOD, 4, 5, 1, [2]),
             flow0(ADD, 35), flow0(ADD, 15), port_group(ADD, 5, 3), port_group(ADD, 5, 1)]
    back = [flow_del(15), flow_del(35), group_del(0, 5, 1), group_del(0, 5, 3),
            flow10(MOD, 20, priority=2), flow0(MOD, 40, port=2), port_group(MOD, 5, 2), list_group(MOD, 4, 5, 1, [1]),
            flow0(ADD, 10, port=3), flow0(ADD, 30, priority=1), port_group(ADD, 5, 4), list_group(ADD, 3, 5, 1, [1])]
    in_all("six runs", [*evening, *night], len(evening), back)
    # Cookies whose order is another one by sign, by halves, by bytes, by table, by priority and as they were added.
    cookies = [2**63, 0x100, 2**64 - 1, 2, 2**32, 0x201]
    adds = [flow0(ADD, cookies[0], priority=3), flow50(ADD, cookies[1], priority=9), flow0(ADD, cookies[2]), flow10(ADD, cookies[3]),
            flow0(ADD, cookies[4], priority=1), flow0(ADD, cookies[5])]
    rising = sorted(range(6), key=cookies.__getitem__)
    dels = [flow_del(cookie) for cookie in cookies]
    case("cookies deleted", journal(*adds), 0, [dels[k] for k in rising])
    case("cookies added", journal(*adds, *dels), 6, [adds[k] for k in rising])
    groups = [(3, 1, 0xFFFF), (0, 4094, 3), (4, 2, 0), (0, 1, 1), (3, 2, 0x100), (0, 2, 4)]
    adds = [list_group(ADD, *one, [1]) if one[0] else port_group(ADD, one[1], one[2]) for one in groups]
    dels = [group_del(*one) for one in groups]
    rising = sorted(range(6), key=lambda k: gid(*groups[k]))
    case("groups deleted", journal(*adds), 0, [dels[k] for k in rising])
    case("groups added", journal(*adds, *dels), 6, [adds[k] for k in rising])


def changes(name, *pairs):
    """One case for each pair of payload makers, before and after; both are the same entry."""
    for k, (before, after) in enumerate(pairs, 1):
        case(f"{name} {k}", journal(before(ADD), after(MOD)), 1, [before(MOD)])


def one_field():
    """Each field changed alone, times and optional fields too."""
    def f0(**rest):
        return lambda action: flow0(action, 7, **rest)

    def f10(**rest):
        return lambda action: flow10(action, 7, **rest)

    def f50(**rest):
        return lambda action: flow50(action, 7, **rest)

    times = {"hard": 0x01020304, "idle": 0x05060708}
    changes("table 0", (f0(priority=0x01020304), f0(priority=4)), (f0(hard=60), f0()), (f0(), f0(idle=60)), (f0(**times), f0()),
            (f0(port=0x01020304), f0(port=2)), (f0(mask=0xFF), f0()), (f0(goto=10), f0()), (f0(priority=1, **times), f0(**times)))
    changes("table 10", (f10(port=3), f10()), (f10(), f10(vlan=6)), (f10(vlan=0, new=7), f10(vlan=0, new=8)), (f10(), f10(vlan=0, new=5)),
            (f10(vlan=0, new=5), f10()), (f10(goto=20), f10()))
    flood, other = gid(4, 5, 9), gid(4, 5, 10)
    changes("table 50", (f50(vlan=6), f50()), (f50(mac=EVEN), f50(mac=OTHER)), (f50(mac=ODD), f50()), (f50(), f50(mac=EVEN)),
            (f50(group=flood), f50(group=other)), (f50(group=flood), f50()), (f50(), f50(group=flood)), (f50(goto=60), f50()),
            (f50(mac=EVEN, group=gid(0, 5, 1)), f50(mac=ODD, group=gid(3, 5, 1))), (f50(mac=ODD, group=flood), f50(group=flood)))
    changes("another table", (f0(), f10()), (f10(), f50()), (f50(), f0()))
    changes("groups", (lambda action: port_group(action, 5, 2, 1), lambda action: port_group(action, 5, 2, 0)),
            (lambda action: list_group(action, 3, 5, 1, [3, 1, 2]), lambda action: list_group(action, 3, 5, 1, [1, 2, 3])),
            (lambda action: list_group(action, 4, 5, 1, [2, 1]), lambda action: list_group(action, 4, 5, 1, [2])),
            (lambda action: list_group(action, 4, 5, 1, [2]), lambda action: list_group(action, 4, 5, 1, [3])))


def same_again():
    """What stands as it stood gives nothing."""
    evening = [flow0(ADD, 1, priority=1), flow10(ADD, 2), port_group(ADD, 5, 2), list_group(ADD, 3, 5, 1, [2, 1])]
    night = [flow0(MOD, 1, priority=2), flow0(MOD, 1, priority=1), flow_del(2), flow10(ADD, 2), flow0(ADD, 3), flow_del(3),
             port_group(MOD, 5, 2, 1), port_group(MOD, 5, 2), list_group(MOD, 3, 5, 1, [1, 2]), list_group(MOD, 3, 5, 1, [2, 1]),
             port_group(ADD, 6, 1), group_del(0, 6, 1), flow10(MOD, 2)]
    case("there and back", journal(*evening, *night), 4, [], 0)
    case("one of them not back", journal(*evening, *night, flow_del(1)), 4, [flow0(ADD, 1, priority=1)])
    # A time that is not given is 0, and 0 is given in the list.
    case("times not given", journal(flow0(ADD, 1, hard=None, idle=None), flow0(MOD, 1)), 1, [])
    case("times not given, deleted", journal(flow0(ADD, 1, hard=None, idle=None), flow_del(1)), 1, [flow0(ADD, 1)])


def zeros():
    """Fields of 0 stand like others."""
    adds = [flow0(ADD, 0, port=0, mask=0), flow10(ADD, 1, vlan=0, new=1), flow50(ADD, 2, mac=bytes(6)), port_group(ADD, 1, 0)]
    night = [flow_del(0), flow_del(1), flow_del(2), group_del(0, 1, 0)]
    case("zeros added", journal(*adds, *night), 4, adds)
    case("cookie 0 deleted", journal(adds[0]), 0, [flow_del(0)])


def edges():
    """The longest payload, and tables that are full on both sides."""
    ports = [62, *range(1, 62)]
    in_all("62 members", [list_group(ADD, 4, 4094, 0xFFFF, ports), group_del(4, 4094, 0xFFFF)], 1,
            [list_group(ADD, 4, 4094, 0xFFFF, ports)], older=(1,), ports=62)
    flows = [flow0(ADD, cookie, hard=None, idle=None) for cookie in range(256)]
    groups = [port_group(ADD, vlan, 1) for vlan in range(1, 129)]
    night = [flow_del(0), flow0(ADD, 256), (ENOMEM, flow0(ADD, 0)), group_del(0, 128, 1), port_group(ADD, 129, 1), (ENOMEM, groups[127])]
    back = [flow_del(256), group_del(0, 129, 1), flow0(ADD, 0), groups[127]]
    case("full on both sides", journal(*flows, *groups, *night), 384, back)


def example():
    """The night of docs/UNDO.md, and the morning after its list: nothing is left to do."""
    import night
    evening, later = ([payload for _, payload in part] for part in (night.EVENING, night.NIGHT))
    told = [*evening, *later[:-1], (EEXIST, later[-1])]
    in_all("the night", told, len(evening), night.BACK)
    case("the morning", journal(*told, *night.BACK), len(evening), [], 0)


def version_1():
    """Journals of version 1 are read with their own lengths; the list is written with those of the device."""
    added = journal(EXAMPLE, version=1)
    case("version 1, before the worked example", added, 0, [group_del(0, 5, 2)])
    case("version 1, after it", added, 1, [], 0)
    case("version 1, one above", added, 2, "refused 15")
    # One payload of each form is written: a flow of each table, a group of each type; then none is left.
    forms = [flow0(ADD, 1), flow10(ADD, 2), flow10(ADD, 3, vlan=0, new=5), flow50(ADD, 4, mac=EVEN, group=gid(0, 5, 1)),
             port_group(ADD, 5, 2, pop=1), list_group(ADD, 3, 5, 1, [3, 1]), list_group(ADD, 4, 5, 1, [2])]
    gone = [*[flow_del(cookie) for cookie in (1, 2, 3, 4)], group_del(0, 5, 2), group_del(3, 5, 1), group_del(4, 5, 1)]
    case("version 1, all deleted", journal(*forms, *gone, version=1), len(forms), forms)
    case("version 1, all added", journal(*forms, version=1), 0, gone)
    two, back = journal(flow0(ADD, 1), flow0(ADD, 2), version=1), [flow_del(1), flow_del(2)]
    case("version 1, a room of 84", two, 0, back, 84)
    case("version 1, a room of 83", two, 0, "refused 16", 83)
    case("version 1, cut", two[:-1], 1, "refused 10 line 2")
    case("version 1, disagrees", journal(flow0(ADD, 1), flow0(ADD, 1), version=1), 1, "refused 14 line 2")
    for version in (0, 4, 0x0102, 0x0201, 0x0103):
        case(f"version {version}", b"RKT" + le(2, version) + b"\4", 0, "refused 12 line 0", 0)


def routes():
    """Tables 20 and 30 and type 2: the order, one field after the other, and journals of older versions, which have none of it."""
    evening = [flow30(ADD, 30, "10.1.2.3/32", rid(7)), flow20(ADD, 20), flow30(ADD, 25, "2001:db8::1/64"), flow20(ADD, 40, port=2),
               flow0(ADD, 33), port_group(ADD, 5, 2), route_group(ADD, 7), route_group(ADD, 0xFFFFFFF), list_group(ADD, 3, 5, 1, [1]),
               route_group(ADD, 1), list_group(ADD, 4, 5, 1, [1])]
    night = [flow_del(30), flow20(MOD, 20, port=3), flow30(MOD, 25, "2001:db8::1/64", rid(7)), flow_del(40), route_group(MOD, 7, port=3),
             route_del(0xFFFFFFF), group_del(3, 5, 1), flow30(ADD, 22, "0.0.0.0/0"), flow20(ADD, 31), flow30(ADD, 23, "10.0.0.0/8"),
             route_group(ADD, 9), port_group(ADD, 5, 1), list_group(ADD, 4, 5, 2, [1]), group_del(0, 5, 2)]
    back = [flow_del(22), flow_del(23), flow_del(31), group_del(0, 5, 1), route_del(9), group_del(4, 5, 2),
            flow20(MOD, 20), flow30(MOD, 25, "2001:db8::1/64"), route_group(MOD, 7),
            flow30(ADD, 30, "10.1.2.3/32", rid(7)), flow20(ADD, 40, port=2), port_group(ADD, 5, 2), route_group(ADD, 0xFFFFFFF),
            list_group(ADD, 3, 5, 1, [1])]
    case("six runs with routes", journal(*evening, *night), len(evening), back)
    one_route_field()
    # Zeros and all ones stand like others.
    zeros = [flow30(ADD, 0, "0.0.0.0/0"), flow30(ADD, 1, "::/0"), flow20(ADD, 2, mac=bytes(6)),
             route_group(ADD, 0, source=bytes(6), destination=bytes(6))]
    ones = [flow30(ADD, 3, "223.255.255.255/32", rid(0xFFFFFFF)), flow30(ADD, 4, "fe80::1/128")]
    gone = [*map(flow_del, range(5)), route_del(0)]
    case("routes of zeros and of ones added", journal(*zeros, *ones, *gone), 6, [*zeros[:3], *ones, zeros[3]])
    case("routes of zeros and of ones deleted", journal(*zeros, *ones), 0, gone)
    there = [route_group(ADD, 1), flow30(ADD, 1, "10.1.2.3/24"), route_group(MOD, 1, port=4), flow30(MOD, 1, "10.1.2.4/24"), route_group(MOD, 1),
             flow30(MOD, 1, "10.1.2.3/24"), flow20(ADD, 2), flow_del(2), route_group(ADD, 2), route_del(2)]
    case("routes there and back", journal(*there), 2, [], 0)
    # In versions 1 and 2 they were refused, and are not there.
    refused = [(ENOTSUP, flow20(ADD, 1)), (ENOTSUP, flow30(ADD, 2)), (ENOTSUP, flow30(ADD, 3, "2001:db8::1/64")), (EINVAL, route_group(ADD, 1)),
               (EINVAL, route_del(1)), (ENOTSUP, flow20(MOD, 9))]
    for version in (1, 2):
        case(f"routes refused, version {version}", journal(flow0(ADD, 9), *refused, flow0(ADD, 1), version=version), 1, [flow_del(1)])
        case(f"routes taken, version {version}", journal(flow20(ADD, 1), version=version), 0, "refused 14 line 1")
        case(f"type 2 taken, version {version}", journal(flow0(ADD, 1), route_group(ADD, 1), version=version), 0, "refused 14 line 2")
    case("routes refused, version 3", journal(flow0(ADD, 9), refused[0]), 0, "refused 14 line 2")


def one_route_field():
    def f20(**rest):
        return lambda action: flow20(action, 7, **rest)

    def f30(to="10.1.2.3/24", group=None, **rest):
        return lambda action: flow30(action, 7, to, group, **rest)

    def near(**rest):
        return lambda action: route_group(action, 0x1234567, **rest)

    changes("table 20", (f20(port=3), f20()), (f20(), f20(ethertype=0x86DD)), (f20(ethertype=0x86DD), f20()), (f20(mac=EVEN), f20()),
            (f20(vlan=6), f20()), (f20(hard=1), f20()), (f20(priority=0x01020304), f20()))
    changes("table 30", (f30("10.1.2.4/24"), f30()), (f30("10.1.2.3/25"), f30()), (f30("10.2.2.3/24"), f30()), (f30(group=rid(1)), f30()),
            (f30(), f30(group=rid(1))), (f30(group=rid(1)), f30(group=rid(0x1000001))), (f30(goto=60), f30()),
            (f30("2001:db8::1/64"), f30("2001:db8::2/64")), (f30("2001:db8::1/64"), f30("2001:db8::1/65")), (f30("2001:db8::1/64"), f30()),
            (f30(), f30("2001:db8::1/64")), (f30("2001:db8::1/33", rid(5), goto=60), f30("2001:db8::1/33", rid(6), goto=60)))
    changes("another table, routes", (lambda action: flow0(action, 7), f20()), (f20(), f30()), (f30(), lambda action: flow50(action, 7)))
    changes("type 2", (near(), near(port=3)), (near(vlan=6), near()), (near(source=OTHER), near()), (near(destination=OTHER), near()),
            (near(source=bytes(6)), near()))


def other_meaning():
    """Payloads with the lengths of the other version are ill formed; and some bytes are one command in one version and one in the other."""
    for version, other in ((1, 2), (2, 1), (3, 1)):
        ill = of_version(flow0(ADD, 1), other)
        case(f"lengths of version {other} in version {version}", journal(flow0(ADD, 2), (EINVAL, ill), version=version), 0, [flow_del(2)])
        case(f"the same as OK, in version {version}", journal(flow0(ADD, 2), ill, version=version), 1, "refused 14 line 2")
    both = in_two_meanings(flow0(ADD, 7), EXAMPLE)
    case("two meanings, version 1, added", journal(both, version=1), 0, [flow_del(7)])
    for version in (2, 3):
        case(f"two meanings, version {version}, added", journal(both, version=version), 0, [group_del(0, 5, 2)])
    case("two meanings, version 1, deleted", journal(both, flow_del(7), version=1), 1, [flow0(ADD, 7)])
    for version in (2, 3):
        case(f"two meanings, version {version}, deleted", journal(both, group_del(0, 5, 2), version=version), 1, [EXAMPLE])


def build():
    for make in (numbers, refusals, rooms, order, one_field, same_again, zeros, edges, example, version_1, routes, other_meaning):
        make()
    return CASES


def frame(trail, n, room):
    return struct.pack("<QII", n, room, len(trail)) + trail


def expected_lines(number, room, expected):
    """What is to be printed of a case, from its list as it is written out above."""
    told, written = (expected, b"") if isinstance(expected, str) else (f"done {len(as_list(expected))}", as_list(expected))
    after = written + bytes([KEPT]) * (room - len(written))
    return f"undo {number}\n{told}\nroom {after.hex() or '-'}\n"


def main():
    cases = build()
    stdin = b"".join(frame(trail, n, room) for _, trail, n, room, _ in cases)
    stdout = subprocess.run([sys.argv[1], "undo-all"], input=stdin, stdout=subprocess.PIPE, check=True).stdout
    by_hand = [expected_lines(k, room, expected) for k, (_, _, _, room, expected) in enumerate(cases, 1)]
    printed = stdout.decode().split("undo ")[1:]
    wrong = [name for (name, *_), a, b in zip(cases, printed, by_hand) if f"undo {a}" != b]
    if wrong or len(printed) != len(by_hand):
        sys.exit(f"{len(wrong)} of {len(cases)} cases are not as they are written out: {', '.join(wrong)}")
    (STORED / "stdin").write_bytes(stdin)
    (STORED / "stdout").write_bytes(stdout)
    print(f"{len(cases)} cases, {len(stdin):,} bytes in, {len(stdout):,} bytes out")


if __name__ == "__main__":
    main()
