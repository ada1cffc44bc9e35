#!/usr/bin/env python3
"""Writes console scripts (docs/CONSOLE.md) for the programs that run them: make_scripts.py NAME > crates/NAME/stdin.

NAME is payloads_run, frames_run or incident_run; or edges or credits, the first and the last part of the script of `console`. That of
worked_run is worked.py's. The outcomes, crates/NAME/stdout, come from the second implementation of the device and never from these
programs: tests/scripts/store writes all of them.
"""
import ipaddress
import pathlib
import struct
import sys

sys.dont_write_bytecode = True
sys.path.append(str(pathlib.Path(__file__).resolve().parents[1]))
from tlvs import HEADER, tlv, with_length

PORTS = 8


def le16(n):
    return struct.pack("<H", n)


def le32(n):
    return struct.pack("<I", n)


def le64(n):
    return struct.pack("<Q", n)


def be16(n):
    return struct.pack(">H", n)


def payload(command, fields, header=HEADER):
    return tlv(1, le16(command), header) + tlv(2, b"".join(fields), header)


def members(ids, header=HEADER):
    return b"".join(tlv(k + 1, le32(n), header) for k, n in enumerate(ids))


def group_id(kind, vlan, low):
    return kind << 28 | vlan << 16 | low


# ---- The fields of each command, by type, in the order of the table

def ingress(cookie, priority=0, port=1, mask=0xFFFFFFFF, goto=10):
    return {1: le16(0), 2: le32(priority), 5: le64(cookie), 6: le32(port), 7: le32(mask), 9: le16(goto)}


def vlan(cookie, priority=0, port=1, vid=100, goto=20, new=None):
    fields = {1: le16(10), 2: le32(priority), 5: le64(cookie), 6: le32(port), 9: le16(goto), 14: be16(vid)}
    if new is not None:
        fields[19] = be16(new)
    return fields


def bridge(cookie, priority=0, vid=100, mac=None, goto=60, group=None):
    fields = {1: le16(50), 2: le32(priority), 5: le64(cookie), 9: le16(goto)}
    if group is not None:
        fields[10] = le32(group)
    fields[14] = be16(vid)
    if mac is not None:
        fields[24] = bytes.fromhex(mac)
    return fields


IPV4, IPV6 = 0x0800, 0x86DD


def termination(cookie, priority=0, port=1, ethertype=IPV4, mac="029900000001", vid=100, goto=30):
    return {1: le16(20), 2: le32(priority), 5: le64(cookie), 6: le32(port), 9: le16(goto), 14: be16(vid), 23: be16(ethertype),
            24: bytes.fromhex(mac)}


def prefix(text):
    """EtherType, address and mask of 10.1.2.3/24 or 2001:db8::1/64, the address as it stands."""
    found = ipaddress.ip_interface(text)
    return {4: IPV4, 6: IPV6}[found.version], found.ip.packed, found.network.netmask.packed


def route(cookie, to, priority=0, goto=60, group=None):
    """A route to a prefix, by the group of type 2 with this index."""
    ethertype, address, mask = prefix(to)
    fields = {1: le16(30), 2: le32(priority), 5: le64(cookie), 9: le16(goto)}
    if group is not None:
        fields[10] = le32(2 << 28 | group)
    first = {IPV4: 36, IPV6: 38}[ethertype]
    return fields | {23: be16(ethertype), first: address, first + 1: mask}


def neighbour(index, vid, port, source="029900000002", destination="021122334455"):
    """A group of type 2 over that of a port."""
    return {10: le32(2 << 28 | index), 11: le32(group_id(0, vid, port)), 14: be16(vid), 24: bytes.fromhex(destination),
            26: bytes.fromhex(source)}


def interface(vid, port, pop=0):
    return {8: le32(port), 10: le32(group_id(0, vid, port)), 43: bytes([pop])}


def several(kind, vid, index, ports, header=HEADER):
    ids = [group_id(0, vid, p) for p in ports]
    return {10: le32(group_id(kind, vid, index)), 12: le16(len(ids)), 13: members(ids, header)}


def listed(fields, header=HEADER):
    return [tlv(kind, value, header) for kind, value in fields.items()]


class Script:
    """A script whose ring is at `base` and whose payloads stand at 0x8000, or where the caller says."""

    def __init__(self, memory=65536, base=0, size=8, ports=PORTS, switch_id=0x0123456789ABCDEF):
        self.lines = []
        self.add(f"memory {memory}", f"fresh {ports} {switch_id:#x}")
        self.ring(base, size)

    def add(self, *lines):
        self.lines.extend(lines)

    def note(self, text):
        self.lines.append(f"# {text}")

    def ring(self, base, size):
        self.base, self.size, self.head = base, size, 0
        self.add(f"write 8 0x1000 {base:#x}", f"write 4 0x1008 {size}")

    def describe(self, slot, at, buf, tlvs):
        data = le64(at) + le64(0x5EED0000 + slot) + le16(buf) + le16(tlvs) + bytes(12)
        self.add(f"poke {self.base + 32 * slot:#x} {data.hex()}")

    def post(self, data, at=None, buf=None, tlvs=None, place=0x8000):
        if data:
            self.add(f"poke {place:#x} {data.hex()}")
        self.describe(self.head, place if at is None else at, len(data) if buf is None else buf, len(data) if tlvs is None else tlvs)
        self.head = (self.head + 1) % self.size
        self.add(f"write 4 0x100c {self.head}")

    def run(self, data, **how):
        self.post(data, **how)
        self.add("work 65536")

    def command(self, command, fields):
        self.run(payload(command, listed(fields)))

    def faults(self, command, fields):
        """Each field left out, twice, and one byte wider; the last two with another width after the right one."""
        for kind in fields:
            rest = {k: v for k, v in fields.items() if k != kind}
            self.run(payload(command, listed(rest)))
            self.run(payload(command, listed(fields) + [tlv(kind, fields[kind])]))
            self.run(payload(command, listed(rest) + [tlv(kind, fields[kind] + b"\0")]))
            self.run(payload(command, listed(fields) + [tlv(kind, fields[kind][:-1])]))

    def changed(self, command, fields, changes):
        """The same fields with one of them changed, for each change; None leaves it out."""
        for kind, value in changes:
            other = dict(fields)
            if value is None:
                del other[kind]
            else:
                other[kind] = value
            self.command(command, other)


# ---- payloads_run

def top_faults(s):
    good = listed(interface(5, 2, 1))
    kind, info = tlv(1, le16(7)), tlv(2, b"".join(good))
    s.note("The worked example: OK, then EEXIST.")
    s.run(payload(7, good))
    s.run(payload(7, good))
    s.note("Top faults: nothing at all, a cut TLV, fill missing, CMD_TYPE and CMD_INFO missing, twice, of another width.")
    for data in [b"", kind, info, kind + kind + info, kind + info + info, tlv(1, le32(7)) + info, tlv(1, b"\7") + info,
                 (kind + info)[:-8], kind + info + bytes(4), kind + info + with_length(99, 9)]:
        s.run(data)
    s.note("A TLV of type 0 without value is skipped (EEXIST); with length 0 it is ill formed.")
    s.run(kind + info + tlv(0, b""))
    s.run(kind + info + bytes(8))
    s.note("A TLV of type 99 and a filled CMD_TYPE are skipped or ignored; CMD_INFO may come first.")
    s.run(tlv(99, b"abc") + info + tlv(1, le16(8)) + tlv(99, b""))
    s.note("Unknown commands, also with an ill-formed nest; then an ill-formed nest of a known one.")
    for command in [0, 1, 2, 6, 10, 0x0103, 65535]:
        s.run(payload(command, good))
    s.run(tlv(1, le16(6)) + tlv(2, b"\1\0\0\0\2\0\0"))
    for command in [3, 4, 5, 7, 8, 9]:
        s.run(tlv(1, le16(command)) + tlv(2, b"\1\0\0\0\2\0\0"))
        s.run(payload(command, []))


def flow_payloads(s):
    shapes = [("table 0", ingress(1)), ("table 10, tagged", vlan(2)), ("table 10, untagged", vlan(3, vid=0, new=7)),
              ("table 50, unicast", bridge(4, mac="0200000000aa", group=group_id(0, 100, 2))),
              ("table 50, multicast", bridge(5, mac="0300000000aa", group=group_id(3, 100, 2))),
              ("table 50, flood", bridge(6, group=group_id(4, 100, 2))), ("table 50, no group", bridge(7)),
              ("table 20", termination(8)), ("table 30, IPv4", route(9, "10.1.2.3/24", group=5)),
              ("table 30, IPv6", route(10, "2001:db8::1/64"))]
    for name, fields in shapes:
        s.note(f"Flows of {name}: mod of none, add, add again, mod, each fault of each field, del, del again.")
        for command in [4, 3, 3, 4]:
            s.command(command, fields)
        s.faults(3, {k: v for k, v in fields.items()} | {5: le64(900)})
        s.command(4, fields | {3: le32(30), 4: le32(40)})
        s.run(payload(4, listed(fields) + [tlv(3, le16(30))]))
        s.run(payload(4, listed(fields) + [tlv(4, le32(1)), tlv(4, le32(1))]))
        for _ in range(2):
            s.command(5, {5: fields[5]})
    s.note("Del: the cookie missing, twice, of another width; other fields are not read.")
    s.command(5, {})
    s.run(payload(5, [tlv(5, le64(1)), tlv(5, le64(1))]))
    s.command(5, {5: le32(1)})
    s.command(5, {1: b"\0", 5: le64(1), 2: b""})


def flow_values(s):
    s.note("TBL: other tables are ENOTSUP, also with nothing else; a TBL that is wrong in form is EINVAL.")
    for table in [1, 40, 51, 60, 0x100, 0x1400, 0x1E00, 65535]:
        s.command(3, {1: le16(table)})
        s.command(4, ingress(1) | {1: le16(table)})
    s.note("Values of table 0, of table 10, of table 50.")
    s.changed(3, ingress(20), [(9, le16(0)), (9, le16(10)), (9, le16(20)), (9, le16(60)), (6, le32(0xFFFFFFFF)), (7, le32(0))])
    s.changed(4, ingress(20), [(9, le16(0)), (9, le16(11)), (6, le32(0)), (7, le32(1))])
    tagged, untagged = vlan(21), vlan(22, vid=0, new=1)
    s.changed(3, tagged, [(6, le32(n)) for n in [0, PORTS + 1, 0x10001, 0x80000001]])
    s.changed(3, tagged, [(14, be16(n)) for n in [4095, 4096, 65535, 0]] + [(19, be16(5)), (9, le16(10)), (9, le16(60))])
    s.changed(3, tagged, [(14, be16(4094))])
    s.changed(4, tagged, [(9, le16(0)), (6, le32(PORTS)), (14, be16(1))])
    s.changed(3, untagged, [(19, None), (19, be16(0)), (19, be16(4095)), (19, be16(4094))])
    s.changed(4, untagged, [(19, be16(4094)), (9, le16(0)), (9, le16(10))])
    unicast = bridge(23, mac="0200000000aa", group=group_id(0, 100, 2))
    s.changed(3, unicast, [(14, be16(n)) for n in [0, 4095, 99, 65535]] + [(9, le16(20)), (9, le16(10))])
    for mac, kinds in [("0200000000aa", range(6)), ("0100000000aa", range(6)), (None, range(6))]:
        for kind in kinds:
            s.command(3, bridge(24, mac=mac, group=group_id(kind, 100, 9)))
            s.command(5, {5: le64(24)})
    s.changed(3, unicast, [(10, le32(group_id(0, 0, 2))), (10, le32(group_id(0, 4095, 2))), (10, le32(group_id(15, 100, 2)))])
    s.note("Values of table 20: ports, VLANs, EtherTypes, any MAC; 30 alone is where it goes.")
    stop = termination(27)
    s.changed(3, stop, [(6, le32(n)) for n in [0, PORTS + 1, 0x10001]] + [(14, be16(n)) for n in [0, 4095, 65535]])
    s.changed(3, stop, [(23, be16(n)) for n in [0, 0x0008, 0x0806, 0x8100, 0x86DC, 0xDD86, 0xFFFF]])
    s.changed(3, stop, [(9, le16(n)) for n in [0, 10, 20, 40, 50, 60, 0x1E00]] + [(24, bytes(6))])
    s.changed(4, stop, [(6, le32(PORTS)), (14, be16(1)), (14, be16(4094)), (23, be16(IPV6)), (24, b"\xff" * 6)])
    s.note("Values of table 30: each prefix length of IPv4, masks that are none, the edges of unicast, GOTO_TBL, groups of other types.")
    for ones in range(33):
        s.command(4 if ones else 3, route(28, f"10.1.2.3/{ones}"))
    old = route(28, "10.1.2.3/24")
    s.changed(4, old, [(37, bytes.fromhex(mask)) for mask in ["ffffff01", "fffffeff", "7fffffff", "00ffffff", "000000ff", "fffffffd", "ff00ff00"]])
    s.changed(4, old, [(36, bytes([first, 1, 2, 3])) for first in [0, 1, 127, 223, 224, 239, 240, 255]])
    s.changed(4, old, [(9, le16(n)) for n in [0, 10, 20, 30, 50, 0x3C00]] + [(10, le32(group_id(kind, 100, 2))) for kind in range(6)])
    s.note("The same with IPv6; then the fields of the other EtherType, of any width and twice, and an ETHERTYPE that is not theirs.")
    six = route(28, "2001:db8::1/64", group=7)
    for ones in [0, 1, 31, 32, 33, 63, 65, 127, 128]:
        s.command(4, route(28, f"2001:db8::1/{ones}"))
    s.changed(4, six, [(39, six[39][:at] + bytes([bits]) + six[39][at + 1:]) for at, bits in [(0, 0xFE), (7, 0xFD), (8, 0x01), (8, 0x40), (15, 1)]])
    s.changed(4, six, [(38, bytes([first]) + six[38][1:]) for first in [0, 1, 223, 224, 254, 255]])
    for more in [(38, bytes(16)), (39, bytes(16)), (38, b""), (39, bytes(4))]:
        s.run(payload(4, listed(old) + [tlv(*more)]))
        s.run(payload(4, listed(old) + [tlv(*more), tlv(*more)]))
    for more in [(36, bytes(4)), (37, bytes(4)), (36, b""), (37, bytes(16))]:
        s.run(payload(4, [tlv(*more)] + listed(six)))
    s.changed(4, old, [(23, be16(IPV6))])
    s.changed(4, six, [(23, be16(IPV4))])
    s.run(payload(4, listed(old | six)))
    s.note("Fields of another table are skipped, also twice or of another width.")
    s.run(payload(3, listed(ingress(25)) + [tlv(14, b""), tlv(14, b"\1"), tlv(10, b"x"), tlv(24, b"")]))
    s.run(payload(3, listed(bridge(26)) + [tlv(6, b""), tlv(6, le32(1)), tlv(7, b"x"), tlv(43, b"xy")]))


def group_payloads(s):
    shapes = [("type 0", interface(200, 3, 1)), ("type 0, the host", interface(200, 0)),
              ("type 3", several(3, 200, 7, [1, 2, 3])), ("type 4", several(4, 200, 7, [4, 2, 0, 8])),
              ("type 2", neighbour(7, 200, 3))]
    for name, fields in shapes:
        s.note(f"Groups of {name}: mod of none, add, add again, mod, each fault of each field, del, del again.")
        for command in [8, 7, 7, 8]:
            s.command(command, fields)
        s.faults(8, fields)
        s.run(payload(7, listed(fields) + [tlv(6, b""), tlv(19, b"x")]))
        for _ in range(2):
            s.command(9, {10: fields[10]})
    s.note("Other types and VLANs, in add and in del; del does not look at the low bits' range.")
    for kind, vid in [(1, 200), (5, 200), (6, 200), (15, 200), (0, 0), (0, 4095), (3, 0), (4, 4095)]:
        s.command(7, interface(200, 3) | several(3, 200, 7, [1]) | {10: le32(group_id(kind, vid, 3))})
        s.command(9, {10: le32(group_id(kind, vid, 3))})
    s.command(9, {10: le32(group_id(0, 200, 0xFFFF))})
    s.command(9, {})
    s.note("Type 2: any index, a VLAN from 1 to 4094, and a lower group of type 0 and that VLAN, which need not be there.")
    for index in [0, 0xFFFF, 0x10000, 0xFFF0000, 0xFFFFFFF]:
        s.command(7, neighbour(index, 200, 3))
    base = neighbour(0, 200, 3)
    s.changed(8, base, [(11, le32(group_id(kind, 200, 3))) for kind in [1, 2, 3, 4, 8, 15]])
    s.changed(8, base, [(11, le32(group_id(0, vid, 3))) for vid in [0, 199, 201, 4095]] + [(11, le32(group_id(0, 200, 0xFFFF)))])
    for vid in [0, 1, 4094, 4095]:
        s.command(8, neighbour(0, vid, 3))
    s.changed(8, base, [(24, bytes(6)), (24, b"\xff" * 6), (26, bytes(6)), (26, b"\xff" * 6), (14, be16(0x10C8))])
    s.note("Neither table 50 nor a list takes one.")
    s.command(3, bridge(30, mac="0200000000aa", group=2 << 28 | 0))
    s.command(7, several(3, 200, 8, [1]) | {13: members([2 << 28 | 200 << 16 | 1])})
    s.command(9, {10: le32(2 << 28 | 0xFFF0000)})
    s.command(9, {10: le32(2 << 28 | 0xFFF0000)})
    s.note("Values of type 0: OUT_PPORT and the low bits, POP_VLAN.")
    base = interface(200, 3)
    s.changed(7, base, [(8, le32(2)), (8, le32(0x10003)), (43, b"\2"), (43, b"\xff")])
    for low in [PORTS, PORTS + 1, 62, 63, 0xFFFF]:
        s.command(7, {8: le32(low), 10: le32(group_id(0, 201, low)), 43: b"\0"})


def member_payloads(s):
    s.note("Members: the count 0, 63, more and fewer than there are; 62 members, and 63.")
    base = several(3, 300, 1, [1, 2, 3])
    s.changed(7, base, [(12, le16(n)) for n in [0, 1, 2, 4, 62, 63, 65535]])
    s.command(7, several(3, 300, 62, range(1, 63)))
    s.command(7, several(3, 300, 63, range(1, 64)))
    s.note("A member twice, of another VLAN, of type 3, of VLAN 0; numbers from 0, out of order, one left out, of another width.")
    one, two, three = (le32(group_id(0, 300, n)) for n in [1, 2, 3])
    for third in [two, le32(group_id(0, 301, 3)), le32(group_id(3, 300, 3)), le32(group_id(0, 0, 3)), three + b"\0", b"\3", b""]:
        s.command(7, base | {13: tlv(1, one) + tlv(2, two) + tlv(3, third)})
    for kinds in [(0, 1, 2), (2, 1, 3), (1, 3, 2), (1, 2, 4), (1, 1, 2), (1, 2, 99)]:
        s.command(7, base | {13: b"".join(tlv(k, v) for k, v in zip(kinds, [one, two, three]))})
    s.note("GROUP_IDS ill formed or empty; a member beyond the ports is only named.")
    s.changed(7, base, [(13, b""), (13, members([1])[:-4]), (13, members([group_id(0, 300, 1)]) + bytes(4))])
    s.command(7, several(4, 300, 2, [1, 0xFFFF, 63]))


def length_payloads(s):
    s.note("A length counts the header: under 8 is ill formed. Type 99 at the top, 16 bytes of it, with lengths 0 to 17: 9 to 16 are OK.")
    good = interface(500, 1)
    nest = b"".join(listed(good))
    s.command(7, good)
    for length in range(18):
        s.run(payload(8, [nest]) + with_length(99, length, bytes(8)))
    s.note("The same without value, 8 bytes of it: 8 alone is OK. Then both in CMD_INFO, before and behind the fields.")
    for length in range(10):
        s.run(payload(8, [nest]) + with_length(99, length))
    for length in (0, 7, 8, 9, 16, 17):
        for value in (b"", bytes(8)):
            s.run(payload(8, [with_length(99, length, value), nest]))
            s.run(payload(8, [nest, with_length(99, length, value)]))
    s.note("CMD_TYPE and CMD_INFO with other lengths than 10 and 56, then each field of the nest with other lengths than its own.")
    for length in (0, 2, 7, 8, 9, 11, 16, 17, 65535):
        s.run(with_length(1, length, le16(8)) + tlv(2, nest))
    for length in (0, 7, 8, 48, 55, 57, 64, 65535):
        s.run(tlv(1, le16(8)) + with_length(2, length, nest))
    for kind, value in good.items():
        rest = [tlv(k, v) for k, v in good.items() if k != kind]
        for length in (0, len(value), 7, 8, 8 + len(value), 9 + len(value), 65535):
            s.run(payload(8, [*rest, with_length(kind, length, value)]))


def member_lengths(s):
    s.note("A member's length: 12 alone is OK. GROUP_IDS' own: 40 alone. A third TLV behind two members, of length 8 and of 0.")
    flood = several(4, 500, 1, [1, 2])
    s.command(7, flood)
    one, two = le32(group_id(0, 500, 1)), le32(group_id(0, 500, 2))
    for length in (0, 4, 7, 8, 9, 11, 12, 13, 16):
        s.command(8, flood | {13: tlv(1, one) + with_length(2, length, two)})
        s.command(8, flood | {13: with_length(1, length, one) + tlv(2, two)})
    for length in (0, 7, 8, 24, 32, 39, 40, 41, 65535):
        s.run(payload(8, [tlv(10, flood[10]), tlv(12, flood[12]), with_length(13, length, flood[13])]))
    for length in (0, 8):
        s.command(8, flood | {13: flood[13] + with_length(3, length)})
    s.note("A nest that is not used is not walked: such a GROUP_IDS in a group of type 0, in a flow and in a del.")
    spoiled = tlv(13, with_length(1, 0))
    for command, fields in [(8, interface(500, 1)), (3, ingress(500)), (5, {5: le64(500)})]:
        s.run(payload(command, [*listed(fields), spoiled]))


def old_lengths(s):
    good = interface(500, 1)
    s.note("Commands in the old meaning, where a length counts the value alone, are ill formed; so is each with one such length.")
    for command, fields in [(8, good), (8, several(4, 500, 1, [1, 2], 0)), (3, ingress(501)), (5, {5: le64(500)}), (9, {10: good[10]})]:
        s.run(payload(command, listed(fields, 0), 0))
    for header in [(0, 8, 8), (8, 0, 8), (8, 8, 0)]:
        s.run(tlv(1, le16(8), header[0]) + tlv(2, b"".join(listed(good, header[2])), header[1]))
    s.command(8, several(4, 500, 1, [1, 2], 0))


def descriptor_faults(s):
    s.note("Descriptor faults: BUF_ADDR 4 off, its end beyond memory and far beyond, TLV_SIZE over BUF_SIZE, over 4,096.")
    data = payload(7, listed(interface(400, 1)))
    for at in [0x8004, 0x8001, 65536 - 64, 65536, 1 << 63, 0xFFFFFFFFFFFFFFF8, 0xFFFFFFFFFFFFFFFF]:
        s.run(data, at=at)
    s.run(data, buf=len(data) - 1)
    s.run(data, buf=0)
    s.run(data, buf=4097, tlvs=4097)
    s.run(data, buf=0x7000, tlvs=0x6FFF)
    s.run(data, at=0x8004, buf=0, tlvs=65535)
    s.run(data, buf=4096, tlvs=4097)
    s.note("A payload of 4,096 bytes, most of it skipped; an empty one at the end of memory; an empty one with BUF_SIZE 0.")
    s.run(data + tlv(99, bytes(4096 - len(data) - 8)))
    s.run(b"", at=65536)
    s.run(b"", at=0, buf=0)
    s.note("A payload that lies over its own descriptor, recorded as it was before the completion.")
    slot = s.head
    s.run(b"", at=s.base + 32 * slot, buf=32, tlvs=32)
    s.add(f"peek {s.base + 32 * slot:#x} 32")


def any_route(cookie, priority):
    return route(cookie, f"10.{cookie % 256}.2.3/{cookie % 33}" if priority % 2 else f"2001:db8::{cookie % 256}/{cookie % 129}", priority)


def full_tables(s):
    s.note("A device reset empties the tables; then 256 flows, one more, an add of a live one, a mod, a del and again one more.")
    s.add("write 4 0x300 1")
    s.ring(0, 16)
    for n in range(256):
        s.command(3, [ingress, vlan, bridge, termination, any_route][n % 5](n * 0x101, priority=n))
    s.command(3, ingress(0x1000000))
    s.command(3, ingress(255 * 0x101))
    s.command(4, bridge(255 * 0x101, vid=9))
    s.command(3, ingress(0x1000000) | {9: le16(1)})
    s.command(5, {5: le64(17 * 0x101)})
    s.command(3, ingress(0x1000000))
    s.command(3, ingress(0x1000001))
    s.note("The same with 128 groups.")
    for n in range(128):
        s.command(7, interface(1 + n, n % (PORTS + 1)) if n % 2 else neighbour(n, 1 + n, 1) if n % 8 == 6 else
                  several(3 + n // 2 % 2, 1 + n, n, [1, 2, 3]))
    s.command(7, interface(1000, 1))
    s.command(7, interface(128, 127 % (PORTS + 1)))
    s.command(8, interface(128, 127 % (PORTS + 1), 1))
    s.command(9, {10: le32(group_id(3, 1, 0))})
    s.command(7, interface(1000, 1))
    s.command(7, interface(1001, 1))


def payloads_run():
    s = Script()
    s.note("Payloads through the ring: a record's first two bytes are 0x8000 and the status.")
    for block in [top_faults, flow_payloads, flow_values, group_payloads, member_payloads, length_payloads, member_lengths, old_lengths,
                  descriptor_faults, full_tables]:
        block(s)
    s.add("read 4 0x1018", "read 4 0x1010", "header 6")
    return s


# ---- frames_run

def frame(mac, tag=None, length=64, source="020000000099"):
    head = bytes.fromhex(mac + source)
    head += (b"\x81\x00" + be16(tag)) if tag is not None else b"\x08\x00"
    return (head + bytes(n % 251 for n in range(length)))[:length]


UNICAST, OTHER, MANY, HOST = "0200000000aa", "0200000000bb", "0300000000cc", "0200000000dd"


def send(s, ports, data, *lists):
    for port in ports:
        s.add(" ".join(["frame", str(port), data.hex() or "-"] + [str(n) for n in lists]))


def frame_tables(s):
    s.note("Groups of VLAN 100: ports 1 to 5 and the host, with POP_VLAN at 3; multicast with a missing member; flood.")
    for port in range(6):
        s.command(7, interface(100, port, int(port == 3)))
    s.command(7, several(3, 100, 1, [2, 7, 3, 6, 0]))
    s.command(7, several(4, 100, 1, [5, 4, 3, 2, 1, 0]))
    s.note("Table 10: VLAN 100 tagged at ports 1 to 4, untagged to VLAN 100 at 1 and to 200 at 2.")
    for port in range(1, 5):
        s.command(3, vlan(100 + port, port=port))
    s.command(3, vlan(111, port=1, vid=0, new=100))
    s.command(3, vlan(112, port=2, vid=0, new=200))
    s.note("Table 50: unicast, multicast, flood, a group that is missing, and no group.")
    s.command(3, bridge(501, priority=5, mac=UNICAST, group=group_id(0, 100, 2)))
    s.command(3, bridge(502, priority=5, mac=MANY, group=group_id(3, 100, 1)))
    s.command(3, bridge(503, priority=1, group=group_id(4, 100, 1)))
    s.command(3, bridge(504, priority=5, mac=HOST, group=group_id(0, 100, 0)))
    s.command(3, bridge(505, priority=5, mac="0200000000ee", group=group_id(0, 100, 77)))
    s.command(3, bridge(506, priority=5, mac="0200000000ff"))
    s.command(3, bridge(507, priority=5, mac="0200000000fe", group=group_id(0, 100, 2), goto=0))


def frame_shapes(s):
    macs = [UNICAST, OTHER, MANY, HOST, "0200000000ee", "0200000000ff", "0200000000fe", "ffffffffffff"]
    for mac in macs:
        s.note(f"To {mac}: tagged 100, untagged, tagged 0, tagged 101; ports 1 to 5.")
        send(s, range(1, 6), frame(mac, tag=100))
        send(s, [1, 2, 3], frame(mac))
        send(s, [1, 2, 3], frame(mac, tag=0))
        send(s, [1], frame(mac, tag=101))
    s.note("The tag's upper four bits are not looked at.")
    send(s, [1], frame(UNICAST, tag=0xF064))
    send(s, [1], frame(UNICAST, tag=0xE000))
    s.note("Lengths: 13, 14 and 17 tagged are no frames or too short; 14 untagged, 18 tagged, 9,216 are; 9,217 is none.")
    for length in [0, 1, 12, 13, 14, 17, 18, 9216, 9217]:
        send(s, [1], frame(UNICAST, tag=100, length=length))
        send(s, [1], frame(UNICAST, length=length))
    s.note("Lists of 557, 558, 1,024 and none; ports that are not there, unshortened.")
    for length in [0, 186, 557, 558, 559, 1024]:
        send(s, [1], frame(OTHER, tag=100), length)
    send(s, [0, PORTS + 1, 62, 63, 0x100000001, (1 << 64) - 1], frame(OTHER, tag=100))
    s.note("Several faults: the lower number is given.")
    send(s, [9], frame(OTHER, tag=100, length=13), 557)
    send(s, [1], frame(OTHER, tag=100, length=13), 557)


def frame_ports(s):
    flood, one = frame(OTHER, tag=100), frame(UNICAST, tag=100)
    s.note("Port 2 down, port 3 not enabled, then the other way round, then the ingress port itself.")
    s.add("link 2 0", "write 8 0x318 0x1f7")
    send(s, [1, 2, 3, 4], flood)
    send(s, [1], one)
    s.add("link 2 1", "write 8 0x318 0x1fb")
    send(s, [1, 2, 3, 4], flood)
    send(s, [1], one)
    s.add("link 1 0")
    send(s, [1, 4], flood)
    s.add("link 1 1", "write 8 0x318 0")
    send(s, [1, 4], flood)
    s.add("write 8 0x318 0x1ff")
    s.note("The only copy would go to the ingress port.")
    send(s, [2], one)


def frame_priorities(s):
    flood, one = frame(OTHER, tag=100), frame(UNICAST, tag=100)
    s.note("Table 50: a tie goes to the lower cookie, a higher priority wins over it; a mod of the priority.")
    s.command(3, bridge(400, priority=5, mac=UNICAST, group=group_id(0, 100, 3)))
    send(s, [1], one)
    s.command(3, bridge(900, priority=6, mac=UNICAST, group=group_id(0, 100, 4)))
    send(s, [1], one)
    s.command(4, bridge(900, priority=4, mac=UNICAST, group=group_id(0, 100, 4)))
    send(s, [1], one)
    s.command(4, bridge(503, priority=0xFFFFFFFF, group=group_id(4, 100, 1)))
    send(s, [1], one)
    s.command(4, bridge(503, priority=1, group=group_id(4, 100, 1)))
    s.note("Table 10: a higher priority with GOTO_TBL 0 drops; a tie with a lower cookie drops, with a higher one does not.")
    s.command(3, vlan(300, priority=1, goto=0))
    send(s, [1, 2], one)
    s.command(4, vlan(300, priority=0, goto=0))
    send(s, [1, 2], one)
    s.command(5, {5: le64(300)})
    s.command(3, vlan(50, priority=0, goto=0))
    send(s, [1, 2], one)
    s.command(5, {5: le64(50)})
    s.note("Table 0: a mask of 0 drops all, bit 0 the odd ports, all bits port 2; GOTO_TBL 10 of higher priority lets one by.")
    for port, mask in [(1, 0), (1, 1), (2, 0xFFFFFFFF), (0x10002, 0xFFFF)]:
        s.command(3, ingress(7, port=port, mask=mask, goto=0))
        send(s, [1, 2, 3, 4], flood)
        s.command(3, ingress(8, priority=1, port=2, mask=2, goto=10))
        send(s, [1, 2, 3, 4], flood)
        s.command(5, {5: le64(8)})
        s.command(5, {5: le64(7)})
    s.note("Members go and come back.")
    s.command(9, {10: le32(group_id(0, 100, 3))})
    send(s, [1], flood)
    s.command(7, interface(100, 3, 0))
    send(s, [1], flood)
    s.command(9, {10: le32(group_id(4, 100, 1))})
    send(s, [1], flood)


def routed(to, tag=None, length=None, mac="029900000001", source="020000000099", ethertype=None):
    """A frame to the router, for an address; length counts the bytes after the EtherType."""
    kind, address, _ = prefix(to)
    body = (bytes([0x45]) + bytes(n for n in range(1, 16)) if kind == IPV4 else bytes([0x60]) + bytes(range(1, 24))) + address
    head = bytes.fromhex(mac + source) + (b"\x81\x00" + be16(tag) if tag is not None else b"")
    body += bytes(max(0, (length or 0) - len(body)))
    return head + be16(kind if ethertype is None else ethertype) + body[:length]


def frame_routes(s):
    s.note("Routed: from VLAN 100, tagged and untagged at port 1, tagged at 2; neighbours in VLAN 300 behind ports 1 to 4 and the host.")
    for port in [0, 1, 2, 3, 4]:
        s.command(7, interface(300, port, int(port == 3)))
        s.command(7, neighbour(port, 300, port, destination=f"0211000000{port:02x}"))
    s.command(7, neighbour(9, 300, 9))
    for k, (port, kind) in enumerate([(1, IPV4), (1, IPV6), (2, IPV4), (2, IPV6)]):
        s.command(3, termination(600 + k, port=port, ethertype=kind))
    addresses = ["10.1.2.3", "10.1.2.4", "10.1.3.3", "10.2.2.3", "11.1.2.3", "239.1.2.3", "2001:db8::1", "2001:db8::2", "2001:db9::1", "ff02::1"]
    s.note("No route: all are dropped, also those to the router's MAC that a flood would take.")
    for to in addresses:
        send(s, [1], routed(to))
    routes = [("10.1.2.3/32", 4), ("10.1.2.0/24", 3), ("10.1.0.0/16", 2), ("10.0.0.0/8", 0), ("0.0.0.0/0", 1),
              ("2001:db8::1/128", 4), ("2001:db8::/64", 3), ("2001:db8::/32", 2), ("::/0", 0)]
    for k, (to, group) in enumerate(routes):
        s.note(f"A route to {to} over neighbour {group}: the higher the prefix the lower its PRIORITY.")
        s.command(3, route(700 + k, to, priority=k, group=group))
        for address in addresses:
            send(s, [1], routed(address))
    s.note("Tagged, from port 2, of VLANs 101 and 0, from port 3 and to another MAC: the last two are bridged.")
    for to in addresses[:1] + addresses[6:7]:
        send(s, [1, 2, 3], routed(to, tag=100))
        send(s, [1, 2], routed(to, tag=0xF064))
        send(s, [1], routed(to, tag=101))
        send(s, [1], routed(to, tag=0))
        send(s, [1], routed(to, mac=UNICAST))
        send(s, [1], routed(to, ethertype=0x0806))
        send(s, [1], routed(to, tag=100, ethertype=0x8100))
    s.note("Lengths after the EtherType: 0, 18 to 21, 38 to 41, with and without a tag.")
    for to in ("10.9.9.9", "2001:db8::77"):
        for length in [0, 18, 19, 20, 21, 22, 36, 38, 39, 40, 41]:
            send(s, [1], routed(to, length=length))
            send(s, [1], routed(to, tag=100, length=length))
    s.note("A neighbour behind a port that is down or not enabled; and the ingress port, which takes routed frames.")
    s.add("link 3 0", "write 8 0x318 0x1ef")
    for to in addresses:
        send(s, [1], routed(to))
    s.add("link 3 1", "write 8 0x318 0x1ff")
    send(s, [1, 2], routed("11.1.2.3", tag=100))
    s.note("Ties of one prefix: the highest PRIORITY, then the lower cookie; a longer prefix without group, with GOTO_TBL 0, without its group.")
    s.command(3, route(690, "10.1.2.99/24", priority=0, group=1))
    send(s, [1], routed("10.1.2.4"))
    s.command(4, route(690, "10.1.2.99/24", priority=1, group=1))
    send(s, [1], routed("10.1.2.4"))
    s.command(4, route(690, "10.1.2.99/24", priority=0x80000000, group=0))
    send(s, [1], routed("10.1.2.4"))
    for changed in [route(690, "10.1.2.4/30", group=None), route(690, "10.1.2.4/31", group=3, goto=0), route(690, "10.1.2.4/32", group=77),
                    route(690, "10.1.2.4/32", group=9), route(690, "10.1.2.4/32", group=2)]:
        s.command(4, changed)
        send(s, [1], routed("10.1.2.4"))
    s.note("The neighbour's port changes, its lower group goes and comes back, then the neighbour itself.")
    for command, fields in [(8, neighbour(2, 300, 3, source="0203040506aa", destination="ffeeddccbbaa")), (9, {10: le32(group_id(0, 300, 3))}),
                            (7, interface(300, 3, 0)), (9, {10: le32(2 << 28 | 2)})]:
        s.command(command, fields)
        send(s, [1], routed("10.1.2.4"))
    for cookie in [*range(600, 604), 690, *range(700, 709)]:
        s.command(5, {5: le64(cookie)})
    s.note("Without the flows of table 20 the same frames are bridged.")
    send(s, [1], routed("10.1.2.4"))


def large_group(s):
    s.note("A new device of 62 ports, all up and enabled, and a flood group of 62 members; then one without the host.")
    s.add("fresh 63 1", "fresh 62 1", "write 8 0x318 0xffffffffffffffff")
    s.ring(0, 8)
    for port in range(1, 63):
        s.add(f"link {port} 1")
    for port in range(63):
        s.command(7, interface(4094, port, port % 2))
    s.command(7, several(4, 4094, 1, range(62)))
    s.command(3, vlan(1, port=62, vid=0, new=4094))
    s.command(3, vlan(2, port=30, vid=4094))
    s.command(3, bridge(3, vid=4094, group=group_id(4, 4094, 1)))
    send(s, [62], frame(OTHER))
    send(s, [62], frame(OTHER), 558)
    send(s, [62], frame(OTHER), 557)
    send(s, [62], frame(OTHER), 1024)
    send(s, [30], frame(OTHER, tag=4094))
    s.command(8, several(4, 4094, 1, range(62, 0, -1)))
    send(s, [30], frame(OTHER, tag=4094))
    s.add("link 62 0")
    send(s, [30, 62], frame(OTHER, tag=4094))


def frames_run():
    s = Script()
    s.note("All links up but those of 6 to 8, all ports enabled.")
    for port in range(1, 6):
        s.add(f"link {port} 1")
    s.note("With empty tables every frame is dropped at table 10.")
    s.add("write 8 0x318 0xffffffffffffffff", "read 8 0x318", "read 8 0x310")
    send(s, [1], frame(OTHER, tag=100))
    for block in [frame_tables, frame_shapes, frame_ports, frame_routes, frame_priorities, large_group]:
        block(s)
    return s


# ---- incident_run

def wrapped(s, base, size, rounds):
    s.note(f"A ring of size {size} at {base:#x}, {rounds} times around: as many posts as fit, then work until it answers 3.")
    s.ring(base, size)
    for n in range(rounds):
        for k in range(size - 1):
            flow = payload(3, listed(ingress(0x2000 + 16 * n + k))) if (n + k) % 2 else payload(5, listed({5: le64(0x2000 + 16 * n + k)}))
            s.post(flow, place=0x8000 + 256 * k)
        s.note("One more does not fit.")
        s.add(f"write 4 0x100c {(s.head + 1) % size}", "read 4 0x100c")
        for _ in range(size):
            s.add("work 65536")
        s.add("read 4 0x1010", "read 4 0x1018", f"peek {base:#x} {32 * size}")
    s.add("write 4 0x1018 1", "write 4 0x1018 65535", "read 4 0x1018")


def incident_run():
    s = Script()
    s.note("The header, then one flow change: posted once, with the descriptor before it is consumed.")
    s.add("header 6", "header 5")
    s.post(payload(3, listed(ingress(0xC0FFEE))))
    s.add("peek 0x0 64")
    s.note("The driver writes the same HEAD eighteen times more.")
    s.add(*["write 4 0x100c 1"] * 18)
    s.note("Work until it answers 3: one record, one completion, one credit.")
    s.add(*["work 65536"] * 2, "read 4 0x1018", "read 4 0x1010")
    s.note("Of the descriptor only COMP_ERR, bytes 30 and 31, has changed.")
    s.add("peek 0x0 64")
    s.note("Again after the change: nothing is posted, so nothing is consumed.")
    s.add(*["write 4 0x100c 1"] * 18, "work 65536", "peek 0x0 64", "read 4 0x1018", "write 4 0x1018 1", "read 4 0x1018")
    s.note("Too short a buffer leaves the slot where it is.")
    s.post(payload(3, listed(ingress(0xC0FFEE))))
    s.add("work 0", "work 5", "work 6", "work 125", "peek 0x20 32", "work 126", "peek 0x20 32")
    wrapped(s, 0x1000, 2, 5)
    wrapped(s, 0x2000, 8, 3)
    s.add("header 65536")
    return s


# ---- The first part of the console's own script: lines that are no calls, and the edges of the protocol

def edges():
    s = Script.__new__(Script)
    s.lines = []
    s.note("Device calls before the first device, and before an accepted one: nothing is printed but the answer of fresh.")
    calls = ["link 1 1", "read 4 0", "write 4 0x10 1", "work 64", "frame 1 -", "header 6"]
    s.add(*calls, "fresh 0 1", "fresh 63 1", "fresh 0x10000003e 1", *calls, "peek 0 0", "peek 0 1", "poke 0 -", "poke 1 -")
    s.add("memory 1048577", "memory 0x100000000", "memory", "memory 1 1", "memory -1", "memory 64", "fresh 62 18446744073709551615", "", *calls)
    s.note("Numbers: decimal, 0x, leading zeros, over 64 bits, malformed.")
    for word in ["0x10", "16", "0x0000000000000000000000010", "00000000000000000000000000016", "0X10", "0x", "0x1g", "1a", "+16", "-16", "",
                 "16 ", " 16", "0x10000000000000010", "18446744073709551632", "18446744073709551615", "0xFFFFFFFFFFFFFFFF", "0xabCDef"]:
        s.add(f"read 4 {word}", f"write 8 0x18 {word}", "read 8 0x18")
    s.note("Bytes: upper and lower case, odd, none, other letters; inside memory and one beyond.")
    for word in ["aAbB09fF", "a", "abc", "-", "--", "", "0g", "zz", "- ", "0x00", "00" * 64, "11" * 65]:
        s.add(f"poke 0 {word}", "peek 0 64")
    for at, size in [(60, 4), (60, 5), (64, 0), (65, 0), (0, 64), (0, 65), (1, 64), ((1 << 64) - 1, 1), ((1 << 64) - 1, 0)]:
        s.add(f"peek {at} {size}")
    s.add("poke 62 0102", "poke 63 0304", "poke 0xffffffffffffffff 05", "poke 64 -", "poke 65 -", "peek 60 4")
    s.note("Other words, too many and too few, and calls with a wrong name.")
    s.add("read 4", "read 4 0 0", "read", "Read 4 0", "reads 4 0", " read 4 0", "write 4 0", "write 4 0 0 0", "link 1", "link 1 2", "link 1 0x1",
          "link 1 01", "work", "work 65537", "work 65536 1", "header 65537", "header", "header 65536", "header 0", "frame", "frame 1", "frame 1 -",
          "frame 1 - 1025", "frame 1 - 1024", "frame 1 - 558 1", "frame 0x100000001 -", "call 1", "#", "#read 4 0", "-", "peek")
    s.note("A line of 65,535 bytes is taken, one more is not, whatever it begins with.")
    s.add("memory 1048576", "poke 0 " + "ab" * 32764, "poke 0 " + "cd" * 32765, "peek 0 4", "#" * 65535, "#" * 65536, "peek 32760 8", "peek 1048575 1")
    s.note("A smaller memory, and a larger one again: every byte is 0.")
    s.add("memory 4", "peek 0 4", "poke 0 01020304", "peek 0 5", "memory 8", "peek 0 8", "memory 1048576", "peek 32760 8", "memory 0", "peek 0 0", "peek 0 1")
    s.note("CR LF ends a line too: one CR directly before the LF is no part of it, any other is. It counts to the 65,535 bytes.")
    s.add("read 8 0x0\r", "read 8 0x0\r\r", "read\r 8 0x0", "read 8\r 0x0\r", "\rread 8 0x0", "memory 32768\r", "poke 0 0a0b\r", "poke 1 0c\r\r", "peek 0 4\r",
          "# a comment\r", "#\r", "poke 00 " + "ab" * 32763 + "\r", "peek 0 4", "poke 0 " + "cd" * 32764 + "\r", "peek 0 4", "header 6\r", "memory 0\r")
    return s


# ---- The last part: as many credits as there may be

def credits():
    s = Script.__new__(Script)
    s.lines = []
    s.note("All of the largest memory is a ring of empty descriptors. 65,536 are consumed, in three rounds, and no credit is returned.")
    s.add("memory 1048576", "fresh 1 1")
    s.ring(0, 32768)
    for head, slots in [(32767, 32767), (32766, 32767), (0, 2)]:
        s.add(f"write 4 0x100c {head}", *["work 6"] * slots)
    s.add("read 4 0x1018", "read 4 0x1010")
    s.note("Nothing is posted: 3. Then 4, also with no room, and with the descriptor outside memory.")
    s.add("work 6", "write 4 0x100c 2", "work 6", "work 0", "memory 31", "work 6", "work 0", "read 4 0x1018")
    s.note("One credit more than there are cannot be returned; none can, and one: then 5, 6, one slot more and 4 again.")
    s.add("write 4 0x1018 65537", "write 4 0x1018 0", "work 6", "write 4 0x1018 1", "work 6", "memory 64", "work 5", "work 6", "work 6",
          "read 4 0x1018")
    s.note("SIZE and BASE_ADDR keep the credits; all of them returned, and a ring reset.")
    s.add("write 4 0x1008 2", "write 8 0x1000 32", "work 6", "write 4 0x100c 1", "work 6", "write 4 0x1018 65536", "work 6", "read 4 0x1018",
          "write 4 0x1014 1", "read 4 0x1018", "write 4 0x1018 1")
    return s


if __name__ == "__main__":
    script = {"payloads_run": payloads_run, "frames_run": frames_run, "incident_run": incident_run, "edges": edges,
              "credits": credits}[sys.argv[1]]()
    print("\n".join(script.lines))
