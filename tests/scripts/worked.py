#!/usr/bin/env python3
"""Writes the script of worked_run: worked examples of document 01 and of requests 2026-02 and 2026-03, each behind a comment that says what it
shows. They are chosen so that a reader who takes one sentence in another sense gets another outcome (tests/misreadings). worked.py >
crates/worked_run/stdin; the outcomes come from tests/model (tests/scripts/store)."""
import sys

sys.dont_write_bytecode = True
import make_scripts
from make_scripts import (IPV4, IPV6, Script, be16, bridge, group_id, ingress, interface, le16, le32, le64, listed, neighbour, payload, route,
                          routed, send, several, termination, tlv, vlan, with_length)

MEMORY, PORTS = 0x4000, 4
ALL = 0xFFFFFFFF

# The fields of CMD_INFO: type and width, that of the nest as one member has it.
WIDTHS = {1: 2, 2: 4, 3: 4, 4: 4, 5: 8, 6: 4, 7: 4, 8: 4, 9: 2, 10: 4, 11: 4, 12: 2, 13: 16, 14: 2, 19: 2, 23: 2, 24: 6, 26: 6, 36: 4, 37: 4,
          38: 16, 39: 16, 43: 1}
COMMON = (1, 2, 3, 4, 5, 9)


class Worked(Script):
    def __init__(self):
        super().__init__(MEMORY, 0, 8, PORTS, 0x0123456789ABCDEF)

    def run(self, data, place=0x2000, **how):
        super().run(data, place=place, **how)

    def tlvs(self, command, *fields):
        self.run(payload(command, fields))

    def fresh(self, ports=PORTS, up=0, enabled=0):
        """A new device with a ring of 8 at 0, some links up and some ports enabled, both as bitmaps."""
        self.add(f"fresh {ports} 0x0123456789abcdef")
        self.ring(0, 8)
        self.add(*[f"link {port} 1" for port in range(1, ports + 1) if up >> port & 1])
        if enabled:
            self.add(f"write 8 0x318 {enabled:#x}")

    def reads(self, *places):
        self.add(*[f"read {8 if place in (0x18, 0x310, 0x318, 0x320, 0x1000) else 4} {place:#x}" for place in places])

    def empty_slots(self, count):
        """Slots of zeros from 0 on: an empty payload each, which is EINVAL."""
        self.add(f"poke 0 {'00' * 32 * count}", f"write 4 0x100c {count}")
        self.head = count


def the_table(s):
    s.note("P1 to P4. A ring of 8 with HEAD 5 and TAIL 2: five slots without payload (EINVAL), two of them consumed.")
    s.empty_slots(5)
    s.add("work 6", "work 6")
    s.note("P2: HEAD 2 would make 8 outstanding. P4: HEAD 8 is not below SIZE, nor is 65,537. None moves HEAD or TAIL; TAIL is read only.")
    s.add("write 4 0x100c 2", "write 4 0x100c 8", "write 4 0x100c 65537", "write 4 0x1010 3")
    s.reads(0x100C, 0x1010)
    s.note("P3: HEAD 5 again posts nothing. Then P1: HEAD 1 goes around the end, 7 are outstanding; work 8 finds none.")
    s.add("write 4 0x100c 5")
    s.reads(0x100C, 0x1010)
    s.add(f"poke 0xa0 {'00' * 96}", "write 4 0x100c 1", *["work 6"] * 8)
    s.reads(0x100C, 0x1010, 0x1018)
    s.note("P8, P9: 9 credits. A write of 6 leaves some, so vector 0 is raised; of 3 then 4 are too many, and 3 leave none.")
    s.add("write 4 0x1018 6", "read 4 0x1018", "write 4 0x1018 4", "read 4 0x1018", "write 4 0x1018 0", "write 4 0x1018 3", "read 4 0x1018",
          "write 4 0x1018 0")
    s.note("P5, P6: SIZE 65,536 is taken, 3 is not; nor are 0, 1 and 131,072. A refused one leaves HEAD, TAIL, SIZE and CREDITS.")
    s.add("write 4 0x100c 2", "work 6")
    for size in (3, 0, 1, 131072):
        s.add(f"write 4 0x1008 {size}")
    s.reads(0x1008, 0x100C, 0x1010, 0x1018)
    s.add("write 4 0x1008 65536")
    s.reads(0x1008, 0x100C, 0x1010, 0x1018)
    s.add("write 4 0x1008 2", "read 4 0x1008")
    s.note("P7: TEST_REG shows twice the value in 32 bits. A write at 0x0000 does nothing, to it neither.")
    s.add("write 4 0x10 0x80000001", "read 4 0x10", "write 4 0 5", "read 4 0x10", "write 8 8 6", "read 4 0x10")
    s.note("8 bytes over SIZE are no access, whatever the value: 1 comes before 2.")
    s.add("write 8 0x1008 3", "write 8 0x1008 8", "write 2 0x1008 3")


def change(kind, info, group, port, pop):
    """The payload of document 01, with these lengths."""
    nest = with_length(10, group, le32(0x00050002)) + with_length(8, port, le32(2)) + with_length(43, pop, b"\1")
    return with_length(1, kind, le16(7)) + with_length(2, info, nest)


NEW, OLD = (0x0A, 0x38, 0x0C, 0x0C, 0x09), (0x02, 0x30, 0x04, 0x04, 0x01)  # its lengths in request 2026-02 and in document 01


def the_payload(s):
    s.fresh()
    s.note("The payload of document 01 with the lengths of document 01, and with each of them alone: EINVAL, nothing is added.")
    s.run(change(*OLD))
    for k in range(5):
        s.run(change(*NEW[:k], OLD[k], *NEW[k + 1:]))
    s.note("P12, P13: with those of request 2026-02, OK and then EEXIST; the descriptor's stamp. P14: EINVAL on a device of one port.")
    s.ring(0, 8)
    for _ in range(2):
        s.run(change(*NEW))
    s.add("peek 0 64")
    s.fresh(1)
    s.run(change(*NEW))
    s.note("P10: behind its fields a region may have a TLV of type 99 and length 8. P11: 4 bytes more, and it is ill formed; so it is with")
    s.note("length 0, 4 and 7 in the place of 8.")
    s.fresh()
    nest = b"".join(listed(interface(5, 2, 1)))
    for more in (tlv(99, b""), tlv(99, b"") + bytes(4), *[with_length(99, length) for length in (0, 4, 7)]):
        s.run(tlv(1, le16(7)) + tlv(2, nest + more))
        s.run(tlv(1, le16(8)) + tlv(2, nest) + more)


def the_lengths(s):
    good = interface(5, 2, 1)
    nest = b"".join(listed(good))
    s.fresh()
    s.tlvs(7, *listed(good))
    s.note("A TLV of 16 bytes whose type is not listed, with lengths 0, 7, 8, 9, 16, 17 and 65,535, at the top and in CMD_INFO: 9 and 16 are")
    s.note("its own. Of length 8 it would end before its last 8 bytes, and these have length 0.")
    for length in (0, 7, 8, 9, 16, 17, 65535):
        more = with_length(99, length, b"\1")
        s.run(more + tlv(1, le16(8)) + tlv(2, nest))
        s.run(tlv(1, le16(8)) + tlv(2, nest) + more)
        s.tlvs(8, nest, more)
    s.note("Of length 8 it ends before the next TLV; so it does in front of CMD_TYPE, and of the fields.")
    s.run(tlv(99, b"") + tlv(1, le16(8)) + tlv(99, b"") + tlv(2, tlv(99, b"") + nest + tlv(98, b"")))
    s.note("CMD_TYPE of lengths 0, 7, 8 and 9, with and without 8 bytes behind it; then POP_VLAN, which has 9.")
    for length in (0, 7, 8, 9):
        s.run(with_length(1, length, le16(8)) + tlv(2, nest))
        s.run(with_length(1, length) + tlv(2, nest))
    for length in (0, 1, 7, 8, 9, 10):
        s.tlvs(8, *listed(good)[:-1], with_length(43, length, b"\1"))
    s.tlvs(8, *listed(good)[:-1], tlv(43, b""))
    s.note("A whole TLV takes a multiple of 8 bytes, as its value does: lengths 15, 16 and 17 of type 99, with values of 7, 8 and 9 bytes.")
    for length in (15, 16, 17):
        s.tlvs(8, tlv(99, b"\1" * (length - 8)), nest)
    s.note("What stands behind the end of a region counts for nothing: two bytes of fill do not complete a header in CMD_INFO.")
    s.tlvs(8, nest, le32(99) + le16(8))
    s.tlvs(8, nest, le32(99) + le16(0))


def the_length_faults(s):
    s.fresh()
    s.tlvs(7, *listed(several(4, 5, 1, [1, 2])))
    s.note("Where a length under 8 stands in the order of faults: at the top before the command is looked at, in CMD_INFO after it and before")
    s.note("the table; of length 8 each is ENOTSUP.")
    for length in (7, 8):
        s.run(payload(6, []) + with_length(99, length))
        s.tlvs(6, with_length(99, length))
        s.tlvs(3, tlv(1, le16(40)), with_length(99, length))
    s.note("Members: the second of lengths 0, 4, 7, 8, 9 and 12, in an add of a group that is there and a mod of one that is not. Only 12 comes")
    s.note("as far as EEXIST and ENOENT.")
    one, two = le32(group_id(0, 5, 1)), le32(group_id(0, 5, 2))
    for length in (0, 4, 7, 8, 9, 12):
        nest = tlv(1, one) + with_length(2, length, two)
        s.tlvs(7, tlv(10, le32(group_id(4, 5, 1))), tlv(12, le16(2)), tlv(13, nest))
        s.tlvs(8, tlv(10, le32(group_id(4, 5, 2))), tlv(12, le16(2)), tlv(13, nest))
    s.note("No TLV of GROUP_IDS is skipped, one of length 8 neither; nor does one of length 0 end the list.")
    for length in (0, 8):
        s.tlvs(8, tlv(10, le32(group_id(4, 5, 1))), tlv(12, le16(2)), tlv(13, tlv(1, one) + tlv(2, two) + with_length(3, length)))
    s.note("Members in the old meaning, in a payload of the new one: EINVAL. A GROUP_IDS that is not used is not walked: type 0, flow, del.")
    s.tlvs(8, *listed(several(4, 5, 1, [1, 2], 0)))
    spoiled = tlv(13, with_length(1, 0))
    s.tlvs(7, *listed(interface(5, 1)), spoiled)
    s.tlvs(3, *listed(ingress(5)), spoiled)
    s.tlvs(5, tlv(5, le64(5)), spoiled)
    s.tlvs(9, tlv(10, one), spoiled)


def the_registers(s):
    s.note("SIZE keeps the latch of BASE_ADDR: the upper half then writes 0x40. It sets HEAD and TAIL to 0.")
    s.fresh()
    s.empty_slots(2)
    s.add("work 6", "write 4 0x1000 0x40", "write 4 0x1008 4")
    s.reads(0x1000, 0x100C, 0x1010, 0x1018)
    s.add("write 4 0x1004 0", "read 8 0x1000", "write 4 0x1000 0x48", "write 4 0x1008 4", "write 4 0x1004 1", "read 8 0x1000")
    s.note("CTRL clears that latch and all of the ring, but no other latch: the upper halves write 0, 0x50 and 0x6.")
    s.add(f"poke 0 {'00' * 128}", "write 4 0x18 0x50", "write 4 0x318 0x6", "write 8 0x1000 0x20", "write 4 0x100c 2", "work 6",
          "write 4 0x1000 0x80", "write 4 0x1014 2", "read 4 0x1008", "write 4 0x1014 1")
    s.reads(0x1000, 0x1008, 0x100C, 0x1010, 0x1018)
    s.add("write 4 0x1004 0", "write 4 0x1c 0", "write 4 0x31c 0")
    s.reads(0x1000, 0x18, 0x318)
    s.note("A refused BASE_ADDR keeps the latch and the ring: 0x14 is no multiple of 8, whole or from its halves. 0x18 is one.")
    s.ring(0, 8)
    s.empty_slots(2)
    s.add("work 6", "write 4 0x1000 0x14", "write 4 0x1004 0", "write 8 0x1000 0x14")
    s.reads(0x1000, 0x100C, 0x1010)
    s.add("write 4 0x1004 0", "write 4 0x1000 0x18", "write 4 0x1004 0")
    s.reads(0x1000, 0x100C, 0x1010, 0x1018)
    s.note("A device reset keeps ports, switch ID and links; all else, the latches too, is zero.")
    s.fresh(up=0b110, enabled=0b1110)
    s.add(f"poke 0 {'00' * 128}", "write 8 0x1000 0x20", "write 4 0x100c 2", "work 6", "write 4 0x10 3", "write 8 0x18 3", "write 4 0x18 8",
          "write 4 0x318 2", "write 4 0x1000 8", "write 4 0x300 2", "read 4 0x10", "write 4 0x300 1")
    s.reads(0x10, 0x18, 0x304, 0x310, 0x318, 0x320, 0x1000, 0x1008, 0x100C, 0x1010, 0x1018)
    s.add("write 4 0x1c 0", "write 4 0x31c 0", "write 4 0x1004 0")
    s.reads(0x18, 0x318, 0x1000)


def the_slot(s):
    good = payload(7, listed(interface(5, 2, 1)))
    again = payload(8, listed(interface(5, 2, 1)))
    size = len(good)
    s.fresh()
    s.note("The buffer's BUF_SIZE bytes have to be inside, not only its TLV_SIZE bytes: 72 up to the end of memory, then 80, then 73.")
    for buf in (size, size + 8, size + 1):
        s.run(again if buf > size else good, at=MEMORY - size, buf=buf, tlvs=size, place=MEMORY - size)
    s.note("An empty buffer at the end of memory is inside, one behind it is not; nor is one whose end wraps to 8, or one at 2^32.")
    for at, buf in ((MEMORY, 0), (MEMORY + 8, 0), (2**64 - 8, 16), (2**64 - 8, 8), (2**32 + 0x2000, size)):
        s.run(again, at=at, buf=buf, tlvs=buf if buf == size else 0)
    s.note("BUF_ADDR is a multiple of 8; of 4 or 2 it is ENXIO.")
    for at in (0x2008, 0x2004, 0x2002):
        s.run(again, at=at, buf=size, tlvs=size, place=at)
    s.note("Which fault is first: address, then TLV_SIZE over BUF_SIZE, then TLV_SIZE over 4,096. No payload is recorded.")
    for at, buf, tlvs in ((0x2004, 8, 9), (0x2004, 4097, 4097), (0x2004, 8, 4097), (0x2000, 8, 4097), (MEMORY - 8, 16, 17),
                          (MEMORY - 8, 4097, 4097)):
        s.run(b"", at=at, buf=buf, tlvs=tlvs)
    s.note("TLV_SIZE 4,095 is carried out and ill formed, 4,096 is OK, 4,097 is EMSGSIZE; BUF_SIZE may be greater.")
    s.add(f"poke 0x2000 {again.hex()}{tlv(99, bytes(4096 - size - 8)).hex()}")
    for buf, tlvs in ((4096, 4095), (4096, 4096), (4097, 4097)):
        s.run(b"", at=0x2000, buf=buf, tlvs=tlvs)
    s.note("It needs 4,102 bytes of room. With fewer nothing changes; with that many only the last two bytes of the descriptor do.")
    slot = 32 * s.head
    s.post(b"", at=0x2000, buf=4097, tlvs=4096)
    s.add(f"poke {slot + 20:#x} 0102030405060708090aff7f", "work 4101", "read 4 0x1010", f"peek {slot:#x} 32", "work 4102", f"peek {slot:#x} 32")
    s.note("Bit 15 set before is not looked at. A payload over its own descriptor is taken as it was before the stamp.")
    slot = 32 * s.head
    s.post(b"", at=slot, buf=32, tlvs=32)
    s.add(f"poke {slot + 30:#x} ffff", "work 38", f"peek {slot:#x} 32")
    s.note("A descriptor at 2^64 - 8 has a true end beyond memory, and one at 2^32 is not at 0: answer 5, which comes before 6.")
    for base in ("0xfffffffffffffff8", "0x100000000"):
        s.add(f"write 8 0x1000 {base}", "write 4 0x100c 1", "work 65536", "work 0")
    s.note("A descriptor that ends with the memory is inside, one 8 bytes further is not. With none posted 3 comes before 5 and 6.")
    for base in (MEMORY - 24, MEMORY - 32):
        s.add(f"write 8 0x1000 {base:#x}", "work 0", "write 4 0x100c 1", "work 6")
    s.note("After a ring reset there is no SIZE: no HEAD is below it, and nothing is posted.")
    s.add("write 4 0x1014 1")
    s.reads(0x1000, 0x100C, 0x1010)
    s.add("write 4 0x100c 0", "write 4 0x100c 1", "work 6")


def the_regions(s):
    good = interface(5, 2, 1)
    nest = b"".join(listed(good))
    kind, info = tlv(1, le16(8)), tlv(2, nest)
    s.fresh()
    s.tlvs(7, *listed(good))
    s.note("Types are compared in 32 bits: 0x10001, 0x10002, 0x101 and 0x102 at the top are other types, skipped also twice.")
    s.run(tlv(0x10001, b"x") + tlv(0x101, b"x") + kind + info + tlv(0x10002, b"x") + tlv(0x102, b"x") + tlv(0x10001, b""))
    s.note("So are such types inside CMD_INFO; and type 0 is skipped like any other.")
    others = [tlv(n + kind, b"x") for n in (0x10000, 0x100) for kind in WIDTHS]
    s.tlvs(8, tlv(0, b""), *others, *listed(good))
    s.run(tlv(0, b"x") + kind + info)
    s.note("They do not stand in for what is missing: CMD_TYPE as 0x10001, POP_VLAN as 0x1002b, the members 1 and 2 as 0x10001 and 0x10002.")
    s.run(tlv(0x10001, le16(8)) + info)
    s.tlvs(8, *listed(good)[:-1], tlv(0x1002B, b"\0"))
    for first, second in ((1, 0x10002), (0x10001, 2)):
        s.tlvs(7, tlv(10, le32(group_id(3, 5, 1))), tlv(12, le16(2)), tlv(13, tlv(first, le32(0x50001)) + tlv(second, le32(0x50002))))
    s.note("Pad and fill may be anything; a length that goes over the end, or fill that is missing, is ill formed.")
    noisy = b"".join(le32(k) + le16(8 + len(v)) + b"\xff\xff" + v + b"\xee" * (-len(v) % 8) for k, v in good.items())
    s.run(le32(1) + le16(10) + b"\xaa\xbb" + le16(8) + b"\xcc" * 6 + tlv(2, noisy))
    s.run(kind[:10] + b"\xcc" * 6 + info)
    s.run(kind + tlv(2, noisy[:-7]))
    s.run(kind + tlv(2, noisy + with_length(99, 9)))
    s.run(kind + tlv(2, nest + with_length(99, 16, bytes(8))))
    s.note("CMD_INFO may come first. Twice, even if equal, is EINVAL; so is an unknown command without CMD_INFO, or with two of them.")
    s.run(info + kind)
    s.run(tlv(99, b"") + info + tlv(99, b"") + kind)
    s.run(kind + kind + info)
    s.run(kind + info + info)
    s.run(tlv(1, le16(6)))
    s.run(tlv(1, le16(65535)) + tlv(99, b""))
    s.run(tlv(1, le16(6)) + info + info)
    s.note("An unknown command is ENOTSUP before its nest is looked at; a known one with that nest is EINVAL.")
    for command in (6, 0x0800, 0x0108, 8):
        s.run(tlv(1, le16(command)) + tlv(2, nest[:-1]))
    s.note("CMD_TYPE has 2 bytes.")
    for command in (b"\x08", b"\x08\0\0"):
        s.run(tlv(1, command) + info)
    s.note("Order for flows: the nest, TBL's form, the table, other fields, then the key.")
    table = {k: v for k, v in ingress(1).items() if k > 1}
    s.run(tlv(1, le16(3)) + tlv(2, tlv(1, le16(40)) + bytes(4)))
    s.tlvs(3, tlv(1, le16(40)), tlv(1, le16(40)), *listed(table))
    s.tlvs(3, tlv(1, le16(40) + b"\0"), *listed(table))
    s.tlvs(3, *listed(table))
    s.tlvs(3, tlv(1, le16(40)), tlv(2, b""))
    s.tlvs(3, *listed(ingress(1)))
    s.tlvs(3, *listed(ingress(1) | {9: le16(1)}))
    s.tlvs(4, *listed(ingress(2) | {9: le16(1)}))
    s.tlvs(4, *listed(ingress(2)))


def forms():
    """A command of each form: its name, add and mod (or del and what is added before), its fields, and the types that it uses or that must not
    be there."""
    yield "table 0", 3, ingress(70), COMMON + (6, 7)
    yield "table 10", 3, vlan(71, port=2, vid=0, new=9), COMMON + (6, 14, 19)
    yield "table 50", 3, bridge(72, vid=9, mac="020000000001", group=group_id(0, 9, 1)), COMMON + (10, 14, 24)
    yield "table 20", 3, termination(73, vid=9), COMMON + (6, 14, 23, 24)
    yield "table 30 for IPv4", 3, route(74, "10.1.2.3/24", group=1), COMMON + (10, 23, 36, 37, 38, 39)
    yield "table 30 for IPv6", 3, route(75, "2001:db8::1/64", group=1), COMMON + (10, 23, 36, 37, 38, 39)
    yield "flow del", 5, {5: le64(70)}, (5,)
    yield "type 0", 7, interface(9, 1), (8, 10, 43)
    yield "type 2", 7, neighbour(1, 9, 1), (10, 11, 14, 24, 26)
    yield "type 3", 7, several(3, 9, 1, [1]), (10, 12, 13)
    yield "type 4", 7, several(4, 9, 1, [1]), (10, 12, 13)
    yield "group del", 9, {10: le32(group_id(0, 9, 1))}, (10,)


def the_unused(s):
    s.fresh()
    for name, command, fields, uses in forms():
        unused = [kind for kind in WIDTHS if kind not in uses]
        odd = [tlv(kind, b"\xff" * (WIDTHS[kind] - 1)) for kind in unused]
        twice = [tlv(kind, b"\xff" * WIDTHS[kind]) for kind in unused] * 2
        fits = listed(fields)
        what = f"Fields that {name} does not use are skipped: each of another width, then each twice, before and behind the others."
        if command in (3, 7):
            s.note(what + " Add and mod are OK.")
            s.tlvs(command, *odd, *fits)
            s.tlvs(command + 1, *fits, *odd)
            s.tlvs(command + 1, *twice, *fits)
            s.tlvs({3: 5, 7: 9}[command], tlv(5, fields[5]) if command == 3 else tlv(10, fields[10]))
            s.tlvs(command, *fits, *twice)
        else:
            adding = ingress(70) if command == 5 else interface(9, 1)
            s.note(what + " Del looks at its key alone.")
            for noise in (odd, twice):
                s.tlvs(command, *noise, *fits)
                s.tlvs(command - 2, *listed(adding))
                s.tlvs(command, *fits, *noise)
                s.tlvs(command - 2, *listed(adding))


def the_used(s):
    s.fresh()
    s.note("Flow del with the right TBL, with that of another table, with one that is none; and with another PRIORITY.")
    for more in (tlv(1, le16(0)), tlv(1, le16(10)), tlv(1, le16(40)), tlv(2, le32(9))):
        s.tlvs(3, *listed(ingress(70)))
        s.tlvs(5, more, tlv(5, le64(70)))
    s.note("The times may be missing. One that comes twice, or has another width, is EINVAL in each table.")
    flows = [ingress(70), vlan(71, port=2, vid=9), bridge(72, vid=9), termination(73), route(75, "10.1.2.3/24"), route(76, "2001:db8::1/64")]
    for fields in flows:
        for times in ([tlv(3, le32(5)), tlv(3, le32(5))], [tlv(4, le32(5)), tlv(4, le32(5))], [tlv(3, le16(5))], [tlv(4, le16(5))],
                      [tlv(3, le32(5)), tlv(4, le32(5))]):
            s.tlvs(3, *listed(fields), *times)
        s.tlvs(4, *listed(fields))
    s.note("What is not called optional is required, in each form: one field left out after the other.")
    for command, fields in [(3, ingress(79)), (3, vlan(79, port=2, vid=9)), (3, bridge(79, vid=9)), (3, termination(79)),
                            (3, route(79, "10.1.2.3/24")), (3, route(79, "2001:db8::1/64")), (7, interface(1, 0)), (7, neighbour(1, 1, 0)),
                            (7, several(3, 1, 1, [1]))]:
        for kind in fields:
            s.tlvs(command, *[tlv(k, v) for k, v in fields.items() if k != kind])
    s.note("A field of the new forms that comes twice, or is a byte wider, is EINVAL.")
    for command, fields in [(3, termination(79)), (3, route(79, "10.1.2.3/24", group=1)), (3, route(79, "2001:db8::1/64", group=1)),
                            (7, neighbour(1, 1, 0))]:
        for kind, value in fields.items():
            s.tlvs(command, *listed(fields), tlv(kind, value))
            s.tlvs(command, *[tlv(k, v + b"\0" * (k == kind)) for k, v in fields.items()])
    s.note("The address and mask of the other EtherType: once, of another width, twice. Each is EINVAL.")
    for to, others in (("10.1.2.3/24", (38, 39)), ("2001:db8::1/64", (36, 37))):
        for kind in others:
            for more in ([bytes(WIDTHS[kind])], [bytes(20 - WIDTHS[kind])], [bytes(WIDTHS[kind])] * 2):
                s.tlvs(3, *listed(route(79, to)), *[tlv(kind, value) for value in more])
    s.note("Flow del: its cookie missing, of 4 and of 9 bytes, twice.")
    cookie = tlv(5, le64(70))
    for key in ([], [tlv(5, le32(70))], [tlv(5, le64(70) + b"\0")], [cookie, cookie]):
        s.tlvs(5, *key)
    s.note("The key is the cookie alone: one of table 0 is there for table 10 too, and mod may move it. Its upper half counts.")
    s.tlvs(3, *listed(vlan(70, port=2)))
    s.tlvs(4, *listed(vlan(70, port=2)))
    s.tlvs(3, *listed(ingress(2**32 + 70)))
    s.tlvs(3, *listed(ingress(0)))
    s.note("Group del: its ID twice, of 3 and of 5 bytes, of types 8, 11 and 1, of VLAN 0 and 4095; then with low bits that are no port.")
    name = le32(group_id(0, 9, 2))
    s.tlvs(7, *listed(interface(9, 2)))
    s.tlvs(9, tlv(10, name), tlv(10, name))
    for value in (name[:3], name + b"\0", *[le32(group_id(kind, vid, 2)) for kind, vid in ((8, 9), (11, 9), (1, 9), (0, 0), (0, 4095))]):
        s.tlvs(9, tlv(10, value))
    s.tlvs(9, tlv(10, le32(group_id(0, 9, 99))))
    s.tlvs(9, tlv(10, name))
    s.note("A group that is deleted leaves the flows that name it: the flow can be deleted after it.")
    s.tlvs(7, *listed(interface(9, 2)))
    s.tlvs(3, *listed(bridge(74, vid=9, mac="020000000001", group=group_id(0, 9, 2))))
    s.tlvs(9, tlv(10, name))
    s.tlvs(5, tlv(5, le64(74)))


def the_values(s):
    s.fresh()
    s.note("Table 0 goes to 10 or 0: not to 20, 50 or 60. Any IN_PPORT and any mask.")
    s.changed(3, ingress(80), [(9, le16(n)) for n in (20, 50, 60)] + [(7, le32(0))])
    s.changed(4, ingress(80), [(6, le32(ALL)), (9, le16(0)), (6, le32(0))])
    s.note("Table 10: IN_PPORT 0, 1, 4, 5 and 0x10001 of 4 ports; VLAN_ID 1, 4094, 4095, 0x1064 and 0; GOTO_TBL 10, 30, 50, 60.")
    tagged = vlan(81, port=1, vid=100)
    s.changed(3, tagged, [(6, le32(n)) for n in (0, 5, 0x10001)] + [(14, be16(n)) for n in (4095, 0x1064, 0)])
    s.changed(3, tagged, [(9, le16(n)) for n in (10, 30, 50, 60)] + [(14, be16(1))])
    s.changed(4, tagged, [(14, be16(4094)), (6, le32(4)), (9, le16(0))])
    s.note("NEW_VLAN_ID is there exactly if VLAN_ID is 0, and 1 to 4094.")
    s.changed(3, vlan(82, port=1, vid=0, new=1), [(19, None), (19, be16(0)), (19, be16(4095)), (14, be16(100)), (19, be16(1))])
    s.changed(4, vlan(82, port=1, vid=0, new=1), [(19, be16(4094))])
    s.note("Table 50: VLAN_ID 0, 4095 and 0x1064 are refused, 1 and 4094 not; GOTO_TBL 20 and 10.")
    s.changed(3, bridge(83), [(14, be16(n)) for n in (0, 4095, 0x1064)] + [(9, le16(20)), (9, le16(10)), (14, be16(1))])
    s.changed(4, bridge(83), [(14, be16(4094)), (9, le16(0))])
    s.note("A flow's group has its VLAN; type 0 for an even first byte (its last byte is odd), 3 or 4 for an odd one, 4 without DST_MAC.")
    for mac in ("020000000001", "030000000002", None):
        for kind in (0, 2, 3, 4, 8):
            s.tlvs(4, *listed(bridge(83, vid=9, mac=mac, group=group_id(kind, 9, 77))))
        s.tlvs(4, *listed(bridge(83, vid=9, mac=mac, group=group_id(4 if mac is None else int(mac[1]) % 2 * 3, 10, 1))))
    s.note("Group IDs: types 0, 2, 3 and 4 alone, not 1, 5, 8, 11, 12; VLAN 1 to 4094.")
    for kind in (1, 5, 8, 11, 12):
        s.tlvs(7, *listed(interface(9, 1) | several(3, 9, 1, [1]) | {10: le32(group_id(kind, 9, 1))}))
    for vid in (0, 4095, 1, 4094):
        s.tlvs(7, *listed(interface(vid, 1)))
    s.note("Type 0: OUT_PPORT is all of the low bits, 0 or a port; POP_VLAN 0 or 1.")
    for port, low in ((3, 2), (0x10003, 3), (3, 0x103), (0, 0x100), (5, 5), (0, 0), (1, 1), (4, 4)):
        s.tlvs(7, tlv(8, le32(port)), tlv(10, le32(group_id(0, 9, low))), tlv(43, b"\0"))
    for pop in (2, 3, 255, 1):
        s.tlvs(8, *listed(interface(9, 4, 0) | {43: bytes([pop])}))
    s.note("Types 3 and 4: a count of 0 with an empty list is refused, and 1 needs one member; a missing count or list is EINVAL.")
    base = several(3, 1, 1, [1])
    s.changed(7, base, [(12, None), (13, None), (12, le16(0)), (12, le16(2)), (13, b"")])
    s.tlvs(7, *listed(base | {12: le16(0), 13: b""}))
    s.tlvs(7, *listed(base | {12: le16(0)}))
    s.tlvs(7, *listed(base))
    s.note("Members: a type that is not the next one is not skipped, nor may they be out of order; distinct, of type 0, of the same VLAN.")
    one, two, three = (le32(group_id(0, 1, n)) for n in (1, 2, 3))
    for kinds, values in (((1, 99, 2), (one, three, two)), ((1, 2, 99), (one, two, three)), ((2, 1), (one, two)), ((0, 1), (one, two)),
                          ((1, 2), (one, one)), ((1, 2, 3), (one, two, one)), ((1, 2, 3, 4), (one, two, three, two)),
                          ((1, 2), (one, le32(group_id(3, 1, 2)))), ((1, 2), (one, le32(group_id(2, 1, 2)))),
                          ((1, 2), (one, le32(group_id(0, 2, 2)))), ((1, 2), (one, two + b"\0")), ((1, 2), (one, two[:3])), ((1, 2), (two, one))):
        count = len(values) - (99 in kinds)
        nest = b"".join(tlv(k, v) for k, v in zip(kinds, values))
        s.tlvs(8, tlv(10, base[10]), tlv(12, le16(count)), tlv(13, nest))
    s.note("Members need not exist, and their low bits may be no port; 62 are the most, 63 too many.")
    s.tlvs(7, *listed(several(4, 1, 2, [9, 0, 0xFFFF, 3])))
    s.tlvs(7, *listed(several(4, 1, 3, range(62))))
    s.tlvs(7, *listed(several(4, 1, 4, range(63))))


UNICAST, OTHER, MANY = "020000000001", "020000000002", "030000000002"


def frame(mac, tag=None, length=20):
    return make_scripts.frame(mac, tag, length)


def the_frame(s):
    s.fresh(up=0b11110, enabled=0b11110)
    s.note("Ports 1 to 4 and the host in VLAN 100, POP_VLAN at 3. Untagged frames of port 1 are of VLAN 100, tagged 100 of 1 and 2 too.")
    for port in (0, 1, 2, 3, 4):
        s.command(7, interface(100, port, int(port == 3)))
    s.command(7, several(4, 100, 1, [4, 0, 3, 2, 1, 9]))
    s.command(7, several(3, 100, 1, [9, 3, 2]))
    s.command(7, several(4, 100, 2, [3]))
    s.command(3, vlan(0x10, port=1, vid=0, new=100))
    s.command(3, vlan(0x11, port=1, vid=100))
    s.command(3, vlan(0x12, port=2, vid=100))
    s.command(3, bridge(0x52, priority=1, group=group_id(4, 100, 1)))
    s.command(3, bridge(0x50, priority=2, mac=UNICAST, group=group_id(0, 100, 3)))
    s.command(3, bridge(0x51, priority=2, mac=MANY, group=group_id(3, 100, 1)))
    s.note("Table 0: IN_PPORT 0x12 and 0x21 under mask 0x0f are ports 2 and 1, which go on to 10; below them all even ports are dropped.")
    s.command(3, ingress(0x01, priority=5, port=0x12, mask=0x0F, goto=10))
    s.command(3, ingress(0x03, priority=5, port=0x21, mask=0x0F, goto=10))
    s.command(3, ingress(0x02, priority=4, port=0x10, mask=0x01, goto=0))
    s.note("Flood from 1 to 4, untagged: from 1 through table 0 by its mask, table 10 by NEW_VLAN_ID, table 50 to the group. Copies in the")
    s.note("order of the list, the host among them, the ingress port not. Then tagged: 1 and 2. Port 3 has no flow, 4 is dropped.")
    for data in (frame(OTHER), frame(OTHER, tag=100)):
        send(s, [1, 2, 3, 4], data)
    s.note("Unicast and multicast: POP_VLAN 1 at 3, a missing member left out.")
    for mac in (UNICAST, MANY):
        send(s, [1, 2], frame(mac, tag=100))
    s.note("Tags: 81 00 alone, the low 12 bits. 91 00, 88 a8, 81 01 and 00 81 are none, so their frames are of VLAN 0.")
    send(s, [1, 2], frame(OTHER, tag=0xF064))
    for tag in ("91000064", "91000065", "88a80064", "81010064", "00810064", "81006400"):
        send(s, [1, 2], bytes.fromhex(OTHER + UNICAST + tag) + bytes(4))
    s.note("Lengths: 13 no, 14 untagged, 17 tagged no, 18 tagged. A list of 558 is long enough, of 557 not.")
    for data in (frame(OTHER, length=13), frame(OTHER, length=14), frame(OTHER, tag=100, length=17), frame(OTHER, tag=100, length=18)):
        send(s, [1], data)
    for length in (558, 557, 186):
        send(s, [1], frame(OTHER), length)
    s.note("Faults at once: port, then frame, then list.")
    send(s, [5], frame(OTHER, length=13), 557)
    send(s, [0], frame(OTHER), 557)
    send(s, [1], frame(OTHER, length=13), 557)
    s.note("A port that is down, or not enabled, has no copies and sends none.")
    s.add("link 3 0")
    send(s, [1], frame(OTHER))
    s.add("link 3 1", "write 8 0x318 0x16")
    send(s, [1], frame(OTHER))
    s.add("link 1 0")
    send(s, [1], frame(OTHER))
    s.add("link 1 1", "write 8 0x318 0x1c")
    send(s, [1], frame(OTHER))
    s.add("write 8 0x318 0x1e")


def the_flows(s):
    one = frame(UNICAST, tag=100)
    s.note("Mod replaces all but the key: GOTO_TBL 0 drops; without GROUP_ID none; without DST_MAC every frame of the VLAN.")
    for flow in (bridge(0x50, priority=2, mac=UNICAST, group=group_id(0, 100, 3), goto=0), bridge(0x50, priority=2, mac=UNICAST),
                 bridge(0x50, priority=2, mac=UNICAST, group=group_id(0, 100, 77)), bridge(0x50, priority=2, group=group_id(4, 100, 2)),
                 bridge(0x50, priority=0, group=group_id(4, 100, 2)), bridge(0x50, priority=2, mac=UNICAST, group=group_id(0, 100, 2))):
        s.command(4, flow)
        send(s, [1], one)
        send(s, [1], frame(OTHER, tag=100))
    for flow in (bridge(0x51, priority=3, group=group_id(4, 100, 2)), bridge(0x51, priority=3), bridge(0x51, priority=2, mac=MANY)):
        s.command(4, flow)
        send(s, [1], frame(MANY, tag=100))
        send(s, [1], frame(OTHER, tag=100))
    s.note("The same in table 10; then a frame of VLAN 7, which table 50 does not know: dropped, though VLAN 7 has a group of type 4.")
    for goto in (0, 20):
        s.command(4, vlan(0x12, port=2, vid=100, goto=goto))
        send(s, [2], frame(OTHER, tag=100))
    s.command(7, interface(7, 0))
    s.command(7, several(4, 7, 1, [0]))
    s.command(3, vlan(0x13, port=1, vid=7))
    send(s, [1], frame(UNICAST, tag=7))
    send(s, [1], frame(OTHER, tag=7))
    s.note("Ties go to the lower cookie, unsigned and whenever it was added: 2^63, then 0x100, then 0x50; PRIORITY comes first, unsigned.")
    s.command(3, bridge(2**63, priority=2, mac=UNICAST, group=group_id(0, 100, 3)))
    send(s, [1], one)
    s.command(5, {5: le64(0x50)})
    s.command(3, bridge(0x100, priority=2, mac=UNICAST, group=group_id(0, 100, 4)))
    send(s, [1], one)
    s.command(3, bridge(0x50, priority=2, mac=UNICAST, group=group_id(0, 100, 2)))
    send(s, [1], one)
    s.command(4, bridge(2**63, priority=0x80000000, mac=UNICAST, group=group_id(0, 100, 3)))
    send(s, [1], one)
    s.command(4, bridge(2**63, priority=0x100, mac=UNICAST, group=group_id(0, 100, 3)))
    send(s, [1], one)
    s.command(4, bridge(0x52, priority=0x101, group=group_id(4, 100, 1)))
    send(s, [1], one)
    s.note("Group mod replaces the members, or POP_VLAN; a member that goes and comes back is a member still.")
    s.command(8, several(4, 100, 1, [3, 2]))
    s.command(8, interface(100, 3, 0))
    send(s, [1], one)
    s.command(9, {10: le32(group_id(0, 100, 2))})
    send(s, [1], one)
    s.command(7, interface(100, 2, 1))
    send(s, [1], one)
    s.note("A device reset empties the tables.")
    s.add("write 4 0x300 1", "write 8 0x318 0x1e")
    s.ring(0, 8)
    send(s, [1], one)
    s.command(9, {10: le32(group_id(0, 100, 2))})
    s.command(5, {5: le64(0x50)})
    s.note("The header, and rooms of 5, 6 and 7 bytes for it.")
    s.add("header 5", "header 6", "header 7")


def the_stops(s):
    s.fresh()
    s.note("Request 2026-03. Table 20: IN_PPORT 0, 5 and 0x10001 of 4 ports; VLAN_ID 0 and 4095; EtherTypes other than 0x0800 and 0x86DD;")
    s.note("GOTO_TBL other than 30. Each is EINVAL.")
    stop = termination(90)
    s.changed(3, stop, [(6, le32(n)) for n in (0, 5, 0x10001)] + [(14, be16(n)) for n in (0, 4095)] +
              [(23, be16(n)) for n in (0x0806, 0x8847, 0x0008, 0)] + [(9, le16(n)) for n in (0, 20, 40, 50, 60)])
    s.note("IN_PPORT 1 and 4, VLAN_ID 1 and 4094, both EtherTypes, and any MAC: OK.")
    s.tlvs(3, *listed(stop))
    s.changed(4, stop, [(6, le32(4)), (14, be16(1)), (14, be16(4094)), (23, be16(IPV6)), (24, bytes(6)), (24, b"\xff" * 6)])
    s.note("The guide's masks, of the port, the VLAN and the MAC, are not listed, and nor is OUT_PPORT: skipped, whatever they say.")
    s.tlvs(4, *listed(stop), tlv(7, bytes(4)), tlv(15, bytes(2)), tlv(25, bytes(6)), tlv(8, le32(3)))
    s.note("TBL 40 and 60 are no tables.")
    for table in (40, 60):
        s.changed(3, stop, [(1, le16(table))])


def the_routes(s):
    s.fresh()
    s.note("Table 30. Masks of 0, 1, 8, 25, 31 and 32 ones; then masks that are no prefixes: EINVAL.")
    for ones in (0, 1, 8, 25, 31, 32):
        s.tlvs(4 if ones else 3, *listed(route(91, f"10.1.2.3/{ones}")))
    four, six = route(91, "10.1.2.3/24"), route(91, "2001:db8::1/64")
    s.changed(4, four, [(37, bytes.fromhex(mask)) for mask in ("00ffffff", "ffffff01", "ff00ff00", "fffffffd", "7fffffff", "00000001")])
    s.note("The same for IPv6: 0, 1, 33, 127 and 128 ones; a bit missing, or one too many, in a byte at the front, in the middle and at the end.")
    for ones in (0, 1, 33, 127, 128):
        s.tlvs(4, *listed(route(91, f"2001:db8::1/{ones}")))
    for at, bits in ((0, 0x7F), (6, 0xFE), (8, 0x01), (12, 0xFF), (15, 0x01)):
        s.changed(4, six, [(39, six[39][:at] + bytes([bits]) + six[39][at + 1:])])
    s.note("Unicast, asked of the address as it is given: first bytes 0, 127 and 223 are OK, 224, 239, 240 and 255 are not, 224.0.0.0/0 neither.")
    for to in ("0.0.0.0/0", "0.1.2.3/24", "127.0.0.1/32", "223.255.255.255/32", "224.0.0.0/32", "224.0.0.0/0", "239.1.2.3/32", "240.0.0.1/32",
               "255.255.255.255/32"):
        s.tlvs(4, *listed(route(91, to)))
    s.note("Of IPv6 only FF is not.")
    for to in ("::/0", "::1/128", "e000::1/64", "fe80::1/10", "ff02::1/128", "ff00::/0"):
        s.tlvs(4, *listed(route(91, to)))
    s.note("GOTO_TBL 60 or 0. GROUP_ID of type 2 and any index, of a group that is not there; not 0, nor of types 0, 1, 3, 4.")
    s.changed(4, four, [(9, le16(n)) for n in (10, 20, 30, 50, 0)])
    for index in (0, 0x10000, 0x1000000, 0xFFFFFFF):
        s.tlvs(4, *listed(route(91, "10.1.2.3/24", group=index)))
    s.changed(4, four, [(10, le32(n)) for n in (0, group_id(0, 5, 1), group_id(1, 5, 1), group_id(3, 5, 1), group_id(4, 5, 1))])
    s.note("The pair is that of ETHERTYPE, which may be no other: with that of the other EtherType, or with both, EINVAL.")
    s.changed(4, four, [(23, be16(n)) for n in (IPV6, 0x0806, 0x8847, 0x0008)])
    s.changed(4, six, [(23, be16(IPV4))])
    s.tlvs(4, *listed(four | six))


def the_neighbours(s):
    s.fresh()
    s.note("Groups of type 2: any index, and no VLAN in the ID. The lower group need not be there, and its low bits may be no port.")
    for index in (0, 1, 0x10000, 0xFFFFFFF):
        s.tlvs(7, *listed(neighbour(index, 9, 1)))
        s.tlvs(9, tlv(10, le32(2 << 28 | index)))
        s.tlvs(9, tlv(10, le32(2 << 28 | index)))
    base = neighbour(7, 9, 1)
    s.tlvs(7, *listed(base))
    for low in (0, 5, 63, 0xFFFF):
        s.tlvs(8, *listed(neighbour(7, 9, low)))
    s.note("The lower group has type 0 and VLAN_ID, which is 1 to 4094.")
    s.changed(8, base, [(11, le32(group_id(kind, 9, 1))) for kind in (1, 2, 3, 4, 8)] + [(11, le32(group_id(0, 10, 1))), (14, be16(10))])
    for vid in (0, 4095, 1, 4094):
        s.tlvs(8, *listed(neighbour(7, vid, 1)))
    s.note("Any MACs, zeros and odd ones, and the same twice.")
    s.changed(8, base, [(24, bytes(6)), (26, bytes(6)), (24, b"\xff" * 6), (26, b"\xff" * 6), (24, base[26])])
    s.note("Its ID in a list of members, and in table 50: EINVAL.")
    s.tlvs(7, tlv(10, le32(group_id(4, 9, 1))), tlv(12, le16(1)), tlv(13, tlv(1, le32(group_id(2, 9, 7)))))
    s.tlvs(3, *listed(bridge(92, vid=9, mac=UNICAST, group=group_id(2, 9, 7))))
    s.note("A lower group that is deleted leaves it: it can be deleted after it.")
    s.tlvs(7, *listed(interface(9, 1)))
    s.tlvs(9, tlv(10, le32(group_id(0, 9, 1))))
    s.tlvs(9, tlv(10, base[10]))


ROUTER, SENT = "029900000001", "10.1.2.3"


def the_routed(s):
    s.fresh(up=0b11110, enabled=0b11110)
    s.note("Ports 1 and 2 in VLAN 100, port 1 in VLAN 101 too; what is bridged goes to the host. Routed are, at port 1, frames of VLAN 100 to")
    s.note(f"{ROUTER}. Behind the ports of VLAN 300 there is a neighbour each, 0 behind the host; POP_VLAN at 3.")
    for vid in (100, 101):
        s.command(7, interface(vid, 0))
        s.command(7, several(4, vid, 1, [0]))
        s.command(3, bridge(500 + vid, vid=vid, group=group_id(4, vid, 1)))
    s.command(3, vlan(0x10, port=1, vid=0, new=100))
    s.command(3, vlan(0x11, port=1, vid=100))
    s.command(3, vlan(0x12, port=2, vid=100))
    s.command(3, vlan(0x13, port=1, vid=101))
    for port in range(5):
        s.command(7, interface(300, port, int(port == 3)))
        s.command(7, neighbour(port, 300, port, "020102030405", f"0a0b0c0d0e{port:02x}"))
    s.command(3, termination(0x20))
    s.note("No route yet: what is routed is dropped. Bridged: at port 2, of VLAN 101, to another MAC or from that one, of another EtherType.")
    for data in (routed(SENT), routed(SENT, tag=100), routed(SENT, length=0)):
        send(s, [1], data)
    send(s, [2], routed(SENT, tag=100))
    for data in (routed(SENT, tag=101), routed(SENT, mac="029900000002"), routed(SENT, mac=OTHER, source=ROUTER), routed("2001:db8::1"),
                 routed(SENT, ethertype=0x0806), routed(SENT, tag=100, ethertype=0x0806), routed(SENT, ethertype=0x0008)):
        send(s, [1], data)
    s.note("A tag behind the tag is no EtherType that is routed: bridged, though 08 00 stands behind it.")
    double = routed(SENT, tag=100)
    send(s, [1], double[:16] + b"\x81\x00\x00\x64" + double[16:])
    s.note("A route to all: to the neighbour behind port 2. Untagged and tagged, with any bits above the VLAN; to a multicast address; whatever")
    s.note("version, header length and TTL the frame has. One of IPv6 is still bridged, as table 20 has no flow for it.")
    s.command(3, route(0x30, "0.0.0.0/0", group=2))
    for data in (routed(SENT), routed(SENT, tag=100), routed(SENT, tag=0xF064), routed("239.1.2.3"), routed("2001:db8::1")):
        send(s, [1], data)
    for first, ttl in ((0x45, 1), (0x45, 0), (0x46, 64), (0x60, 64), (0x00, 64)):
        data = bytearray(routed(SENT))
        data[14], data[22] = first, ttl
        send(s, [1], bytes(data))
    s.note("Bytes after the EtherType: 18 and 19 are dropped, 20 and 21 not, with and without a tag.")
    for length in (18, 19, 20, 21):
        for tag in (None, 100):
            send(s, [1], routed(SENT, tag=tag, length=length))
    s.note("IPv6 at port 1: no route of its own, the one for IPv4 is none. Then ::/0, with 20, 38, 39, 40 and 41 bytes.")
    s.command(3, termination(0x21, ethertype=IPV6))
    send(s, [1], routed("2001:db8::1"))
    s.command(3, route(0x31, "::/0", group=4))
    for length in (20, 38, 39, 40, 41):
        for tag in (None, 100):
            send(s, [1], routed("2001:db8::1", tag=tag, length=length))
    data = bytearray(routed("ff02::1"))
    data[14], data[21] = 0x45, 1
    send(s, [1], bytes(data))


def the_prefixes(s):
    s.note("The longest prefix decides, whatever PRIORITY says: /8, /16, /24, /25 and /32, added from both ends, with priorities that fall.")
    for cookie, to, priority, group in ((0x40, "10.0.0.0/8", 50, 0), (0x44, "10.1.2.3/32", 10, 4), (0x41, "10.1.0.0/16", 40, 1),
                                        (0x43, "10.1.2.0/25", 20, 3), (0x42, "10.1.2.0/24", 30, 0)):
        s.command(3, route(cookie, to, priority=priority, group=group))
        for address in ("10.1.2.3", "10.1.2.4", "10.1.2.200", "10.1.3.3", "10.2.2.3", "11.1.2.3"):
            send(s, [1], routed(address))
    s.note("The frame's address is compared, not its sender's; both sides under the mask: 10.1.2.77/25 is the same prefix as 10.1.2.0/25.")
    data = bytearray(routed("11.1.2.3"))
    data[26:30] = bytes([10, 1, 2, 3])
    send(s, [1], bytes(data))
    s.command(4, route(0x43, "10.1.2.77/25", priority=20, group=3))
    send(s, [1], routed("10.1.2.4"))
    s.note("Equal prefixes: the highest PRIORITY, unsigned, then the lower cookie, whichever was added first.")
    for cookie, priority, group in ((0x46, 20, 1), (0x3F, 20, 4), (0x47, 21, 2), (0x48, 0x80000000, 0)):
        s.command(3, route(cookie, "10.1.2.99/25", priority=priority, group=group))
        send(s, [1], routed("10.1.2.4"))
    for cookie in (0x46, 0x3F, 0x47, 0x48):
        s.command(5, {5: le64(cookie)})
    s.note("IPv6: /128, /64, /33 and /32, with priorities that fall.")
    for cookie, to, priority, group in ((0x53, "2001:db8::/32", 9, 1), (0x52, "2001:db8::/33", 8, 2), (0x51, "2001:db8::/64", 7, 3),
                                        (0x50, "2001:db8::1/128", 6, 0)):
        s.command(3, route(cookie, to, priority=priority, group=group))
        for address in ("2001:db8::1", "2001:db8::2", "2001:db8:1::1", "2001:db8:8000::1", "2001:db9::1"):
            send(s, [1], routed(address))
    s.note("The route that decides gives nothing, though a shorter one would: GOTO_TBL 0, no group, a missing group. Mod replaces all but the key.")
    for fields in (route(0x44, "10.1.2.3/32", group=4, goto=0), route(0x44, "10.1.2.3/32"), route(0x44, "10.1.2.3/32", group=99),
                   route(0x44, "10.1.2.4/32", group=4), route(0x44, "10.1.2.3/32", group=4)):
        s.command(4, fields)
        for address in ("10.1.2.3", "10.1.2.4"):
            send(s, [1], routed(address))


def the_copies(s):
    s.note("A copy of a routed frame: port, VLAN and POP_VLAN, the new source and destination MAC. To the host, to 3 (POP_VLAN 1), by port 1 where")
    s.note("it came in; not to a port that is down or not enabled.")
    for group in (0, 1, 2, 3, 4):
        s.command(4, route(0x44, "10.1.2.3/32", group=group))
        send(s, [1], routed(SENT))
        send(s, [1], routed(SENT, tag=100))
    s.add("link 4 0")
    send(s, [1], routed(SENT))
    s.add("link 4 1", "write 8 0x318 0x0e")
    send(s, [1], routed(SENT))
    s.add("write 8 0x318 0x1e")
    s.note("Group mod replaces the lower group with its VLAN, and each MAC; a lower group that is missing gives no copy, also where a shorter")
    s.note("prefix has one, and comes back.")
    for fields in (neighbour(4, 100, 0, "020102030405", "0a0b0c0d0e04"), neighbour(4, 300, 4, "020102030406", "0a0b0c0d0e04"),
                   neighbour(4, 300, 4, "020102030406", "0a0b0c0d0e05"), neighbour(4, 300, 2, "020102030406", "0a0b0c0d0e05")):
        s.command(8, fields)
        send(s, [1], routed(SENT))
    s.command(9, {10: le32(group_id(0, 300, 2))})
    send(s, [1], routed(SENT))
    s.command(7, interface(300, 2, 1))
    send(s, [1], routed(SENT))
    s.note("The neighbour is deleted, then the flow of table 20: the frame is bridged, and its copy has no MACs.")
    s.command(9, {10: le32(2 << 28 | 4)})
    send(s, [1], routed(SENT))
    s.command(5, {5: le64(0x20)})
    send(s, [1], routed(SENT))


if __name__ == "__main__":
    script = Worked()
    for part in (the_table, the_payload, the_lengths, the_length_faults, the_registers, the_slot, the_regions, the_unused, the_used, the_values,
                 the_frame, the_flows, the_stops, the_routes, the_neighbours, the_routed, the_prefixes, the_copies):
        part(script)
    print("# Worked examples of document 01 and requests 2026-02 and 2026-03 (tests/scripts/worked.py). A record begins with 0x8000 plus the")
    print("# status.")
    print("\n".join(script.lines))
