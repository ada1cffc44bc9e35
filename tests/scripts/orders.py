#!/usr/bin/env python3
"""Writes the script of order_run: which flow decides, after adds, mods that move a flow and dels, in each table and with all 256 places taken
(request 2026-05). Every frame stands behind a comment that says what it shows. orders.py > crates/order_run/stdin; the outcomes come from
tests/model (tests/scripts/store).

    port 1        where all frames come in: untagged, or tagged 100
    ports 2 to 6  where they leave: the flow that decides sends them to port N
    VLAN 102 to 106  those of table 10: the flow that decides sends a frame to VLAN 100 + N, and so to port N"""
import sys

sys.dont_write_bytecode = True
from make_scripts import (IPV4, IPV6, Script, bridge, frame, group_id, ingress, interface, le64, neighbour, routed, route, send, termination, vlan)

PORTS = 6
VLAN = 100
OUT = range(2, 7)
ROUTER, SECOND, THIRD = "02aa00000001", "02aa00000002", "02aa00000003"
# Stations: of the part on table 50, on table 10, on table 0; of the full table all and one.
FIFTY, TEN, ZERO, MANY, ONE = "0250000000aa", "0210000000aa", "0200000000aa", "02f0000000aa", "02f1000000aa"
WAY, STOP, STOP6, PASSED = 9001, 9002, 9003, 9004  # the flows that all frames need


class Orders(Script):
    def __init__(self):
        super().__init__(memory=16384, base=0, size=8, ports=PORTS, switch_id=0x08DE8)

    def run(self, data, **how):
        super().run(data, place=0x1000, **how)

    def does(self, what, command, fields, *frames):
        self.note(what)
        self.command(command, fields)
        self.sends(*frames)

    def sends(self, *frames):
        for data in frames:
            send(self, [1], data)

    def del_flow(self, cookie):
        self.command(5, {5: le64(cookie)})


def to(address, mac=ROUTER, **rest):
    return routed(address, **({"mac": mac, "tag": VLAN} | rest))


def tagged(mac):
    return frame(mac, tag=VLAN, length=24)


def untagged(mac):
    return frame(mac, length=24)


# ---- What leads a frame to port N, by table

def in_0(cookie, priority, out):
    """Table 0 only lets by or drops: by for 3 and 5."""
    return ingress(cookie, priority, goto=10 if out in (3, 5) else 0)


def in_10(cookie, priority, out):
    return vlan(cookie, priority, vid=0, new=VLAN + out)


def in_30(cookie, priority, out, prefix="10.1.2.0/24"):
    return route(cookie, prefix, priority, group=out)


def in_50(cookie, priority, out, mac=FIFTY):
    return bridge(cookie, priority, vid=VLAN, mac=mac, group=group_id(0, VLAN, out))


def beginning(s):
    s.note("All links up, all ports enabled.")
    s.add(*[f"link {port} 1" for port in range(1, PORTS + 1)])
    groups(s)
    s.note("Table 10 takes tag 100; table 20 has the router; table 50 the stations of VLANs 102 to 106, and one in 100 behind port 2.")
    s.command(3, vlan(WAY, vid=VLAN))
    s.command(3, termination(STOP, mac=ROUTER, vid=VLAN))
    s.command(3, bridge(PASSED, vid=VLAN, mac=ZERO, group=group_id(0, VLAN, 2)))
    for out in OUT:
        s.command(3, bridge(9100 + out, vid=VLAN + out, mac=TEN, group=group_id(0, VLAN + out, out)))
    s.note("A frame that table 50 sends to port 2; those that tables 10, 30 and 50 have no flow for yet.")
    s.sends(tagged(ZERO), untagged(TEN), to("10.1.2.3"), tagged(FIFTY))


def groups(s):
    s.add("write 8 0x318 0x7e")
    s.note("Groups: ports 2 to 6 in VLAN 100 and in one of their own, and a neighbour behind each.")
    for out in OUT:
        s.command(7, interface(VLAN, out))
        s.command(7, interface(VLAN + out, out))
        s.command(7, neighbour(out, VLAN, out, ROUTER, f"02bb000000{out:02x}"))


# ---- Adds, mods of PRIORITY and dels in one table

def moves(s, name, make, data):
    """Six flows that all match one frame."""
    def add(what, *entry):
        s.does(what, 3, make(*entry), data)

    def mod(what, *entry):
        s.does(what, 4, make(*entry), data)

    def gone(what, cookie):
        s.note(what)
        s.del_flow(cookie)
        s.sends(data)

    s.note(f"{name}: six flows that match the same frame.")
    add("500 alone: port 2.", 500, 5, 2)
    add("400, of the same PRIORITY: the lower cookie, port 3.", 400, 5, 3)
    add("600, of the same PRIORITY: still 3.", 600, 5, 4)
    add("450, between them: still 3.", 450, 5, 5)
    add("300, of a lower PRIORITY: still 3.", 300, 4, 6)
    add("700, of a higher PRIORITY: port 2.", 700, 6, 2)
    mod("700 down to the end: 400 again, port 3.", 700, 3, 2)
    mod("300 up to the front: port 6.", 300, 7, 6)
    mod("300 down to the others of PRIORITY 5, before them as the lower cookie: still 6.", 300, 5, 6)
    mod("700 up to them, behind as the higher: still 6.", 700, 5, 2)
    mod("300 to port 5, its PRIORITY as it was: it stays where it is, port 5.", 300, 5, 5)
    mod("600 up from among them: port 4.", 600, 6, 4)
    mod("600 back between 500 and 700: port 5 by 300.", 600, 5, 4)
    mod("600 down to the end and 500 up to the front: port 2.", 600, 0, 4)
    s.command(4, make(500, 0x7FFF, 2))
    s.sends(data)
    mod("500 back, 600 back.", 500, 5, 2)
    s.command(4, make(600, 5, 4))
    s.sends(data)
    gone("Deleted, 300, 400, 500, 450 and 600 in turn: port 3 by 400.", 300)
    gone("Port 5 by 450.", 400)
    gone("500 stood behind it: still 5.", 500)
    gone("Port 4 by 600.", 450)
    gone("Port 2 by 700, the last.", 600)
    add("300 again, now of a lower PRIORITY: still 2.", 300, 1, 6)
    add("900, of the highest: port 3.", 900, 9, 3)
    gone("Without it: port 2.", 900)
    add("900 again, of the lowest: still 2.", 900, 0, 3)
    gone("Without 700: port 6 by 300, though it came before 900 twice.", 700)
    add("An add of 900 that is there, with a higher PRIORITY: EEXIST, still 6.", 900, 9, 3)
    add("700 in the place of 300's PRIORITY: still 6, the lower cookie.", 700, 1, 2)
    gone("Without 300: port 2 by 700.", 300)
    gone("Without 700: port 3 by 900.", 700)
    gone("None is left.", 900)


def tables(s):
    moves(s, "Table 0, where a flow of port 3 or 5 lets a frame by, to port 2, and the others drop it", in_0, tagged(ZERO))
    moves(s, "Table 10", in_10, untagged(TEN))
    moves(s, "Table 30, one prefix", in_30, to("10.1.2.3"))
    moves(s, "Table 50", in_50, tagged(FIFTY))


def wide(s):
    s.note("Cookies that differ above 32 bits, PRIORITY above 16: 2^32 + 1 against 2, 2^63 against 3; 0x10000 against 0xffff.")
    for first, second in (((1 << 32) + 1, 2), (1 << 63, 3), ((1 << 64) - 1, (1 << 64) - 2)):
        s.command(3, in_50(first, 5, 2))
        s.does("The lower cookie: port 3.", 3, in_50(second, 5, 3), tagged(FIFTY))
        s.del_flow(first)
        s.del_flow(second)
    s.command(3, in_50(1, 0xFFFF, 2))
    s.does("PRIORITY 0x10000: port 3.", 3, in_50(2, 0x10000, 3), tagged(FIFTY))
    s.does("0xffffffff: port 2.", 4, in_50(1, 0xFFFFFFFF, 2), tagged(FIFTY))
    s.del_flow(1)
    s.del_flow(2)


# ---- Table 20: that a flow is found is all that shows

def stops(s):
    frames = [to("10.1.2.3", mac) for mac in (ROUTER, SECOND, THIRD)]
    s.note("Table 20: three routers' MACs. A frame to one is routed, port 6, wherever its flow stands; the others are dropped by table 50.")
    s.command(3, in_30(1, 0, 6, "10.0.0.0/8"))
    s.sends(*frames)
    s.does("The second, before the first: two are routed.", 3, termination(20, 5, mac=SECOND, vid=VLAN), *frames)
    s.does("The third, behind them: three.", 3, termination(30000, 0, mac=THIRD, vid=VLAN), *frames)
    s.does("The first one's flow a second time, of a higher cookie and PRIORITY: three.", 3, termination(40000, 9, mac=ROUTER, vid=VLAN), *frames)
    s.does("Of the first one's PRIORITY: three.", 4, termination(40000, 0, mac=ROUTER, vid=VLAN), *frames)
    s.does("The third to the front: three.", 4, termination(30000, 10, mac=THIRD, vid=VLAN), *frames)
    s.does("The second to the end: three.", 4, termination(20, 0, mac=SECOND, vid=VLAN), *frames)
    s.does("The second for IPv6, which has the same MAC: two.", 4, termination(20, 0, ethertype=IPV6, mac=SECOND, vid=VLAN), *frames)
    s.does("And back: three.", 4, termination(20, 0, mac=SECOND, vid=VLAN), *frames)
    s.note("The first one's second flow goes: three by the other. The third goes: two. The second: one.")
    for cookie in (40000, 30000, 20):
        s.del_flow(cookie)
        s.sends(*frames)
    s.del_flow(1)


# ---- Table 30: the prefix moves

def prefixes(s):
    near, far, other = to("10.1.2.3"), to("10.1.9.9"), to("10.9.9.9")
    s.note("Table 30: prefixes of one address, the longer the lower its PRIORITY; a frame to 10.1.2.3, one to 10.1.9.9, one to 10.9.9.9.")
    for cookie, priority, out, prefix in ((31, 9, 2, "10.0.0.0/8"), (32, 5, 3, "10.1.0.0/16"), (33, 2, 4, "10.1.2.0/24")):
        s.command(3, in_30(cookie, priority, out, prefix))
    s.sends(near, far, other)
    s.does("/8 becomes /32, its PRIORITY 0: port 2, 3, none.", 4, in_30(31, 0, 2, "10.1.2.3/32"), near, far, other)
    s.does("/32 becomes /0, PRIORITY 0: port 4, 3, 2.", 4, in_30(31, 0, 2, "0.0.0.0/0"), near, far, other)
    s.does("/24 becomes /12, with the highest PRIORITY: 3, 3, 4.", 4, in_30(33, 0xFFFFFFFF, 4, "10.0.0.0/12"), near, far, other)
    s.does("/12 becomes /16, of the other's PRIORITY and a higher cookie: 3, 3, 2.", 4, in_30(33, 5, 4, "10.1.0.0/16"), near, far, other)
    s.does("The same with a higher PRIORITY: 4, 4, 2.", 4, in_30(33, 6, 4, "10.1.0.0/16"), near, far, other)
    s.does("32 becomes /17 with PRIORITY 0: 3, 3, 2.", 4, in_30(32, 0, 3, "10.1.0.0/17"), near, far, other)
    s.does("32 goes to 10.1.128.0/17, of the same length: 4, 4, 2.", 4, in_30(32, 0, 3, "10.1.128.0/17"), near, far, other)
    s.does("and back with PRIORITY 1: 3, 3, 2.", 4, in_30(32, 1, 3, "10.1.0.0/17"), near, far, other)
    s.does("34, /17 as well, of that PRIORITY: 3 by the lower cookie, 3, 2.", 3,
           in_30(34, 1, 5, "10.1.0.0/17"), near, far, other)
    s.does("32 gets a higher address, by bits outside its mask: 3, 3, 2.", 4, in_30(32, 1, 3, "10.1.77.77/17"), near, far, other)
    s.does("and a lower PRIORITY: 5, 5, 2.", 4, in_30(32, 0, 3, "10.1.0.0/17"), near, far, other)
    six(s, near)
    s.note("Deleted, the longest first: 3, 3, 2; then 4, 4, 2; then 2, 2, 2; none.")
    for cookie in (34, 32, 33, 31):
        s.del_flow(cookie)
        s.sends(near, far, other)


def six(s, four):
    near, far = to("2001:db8::3"), to("2001:db8:9::9")
    s.note("IPv6 among them, longer prefixes than any of IPv4 and shorter ones: each EtherType for itself.")
    s.command(3, termination(STOP6, ethertype=IPV6, mac=ROUTER, vid=VLAN))
    for cookie, priority, out, prefix in ((61, 9, 2, "::/0"), (62, 5, 3, "2001:db8::/32"), (63, 2, 4, "2001:db8::/64")):
        s.command(3, in_30(cookie, priority, out, prefix))
    s.sends(near, far, four)
    s.does("/0 becomes /128: port 2, 3, 5.", 4, in_30(61, 0, 2, "2001:db8::3/128"), near, far, four)
    s.does("/128 becomes /33, PRIORITY 9: 4, 2, 5.", 4, in_30(61, 9, 2, "2001:db8::/33"), near, far, four)
    s.does("/64 becomes /1: 2, 2, 5.", 4, in_30(63, 0xFFFFFFFF, 4, "2001:db8::/1"), near, far, four)
    s.does("/33 becomes a route of IPv4, /18: 3, 3, and 2 for the frame of IPv4.", 4, in_30(61, 0, 2, "10.1.0.0/18"), near, far, four)
    s.note("The two go: 4, 4 by /1 and 2; then 4, 4 and 5.")
    for cookie in (62, 61):
        s.del_flow(cookie)
        s.sends(near, far, four)
    s.del_flow(63)
    s.del_flow(STOP6)


# ---- From table to table

def wandering(s):
    bridged, plain, way, second = tagged(FIFTY), untagged(TEN), to("10.1.2.3"), to("10.1.2.3", SECOND)
    frames = [bridged, plain, way, second]
    s.note("One flow, cookie 77, goes from table to table; in each stand two others. Of four frames the first shows table 50, then 10, 30, 20.")
    for cookie, priority in ((70, 5), (80, 3)):
        s.command(3, in_50(cookie, priority, 2))
        s.command(3, in_10(cookie + 100, priority, 2))
        s.command(3, in_30(cookie + 300, priority, 2, "10.1.0.0/16"))
    s.does("It is added to 50 before both: port 3 in the first.", 3, in_50(77, 9, 3), *frames)
    s.does("To 10, before both there: port 2 in the first, 3 in the second.", 4, in_10(77, 9, 3), *frames)
    s.does("To 30, before both: 2, 2, 3.", 4, in_30(77, 0, 3, "10.1.2.0/24"), *frames)
    s.does("To 20, the second router: 2, 2, 2 and 2.", 4, termination(77, 9, mac=SECOND, vid=VLAN), *frames)
    s.does("To 50, between the two: 2, 2, 2, none.", 4, in_50(77, 4, 3), *frames)
    s.does("To 0, where it drops all of them.", 4, ingress(77, 0, mask=0, goto=0), *frames)
    s.does("To 10, behind both: 2, 2, 2, none.", 4, in_10(77, 0, 3), *frames)
    s.does("To 30, behind both, with the highest PRIORITY: the same.", 4, in_30(77, 9, 3, "10.0.0.0/8"), *frames)
    s.does("To 50, of the first one's PRIORITY: the same, a higher cookie.", 4, in_50(77, 5, 3), *frames)
    s.does("The first of table 50 goes: 3, 2, 2, none.", 5, {5: le64(70)}, *frames)
    s.does("77 to 10, of the PRIORITY of 170: 2 by 80; 3 in the second, the lower cookie.", 4, in_10(77, 5, 3), *frames)
    s.does("170 to 50, before 80: 5, 3, 2.", 4, in_50(170, 5, 5), *frames)
    s.does("A mod to table 40 is ENOTSUP and one with a bad GOTO_TBL EINVAL: nothing moves.", 4, in_50(170, 0, 5) | {1: b"\x28\0"}, *frames)
    s.command(4, in_10(170, 9, 5) | {9: b"\x3c\0"})
    s.sends(*frames)
    s.note("All are deleted, 77 first: 5, 2, 2; then nothing is left but what was there before.")
    for cookie in (77, 170, 80, 180, 370, 380):
        s.del_flow(cookie)
        s.sends(*frames)


# ---- All 256 places

def deciding(flows):
    """The station's flow that decides, of PRIORITY by cookie."""
    return min(flows, key=lambda cookie: (-flows[cookie], cookie))


def filled(s):
    """The flows of one station: PRIORITY by cookie."""
    s.note("Table 50 gets 247 flows of one station, in no order, and one of another behind all of them; with the eight of before 256 are live.")
    flows = {}
    for n in range(247):
        at = n * 100 % 247
        cookie = 2000 + at // 4 * 4 + 3 - at % 4
        flows[cookie] = 1000 + at // 4
        s.command(3, in_50(cookie, flows[cookie], 2 + at % 5, MANY))
    s.command(3, in_50(1, 1, 6, ONE))
    return flows


def full(s):
    many, one, plain, way = tagged(MANY), tagged(ONE), untagged(TEN), to("10.1.2.3")
    flows = filled(s)
    s.note("The highest PRIORITY has three flows, the lowest cookie of them decides: port 3; the last flow of the table the second frame: 6.")
    s.sends(many, one)
    s.does("One more, to table 50, to 0, to 30: ENOMEM, and nothing moves.", 3, in_50(5000, 9999, 6, MANY), many, one)
    s.command(3, in_0(5000, 9999, 2))
    s.command(3, in_30(5000, 9999, 6))
    s.sends(many, one, way)
    s.does("An add of one that is there: EEXIST.", 3, in_50(2000, 9999, 6, MANY), many, one)
    s.does("2000, of the lowest PRIORITY, to the front: OK, port 6.", 4, in_50(2000, 9999, 6, MANY), many, one)
    s.does("To the end, behind the other station's: what was before.", 4, in_50(2000, 0, 6, MANY), many, one)
    s.does("To table 10: port 4 in the third; the fourth frame has no route.", 4, in_10(2000, 0, 4), many, one, plain, way)
    s.does("One more: ENOMEM still.", 3, in_30(5000, 0, 6), many, one, plain, way)
    s.does("To table 30: port 5 in the fourth.", 4, in_30(2000, 0, 5), many, one, plain, way)
    del flows[2000]
    s.does("The deciding one is deleted: the next of its PRIORITY, port 2.", 5, {5: le64(deciding(flows))}, many, one, plain, way)
    del flows[deciding(flows)]
    s.does("One is added, to table 10: OK, port 6 in the third.", 3, in_10(5000, 0, 6), many, one, plain, way)
    s.does("One more: ENOMEM.", 3, in_50(5001, 0, 6, MANY), many, one)
    replaced(s, flows, many, one)
    s.does("The last of table 50 goes: its frame has no copy.", 5, {5: le64(1)}, many, one)
    s.does("It comes back, to the front: port 3 for its frame, and nothing else moves.", 3, in_50(1, 9999, 3, ONE), many, one)
    s.does("An add of one that is there, at the full table: EEXIST; a del and a mod of none: ENOENT.", 3, in_50(1, 0, 6, ONE), many, one)
    s.del_flow(5001)
    s.command(4, in_50(5001, 9999, 6, MANY))
    s.sends(many, one)


def replaced(s, flows, many, one):
    s.note("Twelve times the station's deciding flow goes, and another comes: of the PRIORITY of the one that then decides, with a lower cookie and")
    s.note("a higher one in turn; each third time of PRIORITY 0, behind the last of the table. There is room for one each time.")
    for n in range(12):
        gone = deciding(flows)
        del flows[gone]
        s.del_flow(gone)
        s.sends(many)
        cookie = gone + (10000 if n % 2 else -1000)
        flows[cookie] = flows[deciding(flows)] if n % 3 else 0
        s.command(3, in_50(cookie, flows[cookie], 2 + n % 5, MANY))
        s.sends(many, one)
    s.does("One more: ENOMEM.", 3, in_50(5001, 0, 6, MANY), many, one)


def after_a_reset(s):
    many, one, plain, way = tagged(MANY), tagged(ONE), untagged(TEN), to("10.1.2.3")
    s.note("A device reset, with 256 flows live. The groups come back, the flows do not: no frame has a copy.")
    s.add("write 4 0x300 1")
    s.ring(0, 8)
    groups(s)
    s.sends(many, one, plain, way, tagged(ZERO))
    s.does("Table 10 has a flow again, table 50 has none: no copy.", 3, vlan(WAY, vid=VLAN), many, one, plain, way)
    s.does("2246 again, at its old PRIORITY: port 5.", 3, in_50(2246, 1061, 5, MANY), many, one)
    s.does("2000, of a lower one: still 5.", 3, in_50(2000, 0, 6, MANY), many, one)
    s.does("1, of that one's PRIORITY: still 5.", 3, in_50(1, 0, 3, MANY), many, one)
    s.does("2246 goes: port 3 by 1.", 5, {5: le64(2246)}, many, one)
    s.add("read 4 0x1018", "header 6")


if __name__ == "__main__":
    script = Orders()
    for part in (beginning, tables, wide, stops, prefixes, wandering, full, after_a_reset):
        part(script)
    print("# Flows in the order in which they decide (request 2026-05; tests/scripts/orders.py). Of a frame are printed the answer and the number of")
    print("# copies, then of each copy port, VLAN, POP_VLAN, and source and destination MAC as three numbers each, 0 where it is bridged.")
    for line in __doc__.split("\n\n")[1].splitlines():
        print(f"# {line}")
    print("\n".join(script.lines))
