#!/usr/bin/env python3
"""Writes the script of studios_run: two studios, each in a VLAN of its own, and a router between them and to the outside (request 2026-03).
Every frame stands behind a comment that says what it shows. studios.py > crates/studios_run/stdin; the outcomes come from tests/model
(tests/scripts/store).

    port 1  studio A, untagged, VLAN 10: 10.1.0.0/16, 2001:db8:a::/48
    port 2  studio A, tagged 10
    port 3  studio B, untagged, VLAN 20: 10.2.0.0/16, 2001:db8:b::/48
    port 4  the provider, tagged 30
    port 5  a cable that is not plugged in
    port 6  plugged in, not enabled
    port 0  the host"""
import sys

sys.dont_write_bytecode = True
from make_scripts import (IPV4, IPV6, Script, bridge, group_id, interface, le32, le64, neighbour, routed, route, send, several, termination, vlan)

PORTS = 6
A, B, PROVIDER = 10, 20, 30
ROUTER, STATION, ANNA, BERT, UPLINK = "02aa00000001", "0200000000a9", "0200000000a1", "0200000000b1", "0200000000c1"
# The neighbours: groups of type 2 by index.
TO_A, TO_B, OUTSIDE, HOST, UNPLUGGED, DISABLED, NOBODY, TO_A_TAGGED = 1, 2, 3, 0, 5, 6, 0xFFFFFFF, 0x10002


class Studios(Script):
    def __init__(self):
        super().__init__(memory=16384, base=0, size=8, ports=PORTS, switch_id=0x57D105)

    def run(self, data, **how):
        super().run(data, place=0x1000, **how)

    def sends(self, what, port, *frames, lists=()):
        self.note(what)
        for data in frames:
            send(self, [port], data, *lists)

    def add_flow(self, what, fields):
        self.note(what)
        self.command(3, fields)


def to(address, port=1, **rest):
    """A frame to the router: port 2 and 4 send theirs tagged, as they have to."""
    tag = {2: A, 4: PROVIDER}.get(port)
    return routed(address, **({"mac": ROUTER, "source": STATION, "tag": tag} | rest))


def ports_and_vlans(s):
    s.note("Links of all ports but 5 are up; all but 6 are enabled.")
    s.add(*[f"link {port} 1" for port in (1, 2, 3, 4, 6)], "write 8 0x318 0x3e", "read 8 0x310", "read 8 0x318")
    s.note("Table 10: ports 1 and 3 untagged to VLANs 10 and 20, ports 2 and 4 tagged 10 and 30.")
    s.command(3, vlan(101, port=1, vid=0, new=A))
    s.command(3, vlan(102, port=2, vid=A))
    s.command(3, vlan(103, port=3, vid=0, new=B))
    s.command(3, vlan(104, port=4, vid=PROVIDER))
    s.note("Groups of type 0: studio A behind 1 (untagged) and 2 (tagged), B behind 3 (untagged), the provider behind 4, the host in all three.")
    for vid, port, pop in ((A, 0, 0), (A, 1, 1), (A, 2, 0), (B, 0, 0), (B, 3, 1), (B, 5, 0), (B, 6, 0), (PROVIDER, 0, 0), (PROVIDER, 4, 0)):
        s.command(7, interface(vid, port, pop))
    s.note("Each VLAN floods to its ports and to the host; the MAC of studio A's router stands in table 50 too, as a station would.")
    s.command(7, several(4, A, 1, [1, 2, 0]))
    s.command(7, several(4, B, 1, [3, 0]))
    s.command(7, several(4, PROVIDER, 1, [4, 0]))
    for cookie, vid in ((501, A), (502, B), (503, PROVIDER)):
        s.command(3, bridge(cookie, vid=vid, group=group_id(4, vid, 1)))
    s.command(3, bridge(510, priority=5, vid=A, mac=ROUTER, group=group_id(0, A, 0)))


def before_routing(s):
    s.sends("Before table 20 has a flow nothing is routed: a frame to the router's MAC is bridged, here to the host; its copy has no MACs.", 1,
            to("10.2.0.7"), to("2001:db8:b::7"))
    s.sends("One to another MAC is flooded: to port 2 and the host.", 1, to("10.1.0.7", mac=ANNA))


def the_router(s):
    s.note("Table 20: the router's MAC in studio A, at ports 1 and 2, for IPv4 and IPv6; in B and at the provider's for IPv4 alone.")
    for cookie, port, kind, vid in ((201, 1, IPV4, A), (202, 1, IPV6, A), (203, 2, IPV4, A), (204, 2, IPV6, A), (205, 3, IPV4, B),
                                    (206, 4, IPV4, PROVIDER)):
        s.command(3, termination(cookie, port=port, ethertype=kind, mac=ROUTER, vid=vid))
    s.sends("The same frames now are routed; without a route they are dropped, and not bridged.", 1, to("10.2.0.7"), to("2001:db8:b::7"))
    s.sends("What table 20 does not match is bridged as before: ARP, a MAC that differs in its last bit, the router's as the sender.", 1,
            to("10.2.0.7", ethertype=0x0806), to("10.2.0.7", mac="02aa00000000"), to("10.2.0.7", mac=ANNA, source=ROUTER))
    s.sends("So is IPv6 in studio B, whose VLAN has no flow for it: flooded to the host.", 3, to("2001:db8:a::7", port=3))
    s.sends("And a frame of port 1 that comes with the tag 10: table 10 has no flow for it and drops it, before table 20.", 1,
            to("10.2.0.7", tag=A))


def the_routes(s):
    s.note("Groups of type 2: neighbours with their MACs. Anna's is behind port 1, Bert's behind 3, the provider's router behind 4, the host's")
    s.note("own; two whose ports carry nothing; one over a group that nobody has made; and Anna again, over the tagged port 2.")
    for index, vid, port, mac in ((TO_A, A, 1, ANNA), (TO_B, B, 3, BERT), (OUTSIDE, PROVIDER, 4, UPLINK), (HOST, B, 0, "02ee00000001"),
                                  (UNPLUGGED, B, 5, "02ee00000005"), (DISABLED, B, 6, "02ee00000006"), (NOBODY, B, 99, "02ee00000063"),
                                  (TO_A_TAGGED, A, 2, ANNA)):
        s.command(7, neighbour(index, vid, port, ROUTER, mac))
    s.add_flow("10.2.0.0/16 is studio B.", route(316, "10.2.0.0/16", group=TO_B))
    s.sends("From A to B: out at port 3, VLAN 20, POP_VLAN 1, the router's MAC as sender, Bert's as receiver.", 1, to("10.2.0.7"))
    s.sends("The same from port 2, where it comes with the tag 10; other bits of the tag do not count.", 2, to("10.2.0.7", port=2),
            to("10.2.0.7", tag=0xF00A))
    s.sends("10.3.0.7 has no route: dropped.", 1, to("10.3.0.7"))
    s.add_flow("A default route: all else goes to the provider.", route(300, "0.0.0.0/0", group=OUTSIDE))
    s.sends("10.3.0.7 goes out at 4, as does an address far away; 10.2.0.7 still goes to B: the longer prefix decides.", 1, to("10.3.0.7"),
            to("192.0.2.1"), to("10.2.0.7"))
    s.add_flow("10.0.0.0/8, with the highest PRIORITY of all: what is inside and nowhere else goes to the host.",
               route(308, "10.0.0.0/8", priority=0xFFFFFFFF, group=HOST))
    s.sends("10.3.0.7 to the host (port 0, VLAN 20); 10.2.0.7 still to B, though the PRIORITY of its route is 0.", 1, to("10.3.0.7"), to("10.2.0.7"),
            to("11.0.0.1"))
    s.add_flow("10.2.3.0/24 inside B has its own way, to the provider; and 10.2.3.4/32 in it to B again.",
               route(324, "10.2.3.0/24", group=OUTSIDE))
    s.command(3, route(332, "10.2.3.4/32", group=TO_B))
    s.sends("Five prefixes, one inside the other: /32, /24, /16, /8, /0.", 1, to("10.2.3.4"), to("10.2.3.5"), to("10.2.4.4"), to("10.4.0.1"),
            to("12.0.0.1"))
    s.sends("The frame's own destination may be any address; multicast goes by the default route.", 1, to("239.1.1.1"), to("255.255.255.255"))


def inside_a(s):
    s.add_flow("10.1.0.0/16 is studio A itself: routed, the frame leaves by the port where it came in.", route(317, "10.1.0.0/16", group=TO_A))
    s.sends("From port 1 back to port 1; from port 2 to 1; from B to 1.", 1, to("10.1.0.7"))
    s.sends("(from port 2)", 2, to("10.1.0.7", port=2))
    s.sends("(from port 3, studio B)", 3, to("10.1.0.7", port=3))
    s.sends("A bridged flood never goes back: from port 1 to 2 and the host, from 2 to 1 and the host.", 1, to("10.1.0.7", mac=ANNA))
    s.sends("(from port 2)", 2, to("10.1.0.7", port=2, mac=ANNA))
    s.note("Anna moves to port 2: the same group is modified. Out at 2, tagged (POP_VLAN 0).")
    s.command(8, neighbour(TO_A, A, 2, ROUTER, ANNA))
    s.sends("From port 1, and from 2 back to 2.", 1, to("10.1.0.7"))
    s.sends("(from port 2)", 2, to("10.1.0.7", port=2))
    s.command(8, neighbour(TO_A, A, 1, ROUTER, ANNA))


def six(s):
    s.note("IPv6: studio B's prefix, one subnet of it by the provider, a default route to the host.")
    s.command(3, route(648, "2001:db8:b::/48", group=TO_B))
    s.command(3, route(664, "2001:db8:b:1::/64", priority=0, group=OUTSIDE))
    s.command(3, route(600, "::/0", priority=9, group=HOST))
    s.sends("/48, /64, /0, and a multicast address by the last; IPv4 is not touched.", 1, to("2001:db8:b::7"), to("2001:db8:b:1::7"),
            to("2001:db8:c::7"), to("ff02::1"), to("10.2.0.7"))
    s.sends("The same from port 2, tagged.", 2, to("2001:db8:b::7", port=2), to("2001:db8:b:1::7", port=2))
    s.sends("39 bytes after the EtherType are dropped, 40 and 41 are not; of a tagged frame they are counted behind its tag.", 1,
            *[to("2001:db8:b::7", length=length) for length in (39, 40, 41)])
    s.sends("(from port 2)", 2, *[to("2001:db8:b::7", port=2, length=length) for length in (39, 40, 41)])
    s.sends("IPv4: 19 are dropped, 20 and 21 are not.", 1, *[to("10.2.0.7", length=length) for length in (0, 19, 20, 21)])
    s.sends("(from port 2)", 2, *[to("10.2.0.7", port=2, length=length) for length in (0, 19, 20, 21)])
    s.sends("Too short, but to another MAC: bridged, as it always was.", 1, to("10.2.0.7", mac=ANNA, length=0))


def ties(s):
    s.note("Ties. Three routes of the same prefix, 10.2.9.0/24, one of them with other bits outside its mask: cookie 40 to the host, 41 to the")
    s.note("provider, 39 to Anna.")
    s.command(3, route(40, "10.2.9.0/24", priority=7, group=HOST))
    s.sends("One alone: to the host.", 1, to("10.2.9.1"))
    s.command(3, route(41, "10.2.9.77/24", priority=7, group=OUTSIDE))
    s.sends("The same PRIORITY: the lower cookie, the host still.", 1, to("10.2.9.1"))
    s.command(3, route(39, "10.2.9.0/24", priority=7, group=TO_A))
    s.sends("A lower cookie yet: Anna, though it came last.", 1, to("10.2.9.1"))
    s.command(4, route(41, "10.2.9.77/24", priority=8, group=OUTSIDE))
    s.sends("A higher PRIORITY: the provider.", 1, to("10.2.9.1"))
    s.command(4, route(40, "10.2.9.0/23", priority=9, group=HOST))
    s.sends("A shorter prefix does not win by PRIORITY 9: the provider still; 10.2.8.1 is the host's.", 1, to("10.2.9.1"), to("10.2.8.1"))
    s.command(4, route(39, "10.2.9.0/25", priority=0, group=TO_A))
    s.sends("A longer one wins with 0: Anna; 10.2.9.129 is the provider's.", 1, to("10.2.9.1"), to("10.2.9.129"))
    for cookie in (39, 40, 41):
        s.command(5, {5: le64(cookie)})


def nothing(s):
    s.note("A route that decides and gives nothing: its neighbour's port has no link, is not enabled, or its lower group is not there.")
    for index in (UNPLUGGED, DISABLED, NOBODY, 0x7777777):
        s.command(3, route(350, "10.2.0.7/32", group=index))
        s.sends(f"By neighbour {index:#x}: no copy, though 10.2.0.0/16 would have one; 10.2.0.8 goes there.", 1, to("10.2.0.7"), to("10.2.0.8"))
        s.command(5, {5: le64(350)})
    s.command(3, route(350, "10.2.0.7/32"))
    s.sends("No group at all.", 1, to("10.2.0.7"))
    s.command(4, route(350, "10.2.0.7/32", group=TO_B, goto=0))
    s.sends("GOTO_TBL 0 drops.", 1, to("10.2.0.7"))
    s.command(4, route(350, "10.2.0.7/32", group=TO_A_TAGGED))
    s.sends("A group again: Anna at port 2, tagged.", 1, to("10.2.0.7"))
    s.note("The cable of port 5 is plugged in and port 6 is enabled: the two neighbours behind them can be reached now.")
    s.add("link 5 1", "write 8 0x318 0x7e")
    s.command(4, route(350, "10.2.0.7/32", group=UNPLUGGED))
    s.sends("Out at 5.", 1, to("10.2.0.7"))
    s.command(4, route(350, "10.2.0.7/32", group=DISABLED))
    s.sends("Out at 6.", 1, to("10.2.0.7"))
    s.note("The lower group of B's neighbour goes: 10.2.0.8 is lost. It comes back without POP_VLAN.")
    s.command(9, {10: le32(group_id(0, B, 3))})
    s.sends("None.", 1, to("10.2.0.8"))
    s.command(7, interface(B, 3, 0))
    s.sends("Out at 3, tagged.", 1, to("10.2.0.8"))
    s.note("Port 1 goes down: what comes in there is lost. What is routed there from port 3 is too.")
    s.add("link 1 0")
    s.sends("None.", 1, to("10.2.0.8"))
    s.sends("None.", 3, to("10.1.0.7", port=3))
    s.add("link 1 1")
    s.sends("A list of 557 numbers is too short for any frame, one of 558 is not.", 1, to("10.2.0.8"), lists=(557,))
    s.sends("(558)", 1, to("10.2.0.8"), lists=(558,))
    s.note("The router of studio A is switched off: its frames are bridged again. A device reset takes all of it.")
    s.command(5, {5: le64(201)})
    s.sends("To the host, without MACs.", 1, to("10.2.0.8"))
    s.add("header 6", "write 4 0x300 1", "write 8 0x318 0x7e")
    s.sends("Nothing is left.", 3, to("10.1.0.7", port=3))


if __name__ == "__main__":
    script = Studios()
    for part in (ports_and_vlans, before_routing, the_router, the_routes, inside_a, six, ties, nothing):
        part(script)
    print("# Two studios and a router (request 2026-03; tests/scripts/studios.py). Of a frame are printed the answer and the number of copies, then of")
    print("# each copy port, VLAN, POP_VLAN, and source and destination MAC as three numbers each, 0 where it is bridged.")
    for line in __doc__.split("\n\n")[1].splitlines():
        print(f"# {line}")
    print("\n".join(script.lines))
