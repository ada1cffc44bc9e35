#!/usr/bin/env python3
"""tests/undo/night.py MODEL: writes examples/night.script, an evening and a night on a switch with four ports, and examples/night.trail, the
journal of its device, which comes from the second implementation. docs/UNDO.md undoes the night; tests/undo/example runs that. The script of
night_run is the same with the list behind it, and frames after the evening, the night and the list."""
import pathlib
import subprocess
import sys
import tempfile

sys.dont_write_bytecode = True
HERE = pathlib.Path(__file__).resolve().parent
sys.path[:0] = [str(HERE)]
from cases import ADD, MOD, as_list, flow0, flow10, flow50, flow_del, gid, group_del, le, list_group, port_group, region

ROOT = HERE.parents[1]
EXAMPLES = ROOT / "examples"
NO_TIMES = {"hard": None, "idle": None}  # as most drivers have them: not given
PLACE = 0x1000


def station(number, **times):
    """The flow of a station behind a port: frames to its MAC go to the port's group."""
    return flow50(ADD, 20 + number, mac=bytes([2, 0, 0, 0, 7, number]), group=gid(0, 5, number), priority=1, goto=60, **times)


def untagged(port):
    return flow10(ADD, 10 + port, port=port, vlan=0, new=5, goto=20, **NO_TIMES)


EVENING = [
    ("group: VLAN 5, port 1, frames go out tagged", port_group(ADD, 5, 1)),
    ("group: VLAN 5, port 2, untagged", port_group(ADD, 5, 2, pop=1)),
    ("group: VLAN 5, port 3, untagged", port_group(ADD, 5, 3, pop=1)),
    ("group: flood of VLAN 5 to ports 1, 2, 3", list_group(ADD, 4, 5, 0, [1, 2, 3])),
    ("flow 1, table 0: frames of any port go on to table 10", flow0(ADD, 1, port=0, mask=0, goto=10, **NO_TIMES)),
    ("flow 11, table 10: port 1, VLAN 5", flow10(ADD, 11, port=1, vlan=5, goto=20, **NO_TIMES)),
    ("flow 12, table 10: port 2, untagged frames become VLAN 5", untagged(2)),
    ("flow 13, table 10: port 3, the same", untagged(3)),
    ("flow 21, table 50: VLAN 5, MAC 02:00:00:00:07:01, to port 1", station(1, **NO_TIMES)),
    ("flow 22, table 50: VLAN 5, MAC 02:00:00:00:07:02, to port 2", station(2, **NO_TIMES)),
    ("flow 23, table 50: VLAN 5, MAC 02:00:00:00:07:03, to port 3", station(3, **NO_TIMES)),
    ("flow 30, table 50: VLAN 5, any other MAC, to the flood", flow50(ADD, 30, group=gid(4, 5, 0), goto=60, **NO_TIMES)),
]
NIGHT = [
    ("group: VLAN 5, port 4, untagged", port_group(ADD, 5, 4, pop=1)),
    ("group changed: the flood goes to ports 1, 2, 3, 4", list_group(MOD, 4, 5, 0, [1, 2, 3, 4])),
    ("flow 14, table 10: port 4, untagged frames become VLAN 5", untagged(4)),
    ("flow 22 deleted", flow_del(22)),
    ("flow 14 once more: EEXIST, nothing changes and nothing is charged", untagged(4)),
]
# The list, by hand: of the flow both times stand, 0 each.
BACK = [flow_del(14), group_del(0, 5, 4), list_group(MOD, 4, 5, 0, [1, 2, 3]), station(2)]


def script():
    lines = ["# An evening and a night on a switch with four ports: lines 1 to 12 and 13 to 17 of its journal, examples/night.trail.",
             "# ./run console < examples/night.script; docs/UNDO.md undoes the night.", "memory 65536", "fresh 4 0x1",
             "# the ring: 32 slots from address 0; each payload stands at 0x1000", "write 8 0x1000 0", "write 4 0x1008 32"]
    for slot, (what, payload) in enumerate(EVENING + NIGHT):
        lines += [{0: "# ---- the evening", len(EVENING): "# ---- the night"}[slot]] if slot in (0, len(EVENING)) else []
        data = region(payload)
        descriptor = le(8, PLACE) + bytes(8) + le(2, len(data)) * 2 + bytes(12)
        lines += [f"# {slot + 1}. {what}", f"poke {PLACE:#x} {data.hex()}", f"poke {32 * slot:#x} {descriptor.hex()}",
                  f"write 4 0x100c {slot + 1}", "work 4096"]
    return "\n".join(lines) + "\n"


def frames():
    """All ports up and enabled; from each port a frame to each station and to all, untagged and of VLAN 5."""
    lines = [f"link {port} 1" for port in (1, 2, 3, 4)] + ["write 8 0x318 0x1e"]
    for port in (1, 2, 3, 4):
        for to in ("020000000701", "020000000702", "020000000703", "ffffffffffff"):
            lines += [f"frame {port} {to}0200000000{port:02x}{tag}0800{'00' * 46}" for tag in ("", "81000005")]
    return "\n".join(lines) + "\n"


def model(*words):
    return subprocess.run([sys.argv[1], *words], stdout=subprocess.PIPE, check=True).stdout


def morning():
    """The evening, the night and the list, and after each the frames: they go in the end where they went at first."""
    evening, night = script().split("# ---- the night")
    shown = f"{evening}# frames in the evening\n{frames()}# ---- the night{night}# frames in the night\n{frames()}"
    with tempfile.TemporaryDirectory() as folder:
        paths = [pathlib.Path(folder) / name for name in ("list", "script")]
        paths[0].write_bytes(as_list(BACK))
        paths[1].write_text(shown)
        posted = model("post", *paths)
        whole = posted + f"# frames in the morning: as in the evening\n{frames()}".encode()
        paths[1].write_bytes(whole)
        with open(paths[1], "rb") as source:
            printed = subprocess.run([sys.argv[1], "console"], stdin=source, stdout=subprocess.PIPE, check=True).stdout.splitlines()
    at = [k for k, line in enumerate(whole_calls(whole)) if line.startswith("frame ")]
    outputs = [printed[k] for k in at]
    if not outputs[:32] == outputs[64:] != outputs[32:64]:
        sys.exit("the frames of the morning do not go where those of the evening went")
    return whole


def whole_calls(text):
    """The lines of a script that print something."""
    return [line for line in text.decode().splitlines() if line and line[0] != "#" and line.split(" ")[0] not in ("memory", "poke")]


def main():
    path = EXAMPLES / "night.script"
    path.write_text(script())
    trail = model("trail", path)
    (EXAMPLES / "night.trail").write_bytes(trail)
    (ROOT / "crates/night_run/stdin").write_bytes(morning())
    print(f"{len(EVENING)} lines of the evening, {len(NIGHT)} of the night, {len(trail):,} bytes")


if __name__ == "__main__":
    main()
