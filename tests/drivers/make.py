#!/usr/bin/env python3
"""Writes the script of drivers_run: make.py > crates/drivers_run/stdin. The commands of commands.txt, each run on a new switch of 4 ports, in
a ring of 32 slots as the driver's. Each payload stands in guest memory once, as it was captured; TLV_SIZE is its length, and so is BUF_SIZE,
which was not captured. The commands of a step are posted together, as far as the ring's end; the outcomes come from tests/model
(tests/scripts/store)."""
import collections
import pathlib
import struct

COMMANDS = pathlib.Path(__file__).resolve().parent / "commands.txt"
PORTS, SLOTS, PLACE, MEMORY = 4, 32, 0x1000, 131072
ROOM = 4102  # the longest record's

# payload; the status that QEMU completed it with; COMP_ERR as it was when it was posted; run; step in the guest; slot
Command = collections.namedtuple("Command", "payload qemu entry run step slot")


def commands():
    """The commands of the file, in their order."""
    found, run, step, slot = [], None, None, 0
    for line in COMMANDS.read_text().splitlines():
        word, _, rest = line.partition(" ")
        if word == "run":
            run, slot = int(rest), 0
        elif word == "step":
            step = rest
        elif word != "#":
            payload = found[int(word[1:]) - 1].payload if word[0] == "=" else bytes.fromhex(word)
            told = dict(zip(rest.split()[::2], rest.split()[1::2]))
            found.append(Command(payload, int(told.get("qemu", "0")), int(told.get("entry", "0"), 16), run, step, slot))
            slot = (slot + 1) % SLOTS
    return found


def batches(all_of_them):
    """Commands of one step whose slots follow each other without going around the ring's end: all but one slot may be posted."""
    batch = []
    for command in all_of_them:
        if batch and ((command.run, command.step) != (batch[0].run, batch[0].step) or command.slot == 0 or len(batch) == SLOTS - 1):
            yield batch
            batch = []
        batch.append(command)
    yield batch


def descriptor(command, place):
    size = len(command.payload)
    return struct.pack("<QQHH10xH", place, 0, size, size, command.entry)


def script():
    found = commands()
    yield "# Commands of Linux's rocker driver, as captured (docs/DRIVERS.md, tests/drivers/make.py). A record begins with 0x8000 plus the status."
    yield f"memory {MEMORY}"
    yield "# the payloads, each one once"
    places, at = {}, PLACE
    for command in found:
        if command.payload not in places:
            yield f"poke {at:#x} {command.payload.hex()}"
            places[command.payload] = at
            at += len(command.payload) + -len(command.payload) % 8
    assert at <= MEMORY
    run = step = None
    for batch in batches(found):
        first = batch[0]
        if first.run != run:
            run, step = first.run, None
            yield f"# ---- run {run}: a new switch; the ring has {SLOTS} slots, from address 0"
            yield from (f"fresh {PORTS} 0x1", "write 8 0x1000 0", f"write 4 0x1008 {SLOTS}")
        if first.step != step:
            step = first.step
            yield f"# {step}"
        yield f"poke {32 * first.slot:#x} " + b"".join(descriptor(command, places[command.payload]) for command in batch).hex()
        yield f"write 4 0x100c {(first.slot + len(batch)) % SLOTS}"
        yield from [f"work {ROOM}"] * len(batch)
    yield "# all are consumed"
    yield from (f"work {ROOM}", "read 4 0x1018")


if __name__ == "__main__":
    print("\n".join(script()))
