"""Rounds of request 2026-06, for tests/run, tests/damage and tests/undo/run: the program `undo` beside the second implementation
(tests/model) on journals of an evening and a night, its lists carried out by the console, and `undo_run` on questions with any room."""
import collections
import pathlib
import random
import struct
import sys
import threading

sys.dont_write_bytecode = True
HERE = pathlib.Path(__file__).resolve().parent
sys.path[:0] = [str(HERE.parent), str(HERE)]
import cases
import harness

MANY = 65_600  # lines of the one long journal; more than 16 bits count
CARRIED = 0.3  # of the lists, as many are carried out
COUNTED = ("evenings", "evenings of versions 1 and 2", "lists", "refusals", "rooms", "payloads by the console")
EVENINGS, OLD, LISTS, REFUSALS, ROOMS, PAYLOADS = COUNTED

# How a journal reaches the program: as FILE, or as standard input, a file or a pipe.
WAYS = ("FILE", "- < FILE", "- |")


def bring_up_to_date(**paths):
    """The programs of target/bin, as far as they are there and no other path is given for one."""
    names = [name for name in ("undo", "undo_run", "console", "replay") if not paths.get(name) and (harness.ROOT / "target/bin" / name).exists()]
    if names:
        harness.bring_up_to_date(*names)


class Programs:
    """The words that run each program: that of a path, or the model where there is none."""

    def __init__(self, **paths):
        self.stood_in = []
        for name, path in (("undo", harness.UNDO), ("undo_run", harness.UNDO_RUN), ("console", harness.CONSOLE), ("replay", harness.REPLAY)):
            setattr(self, name, self.words(paths.get(name) or path, name))

    def words(self, path, name):
        if pathlib.Path(path).exists():
            return [path]
        self.stood_in.append(name)
        return [harness.MODEL, {"undo_run": "undo-all"}.get(name, name)]


def own(folder):
    """A folder of this thread."""
    path = pathlib.Path(folder) / f"undo-{threading.get_ident()}"
    path.mkdir(exist_ok=True)
    return path


# ---- The program

def differs(what, trail, n, sides):
    raise harness.Disagreement(f"undo {n}: {what}", "journal", trail, sides)


def undone(words, trail, n, old, way, folder):
    """One run of `undo N FILE OUT`, and what OUT then has."""
    file, out = own(folder) / "journal", own(folder) / "list"
    file.write_bytes(trail)
    out.unlink(missing_ok=True)
    if old is not None:
        out.write_bytes(old)
    source = {"FILE": b"", "- < FILE": file, "- |": trail}[way]
    ran = harness.run([*words, str(n), str(file) if way == "FILE" else "-", str(out)], source)
    return ran, out.read_bytes() if out.exists() else None


def compare(programs, trail, n, folder, old=None, way="FILE"):
    """Both runs on one question; gives the list, or None where it is refused."""
    mine, my_list = undone(programs.undo, trail, n, old, way, folder)
    other, list_ = undone([harness.MODEL, "undo"], trail, n, old, "FILE", folder)
    sides = {"undo": mine, "model": other}
    if mine.status != 0 or other.status != 0:
        differs(harness.ending("undo", mine, other), trail, n, sides)
    if mine.out != other.out:
        differs(f"undo prints {mine.out!r}, the model {other.out!r}", trail, n, sides)
    if my_list != list_:
        differs("another OUT", trail, n, {"undo": mine._replace(err=my_list or b""), "model": other._replace(err=list_ or b"")})
    if mine.err or other.err:
        differs("something on standard error", trail, n, sides)
    return None if other.out.startswith(b"refused") else list_


def unusable(programs, folder):
    """Words, files and numbers that are none: a word on standard error, nothing on standard output, and OUT as it was."""
    good, out, old = own(folder) / "good", own(folder) / "out", b"as it was"
    good.write_bytes(cases.journal(cases.EXAMPLE))
    none, no_folder = own(folder) / "none", own(folder) / "none/out"
    for words in (["0", none, out], ["0", own(folder), out], ["0", good, no_folder], ["0", good, own(folder)], ["x", good, out], ["-1", good, out],
                  [str(2**64), good, out], ["", good, out], ["0", good], ["0"], ["0", good, out, out]):
        out.write_bytes(old)
        ran = harness.run([*programs.undo, *map(str, words)])
        if ran.out or not ran.err or ran.status not in (0, 2) or out.read_bytes() != old or none.exists():
            raise harness.Disagreement(f"undo {words}: not as for what cannot be done", "journal", good.read_bytes(), {"undo": ran})
    return {}


# ---- The list carried out

def records_of(script, ran):
    """The records that the work calls of a script printed."""
    told = zip(harness.printing(script, set()), harness.lines_of(ran.out))
    return [bytes.fromhex(out.split(b" ")[2].decode()) for (_, line), out in told if line.startswith(b"work ") and out.startswith(b"0 ")]


def carried_out(programs, trail, n, list_, folder):
    """The list behind the night's script: all OK, and the journal of both leads to the tables of the first n lines. The night of a journal of
    version 1 or 2 is played with commands that complete alike on a device, so its journal is of version 3."""
    paths = {name: own(folder) / name for name in ("night", "posted", "script", "longer")}
    paths["night"].write_bytes(trail)
    paths["posted"].write_bytes(list_)
    night = harness.generated("night", paths["night"])
    paths["script"].write_bytes(night)
    script = harness.generated("post", paths["posted"], paths["script"])
    ran = harness.run(programs.console, script)
    records = records_of(script, ran)
    count = len(records_of(night, harness.run([harness.MODEL, "console"], night)))
    done = records[count:]
    if ran.status != 0 or ran.err or any(record[:2] != b"\0\x80" for record in done):
        differs("the console does not carry the list out", trail, n, {"console": ran})
    longer = harness.header(trail[5]) + b"".join(records)
    paths["longer"].write_bytes(longer)
    told = harness.run([*programs.replay, str(paths["longer"])])
    if not told.out.startswith(b"ports %d\nlines %d\n" % (trail[5], count + len(done))):
        differs(f"the journal of both replays as {told.out!r}", longer, n, {"replay": told})
    if compare(programs, longer, n, folder) != b"":
        differs("the list does not lead back", longer, n, {"replay": told})
    return len(done)


# ---- The call, with its room

def compare_rooms(programs, frames):
    """Questions with their rooms, each byte of them; gives what the model printed."""
    mine, other = harness.run(programs.undo_run, frames), harness.run([harness.MODEL, "undo-all"], frames)
    if (mine.status, mine.out, mine.err) != (0, other.out, b""):
        at, a, b = harness.first_difference(mine.out, other.out)
        what = f"question {at // 3 + 1}: undo_run prints {harness.shortened(a)}, the model {harness.shortened(b)}"
        raise harness.Disagreement(what, "questions", frames, {"undo_run": mine, "model": other})
    return other.out


def questions(frames):
    """The journal of a seed's questions, and the numbers that are asked for."""
    numbers, trail, at = [], b"", 0
    while at < len(frames):
        n, _, length = struct.unpack_from("<QII", frames, at)
        trail = frames[at + 16:at + 16 + length]
        numbers += [] if n in numbers else [n]
        at += 16 + length
    return trail, numbers


# ---- Rounds

def a_long_one(programs, folder):
    """More lines than 16 bits count, so that n has to be compared whole."""
    trail = cases.journal(cases.flow0(cases.ADD, 1), *[(cases.ENXIO, b"")] * MANY, cases.flow0(cases.ADD, 2))
    numbers = (1, MANY - 65_536, MANY, MANY + 1, MANY + 2, MANY + 3, MANY + 65_536)
    for n in numbers:
        compare(programs, trail, n, folder)
    return {LISTS: len(numbers)}


# What is run once, before the rounds.
ONCE = {"a long journal": a_long_one, "what cannot be done": unusable}


def a_round(programs, seed, folder):
    rng, counts = random.Random(seed), collections.Counter({EVENINGS: 1})
    frames = harness.generated("generate-asks", seed)
    counts[ROOMS] += len(harness.lines_of(compare_rooms(programs, frames))) // 3
    trail, numbers = questions(frames)
    counts[OLD] += harness.version(trail) in (1, 2)
    for n in numbers:
        list_ = compare(programs, trail, n, folder, rng.choice((None, b"", rng.randbytes(300_000))), rng.choice(WAYS))
        counts[LISTS if list_ is not None else REFUSALS] += 1
        if list_ is not None and rng.random() < CARRIED:
            counts[PAYLOADS] += carried_out(programs, trail, n, list_, folder)
    return counts


def counted(sums):
    return ", ".join(f"{sums[what]:,} {what}" for what in COUNTED)
