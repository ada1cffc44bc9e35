"""What tests/run and tests/damage share: both sides are built, run on the same input and compared.

The sides are the proved programs (console, replay, undo and undo_run of target/bin), the proved device through its C interface
(tests/interface) and the second implementation (tests/model)."""
import argparse
import collections
import concurrent.futures
import itertools
import pathlib
import re
import shutil
import struct
import subprocess
import sys
import tempfile
import threading
import time

ROOT = pathlib.Path(__file__).resolve().parent.parent
MODEL = str(ROOT / "tests/model/target/release/model")
CONSOLE = str(ROOT / "target/bin/console")
REPLAY = str(ROOT / "target/bin/replay")
UNDO = str(ROOT / "target/bin/undo")
UNDO_RUN = str(ROOT / "target/bin/undo_run")
INTERFACE = str(ROOT / "tests/interface/target/release/interface")
ARCHIVE = ROOT / "target/staticlib/libcapi.a"
KEPT = ROOT / "target/disagreement"
PATIENCE = 120  # seconds after which a run counts as one that does not end

# How a journal reaches replay: as FILE, or as standard input, a file or a pipe, with - and without a word.
WAYS = ("FILE", "- < FILE", "< FILE", "- |", "|")

# What the model checks of itself while it is compared, as words of its command line.
CHECKS = []

Ran = collections.namedtuple("Ran", "status out err")


class Disagreement(Exception):
    """What differs, the input (script or journal, and its bytes), and what each side made of it."""

    def __init__(self, what, name, data, sides):
        super().__init__(what)
        self.what, self.name, self.data, self.sides = what, name, data, sides

    def keep(self):
        shutil.rmtree(KEPT, ignore_errors=True)
        KEPT.mkdir(parents=True)
        (KEPT / self.name).write_bytes(self.data)
        for side, ran in self.sides.items():
            (KEPT / f"{side}.stdout").write_bytes(ran.out)
            (KEPT / f"{side}.stderr").write_bytes(ran.err)
            (KEPT / f"{side}.status").write_text(f"{ran.status}\n")


def build():
    """The programs and the archive, and what cargo builds; each says itself whether there is anything to do."""
    bring_up_to_date(*(pathlib.Path(path).name for path in (CONSOLE, REPLAY, UNDO, UNDO_RUN, ARCHIVE)))
    build_package("tests/model")
    build_package("tests/interface")


def bring_up_to_date(*names):
    """Programs and archives, as `run` does it: what has changed since they were built is proved and built again."""
    if subprocess.run([ROOT / "shell/build", *names]).returncode != 0:
        sys.exit(2)


def build_package(path):
    subprocess.run(["cargo", "build", "--release", "--offline", "--quiet"], cwd=ROOT / path, check=True)


def generated(*words):
    return subprocess.run([MODEL, *map(str, words)], stdout=subprocess.PIPE, check=True).stdout


def run(words, source=b""):
    """One run of a program. Its standard input is a pipe with these bytes, or a file."""
    how = {"stdout": subprocess.PIPE, "stderr": subprocess.PIPE, "timeout": PATIENCE}
    try:
        if isinstance(source, bytes):
            done = subprocess.run(words, input=source, **how)
        else:
            with open(source, "rb") as file:
                done = subprocess.run(words, stdin=file, **how)
    except subprocess.TimeoutExpired as late:
        return Ran(f"no end within {PATIENCE} s", late.stdout or b"", late.stderr or b"")
    return Ran(done.returncode, done.stdout, done.stderr)


# ---- Journals

def header(ports):
    """The header of a device's own journal."""
    return b"RKT\3\0" + bytes([ports])


def version(journal):
    """The number in a journal's header; None where it is cut."""
    return int.from_bytes(journal[3:5], "little") if len(journal) >= 6 else None


# ---- Scripts and their outcomes

def lines_of(data):
    """The lines of a script or of what was printed. One CR before the LF is no part of a line; a last line needs no LF."""
    *lines, last = data.split(b"\n")
    return [line.removesuffix(b"\r") for line in lines] + ([last] if last else [])


def calls_in(script):
    return sum(1 for line in lines_of(script) if line and line[:1] != b"#")


def printing(script, no_calls):
    """The lines of a script that print something, each with its number; `no_calls` are the numbers that standard error names."""
    for number, line in enumerate(lines_of(script), 1):
        if line and line[:1] != b"#" and number not in no_calls and line.split(b" ", 1)[0] not in (b"memory", b"poke"):
            yield number, line


def named_lines(err):
    """The numbers of the lines that standard error names; None if something else stands there."""
    heads = [re.match(rb"console: line ([0-9]+):", line) for line in lines_of(err)]
    return [int(head[1]) for head in heads] if all(heads) else None


# ---- What is stored beside the programs that check it

STORED_SCRIPTS = ("console", "payloads_run", "frames_run", "incident_run", "worked_run", "night_run", "drivers_run", "studios_run",
                  "order_run")
STORED_REGISTERS = "registers_run"
STORED_JOURNALS = "replay_run"
STORED_QUESTIONS = "undo_run"


def stored(name):
    """The input of a program crate, and what it must print."""
    return [(ROOT / "crates" / name / file).read_bytes() for file in ("stdin", "stdout")]


def stored_journals():
    """The journals of replay_run, each behind its length, with the lines that are printed of it."""
    frames, printed = stored(STORED_JOURNALS)
    at = 0
    for lines in printed.split(b"journal ")[1:]:
        size = struct.unpack_from("<I", frames, at)[0]
        yield frames[at + 4:at + 4 + size], lines.split(b"\n", 1)[1]
        at += 4 + size


# ---- Comparing

def shortened(line):
    return line[:160].decode("ascii", "backslashreplace") + (" .." if len(line) > 160 else "")


def first_difference(mine, other):
    """The first line that differs, counted from 0, as each side has it."""
    pairs = itertools.zip_longest(lines_of(mine), lines_of(other), fillvalue=b"(nothing)")
    return next(((at, a, b) for at, (a, b) in enumerate(pairs) if a != b), (0, b"(another end)", b"(another end)"))


def ending(name, mine, other):
    """Another exit code than 0, an end by a signal or no end; otherwise None."""
    if mine.status == other.status == 0:
        return None
    return f"{name} ends with {mine.status}, the model with {other.status} (negative: a signal)"


def handed_over(data, piped, folder):
    """Bytes as the standard input of a run: through a pipe, or a file of this thread."""
    if piped:
        return data
    path = pathlib.Path(folder) / f"input-{threading.get_ident()}"
    path.write_bytes(data)
    return path


def compare_side(name, mine, other, script):
    """What a side makes of a script, beside the model."""
    named, expected = named_lines(mine.err), named_lines(other.err)
    what = ending(name, mine, other)
    if what is None and mine.out != other.out:
        at, a, b = first_difference(mine.out, other.out)
        number, line = next(itertools.islice(printing(script, set(expected or [])), at, None), (0, b"(none)"))
        what = f"line {number}, {shortened(line)}: {name} prints {shortened(a)}, the model {shortened(b)}"
    if what is None and (named is None or named != expected):
        what = f"standard error of {name} names other lines or says something else"
    if what is not None:
        raise Disagreement(what, "script", script, {name: mine, "model": other})


def compare_console(script, source):
    """The console and the C interface beside the model, on a script that reaches them through `source`. Gives the model's output and the
    lines that are no calls."""
    other = run([MODEL, *CHECKS, "console"], source)
    compare_side("console", run([CONSOLE], source), other, script)
    compare_side("interface", run([INTERFACE], source), other, script)
    return other.out, set(named_lines(other.err))


def compare_replay(journal, way, folder):
    """Both replays of a journal that reaches `replay` in one of the ways. Gives the model's output."""
    path = handed_over(journal, False, folder)
    words = [str(path)] if way == "FILE" else ["-"] if way[0] == "-" else []
    source = journal if way[-1] == "|" else path if "<" in way else b""
    mine, other = run([REPLAY, *words], source), run([MODEL, *CHECKS, "replay", str(path)])
    what = ending("replay", mine, other)
    if what is None and mine.out != other.out:
        _, a, b = first_difference(mine.out, other.out)
        what = f"replay prints {shortened(a)}, the model {shortened(b)}"
    if what is None and (mine.err or other.err):
        what = "something on standard error"
    if what is not None:
        raise Disagreement(f"replay {way}: {what}", "journal", journal, {"replay": mine, "model": other})
    return other.out


# ---- Rounds

def clock_seed():
    return time.time_ns() // 1_000_000


def options(description, number, default, meaning):
    """A number, and the options that both programs have."""
    parser = argparse.ArgumentParser(description=description)
    parser.add_argument(number, metavar=number.upper(), type=int, nargs="?", default=default, help=f"{meaning} (default: {default})")
    parser.add_argument("--seed", type=int, help="the seed of the first round (default: from the clock); each next round has the next seed")
    parser.add_argument("--jobs", type=int, choices=(1, 2), default=2, help="how many rounds run at a time (default: 2)")
    parser.add_argument("--check-order", dest="checks", action="store_const", const=["--check-order"], default=[],
                        help="the model checks the order of its flows after every command, and its search at every frame")
    return parser


def seeds_until(end, first, count):
    """Seeds from the first one, to a time of the monotonic clock or to a count, whichever comes first."""
    for k in itertools.count():
        if k == count or time.monotonic() >= end:
            return
        yield (first + k) % 2**64


def play(a_round, seeds, jobs):
    """Plays a round for each seed and sums up what each one counts. The first disagreement is kept, reported and ends it: its seed is
    given beside the sums, or None."""
    sums = collections.Counter()
    with tempfile.TemporaryDirectory() as folder, concurrent.futures.ThreadPoolExecutor(jobs) as pool:
        started = ((seed, pool.submit(a_round, seed, folder)) for seed in seeds)
        running = collections.deque(itertools.islice(started, jobs))
        while running:
            seed, oldest = running.popleft()
            try:
                sums.update(oldest.result())
            except Disagreement as found:
                pool.shutdown(cancel_futures=True)
                found.keep()
                print(f"DISAGREEMENT at {seed}: {found.what}")
                print(f"{KEPT.relative_to(ROOT)}/ has the {found.name} and what each side made of it")
                return sums, seed
            running.extend(itertools.islice(started, 1))
    return sums, None
