"""What notices a misreading of undo, for tests/misreadings: the stored questions (crates/undo_run) and, as the program
`undo N FILE OUT`, the journals of some of them."""
import pathlib
import subprocess
import sys
import tempfile

sys.dont_write_bytecode = True
HERE = pathlib.Path(__file__).resolve().parent
sys.path[:0] = [str(HERE.parent), str(HERE)]
import cases
import harness

OLD = bytes(range(256)) * 20  # what stands in OUT before; longer than the lists it is met by
# The program cannot be short of room, and its other outcomes are those of the call: a few questions show what it does with its file.
PROGRAM = ("the worked example, before it", "the worked example, after it", "one above", "disagrees in line 2, n = 1", "six runs",
           "six runs, version 1")
CALL_NAME, PROGRAM_NAME = "undo_run", "undo"


def blocks(printed):
    """What `model undo-all` printed, a part for each question."""
    return [f"undo {part}" for part in printed.decode(errors="replace").split("undo ")[1:]]


def by_call(options, stdin):
    ran = subprocess.run([harness.MODEL, *options, "undo-all"], input=stdin, stdout=subprocess.PIPE, stderr=subprocess.DEVNULL)
    if ran.returncode == 2:
        sys.exit(f"model does not take {' '.join(options)}")
    return ran.returncode, ran.stdout


def by_program(options, trail, n, old):
    """Status, standard output and what OUT then has: None if it is not there."""
    with tempfile.TemporaryDirectory() as folder:
        file, out = pathlib.Path(folder) / "journal", pathlib.Path(folder) / "list"
        file.write_bytes(trail)
        if old is not None:
            out.write_bytes(old)
        ran = subprocess.run([harness.MODEL, *options, "undo", str(n), str(file), str(out)], stdout=subprocess.PIPE, stderr=subprocess.DEVNULL)
        return ran.returncode, ran.stdout.decode(), out.read_bytes() if out.exists() else None


def expected_of_program(expected, old):
    """The same from the case as it is written out."""
    if isinstance(expected, str):
        return 0, f"{expected}\n", old
    written = cases.as_list(expected)
    return 0, f"payloads {len(expected)}\nbytes {len(written)}\n", written


class Stored:
    """The stored questions and the program's runs, as far as they are not left out."""

    def __init__(self, without):
        self.known = cases.build()
        self.stdin, self.stdout = harness.stored(CALL_NAME)
        if self.stdin != b"".join(cases.frame(trail, n, room) for _, trail, n, room, _ in self.known):
            sys.exit(f"crates/{CALL_NAME}/stdin is not what tests/undo/cases.py makes")
        self.names = [] if CALL_NAME in without else [name for name, *_ in self.known]
        self.runs = [] if PROGRAM_NAME in without else [case for case in self.known if case[0] in PROGRAM]


class Fresh:
    """Questions of `model generate-asks` instead, with the model's own outcomes."""

    def __init__(self, seeds):
        self.stdin = b"".join(harness.generated("generate-asks", seed) for seed in seeds)
        self.stdout = by_call([], self.stdin)[1]
        self.names = [f"question {k}" for k in range(1, len(blocks(self.stdout)) + 1)]
        self.runs = []


def noticed(label, source, every):
    """What notices a misreading, None for none: the first that does, or all that do."""
    options, found = ["--misread", label] if label else [], []
    if source.names:
        code, printed = by_call(options, source.stdin)
        told = blocks(printed)
        found = [f"{CALL_NAME}: {name}" for name, mine, right in zip(source.names, told, blocks(source.stdout)) if mine != right]
        if code != 0 or len(told) != len(source.names):
            found.append(f"{CALL_NAME}: no end")
    for name, trail, n, _, expected in source.runs:
        for old in (None, OLD):
            if found and not every:
                return found[:1]
            if by_program(options, trail, n, old) != expected_of_program(expected, old):
                found.append(f"{PROGRAM_NAME}: {name}")
    return found if every else found[:1]
