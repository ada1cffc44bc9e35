"""What tests/shell/run works on: copies of the repository in a temporary folder, one with what is built and one with a false rt and false
programs; and runs of `run` in them."""
import os
import pathlib
import shutil
import stat
import subprocess

ROOT = pathlib.Path(__file__).resolve().parents[2]
COPIED = ("run", "shell", "toolchain.txt", "VERSION", "README.md", "docs", "examples", "include", "crates.txt", "bench/Cargo.toml")
BUILT = ("target/bin", "target/staticlib")
PROGRAMS = ("replay", "undo", "console")
TOOLS = ("sh awk basename cat chmod cmp cp cut date dirname env find flock grep head id ls mkdir mktemp mv nproc readlink rm sed sha256sum "
         "sleep sort tail touch tr uname wc yes").split()

# A false rt: it notes what it is asked and in which crate, says much, eats its standard input, and does what the files of its folder say. What
# it builds is a copy of the source, and like rt it runs a program that it has built.
RT = """#!/bin/sh
here=$(dirname "$(readlink -f "$0")")
crate=${PWD##*/} verb=$1
[ "$verb" != version ] || { echo "rt version" >>"$here/asked" && cat "$here/version" && exit 0; }
echo "$crate: rt $*" >>"$here/asked"
cat >/dev/null
echo "chatter on output" && echo "chatter on error" >&2
[ ! -e "$here/fails-$verb" ] || exit 1
mkdir -p out
case $verb in
run) cp src/main.rt "out/$crate.new" && chmod +x "out/$crate.new" && mv -f "out/$crate.new" "out/$crate" ;;
lib) cp src/lib.rt "out/lib$crate.a" ;;
esac
[ ! -e "$here/does" ] || . "$here/does"
[ "$verb" != run ] || { shift 2 && exec "out/$crate" "$@"; }
"""


class Failed(Exception):
    pass


def expect(what, mine, right):
    if mine != right:
        raise Failed(f"{what}: {mine!r}, not {right!r}")


def script(path, text):
    path.parent.mkdir(parents=True, exist_ok=True)
    path.write_text(text)
    path.chmod(0o755)
    return path


def copy(to, parts):
    """These parts of the repository, without the crates' folders out/, in which rt keeps gigabytes."""
    for part in parts:
        source, goal = ROOT / part, to / part
        goal.parent.mkdir(parents=True, exist_ok=True)
        if source.is_dir():
            shutil.copytree(source, goal, symlinks=True, ignore=shutil.ignore_patterns("out"))
        else:
            shutil.copy2(source, goal)
    return to


def tools(folder, *more):
    """A folder for the PATH that has the usual tools and these, and neither rt nor cc nor cargo besides."""
    folder.mkdir(parents=True)
    for tool in (*TOOLS, *more):
        found = shutil.which(tool)
        if found:
            (folder / tool).symlink_to(found)
    return folder


class Tree:
    """A copy of the repository."""

    def __init__(self, root):
        self.root, self.path = root, os.environ["PATH"]

    def run(self, *words, source=b"", env=(), command=None, cwd=None, **more):
        """Status, standard output and standard error of `run` with these words."""
        ran = subprocess.run([str(command or self.root / "run"), *map(str, words)], env={**os.environ, "PATH": self.path, **dict(env)},
                             cwd=cwd or self.root, **{"stdout": subprocess.PIPE, "stderr": subprocess.PIPE, "timeout": 300, **more},
                             **({"stdin": source} if hasattr(source, "fileno") else {"input": source}))
        return ran.returncode, ran.stdout, ran.stderr

    def told(self, what, words, status, *parts, **how):
        """A run that ends so, prints nothing, and says one line that has these parts."""
        got, out, err = self.run(*words, **how)
        expect(f"{what}: status", (got, out), (status, b""))
        expect(f"{what}: lines on standard error, {err!r}", err.count(b"\n"), 1)
        for part in parts:
            expect(f"{what}: {err!r} names {part}", part.encode() in err, True)


class Imitation(Tree):
    """A copy with a false rt, and the false programs replay, undo and console, which are built and note that they are run."""

    def __init__(self, root):
        super().__init__(copy(root, COPIED))
        self.bin = tools(root / "tools", "cc", "as", "ld")
        self.path = str(self.bin)
        self.rt = script(root / "rt/rt", RT).parent
        (self.bin / "rt").symlink_to(self.rt / "rt")
        self.version((ROOT / "toolchain.txt").read_text().splitlines()[-1])
        for name in PROGRAMS:
            self.program(name, "echo ports 4")
        expect("the false programs are built", self.build(*PROGRAMS)[:2], (0, b""))
        self.asked()

    def version(self, line):
        (self.rt / "version").write_text(f"{line}\n")

    def source(self, crate, file, text):
        path = self.root / "crates" / crate / file
        path.parent.mkdir(parents=True, exist_ok=True)
        path.write_text(text)

    def program(self, name, text):
        """A program's source, of which the next run builds it: it ends at once with --help, and else does this."""
        self.source(name, "src/main.rt", f"#!/bin/sh\n[ \"$*\" != --help ] || exit 0\necho ran {name} >>'{self.rt}/asked'\n{text}\n")

    def build(self, *names):
        return self.run(*names, command=self.root / "shell/build")

    def does(self, text):
        (self.rt / "does").write_text(text)

    def asked(self):
        """What rt was asked and which programs were run, since this was last called; rt version aside."""
        path = self.rt / "asked"
        lines = path.read_text().splitlines() if path.exists() else []
        path.unlink(missing_ok=True)
        return [line for line in lines if line != "rt version"]


def built(root):
    """A copy with what is built, where nothing is left for rt to do."""
    return Tree(copy(root, (*COPIED, "crates", *BUILT)))


def is_executable(path):
    return path.is_file() and bool(path.stat().st_mode & stat.S_IXOTH)
