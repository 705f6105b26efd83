"""The program that is tried: where it stands, how it is run, and what it is tried on."""
import os
import pathlib
import re
import resource
import shutil
import subprocess
import tempfile
import unicodedata

TOP = pathlib.Path(__file__).resolve().parent.parent
STACK = 8192  # KiB
MEMORY = 4194304  # KiB
SECONDS = 120  # of processor time, after which a run counts as hanging
WRITTEN = 262144  # KiB that a run may write


def found(path=None):
    """The program's path: the one that is named, or the one that is built here."""
    program = pathlib.Path(path) if path else TOP / "crates/fing/out/fing"
    if not os.access(program, os.X_OK):
        raise SystemExit(f"{program} is no program; build it, or name another one")
    return str(program.resolve())


def scratch(data=b""):
    """A file in memory that holds these bytes, read from its start."""
    file = os.memfd_create("fing")
    rest = memoryview(data)
    while rest:
        rest = rest[os.write(file, rest):]
    os.lseek(file, 0, os.SEEK_SET)
    return file


def content(file):
    size = os.fstat(file).st_size
    return os.pread(file, size, 0) if size else b""


class Runner:
    """Runs the program on bytes, quickly: the same files serve for all runs of this process."""

    def __init__(self, program):
        self.program = program
        self.files = [scratch() for _ in range(4)]

    def run(self, words, source=b"", seconds=SECONDS, extra=None):
        """The exit status (or minus a signal), standard output, and standard error. Descriptor 3 is a file too."""
        for file in self.files:
            os.ftruncate(file, 0)
            os.lseek(file, 0, os.SEEK_SET)
        if source:
            os.pwrite(self.files[0], source, 0)
        child = os.posix_spawn(self.program, [self.program, *words], {**os.environ, **(extra or {})},
                               file_actions=[(os.POSIX_SPAWN_DUP2, file, i) for i, file in enumerate(self.files)])
        try:
            resource.prlimit(child, resource.RLIMIT_CPU, (seconds, seconds))
        except ProcessLookupError:
            pass
        _, status = os.waitpid(child, 0)
        return os.waitstatus_to_exitcode(status), content(self.files[1]), content(self.files[2])


class Timer:
    """Runs the program under a stack of 8 MiB, and tells time and memory. Status -24 says that it took too much time, -25
    that it wrote too much. With more than 4 GiB it is refused memory."""

    def __init__(self, program):
        self.program = program
        self.folder = tempfile.mkdtemp()
        self.timed = os.path.join(self.folder, "timed")
        subprocess.run(["cc", "-O1", "-o", self.timed, str(TOP / "tools/timed.c")], check=True)

    def __enter__(self):
        return self

    def __exit__(self, *_):
        shutil.rmtree(self.folder)

    def run(self, words, source=b"", seconds=SECONDS):
        """The exit status, standard output, the seconds of processor time that it took, and the greatest memory in KiB."""
        given, written, told = scratch(source), scratch(), scratch()
        actions = [(os.POSIX_SPAWN_DUP2, file, i) for i, file in ((0, given), (1, written), (3, told))]
        line = [self.timed, str(STACK), str(MEMORY), str(seconds), str(WRITTEN), self.program, *words]
        child = os.posix_spawn(self.timed, line, os.environ, file_actions=actions)
        os.waitpid(child, 0)
        status, took, peak = map(int, content(told).split())
        reply = content(written)
        for file in (given, written, told):
            os.close(file)
        return status, reply, took / 1e6, peak


# What it is tried on


def slug(heading):
    """The name of a heading in links, as code hosts make it."""
    text = re.sub(r"\[([^\]]*)\]\([^)]*\)", r"\1", heading).replace("`", "").lower()
    kept = (c for c in text if c in "-_ " or unicodedata.category(c)[0] in "LN")
    return "".join(kept).strip().replace(" ", "-")


def pages():
    """The pages of the repository, in order. What programs made, in folders `out`, is left out."""
    found = []
    for folder, inside, names in os.walk(TOP):
        inside[:] = [name for name in inside if name != "out" and not name.startswith(".")]
        found += [pathlib.Path(folder, name) for name in names if name.endswith(".md")]
    return sorted(found)


def examples():
    """The examples, by name."""
    return {path.stem: path.read_bytes() for path in sorted((TOP / "examples").glob("*.fing"))}


def literals(text):
    """The texts in a file of the tests."""
    text = re.sub(r"(?m)^\s*//.*$", "", text)
    for literal in re.findall(r'"((?:\\.|[^"\\])*)"', text, re.S):
        literal = re.sub(r"\\\n\s*", "", literal)
        escapes = {"n": "\n", "t": "\t", "0": "\0", "r": "\r"}
        yield re.sub(r"\\(.)", lambda m: escapes.get(m[1], m[1]), literal).encode()


def tested():
    """The texts in the tests of the whole program, in order, each once: sources, Omega texts and replies."""
    files = sorted((TOP / "crates/fing_tests/src").glob("*.rt"))
    return list(dict.fromkeys(text for path in files for text in literals(path.read_text())))


def generated(size):
    """The generated program of a size, as the definitions of `fing_gen` have it."""
    lines = [
        "signature S = sig type t val v : t val f : t -> Int end",
        "module F = fun (X : S) => struct type t = X.t val v = X.v val f = fun (x : X.t) => X.f x + 1 end :> S",
        "module M0 = struct type t = Int val v = 0 val f = fun (x : Int) => x end :> S",
    ]
    for i in range(1, size + 1):
        lines += [f"module M{i} = F M0", f"val p{i} = pack M{i} : S", f"val r{i} = M{i}.f M{i}.v"]
    lines += ["module Q = unpack p1 : S", "val q = Q.f Q.v"]
    return "".join(line + "\n" for line in lines).encode()
