"""How a static library is built over the crates that `rt ci` proved: for tools/make-library and web/module/build.py.

`rt ci` leaves the rlibs of the crates below the library in crates/*/out/rlib. Over these the toolchain proves its crate once
more and builds it."""
import functools
import pathlib
import shutil
import subprocess

TOP = pathlib.Path(__file__).resolve().parent.parent
CRATE = "fing_c"


def run(*words, **how):
    return subprocess.run([str(word) for word in words], check=True, **how)


@functools.lru_cache(maxsize=None)
def found_kit():
    """The folder of the toolchain whose command `rt` is on the path."""
    command = shutil.which("rt")
    if not command:
        raise SystemExit("library: there is no rt on the path")
    return pathlib.Path(run(command, "doc", capture_output=True, text=True).stdout.strip()).parent


def used_crates():
    """The libraries that each crate of crates.txt uses."""
    uses = {}
    for line in (TOP / "crates.txt").read_text().splitlines():
        name, colon, libraries = line.partition("#")[0].partition(":")
        if colon:
            uses[name.split()[0]] = libraries.split()
    return uses


def crates_below(crate, uses):
    """The crates of the repository that a crate stands on, directly or not."""
    below, to_see = [], [crate]
    while to_see:
        for name in uses[to_see.pop()]:
            if name in uses and name not in below:
                below.append(name)
                to_see.append(name)
    return below


def rlib(checkout, name):
    """The rlib of a crate of the repository, which has to be there."""
    path = checkout / "crates" / name / "out/rlib" / f"{name}.rlib"
    if not path.is_dir():
        raise SystemExit(f"library: there is no {path}; `rt ci` leaves it, so run .ci/run first")
    return path


def libraries_given(kit, checkout, crate):
    """The words that hand the libraries below a crate to the compiler."""
    uses = used_crates()
    words = ["-L", f"dependency={kit}/rlibs"]
    for name in crates_below(crate, uses):
        words += ["-L", f"dependency={rlib(checkout, name).parent}"]
    for name in ["core", "std", *uses[crate]]:
        words += ["--extern", f"{name}={rlib(checkout, name) if name in uses else kit / 'rlibs' / (name + '.rlib')}"]
    return words


def build_archive(tools, archive, checkout=TOP, crate=CRATE):
    """Proves a crate over the rlibs of a checkout, and builds its static library by the tools of a folder."""
    kit = found_kit()
    words = ["--crate-name", crate, "--crate-type", "staticlib", "src/lib.rt", *libraries_given(kit, checkout, crate)]
    words += ["--antt-project", kit / "rattle/logic/antt-project.json", "--logic-built", kit / "logic_built"]
    words += ["--toolchain", tools, "--backend", "llvm", "-o", archive]
    run(kit / "bin/rattle", "build", *words, cwd=TOP / "crates" / crate)
