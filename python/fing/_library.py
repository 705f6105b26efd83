"""Finds the shared library of fing and opens it."""
import ctypes
import gzip
import hashlib
import os
import platform
import sys
import tempfile
from pathlib import Path

PACKAGE = Path(__file__).resolve().parent
DIST = PACKAGE.parent.parent / "dist"
NAME = "dist/libfing-x86_64-linux.so"


def listed_sum():
    """The sha256 of the library that the repository has ready-made, as dist/SUMS lists it; None where it lists none."""
    sums = DIST / "SUMS"
    if not sums.is_file():
        return None
    for line in sums.read_text().splitlines():
        words = line.split()
        if words[:1] == [NAME]:
            return words[1]
    return None


def unpacked():
    """The bytes of the library that the repository has ready-made, which have the sha256 that is listed."""
    packed, wanted = DIST / (Path(NAME).name + ".gz"), listed_sum()
    if wanted is None or not packed.is_file():
        raise ImportError(
            "fing has no shared library: make one with tools/make-library and name it in the variable FING_LIBRARY"
        )
    library = gzip.decompress(packed.read_bytes())
    if hashlib.sha256(library).hexdigest() != wanted:
        raise ImportError(f"{packed} has not the sha256 that {DIST / 'SUMS'} lists")
    return library


def cached():
    """The place of the unpacked library in the user's cache, where it has the sha256 that is listed; else None."""
    wanted = listed_sum()
    if wanted is None:
        return None
    cache = os.environ.get("XDG_CACHE_HOME") or os.path.expanduser("~/.cache")
    place = Path(cache) / "fing" / wanted / "libfing.so"
    try:
        if hashlib.sha256(place.read_bytes()).hexdigest() == wanted:
            return place
    except OSError:
        pass
    return store(place)


def store(place):
    """Unpacks the library to this place and gives the place; None where nothing can be written there."""
    library = unpacked()
    try:
        place.parent.mkdir(parents=True, exist_ok=True)
        with tempfile.NamedTemporaryFile(dir=place.parent, delete=False) as file:
            file.write(library)
        os.replace(file.name, place)
    except OSError:
        return None
    return place


def opened_once():
    """The library, opened from a file that is removed at once."""
    with tempfile.NamedTemporaryFile(suffix=".so") as file:
        file.write(unpacked())
        file.flush()
        return ctypes.CDLL(file.name)


def opened():
    """The library that FING_LIBRARY names; else the one in the package; else the one that the repository has ready-made."""
    named = os.environ.get("FING_LIBRARY")
    if named:
        return ctypes.CDLL(named)
    beside = PACKAGE / "libfing.so"
    if beside.is_file():
        return ctypes.CDLL(str(beside))
    if not (sys.platform.startswith("linux") and platform.machine() in ("x86_64", "AMD64")):
        raise ImportError("fing has a ready-made shared library for Linux on x86-64 alone; FING_LIBRARY names another")
    place = cached()
    return ctypes.CDLL(str(place)) if place else opened_once()
