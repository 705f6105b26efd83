"""Gives the package the version of the repository, and the shared library that the repository has ready-made."""
import importlib.util
from pathlib import Path

from setuptools import Distribution, setup
from setuptools.command.build_py import build_py

HERE = Path(__file__).resolve().parent


def version():
    """The line of the file VERSION at the top of the repository; 0 where there is none."""
    file = HERE.parent / "VERSION"
    return file.read_text().strip() if file.is_file() else "0"


def ready_made():
    """The bytes of the shared library in dist/. The package itself is not imported, since that opens the library."""
    spec = importlib.util.spec_from_file_location("fing_library", HERE / "fing" / "_library.py")
    library = importlib.util.module_from_spec(spec)
    spec.loader.exec_module(library)
    return library.unpacked()


class BuildWithLibrary(build_py):
    """Puts the shared library into the package that is installed, unless one lies in the folder already."""

    def run(self):
        super().run()
        place = Path(self.build_lib) / "fing" / "libfing.so"
        if not self.editable_mode and not place.is_file():
            place.write_bytes(ready_made())


class WithLibrary(Distribution):
    """A distribution for one sort of machine, since it has a shared library."""

    def has_ext_modules(self):
        return True


setup(version=version(), distclass=WithLibrary, cmdclass={"build_py": BuildWithLibrary})
