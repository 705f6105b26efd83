"""A copy of the repository with the libraries that were proved here, in which a tool may change files: for
tools/try-edits and tools/slow-functions."""
import os
import pathlib
import shutil
import subprocess

TOP = pathlib.Path(__file__).resolve().parent.parent


def link_or_copy(source, to):
    """Links a file, or copies it to another file system. A tool that changes a file puts a new one in its place."""
    try:
        os.link(source, to)
    except OSError:
        shutil.copy2(source, to)


def copy_in(room):
    """The copy, in a folder that is there. What checks keep of their own crate is left out, since they write into it."""
    copy = pathlib.Path(room) / "copy"
    left_out = shutil.ignore_patterns(".git", "incremental")
    shutil.copytree(TOP, copy, ignore=left_out, copy_function=link_or_copy)
    subprocess.run(["git", "init", "-q", copy], check=True)
    return copy
