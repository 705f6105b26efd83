#!/usr/bin/env python3
"""Makes a WebAssembly module out of the crate of a static library and of the libraries that `rt ci` proved.

build.py MODULE [--crate CRATE] [--rlibs CHECKOUT]

MODULE is the file to write, and CRATE is fing_c or fing_show_c. The libraries of the crates below it are read from
crates/*/out/rlib of this checkout, or of another checkout of the same files. `rattle build` checks the crate over them and
makes its LLVM module for x86-64. The toolchain makes no WebAssembly of a module that takes memory, so this script goes on
from there:

1. it keeps the LLVM module, by a toolchain folder whose clang copies its input and then does its work;
2. it names WebAssembly with 64-bit addresses as the module's target, in place of x86-64;
3. it compiles the module and the heap, heap.c, by the toolchain's clang, and links them by the toolchain's linker;
4. it drops the function table, which is empty;
5. it makes the addresses 32 bits wide by binaryen's wasm-opt, since every browser runs that form.

The kept module must be the one of the library crates/CRATE/out/libCRATE.a, which tools/make-library makes for fing_c: the
objects of both are compared byte for byte. Where there is no such library, it is built a second time by the unchanged
toolchain, and compared with that. Exit status 0 only where the module was written."""
import argparse
import pathlib
import re
import shutil
import sys
import tempfile

HERE = pathlib.Path(__file__).resolve().parent
sys.path.insert(0, str(HERE.parent.parent / "tools"))
sys.dont_write_bytecode = True
from library import CRATE, TOP, build_archive, found_kit, run

EXPORTS = {"fing_c": "fing_reply", "fing_show_c": "fing_show_page"}
TARGET = "wasm64-unknown-unknown"
LAYOUT = "e-m:e-p:64:64-p10:8:8-p20:8:8-i64:64-i128:128-n32:64-S128"
STACK = 33554432
CLANG_FLAGS = [f"--target={TARGET}", "-mcpu=lime1", "-mbulk-memory", "-O2", "-ffreestanding", "-nostdlib"]
FEATURES = ["memory64", "bulk-memory", "sign-ext", "nontrapping-float-to-int", "mutable-globals", "multivalue"]


def keeping_tools(folder):
    """The toolchain's tools with a clang that keeps its input as module.bc of the folder."""
    home, tools = found_kit() / "toolchain", folder / "toolchain"
    (tools / "bin").mkdir(parents=True)
    (tools / "lib").symlink_to(home / "lib")
    for tool in (home / "bin").iterdir():
        if tool.name != "clang":
            (tools / "bin" / tool.name).symlink_to(tool)
    clang = tools / "bin/clang"
    clang.write_text(f'#!/bin/sh\ncp module.bc "{folder}/module.bc" && exec "{home}/bin/clang" "$@"\n')
    clang.chmod(0o755)
    return tools


def objects_of(library):
    """The objects of a static library, by name."""
    archiver = found_kit() / "toolchain/bin/llvm-ar"
    names = run(archiver, "t", library, capture_output=True).stdout.decode().split()
    return {name: run(archiver, "p", library, name, capture_output=True).stdout for name in names}


def kept_module(checkout, folder, crate):
    """The LLVM module that the library of a crate is made of."""
    made = TOP / "crates" / crate / "out" / f"lib{crate}.a"
    build_archive(keeping_tools(folder), folder / "kept.a", checkout, crate)
    if not made.is_file():
        made = folder / "plain.a"
        build_archive(found_kit() / "toolchain", made, checkout, crate)
    if not objects_of(folder / "kept.a").items() <= objects_of(made).items():
        sys.exit(f"build.py: the kept module is not the one that {made} was made of")
    return folder / "module.bc"


def retargeted(text, exports):
    """The module for WebAssembly: its target, no attributes of x86-64, and the names that the host calls."""
    text = re.sub(r"^target datalayout = .*$", f'target datalayout = "{LAYOUT}"', text, count=1, flags=re.M)
    text = re.sub(r"^target triple = .*$", f'target triple = "{TARGET}"', text, count=1, flags=re.M)
    text = re.sub(r' "(probe-stack|stack-probe-size|target-cpu|target-features)"="[^"]*"', "", text)
    for name in exports:
        begin = rf"^(define [^\n]*@{name}\([^\n]*\)[^\n]*) \{{$"
        text, count = re.subn(begin, rf'\1 "wasm-export-name"="{name}" {{', text, flags=re.M)
        if count != 1:
            sys.exit(f"build.py: {name} is not defined once")
    return text


def number_at(data, at):
    """A number in LEB128, and the place behind it."""
    value = shift = 0
    while True:
        byte = data[at]
        at += 1
        value |= (byte & 127) << shift
        shift += 7
        if byte < 128:
            return value, at


def without_table(data):
    """A WebAssembly module without its table, in which there are no functions, and without names for debuggers."""
    custom, table, elements = 0, 4, 9
    kept, at = bytearray(data[:8]), 8
    while at < len(data):
        kind = data[at]
        length, start = number_at(data, at + 1)
        if kind == elements:
            sys.exit("build.py: there are functions in the table")
        if kind not in (custom, table):
            kept += data[at:start + length]
        at = start + length
    return bytes(kept)


def check_binaryen():
    """Stops where wasm-opt has another version than the one by which the sums of dist/ were made."""
    wanted = (HERE / "BINARYEN").read_text()
    if not shutil.which("wasm-opt"):
        sys.exit("build.py: wasm-opt is missing; it is in the package binaryen")
    found = run("wasm-opt", "--version", capture_output=True, text=True).stdout
    if found != wanted:
        sys.exit(f"build.py: wasm-opt says {found.strip()}, and web/module/BINARYEN wants {wanted.strip()}")


def compile_module(text, sources, module, folder):
    """Compiles an LLVM module for WebAssembly and C sources, links them, and makes the addresses 32 bits wide."""
    home = found_kit()
    clang, linker, archiver = home / "toolchain/bin/clang", home / "bin/rattle-link", home / "toolchain/bin/llvm-ar"
    (folder / "wasm.ll").write_text(text)
    objects = [folder / "wasm.o"]
    run(clang, *CLANG_FLAGS, "-c", "-x", "ir", folder / "wasm.ll", "-o", objects[0])
    for source in sources:
        objects.append(folder / f"{source.stem}.o")
        run(clang, *CLANG_FLAGS, "-c", source, "-o", objects[-1])
    run(archiver, "rcsD", folder / "wasm.a", *objects)
    linked = folder / "linked.wasm"
    words = ["--target", TARGET, "--toolchain", home / "toolchain", "--stack", STACK, "-o", linked]
    run(linker, *words, folder / "wasm.a")
    (folder / "wide.wasm").write_bytes(without_table(linked.read_bytes()))
    enabled = [f"--enable-{feature}" for feature in FEATURES]
    run("wasm-opt", *enabled, "--memory64-lowering", folder / "wide.wasm", "-o", module)


def main():
    words = argparse.ArgumentParser(description="Makes a WebAssembly module.")
    words.add_argument("module", type=pathlib.Path)
    words.add_argument("--crate", choices=EXPORTS, default=CRATE)
    words.add_argument("--rlibs", type=pathlib.Path, default=TOP)
    given = words.parse_args()
    check_binaryen()
    clang = found_kit() / "toolchain/bin/clang"
    with tempfile.TemporaryDirectory() as name:
        folder = pathlib.Path(name)
        module = kept_module(given.rlibs.resolve(), folder, given.crate)
        run(clang, "-S", "-emit-llvm", "-Xclang", "-disable-llvm-passes", "-x", "ir", module, "-o", folder / "module.ll")
        text = retargeted((folder / "module.ll").read_text(), [EXPORTS[given.crate]])
        compile_module(text, [HERE / "heap.c"], given.module.resolve(), folder)


if __name__ == "__main__":
    main()
