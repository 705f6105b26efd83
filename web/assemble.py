#!/usr/bin/env python3
"""Puts the playground together: assemble.py [--check] [--module PACKED] [--show PACKED] [--page PAGE]

The page is page/page.html with the file, or the value, that each mark {{..}} names put in its place. So it holds the
files of page/ and vendor/, docs/errors.md, the programs and units of examples/ and of docs/tour.md, the grammar of
editors/textmate, and the packed WebAssembly modules PACKED (dist/fing.wasm.gz and dist/fing-show.wasm.gz). It is a function
of these files alone.
It is written to PAGE (docs/playground/index.html); with --check the file PAGE is compared with it, byte for byte.
Exit status 0 only where the page was written, or is the same."""
import argparse
import base64
import json
import pathlib
import re
import sys

HERE = pathlib.Path(__file__).resolve().parent
TOP = HERE.parent
TOUR = "docs/tour.md"
FENCED = re.compile(r"^```fing(?: [^\n]*)?\n(.*?)^```$", re.M | re.S)


def lookup(name):
    """The text of a file of web/ or of the repository."""
    return next(folder / name for folder in (HERE, TOP) if (folder / name).is_file()).read_text()


def in_script(value):
    """A value as JavaScript that no HTML parser ends early."""
    return json.dumps(value, ensure_ascii=True, indent=0).replace("<", "\\u003c")


def tour_examples(tour):
    """The names of the examples in the order in which the tour links to them, each before its variant that is refused."""
    linked = re.findall(r"\.\./examples/([\w-]+)\.fing", tour)
    return list(dict.fromkeys(name for link in linked for name in (link, f"{link}-refused")))


def shown_programs(tour):
    """The whole programs that the tour shows, each named by its heading and a number."""
    found = []
    for section in re.split(r"^(?=#)", tour, flags=re.M):
        title = section.partition("\n")[0].lstrip("# ").replace("`", "")
        texts = FENCED.findall(section)
        for number, text in enumerate(texts, 1):
            found.append({"name": f"{title} {number}" if len(texts) > 1 else title, "source": text})
    return found


def programs():
    """The programs to choose from, in groups."""
    tour = (TOP / TOUR).read_text()
    sources = {path.stem: path.read_text() for path in sorted((TOP / "examples").glob("*.fing"))}
    first = [name for name in tour_examples(tour) if name in sources]
    rest = [name for name in sources if name not in first]
    units = sorted((TOP / "examples/units").glob("*.fing"))
    groups = [
        ("Examples, in the order of the tour", [{"name": name, "source": sources[name]} for name in first]),
        ("Shown in the tour", shown_programs(tour)),
        ("More examples", [{"name": name, "source": sources[name]} for name in rest]),
        ("Units", [{"name": f"units/{path.stem}", "source": path.read_text(), "command": "link"} for path in units]),
    ]
    return [{"group": group, "programs": of_group} for group, of_group in groups if of_group]


def in_lines(packed):
    """Bytes in base64, in lines that editors and diffs can show."""
    text = base64.b64encode(packed).decode()
    return "\n".join(text[at:at + 1024] for at in range(0, len(text), 1024))


def assembled(module, show):
    """The whole page, with two packed modules."""
    values = {
        "grammar": in_script(json.loads(lookup("editors/textmate/fing.tmLanguage.json"))),
        "programs": in_script(programs()),
        "module": in_lines(module),
        "show-module": in_lines(show),
    }

    def put(mark):
        name = mark[1]
        text = values[name] if name in values else lookup(name)
        if "</script" in text.lower() or (name.startswith("docs/") and "<!--" in text):
            sys.exit(f"assemble.py: {name} would end its place in the page")
        return text

    return re.sub(r"\{\{([\w./-]+)\}\}", put, lookup("page/page.html"))


def main():
    words = argparse.ArgumentParser(description="Puts the playground together.")
    words.add_argument("--check", action="store_true")
    words.add_argument("--module", type=pathlib.Path, default=TOP / "dist/fing.wasm.gz")
    words.add_argument("--show", type=pathlib.Path, default=TOP / "dist/fing-show.wasm.gz")
    words.add_argument("--page", type=pathlib.Path, default=TOP / "docs/playground/index.html")
    given = words.parse_args()
    page = assembled(given.module.read_bytes(), given.show.read_bytes()).encode()
    if not given.check:
        given.page.parent.mkdir(parents=True, exist_ok=True)
        given.page.write_bytes(page)
        return 0
    if not given.page.is_file() or given.page.read_bytes() != page:
        print(f"{given.page} is not what its sources make")
        return 1
    return 0


if __name__ == "__main__":
    sys.exit(main())
