"""Files of definitions and of proofs (*.antt), as far as tools read them: which names a file brings in, and what it defines.

A file is lines. An item (a definition, a data type, a record, a lemma) begins on a line at the margin, or inside of a `mutual`
block two blanks from it, and goes on to the next one. What an item says is not understood: its words are read off."""
import functools
import itertools
import pathlib
import re

TOP = pathlib.Path(__file__).resolve().parent.parent
CRATES = TOP / "crates"
HOLE = "◌"
MODIFIERS = {"abbrev", "unfoldable", "data", "record", "pub"}
BLOCKS = {"mutual", "abbrev mutual", "unfoldable mutual"}
WORD = re.compile(r'"(?:\\.|[^"\\])*"|[^\s(){}\[\],;."]+|\.(?:\s+|$)|[(){}\[\],;.]')
USE = re.compile(r"\s*(?:ghost )?(?:pub )?use (?P<path>\S+?)(?:\.\{(?P<names>[^}]*)\}| as (?P<alias>[^\s;]+))?;?\s*$")


def words(text):
    """The words, marks and string literals of a text without comments. The dot after a bound name keeps its blank."""
    return WORD.findall(text)


def bare(line):
    """A line without its comment. A comment begins with `--` outside of a string, as a word of its own."""
    found = re.search(r'^((?:[^"\s]|\s(?!--\s)|"(?:\\.|[^"\\])*")*?)(?:^|\s)--(?:\s.*)?$', line)
    return found[1] if found else line


def indent(line):
    return len(line) - len(line.lstrip(" "))


class Item:
    """A name that a file defines: its sort ("data", "record", "abbrev" or "unfoldable", or "" for a lemma), the number of its
    first line, its lines, the line of the `mutual` block in which it stands, and the path of its file."""

    def __init__(self, name, sort, number, margin):
        self.name = name
        self.sort = sort
        self.number = number
        self.margin = margin
        self.block = None
        self.path = None
        self.lines = []

    def __repr__(self):
        return f"{self.name}@{self.number}"

    @property
    def crate(self):
        return self.path.relative_to(CRATES).parts[0]

    @property
    def text(self):
        return "\n".join(bare(line) for line in self.lines)

    @functools.cached_property
    def constructors(self):
        """The constructors of a data type, in order, each with the text of its type."""
        found = []
        if self.sort != "data":
            return found
        for line in self.lines[1:]:
            line = bare(line)
            begins = re.match(rf" {{{self.margin + 2}}}([^\s:(][^:(]*?) :(?: (.*))?$", line)
            if begins and not begins[1].startswith("deriving"):
                found.extend([name, begins[2] or ""] for name in begins[1].split())
            elif found and indent(line) > self.margin + 2:
                found[-1][1] += "\n" + line
        return [tuple(constructor) for constructor in found]

    @property
    def statement(self):
        """What stands after the name's colon, up to the first clause: the type of a function or a lemma."""
        lines = [bare(line) for line in self.lines]
        kept = [lines[0].partition(" : ")[2]]
        for line in lines[1:]:
            if line.strip() and indent(line) <= self.margin:
                break
            kept.append(line.strip())
        return " ".join(kept).strip()


class File:
    """A file: the comment at its head, its uses, and its items by their names."""

    def __init__(self, path):
        self.path = path
        self.lines = path.read_text().splitlines()
        self.items = {}
        self.uses = []
        self.read()

    def __repr__(self):
        return str(self.path.relative_to(CRATES))

    @functools.cached_property
    def head(self):
        """The comment at the head of the file, as one text."""
        lines = []
        for line in self.lines:
            if not re.match(r"(--|//)", line):
                break
            lines.append(re.sub(r"^(--|///?)\s?", "", line).strip())
        return " ".join(filter(None, lines))

    def read(self):
        margin, item, block, sort = 0, None, None, ""
        for number, line in enumerate(self.lines, 1):
            text = bare(line)
            if not text.strip() or text.startswith("pub mod "):
                continue
            if indent(text) == 0:
                margin = 2 if text.strip() in BLOCKS else 0
                block = number if margin else None
                sort = text.split()[0] if margin and text.strip() != "mutual" else ""
                if margin or USE.match(text):
                    item = None
                    self.uses += [USE.match(text)] if not margin else []
                    continue
            begun = self.begun(text, number, margin, sort) if indent(text) == margin else None
            if begun:
                item = self.items.setdefault(begun.name, begun)
                item.block = block
                item.path = self.path
            if item:
                item.lines.append(line)

    def begun(self, text, number, margin, block_sort):
        """The item that begins on a line, if one does."""
        modifiers = list(itertools.takewhile(MODIFIERS.__contains__, text.split()))
        rest = text.split()[len(modifiers) :]
        sort = next((word for word in modifiers if word != "pub"), block_sort)
        if len(rest) < 2 or not (sort in ("data", "record") or rest[1] == ":"):
            return None
        return Item(rest[0].rstrip(":"), sort, number, margin)

    @functools.cached_property
    def own(self):
        """Each name that the file defines, constructors among them, with its items."""
        found = {}
        for item in self.items.values():
            for name in [item.name, *(constructor for constructor, _ in item.constructors)]:
                found.setdefault(name, set()).add(item.name)
        return found


@functools.lru_cache(maxsize=None)
def opened(path):
    return File(path)


def files(folder):
    """The files of this folder (`specs` or `proofs`) of all crates, but for the lists of modules."""
    return [opened(path) for path in sorted(CRATES.glob(f"*/{folder}/**/*.antt")) if not is_list(path)]


def is_list(path):
    return all(re.match(r"(pub mod |mod |--|\s*$)", line) for line in path.read_text().splitlines())


def place_of(module):
    """The file of a module's dotted path, and the rest of the path, which lies inside of it. None outside of the repository."""
    steps = module.split(".")
    if steps[0] == "Rattle":
        steps = steps[1:]
    if len(steps) < 3 or not (CRATES / steps[0]).is_dir():
        return None
    at = CRATES / steps[0] / steps[1]
    if steps[1:3] == ["specs", "declared"]:
        at, steps = CRATES / steps[0] / "src", steps[1:]
    for i, step in enumerate(steps[2:], 3):
        for path in (at / f"{step}.antt", at / f"{step}.rt"):
            if path.is_file() and not (at / step / f"{steps[i] if i < len(steps) else ''}.antt").is_file():
                return path, steps[i:]
        at = at / step
    return None


def brought(use):
    """The names that a use brings in, each with the module and its name there; a module with an alias has the name None."""
    if use["alias"]:
        yield use["alias"], use["path"], None
    for part in (use["names"] or "").split(","):
        name, _, alias = part.strip().partition(" as ")
        if name:
            yield alias or name, use["path"], name
    if not use["alias"] and use["names"] is None:
        path, _, name = use["path"].rpartition(".")
        yield name, path, name


def heard(name):
    """The words of a text that say a name: an operator is said by the words between its holes."""
    return [part for part in name.split(HOLE) if part] if HOLE in name else [name]
