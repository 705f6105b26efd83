"""The formats of fing, written again in Python and apart from the program: tokens, the number of a syntax error, Omega
text, and the forms of all replies. The grammar is read from docs/language/grammar.md, so what the pages say is what is
compared. What a program means is not here."""
import pathlib
import re
import sys

sys.setrecursionlimit(60000)

TOP = pathlib.Path(__file__).resolve().parent.parent
LIMIT = 1048576
NEST = 1000
OPEN = 4000
GREATEST = 9223372036854775807

WORDS = frozenset(
    b"val type module signature include struct sig end let in fun gen fix if then else pack unpack from where "
    b"true false Int Bool Text Type case of inj data roll unroll".split()
)
MARKS = [b":>", b"=>", b"->", b"=="] + [bytes([c]) for c in b"(){}[].,:=#+-*/%<"]


def number_of(digits):
    """The number that digits say; of very many digits, one that is too great for everything."""
    digits = digits.lstrip(b"0") or b"0"
    return int(digits) if len(digits) < 40 else 10**40


class Refused(Exception):
    """The line of a refusal, without its `refused `."""


class Malformed(Exception):
    """Why a reply has not the form that it should have."""


# Tokens

PIECE = re.compile(
    rb"(?P<blank>[ \t\n\r]+|--[^\n]*)"
    rb"|(?P<name>[A-Za-z_][A-Za-z0-9_']*)"
    rb"|(?P<number>~?[0-9]+)"
    rb'|(?P<text>"(?:[ !#-\[\]-~]|\\["\\n])*")'
    rb"|(?P<mark>:>|=>|->|==|[(){}\[\].,:=#+\-*/%<])"
)


def pieces(source):
    """The tokens of a source as (sort, bytes, from, to), up to the first place that has none; and that place."""
    found = []
    at = 0
    while at < len(source):
        match = PIECE.match(source, at)
        if match is None:
            return found, at
        if match.lastgroup != "blank":
            sort = match.lastgroup
            if sort == "name" and match[0] in WORDS:
                sort = "word"
            found.append((sort, match[0], at, match.end()))
        at = match.end()
    return found, None


COUNTED = frozenset([b"val", b"type", b"data", b"module", b"signature", b"include", b"in"])
CLOSERS = frozenset([b")", b"}", b"]", b"end"])
OPENERS = frozenset([b"(", b"{", b"[", b"struct", b"sig", b"let"])


def nests(tokens):
    """The nest of each token."""
    stack = [[0, 0]]
    whole = 0
    counts = []
    for sort, spelled, _, _ in tokens:
        plain = sort in ("word", "mark")
        if plain and spelled in CLOSERS and len(stack) > 1:
            whole -= sum(stack.pop())
        last = stack[-1]
        if plain and spelled in COUNTED:
            whole += 1 - last[1]
            last[0] += 1
            last[1] = 0
        else:
            whole += 1
            last[1] += 1
        counts.append(whole)
        if plain and spelled in OPENERS:
            stack.append([0, 0])
    return counts


def tokens_of(source):
    """The tokens of a source; raises the refusal of one that has none."""
    found, stop = pieces(source)
    for token, nest in zip(found, nests(found)):
        sort, spelled, start, _ = token
        if sort == "number" and number_of(spelled.lstrip(b"~")) > GREATEST:
            raise Refused(f"Wide {start}")
        if nest > NEST:
            raise Refused(f"TooDeep {start}")
    if stop is not None:
        raise Refused(f"{'BadText' if source[stop] == 34 else 'BadByte'} {stop}")
    return found


# The grammar


def read_grammar():
    """The productions of docs/language/grammar.md, with names of their own for what stands in braces and brackets."""
    page = (TOP / "docs/language/grammar.md").read_text()
    block = re.search(r"```text\n(program = .*?)```", page, re.S)[1]
    items = re.findall(r"'[^']*'|\w+|[=|{}\[\]()]", block)
    starts = [i - 1 for i, item in enumerate(items) if item == "="] + [len(items)]
    rules = {}

    def fresh(alternatives):
        name = f"<{len(rules)}>"
        rules[name] = alternatives
        return name

    def alternatives(at, closer):
        found = [[]]
        while at < len(items) and items[at] != closer:
            item = items[at]
            at += 1
            if item == "|":
                found.append([])
            elif item == "{":
                inner, at = alternatives(at, "}")
                name = fresh([])
                rules[name] = [one + [name] for one in inner] + [[]]
                found[-1].append(name)
            elif item == "[":
                inner, at = alternatives(at, "]")
                found[-1].append(fresh(inner + [[]]))
            elif item == "(":
                inner, at = alternatives(at, ")")
                found[-1].append(fresh(inner))
            else:
                found[-1].append(item)
        return found, at + 1

    for start, stop in zip(starts, starts[1:]):
        name = items[start]
        kept, items[stop:] = items[stop:], []
        rules[name], _ = alternatives(start + 2, None)
        items.extend(kept)
    for name in list(rules):
        factor(rules, name)
    return rules


def factor(rules, name):
    """Takes out what alternatives of one rule have in front in common."""
    groups = {}
    for one in rules[name]:
        groups.setdefault(one[0] if one else "", []).append(one)
    rules[name] = []
    for head, group in groups.items():
        if len(group) == 1:
            rules[name].append(group[0])
            continue
        shared = 0
        while all(len(one) > shared for one in group) and len({one[shared] for one in group}) == 1:
            shared += 1
        rest = f"<{len(rules)}>"
        rules[rest] = [one[shared:] for one in group]
        rules[name].append(group[0][:shared] + [rest])
        factor(rules, rest)


def make_table(rules):
    """Which alternative a rule takes at a token. There must be one at most: the grammar needs no second token."""
    empty, first, follow = set(), {n: set() for n in rules}, {n: set() for n in rules}
    follow["program"].add("")
    grew = True

    def firsts(symbols):
        found = set()
        for symbol in symbols:
            found |= first.get(symbol, {symbol})
            if symbol not in empty:
                return found, False
        return found, True

    while grew:
        before = (len(empty), sum(map(len, first.values())), sum(map(len, follow.values())))
        for name, alternatives in rules.items():
            for one in alternatives:
                found, is_empty = firsts(one)
                first[name] |= found
                if is_empty:
                    empty.add(name)
                for at, symbol in enumerate(one):
                    if symbol in rules:
                        found, is_empty = firsts(one[at + 1:])
                        follow[symbol] |= found | (follow[name] if is_empty else set())
        grew = before != (len(empty), sum(map(len, first.values())), sum(map(len, follow.values())))
    table = {}
    for name, alternatives in rules.items():
        for one in alternatives:
            found, is_empty = firsts(one)
            for token in found | (follow[name] if is_empty else set()):
                assert (name, token) not in table, f"two ways to go on in {name} at {token}"
                table[name, token] = one
    return table


RULES = read_grammar()
TABLE = make_table(RULES)


def terminal(token):
    sort, spelled, _, _ = token
    return {"name": "X", "number": "number", "text": "text"}.get(sort) or f"'{spelled.decode()}'"


def syntax_of(tokens):
    """Raises the refusal of tokens that are no program: the length of their longest front that begins one."""
    stack = ["program"]
    at = 0
    while stack:
        wanted = stack.pop()
        seen = terminal(tokens[at]) if at < len(tokens) else ""
        if wanted in RULES:
            if (wanted, seen) not in TABLE:
                raise Refused(f"Syntax {at}")
            stack.extend(reversed(TABLE[wanted, seen]))
        elif wanted == seen:
            at += 1
        else:
            raise Refused(f"Syntax {at}")
    if at < len(tokens):
        raise Refused(f"Syntax {at}")


# Omega text: types, terms, and what is built of them

NAME = re.compile(rb"[A-Za-z_][A-Za-z0-9_']*")
LABEL = re.compile(rb"\.(?:val|typ|sig|app|gen)|%[0-9]|[A-Za-z_][A-Za-z0-9_']*")
LEVEL = re.compile(rb"0|[1-9][0-9]*")
INTEGER = re.compile(rb"0|-?[1-9][0-9]*")
TEXT = re.compile(rb'"(?:[ !#-\[\]-~]|\\["\\n])*"')
RESERVED = [b".val", b".typ", b".sig", b".app", b".gen"]
OPERATORS = [b"==", b"+", b"-", b"*", b"/", b"%", b"<"]


def rank(label):
    return (RESERVED.index(label), b"") if label in RESERVED else (len(RESERVED), label)


def has_64_bits(spelled):
    return number_of(spelled.lstrip(b"-")) <= GREATEST + spelled.startswith(b"-")


class Reader:
    """Reads the forms of texts from bytes; raises `Malformed` at the first byte that fits none. Types come as tuples.
    `types` is None where the number of type variables in scope is not known. `version` is that of Omega text."""

    def __init__(self, text, at=0):
        self.text = text
        self.at = at
        self.version = 2

    def fail(self, what):
        raise Malformed(f"{what} wanted at byte {self.at}")

    def has(self, piece):
        if self.text.startswith(piece, self.at):
            self.at += len(piece)
            return True
        return False

    def need(self, piece):
        if not self.has(piece):
            self.fail(repr(piece.decode()))

    def match(self, pattern, what):
        found = pattern.match(self.text, self.at)
        if found is None:
            self.fail(what)
        self.at = found.end()
        return found[0]

    def name(self):
        found = self.match(NAME, "a name")
        if found in WORDS:
            self.fail("a name that is no keyword")
        return found

    def label(self):
        found = self.match(LABEL, "a label")
        if found in WORDS:
            self.fail("a label that is no keyword")
        return found

    def variable(self, bound, what):
        level = number_of(self.match(LEVEL, f"the level of a {what} variable"))
        if bound is not None and level >= bound:
            self.fail(f"a {what} variable in scope")
        return level

    def number(self, what):
        if not has_64_bits(self.match(INTEGER, what)):
            self.fail("a number of 64 bits")

    def kind(self):
        if self.has(b"*"):
            return "*"
        self.need(b"(> ")
        left = self.kind()
        self.need(b" ")
        right = self.kind()
        self.need(b")")
        return (">", left, right)

    def fields(self, label, part):
        """The fields of a record or a sum, or the branches of a case, up to the end of the form, in strictly rising order."""
        found = []
        while not self.has(b")"):
            self.need(b" (")
            name = label()
            if found and rank(found[-1][0]) >= rank(name):
                self.fail("a greater label")
            self.need(b" ")
            found.append((name, part()))
            self.need(b")")
        return found

    def type(self, types):
        def under(more=1):
            return None if types is None else types + more

        for base in (b"int", b"bool", b"text"):
            if self.has(base):
                return (base.decode(),)
        if self.has(b"a"):
            return ("var", self.variable(types, "type"))
        if self.has(b"(-> "):
            left = self.type(types)
            self.need(b" ")
            right = self.type(types)
            self.need(b")")
            return ("->", left, right)
        if self.has(b"(rec"):
            return ("rec", self.fields(self.label, lambda: self.type(types)))
        if self.version > 1 and self.has(b"(sum"):
            return ("sum", self.fields(self.label, lambda: self.type(types)))
        if self.version > 1 and self.has(b"(mu "):
            body = self.type(under())
            self.need(b")")
            return ("mu", body)
        for binder in (b"(all ", b"(some ", b"(lam "):
            if self.has(binder):
                kind = self.kind()
                self.need(b" ")
                body = self.type(under())
                self.need(b")")
                return (binder[1:-1].decode(), kind, body)
        self.need(b"(@ ")
        left = self.type(types)
        self.need(b" ")
        right = self.type(types)
        self.need(b")")
        return ("@", left, right)

    def term(self, types, terms):
        def last(*parts):
            for part in parts[:-1]:
                part()
                self.need(b" ")
            parts[-1]()
            self.need(b")")

        def ty():
            return self.type(types)

        def same():
            return self.term(types, terms)

        if self.has(b"true") or self.has(b"false"):
            return
        if self.has(b"x"):
            self.variable(terms, "term")
        elif self.text.startswith(b'"', self.at):
            self.match(TEXT, "a text")
        elif self.has(b"(fn "):
            last(ty, lambda: self.term(types, terms + 1))
        elif self.has(b"(fix "):
            last(ty, ty, lambda: self.term(types, terms + 2))
        elif self.has(b"(call "):
            last(same, same)
        elif self.has(b"(tfn "):
            last(self.kind, lambda: self.term(types + 1, terms))
        elif self.has(b"(inst "):
            last(same, ty)
        elif self.has(b"(rec"):
            self.fields(self.label, same)
        elif self.has(b"(get "):
            last(same, self.label)
        elif self.has(b"(pack "):
            last(ty, same, ty)
        elif self.has(b"(open "):
            last(same, lambda: self.term(types + 1, terms + 1))
        elif self.has(b"(if "):
            last(same, same, same)
        elif any(self.has(b"(" + op + b" ") for op in OPERATORS):
            last(same, same)
        elif self.version > 1 and self.has(b"(inj "):
            last(self.label, same, ty)
        elif self.version > 1 and self.has(b"(case "):
            same()
            self.need(b" ")
            ty()
            self.fields(self.label, lambda: self.term(types, terms + 1))
        elif self.version > 1 and self.has(b"(roll "):
            last(same, ty)
        elif self.version > 1 and self.has(b"(unroll "):
            last(same)
        else:
            self.number("a term")

    def omega(self):
        self.version = 1 if self.has(b"omega 1\n") else 2
        if self.version == 2:
            self.need(b"omega 2\n")
        self.type(0)
        self.need(b"\n")
        self.term(0, 0)
        self.need(b"\n")
        self.done()

    def done(self):
        if self.at != len(self.text):
            self.fail("the end")


def is_omega(text):
    try:
        Reader(text).omega()
    except Malformed:
        return False
    return True


# A text goes from a quote to the next one that has no odd run of backslashes before it, or to the end.
QUOTED = re.compile(rb'"(?:\\.|[^"\\])*(?:"|\\?\Z)', re.S)
ITEM = re.compile(rb'"(?:\\.|[^"\\])*(?:"|\\?\Z)|[^ \n()"]+', re.S)


def omega_refusal(text):
    """Why bytes are no Omega text that is read, or None."""
    first = re.match(rb"omega ([0-9]+)\n", text)
    if first and first[1] not in (b"1", b"2"):
        return "Version"
    count = 0
    for byte in QUOTED.sub(b"", text):
        if byte == 40:
            count += 1
            if count > OPEN:
                return "TooDeep"
        elif byte == 41:
            count -= 1
    if is_omega(text):
        return None
    is_wide = False

    def zero(item):
        nonlocal is_wide
        if not re.fullmatch(rb"-?[0-9]+", item[0]):
            return item[0]
        is_wide = is_wide or not has_64_bits(item[0])
        return b"0"

    end = text.find(b"\n") + 1
    if end:
        replaced = text[:end] + ITEM.sub(zero, text[end:])
        if is_wide and is_omega(replaced):
            return "Wide"
    return "NotOmega"


# Replies


class Reply(Reader):
    """Reads replies. Their types must have no operator applied to an argument."""

    def normal(self, types):
        found = self.type(types)
        rest = [found]
        while rest:
            part = rest.pop()
            if part[0] == "@" and part[1][0] not in ("@", "var"):
                raise Malformed("a type in normal form wanted")
            if part[0] in ("rec", "sum"):
                rest.extend(inner for _, inner in part[1])
            else:
                rest.extend(inner for inner in part[1:] if isinstance(inner, tuple) and inner[0] != ">")
        return found

    def kinds(self):
        """Kinds with spaces between them, up to the parenthesis behind them."""
        found = []
        while not self.has(b")"):
            if found:
                self.need(b" ")
            found.append(self.kind())
        return found

    def abstract(self, types):
        self.need(b"(ex (")
        kinds = self.kinds()
        self.need(b" ")
        body = self.signature(types + len(kinds))
        self.need(b")")
        return kinds, body

    def signature(self, types):
        if self.has(b"(val "):
            ty = self.normal(types)
            self.need(b")")
            return ("val", ty)
        if self.has(b"(type "):
            ty = self.normal(types)
            self.need(b" ")
            kind = self.kind()
            self.need(b")")
            return ("type", ty, kind)
        if self.has(b"(sig "):
            self.abstract(types)
            self.need(b")")
            return ("sig",)
        if self.has(b"(str"):
            return ("str", self.fields(self.name, lambda: self.signature(types)))
        pure = self.has(b"(fun app (")
        if not pure:
            self.need(b"(fun gen (")
        kinds = self.kinds()
        self.need(b" ")
        self.signature(types + len(kinds))
        self.need(b" ")
        hidden, _ = self.abstract(types + len(kinds))
        if pure and hidden:
            raise Malformed("a pure functor's result hides nothing")
        self.need(b")")
        return ("fun",)

    def checked(self):
        """The reply of `check` to a program that means something: how many types it hides, and its signature."""
        if not self.has(b"pure "):
            self.need(b"impure ")
        hidden, body = self.abstract(0)
        if body[0] != "str":
            raise Malformed("a program has the signature of a structure")
        self.need(b"\n")
        self.done()
        return len(hidden), body

    def shown(self):
        for plain in (b"true", b"false", b"fun", b"pack", b"type", b"sig"):
            if self.has(plain):
                return (plain.decode(),)
        if self.text.startswith(b'"', self.at):
            self.match(TEXT, "a text")
            return ("text",)
        if self.has(b"{"):
            found = []
            while not self.has(b"}"):
                if found:
                    self.need(b", ")
                found.append(self.shown_field(found))
            return ("rec", found)
        if self.has(b"(roll "):
            return ("roll", self.shown_last())
        if self.has(b"("):
            label = self.name()
            self.need(b" ")
            return ("inj", label, self.shown_last())
        self.number("a value")
        return ("int",)

    def shown_last(self):
        """What is in an injection or a rolled value, and the parenthesis behind it."""
        found = self.shown()
        self.need(b")")
        return found

    def shown_field(self, before):
        name = self.name()
        if before and before[-1][0] >= name:
            self.fail("a greater name")
        self.need(b" = ")
        return (name, self.shown())

    def value(self):
        """The text of a program's value, a line for each part."""
        found = []
        while self.at < len(self.text):
            found.append(self.shown_field(found))
            self.need(b"\n")
        return ("rec", found)

    def path(self):
        if self.has(b"."):
            return
        while True:
            if not (self.has(b"(arg)") or self.has(b"(res)") or self.has(b"(sig)")):
                self.name()
            if not self.has(b"."):
                return

    def pair(self, part):
        part()
        self.need(b" ")
        part()

    def refusal(self, source):
        """The line of a refusal of elaboration; `source` is what was refused."""
        self.need(b"refused ")
        start = number_of(self.match(LEVEL, "an offset"))
        self.need(b"-")
        stop = number_of(self.match(LEVEL, "an offset"))
        self.need(b" ")
        tokens, _ = pieces(source)
        if not (start < stop and start in {t[2] for t in tokens} and stop in {t[3] for t in tokens}):
            raise Malformed(f"no phrase goes from {start} to {stop}")
        word = self.match(NAME, "a reason")
        if word in (b"Unbound", b"NoPart", b"NoField", b"DuplicateField"):
            self.need(b" ")
            if self.name() != source[start:stop]:
                raise Malformed("the name is not what stands at the place")
        elif word in (b"Duplicate", b"NoBranch"):
            self.need(b" ")
            self.name()
        elif word in (b"NotArrow", b"NotAll", b"NotRecord", b"NotSum", b"NotData"):
            self.need(b" ")
            self.normal(None)
        elif word == b"Differ":
            self.need(b" ")
            self.pair(lambda: self.normal(None))
        elif word == b"KindDiffer":
            self.need(b" ")
            self.pair(self.kind)
        elif word == b"NotAbstract":
            self.need(b" ")
            self.path()
        elif word == b"NoRoot":
            self.need(b" ")
            self.match(LEVEL, "a number")
            self.need(b" ")
            self.path()
        elif word == b"Clash":
            self.need(b" ")
            self.path()
            if not (self.has(b" Form") or self.has(b" Missing") or self.has(b" Effect")):
                self.need(b" Types ")
                self.pair(lambda: self.normal(None))
        elif word not in (b"NotStructure", b"NotFunctor", b"WrongPath", b"Escapes", b"NotOperator"):
            raise Malformed(f"no reason is called {word.decode()}")
        self.need(b"\n")
        self.done()
        return word.decode()


# What a value of a type, or of a part of a signature, may be shown as.
ALWAYS = {"int": {"int"}, "bool": {"true", "false"}, "text": {"text"}, "->": {"fun"}, "all": {"fun"}, "some": {"pack"},
          "type": {"type"}, "sig": {"sig"}, "fun": {"fun"}}


def fits(shown, hidden, signature):
    """Whether a shown value may be one of a signature below so many hidden types. A part of it is told with the number of type
    variables in scope, and with the recursive types that variables stand for, each told likewise, by their levels."""
    rest = [(shown, (signature, hidden, {}))]
    while rest:
        shown, (part, bound, known) = rest.pop()
        if part[0] == "rec" and [label for label, _ in part[1]] in ([b".val"], [b".typ"], [b".sig"]):
            label, inner = part[1][0]
            part = ("val", inner) if label == b".val" else ({b".typ": "type", b".sig": "sig"}[label],)
        if part[0] == "val":
            rest.append((shown, (part[1], bound, known)))
        elif part[0] in ("str", "rec"):
            if shown[0] != "rec" or [n for n, _ in shown[1]] != [n for n, _ in part[1]]:
                return False
            rest.extend((s, (p, bound, known)) for (_, s), (_, p) in zip(shown[1], part[1]))
        elif part[0] == "sum":
            if shown[0] != "inj" or shown[1] not in dict(part[1]):
                return False
            rest.append((shown[2], (dict(part[1])[shown[1]], bound, known)))
        elif part[0] == "mu":
            if shown[0] != "roll":
                return False
            rest.append((shown[1], (part[1], bound + 1, {**known, bound: (part, bound, known)})))
        elif part[0] == "var" and part[1] in known:
            rest.append((shown, known[part[1]]))
        elif part[0] not in ("var", "@") and shown[0] not in ALWAYS[part[0]]:
            return False
    return True
