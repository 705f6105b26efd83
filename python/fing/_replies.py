"""The calls of the package, and what they answer."""
from __future__ import annotations

import ctypes
import enum
import re
from dataclasses import dataclass
from typing import Optional, Sequence, Tuple, Union

from . import _library

Source = Union[str, bytes]

FIRST_ROOM = 1 << 20

_fing_reply = _library.opened().fing_reply
_fing_reply.restype = ctypes.c_uint8
_fing_reply.argtypes = [
    ctypes.c_char_p,
    ctypes.c_size_t,
    ctypes.c_char_p,
    ctypes.c_size_t,
    ctypes.c_void_p,
    ctypes.c_size_t,
    ctypes.POINTER(ctypes.c_size_t),
]


class Status(enum.IntEnum):
    """What sort of answer it is; the number is the exit status of the program `fing`."""

    OK = 0
    """The source is accepted, and the text is the answer."""
    REFUSED = 1
    """The source is refused; the answer is a `Refusal`."""
    WORDS = 2
    """The words are no command line, as where a budget is above 10,000,000. There is no text."""
    FAULTED = 3
    """The run met an arithmetic fault, which the text names."""
    SPENT = 4
    """The run spent its budget of steps."""
    PAGE_TOO_SMALL = 6
    """The reply is longer than the page. `reply` then takes a larger page and asks again."""
    OUT_OF_MEMORY = 7
    """There was no memory, or something met a limit of fing. There is no text."""
    TOO_LONG = 8
    """The source has more than 1,048,576 bytes. There is no text."""


@dataclass(frozen=True)
class Reply:
    """What fing answers: a status, and the text that the program would write."""

    status: Status
    text: str


@dataclass(frozen=True)
class Refusal(Reply):
    """The answer to a source that is refused, with the parts of its line.

    `reason` is a word such as `Unbound`, `arguments` are the names, types or numbers after it, and `span` has the
    offsets in bytes, counted from 0, of the first byte of the refused place and of the byte after its last. `span` is
    None where the line names no place in bytes, as with `Syntax`, whose argument is a number of tokens.
    """

    reason: str
    arguments: Tuple[str, ...]
    span: Optional[Tuple[int, int]]


# The reasons that name one byte.
AT_A_BYTE = ("BadByte", "BadText", "Wide", "TooDeep")


def refusal_of(line: str) -> Refusal:
    """The refusal that a line of fing says, as `refused 8-9 Unbound y` or `refused Syntax 5`."""
    words = split_outside_parentheses(line.rstrip("\n"))[1:]
    span = None
    if re.fullmatch(r"\d+-\d+", words[0]):
        first, past = words.pop(0).split("-")
        span = (int(first), int(past))
    reason, arguments = words[0], tuple(words[1:])
    if reason in AT_A_BYTE and span is None and arguments:
        span = (int(arguments[0]), int(arguments[0]) + 1)
    return Refusal(Status.REFUSED, line, reason, arguments, span)


def split_outside_parentheses(line: str) -> list[str]:
    """The words of a line; a type in parentheses is one word."""
    words, depth = [""], 0
    for character in line:
        depth += {"(": 1, ")": -1}.get(character, 0)
        if character == " " and depth == 0:
            words.append("")
        else:
            words[-1] += character
    return words


def reply(words: Sequence[str], source: Source = b"") -> Reply:
    """The answer of the command line `fing WORD..` to a source, which is a string or bytes.

    A string is taken as its UTF-8 bytes. The call keeps nothing and may be made by many threads at once.
    """
    if any("\n" in word or "\r" in word for word in words):
        return Reply(Status.WORDS, "")
    lines = "".join(word + "\n" for word in words).encode("utf-8", "surrogateescape")
    given = source.encode() if isinstance(source, str) else bytes(source)
    room = FIRST_ROOM
    status, text = _called(lines, given, room)
    while status is Status.PAGE_TOO_SMALL:
        room *= 8
        status, text = _called(lines, given, room)
    return refusal_of(text) if status is Status.REFUSED else Reply(status, text)


def _called(lines: bytes, source: bytes, room: int) -> Tuple[Status, str]:
    """One call of the library with a page of so many bytes: the status, and the text that was written."""
    page, written = ctypes.create_string_buffer(room), ctypes.c_size_t()
    status = _fing_reply(lines, len(lines), source, len(source), page, room, ctypes.byref(written))
    return Status(status), ctypes.string_at(page, written.value).decode()


def check(source: Source) -> Reply:
    """The effect and the signature of a program, or its refusal.

    >>> check("module M = struct type t = Int val v = 3 end :> sig type t val v : t end").text
    'pure (ex (*) (str (M (str (t (type a0 *)) (v (val a0))))))\\n'
    """
    return reply(["check"], source)


def emit(source: Source, simplify: bool = False) -> Reply:
    """The type and the term of System Fω that a program is compiled to, as Omega text, or its refusal.

    With `simplify` the term is without the calls of functions that give their argument back.

    >>> print(emit("val x = 1").text, end="")
    omega 2
    (rec (x (rec (.val int))))
    (call (fn (rec (.val int)) (rec (x x0))) (rec (.val 1)))
    """
    return reply(["emit", "--simplify"] if simplify else ["emit"], source)


def link(units: Source) -> Reply:
    """The type and the term of System Fω that separate units link to, as Omega text, or the first refusal.

    Each unit is `module X : S = struct .. end`, and sees those before it through their signatures alone.

    >>> print(link("").text, end="")
    omega 2
    (rec)
    (rec)
    """
    return reply(["link"], units)


def run(source: Source, budget: int = 1_000_000) -> Reply:
    """The value that a program comes to within a budget of steps, which is at most 10,000,000; or its refusal.

    >>> run("val x = 1 + 2").text
    'x = 3\\n'
    >>> run("val x = 1 / 0")
    Reply(status=<Status.FAULTED: 3>, text='fault DivideByZero\\n')
    """
    return reply(["run", "--budget", str(budget)], source)


def verify(text: Source) -> Reply:
    """Whether an Omega text is well typed by the rules of System Fω, or its refusal.

    >>> verify("omega 2\\nint\\n3\\n").text
    'well typed\\n'
    """
    return reply(["verify"], text)
