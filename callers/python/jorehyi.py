"""The equivalence engine for quantum gate lists, through ctypes.

>>> judge(b"lines\\t1\\nX\\t0\\nZ\\t0\\nX\\t0\\n=\\nZ\\t0\\n")
Answer(kind='factor', factor=65536, fault=None, line=None)
>>> session(b"gate\\t0\\tH\\t0\\non\\t0\\nlows\\t0\\t0\\t6\\non\\t0\\n").output
b'ok\\t2\\nm\\t6\\nok\\t4\\nm\\t3\\n'

session and verdict are the engine's two outer calls. They are proved, for every text and all lent memory of any
length, to answer as the definitions say. This module lends them memory of its own for each call, so calls from several
threads do not meet; the text is only read.

The shared object is target/callers/libjorehyi.so, which callers/run links, or what the environment variable JOREHYI_SO
names.
"""

import ctypes
import os
import re
from dataclasses import dataclass
from pathlib import Path
from typing import Optional, Tuple

NODE_BYTES = 16
MAX_CAPACITY = 65535
VERDICT_BYTES = 32
REGISTERS = 16
SESSION_WORDS = 4 + 3 * REGISTERS
VERDICT_WORDS = 2

# A session line is begun while this many output bytes remain, and its answer has no more.
ANSWER_BYTES = 16


@dataclass(frozen=True)
class Edge:
    """What a filled register holds: a weight, and the number of a node (0 is the constant 1)."""

    weight: int
    node: int


@dataclass(frozen=True)
class Session:
    """A session's result."""

    code: int  # 0, or 9 where the output was too short for a line
    lines: int  # lines answered
    output: bytes  # the answers
    count: int  # nodes in the store
    registers: Tuple[Optional[Edge], ...]  # sixteen; None is empty


@dataclass(frozen=True)
class Verdict:
    """A verdict's result."""

    code: int  # 0 (also with `no`), or 9 where the output has fewer than 32 bytes
    output: bytes  # the answer line


@dataclass(frozen=True)
class Answer:
    """What a verdict says: kind is "same", "factor", "differ" or "no"."""

    kind: str
    factor: Optional[int] = None  # of "factor": the first list is this times the second
    fault: Optional[int] = None  # of "no": 10 to 14, or 8 where the store was full
    line: Optional[int] = None  # of "no": counted from 1


def session(text: bytes, capacity: int = 2048, cache: int = 16384, out: Optional[int] = None) -> Session:
    """Answers the lines of a session, on a store of capacity nodes, a cache of so many words and an output of so many
    bytes.

    Without out there is room for every line's answer.
    """
    _check_text(text)
    if out is None:
        out = ANSWER_BYTES * (text.count(b"\n") + 1)
    words, output = _call("jorehyi_session", text, _store_bytes(capacity), cache, out, SESSION_WORDS)
    code, lines, written, count = words[:4]
    registers = tuple(_register(*words[at : at + 3]) for at in range(4, SESSION_WORDS, 3))
    return Session(code, lines, output[:written], count, registers)


def verdict(text: bytes, capacity: int = 2048, cache: int = 16384, out: int = VERDICT_BYTES) -> Verdict:
    """The verdict on a text: one line, or nothing where out is below 32."""
    words, output = _call("jorehyi_verdict", text, _store_bytes(capacity), cache, out, VERDICT_WORDS)
    code, written = words
    return Verdict(code, output[:written])


def judge(text: bytes, capacity: int = 2048) -> Answer:
    """The verdict on a text, read."""
    return parse(verdict(text, capacity).output)


_ANSWER = re.compile(rb"(same|differ)\n|(factor)\t([1-9][0-9]{0,4})\n|(no)\t(8|1[0-4])\t([1-9][0-9]{0,19})\n")


def parse(line: bytes) -> Answer:
    """Reads a verdict's answer line, its LF included; ValueError for anything else."""
    match = _ANSWER.fullmatch(line)
    if match:
        plain, factor, multiple, no, fault, number = match.groups()
        if plain:
            return Answer(plain.decode())
        if no:
            return Answer("no", fault=int(fault), line=int(number))
        if factor and 2 <= int(multiple) <= 65536:
            return Answer("factor", factor=int(multiple))
    raise ValueError(f"not a verdict's answer: {line!r}")


def _register(filled, weight, node):
    return Edge(weight, node) if filled else None


def _store_bytes(capacity):
    _check_size("capacity", capacity, MAX_CAPACITY)
    return capacity * NODE_BYTES


def _check_text(text):
    # bytes never change, so nobody can write the text while the engine reads it, as they could a bytearray
    if not isinstance(text, bytes):
        raise TypeError(f"text must be bytes, not {type(text).__name__}")


def _check_size(name, size, most):
    if not isinstance(size, int) or isinstance(size, bool):
        raise TypeError(f"{name} must be an int, not {type(size).__name__}")
    if not 0 <= size <= most:
        raise ValueError(f"{name} must be 0 to {most}, not {size}")


_ISIZE_MAX = 2**63 - 1


def _lend(kind, length):
    """Zeroed memory that nobody else knows: at least one element, so that its address is one also for length 0."""
    memory = (kind * max(length, 1))()
    if ctypes.addressof(memory) % ctypes.sizeof(kind):
        raise MemoryError("misaligned memory")
    return memory


def _call(name, text, store_bytes, cache_words, out_bytes, result_words):
    """Calls the engine on memory of its own; the result's words and the whole output."""
    _check_text(text)
    _check_size("store", store_bytes, _ISIZE_MAX)
    _check_size("cache", cache_words, _ISIZE_MAX // 8)
    _check_size("out", out_bytes, _ISIZE_MAX)
    store = _lend(ctypes.c_uint8, store_bytes)
    cache = _lend(ctypes.c_uint64, cache_words)
    out = _lend(ctypes.c_uint8, out_bytes)
    result = _lend(ctypes.c_uint64, result_words)
    function = getattr(_library(), name)
    done = function(text, len(text), store, store_bytes, cache, cache_words, out, out_bytes, result, result_words)
    if not done:
        raise RuntimeError("the shared object wants a longer result: it is of another version")
    return result[:result_words], bytes(out)[:out_bytes]


_loaded = None


def _library():
    """The shared object, loaded at the first call."""
    global _loaded
    if _loaded is None:
        _loaded = _declare(ctypes.CDLL(os.environ.get("JOREHYI_SO") or str(_default_path())))
    return _loaded


def _default_path():
    return Path(__file__).resolve().parents[2] / "target" / "callers" / "libjorehyi.so"


def _declare(library):
    size = ctypes.c_size_t
    octets = ctypes.POINTER(ctypes.c_uint8)
    words = ctypes.POINTER(ctypes.c_uint64)
    for function in (library.jorehyi_session, library.jorehyi_verdict):
        function.argtypes = [ctypes.c_char_p, size, octets, size, words, size, octets, size, words, size]
        function.restype = ctypes.c_bool
    return library
