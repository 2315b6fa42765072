#!/usr/bin/env python3
"""A second verdict, calculated without the engine: dense matrices decide, and a plain tally says whether the store is
full.

Reads a verdict text on standard input and prints the answer line, as target/bin/verdict does, only slower. So

    JOREHYI_VERDICT=samples/reference.py samples/run

calculates every expected answer of the samples again.
"""

import re
import sys

PRIME = 65537
CAPACITY = 2048
H = 63497
ONE_QUBIT = {
    "X": ((0, 1), (1, 0)),
    "Y": ((0, -256), (256, 0)),
    "Z": ((1, 0), (0, -1)),
    "H": ((H, H), (H, -H)),
    "S": ((1, 0), (0, 256)),
    "SD": ((1, 0), (0, 65281)),
    "T": ((1, 0), (0, 16)),
    "TD": ((1, 0), (0, 61441)),
}
TWO_QUBIT = ("CX", "CZ", "SW")


def after(name, a, b):
    """The two bits that a two-qubit gate makes of (a, b), and the weight."""
    if name == "CX":
        return a, a ^ b, 1
    if name == "CZ":
        return a, b, -1 if a & b else 1
    return b, a, 1


# ---- the text


class Refused(Exception):
    """A fault's number and its line."""


def read_header(line):
    match = re.fullmatch(rb"lines\t([1-8])", line)
    if not match:
        raise Refused(10, 1)
    return int(match.group(1))


def read_gate(line, number, n):
    name, *qubits = line.decode("latin-1").split("\t")
    wanted = 1 if name in ONE_QUBIT else 2 if name in TWO_QUBIT else None
    if len(qubits) != wanted or not all(re.fullmatch("[0-9]", q) for q in qubits):
        raise Refused(11, number)
    qubits = [int(q) for q in qubits]
    if max(qubits) >= n:
        raise Refused(12, number)
    if len(set(qubits)) != len(qubits):
        raise Refused(13, number)
    return number, name, qubits


def read(text):
    """The number of qubits, the line of `=`, and both lists of (line, name, qubits)."""
    lines = text.split(b"\n")
    if lines[-1] == b"":
        lines.pop()
    n = read_header(lines[0] if lines else b"")
    lists, parting = [[]], None
    for number, line in enumerate(lines[1:], 2):
        if line != b"=":
            lists[-1].append(read_gate(line, number, n))
        elif parting:
            raise Refused(14, number)
        else:
            parting = number
            lists.append([])
    if not parting:
        raise Refused(14, len(lines) + 1)
    return n, parting, lists


# ---- dense matrices: rows are outputs, columns inputs


def one_qubit(rows, gate, q):
    (a, b), (c, d) = gate
    new = list(rows)
    for r in range(len(rows)):
        if not r >> q & 1:
            low, high = rows[r], rows[r | 1 << q]
            new[r] = [(a * x + b * y) % PRIME for x, y in zip(low, high)]
            new[r | 1 << q] = [(c * x + d * y) % PRIME for x, y in zip(low, high)]
    return new


def two_qubits(rows, name, p, q):
    new = list(rows)
    for r, row in enumerate(rows):
        a, b, weight = after(name, r >> p & 1, r >> q & 1)
        to = r & ~(1 << p | 1 << q) | a << p | b << q
        new[to] = [weight * x % PRIME for x in row]
    return new


def matrix(n, gates):
    rows = [[int(r == c) for c in range(1 << n)] for r in range(1 << n)]
    for _, name, qubits in gates:
        if name in ONE_QUBIT:
            rows = one_qubit(rows, ONE_QUBIT[name], *qubits)
        else:
            rows = two_qubits(rows, name, *qubits)
    return [x for row in rows for x in row]


def compare(first, second):
    if first == second:
        return "same"
    at = next(i for i, x in enumerate(second) if x)
    factor = first[at] * pow(second[at], -1, PRIME) % PRIME
    if factor and all(x == factor * y % PRIME for x, y in zip(first, second)):
        return f"factor\t{factor}"
    return "differ"


# ---- the tally, which says what is full: a tensor is a weight and a normal tensor, a number in a table that only grows

ZERO, ONE = (0, 0), (1, 0)
NO_INDEX = 24


class Full(Exception):
    pass


class Tally:
    def __init__(self, capacity):
        self.capacity = capacity
        self.normal = [(NO_INDEX, ONE, ONE)]  # (index, low, high); number 0 is the constant 1
        self.numbers = {}
        self.held = set()
        self.known = {}  # steps run since the last collection: running them again puts nothing in

    def top(self, a):
        return self.normal[a[1]][0]

    def fixed(self, a, k):
        """T0 and T1."""
        index, low, high = self.normal[a[1]]
        if index != k:
            return a, a
        return times(a[0], low), times(a[0], high)

    def join(self, k, low, high):
        if low == high:
            return low
        first = low[0] or high[0]
        inverse = pow(first, -1, PRIME)
        parts = (k, times(inverse, low), times(inverse, high))
        number = self.numbers.setdefault(parts, len(self.normal))
        if number == len(self.normal):
            self.normal.append(parts)
        self.held.add(number)
        if len(self.held) > self.capacity:
            raise Full
        return first, number

    def once(self, key, step):
        if key not in self.known:
            self.known[key] = step()
        return self.known[key]

    def sum(self, a, b):
        if a == ZERO or b == ZERO:
            return b if a == ZERO else a
        if a[1] == b[1]:
            return times(a[0] + b[0], (1, a[1]))
        return self.once((a, b), lambda: self.sum_parts(a, b))

    def sum_parts(self, a, b):
        k = min(self.top(a), self.top(b))
        (a0, a1), (b0, b1) = self.fixed(a, k), self.fixed(b, k)
        low = self.sum(a0, b0)
        return self.join(k, low, self.sum(a1, b1))

    def cont(self, a, b, s):
        if a == ZERO or b == ZERO:
            return ZERO
        if a[1] == b[1] == 0:
            return times(a[0] * b[0] << len(s), ONE)
        return self.once((a, b, s), lambda: self.cont_parts(a, b, s))

    def cont_parts(self, a, b, s):
        k = min(self.top(a), self.top(b))
        (a0, a1), (b0, b1) = self.fixed(a, k), self.fixed(b, k)
        low = self.cont(a0, b0, s - {k})
        high = self.cont(a1, b1, s - {k})
        return self.sum(low, high) if k in s else self.join(k, low, high)

    def low(self, a, k):
        top = self.top(a)
        if top > k:
            return a
        return self.once((a, k), lambda: self.low_parts(a, k, top))

    def low_parts(self, a, k, top):
        a0, a1 = self.fixed(a, top)
        if top == k:
            return self.join(k - 1, a0, a1)
        low = self.low(a0, k)
        return self.join(top, low, self.low(a1, k))

    def unit(self, n):
        below = ONE
        for q in reversed(range(n)):
            low = self.join(3 * q + 1, below, ZERO)
            below = self.join(3 * q, low, self.join(3 * q + 1, ZERO, below))
        return below

    def gate(self, name, qubits):
        indices = sorted(3 * q + i for q in qubits for i in (1, 2))

        def build(bits):
            if len(bits) == len(indices):
                return constant(entry(name, qubits, dict(zip(indices, bits))))
            low = build(bits + [0])
            return self.join(indices[len(bits)], low, build(bits + [1]))

        return build([])

    def collect(self, registers):
        self.held, self.known = set(), {}
        todo = [number for _, number in registers]
        while todo:
            number = todo.pop()
            if number and number not in self.held:
                self.held.add(number)
                todo += [edge[1] for edge in self.normal[number][1:]]


def constant(weight):
    return (weight % PRIME, 0)


def times(weight, a):
    weight = weight * a[0] % PRIME
    return (weight, a[1]) if weight else ZERO


def entry(name, qubits, bits):
    middles = [bits[3 * q + 1] for q in qubits]
    freshes = [bits[3 * q + 2] for q in qubits]
    if name in ONE_QUBIT:
        return ONE_QUBIT[name][freshes[0]][middles[0]]
    a, b, weight = after(name, *middles)
    return weight if [a, b] == freshes else 0


def full_at(n, parting, lists):
    """The line at which the store is full, or None."""
    tally, done = Tally(CAPACITY), []
    for header, gates in zip((1, parting), lists):
        line = header
        try:
            tensor = tally.unit(n)
            for line, name, qubits in gates:
                gate = tally.gate(name, qubits)
                tensor = tally.cont(gate, tensor, frozenset(3 * q + 1 for q in qubits))
                for q in sorted(qubits):
                    tensor = tally.low(tensor, 3 * q + 2)
                tally.collect(done + [tensor])
        except Full:
            return line
        done.append(tensor)
    return None


def verdict(text):
    try:
        n, parting, lists = read(text)
    except Refused as refusal:
        return "no\t%d\t%d" % refusal.args
    line = full_at(n, parting, lists)
    if line:
        return f"no\t8\t{line}"
    return compare(*(matrix(n, gates) for gates in lists))


if __name__ == "__main__":
    print(verdict(sys.stdin.buffer.read()))
