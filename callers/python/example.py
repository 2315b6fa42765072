#!/usr/bin/env python3
"""Prints the verdict on a text: of the file named as argument, or of standard input."""

import sys
from pathlib import Path

from jorehyi import judge


def explain(answer):
    if answer.kind == "same":
        return "the lists are the same matrix over the field"
    if answer.kind == "factor":
        return f"the first list is {answer.factor} times the second"
    if answer.kind == "differ":
        return "the lists differ"
    if answer.fault == 8:
        return f"nothing is said: the store was full at line {answer.line}"
    return f"nothing is said: line {answer.line} is faulty ({answer.fault})"


def main():
    text = Path(sys.argv[1]).read_bytes() if len(sys.argv) > 1 else sys.stdin.buffer.read()
    print(explain(judge(text)))


if __name__ == "__main__":
    main()
