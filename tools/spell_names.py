#!/usr/bin/env python3
"""Spells the repository's own definitions and lemmas in snake case: toWeight is to_weight, weight-number weight_number.

usage: tools/spell_names.py [--list]       at the top of the repository, once, after the toolchain's own script

Types, modules and facts keep their capitals. A name that a file imports from a library stays in that file. Functions,
exported names, strings and what programs read and write are not touched. --list prints the names and writes nothing.
"""
import glob
import re
import sys

NAME = r"[^\s(){}.;,@\"«»:⌜⌝]+"
DECLARED = re.compile(r"^ *(?:(?:abbrev|unfoldable|pub) )*(" + NAME + r") :(?: |$)")
IMPORTED = re.compile(r"\buse ([^\s;{]+)\.\{([^}]*)\}")
TOKEN = re.compile(r"(?<![^\s(){}.;,@\"«»:⌜⌝])" + NAME)
# A name after a library's word that has a name of its own now, an acronym, and a field that would have its bound's name.
SPECIAL = {"getD-next": "get_or_next", "NoLF": "NoLf", "most-qubits": "within_most_qubits"}
OWN = re.compile(r"Rattle\.(field|diagram|text|jorehyi|marked|stdin|fill|replay|lines|texts|session|script|verdict|cases)\.")


# Fields of the repository's records that proofs of functions cite.
FIELDS = {"low-within", "high-within"}


def spelled(name):
    if name in SPECIAL:
        return SPECIAL[name]
    if re.match(r"[^a-z0-9]", name):
        return name
    words = re.sub(r"(?<=[a-z0-9])[A-Z](?![A-Z])", lambda m: "_" + m[0].lower(), name)
    if re.match(r"[01]_w", words):
        words = words.replace("_w", "w", 1)
    return words.replace("-", "_")


def files():
    for crate in sorted(glob.glob("crates/*")):
        for kind in ("specs/*.antt", "proofs/*.antt", "proofs/**/*.antt", "src/*.rt"):
            yield from sorted(glob.glob(f"{crate}/{kind}", recursive=True))


def names():
    """The names to be respelled: those that specs/ and the lemma files of proofs/ declare."""
    found = {}
    for path in files():
        if "/proofs/" in path and path.count("/") > 3 or path.endswith(".rt"):
            continue
        for line in open(path, encoding="utf-8"):
            it = DECLARED.match(line)
            if it and spelled(it[1]) != it[1]:
                found[it[1]] = spelled(it[1])
    # A lemma that would have its function's name gets an ending, and one that has the name already.
    functions = {v for k, v in found.items() if "-" not in k}
    for k, v in list(found.items()):
        if "-" in k and (v in functions or v == "result_of"):
            found[k] = v + "_lem"
    for it in ("by_count", "no_line", "node_at", "reads_more"):
        found[it] = it + "_lem"
    found["NoLF"] = "NoLf"
    return found


def helpers(text, table):
    """The names of a proof file's own lemmas, which are not answers."""
    found = {}
    for line in text.splitlines():
        it = DECLARED.match(line)
        if it and it[1] not in table and " : tie." not in line and "statement M" not in line:
            if spelled(it[1]) != it[1]:
                found[it[1]] = spelled(it[1])
    return found


def foreign(text):
    """The names that a file imports from a library."""
    found = set()
    for path, inside in IMPORTED.findall(text):
        if not OWN.match(path + "."):
            for it in inside.split(","):
                found.add(it.split(" as ")[-1].strip())
    return found


def turned(path, text, table):
    mine = dict(table)
    if "/proofs/" in path:
        mine.update(helpers(text, table))
        for line in text.splitlines():
            it = DECLARED.match(line)
            if it and " : tie." in line:
                mine.pop(it[1], None)
    if path.endswith(".rt"):
        for it in re.findall(r" as ([a-z]+Of)\b", text):
            mine[it] = spelled(it)
    # What stands behind a dot in a function's proof is mostly a step of its code, which the toolchain names.
    steps = "/proofs/" in path
    out = foreign(text)
    mine = {k: v for k, v in mine.items() if k not in out}
    if not path.startswith("crates/session/"):
        mine.pop("reads_more", None)
    lines = []
    for line in text.split("\n"):
        code, dash, comment = line, "", ""
        mark = "//" if path.endswith(".rt") else "--"
        at = re.search(r"(^|\s)" + mark + r"(\s|$)", line)
        if at:
            code, comment = line[: at.start()], line[at.start() :]
            comment = re.sub(r"`(" + NAME + r")`", lambda m: "`" + mine.get(m[1], m[1]) + "`", comment)

        def new(m):
            behind = m.start() and code[m.start() - 1] == "."
            return m[0] if behind and steps and m[0] not in FIELDS else mine.get(m[0], m[0])

        lines.append(TOKEN.sub(new, code) + comment)
    return "\n".join(lines)


def main(args):
    table = names()
    if args == ["--list"]:
        for k, v in sorted(table.items()):
            print(k, v)
        return 0
    texts = {p: open(p, encoding="utf-8").read() for p in files()}
    for path, text in texts.items():
        words = set(TOKEN.findall(text))
        for k, v in table.items():
            if k in words and v in words and k not in foreign(text):
                print(f"look: {path} has {k} and {v}")
    for path, text in texts.items():
        new = turned(path, text, table)
        if new != text:
            with open(path, "w", encoding="utf-8") as f:
                f.write(new)
    print(f"spelled: {len(table)} names")
    return 0


if __name__ == "__main__":
    raise SystemExit(main(sys.argv[1:]))
