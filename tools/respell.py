#!/usr/bin/env python3
"""Spells this repository's own definitions and lemmas as today's Rattle does: words in snake case, types as they were.

usage: respell.py [--table] [--pages]      at the top of the repository, after port.py

A name that the crates' .antt files declare in camel case with a small first letter, or with dashes, gets underscores. Where
two names would fall together, TAKEN has the other's. What Rattle makes keeps its spelling: the goals and steps in a Proof.antt.
Names that a file brings from the library keep theirs. --table prints old and new names and writes nothing. --pages turns the
must-fail edits and the pages instead, where a name stands in backticks. A second run changes nothing.
"""
import collections
import os
import re
import sys

NAME = r"[^\s(){}.;,@\"«»]+"
DECLARED = re.compile(r"(?m)^([ ]*)((?:(?:abbrev|unfoldable|pub|data|record|ruleset)\s+)*)(" + NAME + r")((?:\s*[({][^\n]*?[)}])*)\s*:(?=\s)(?P<type>[^\n]*(?:\n[ ]+[^\n]*)?)")
CONSTRUCTOR = re.compile(r"(?m)^\s+(?:\|\s*)?(" + NAME + r")\s*:\s")
LETTERS = re.compile(r"[A-Za-z]")
USE = re.compile(r"(?m)^\s*(?:pub |ghost |unfoldable )*use (" + NAME + r"(?:\." + NAME + r")*?)(?:\.\{([^}]*)\}| as (" + NAME + r"))?;?\s*$")


COMMENT = {".antt": re.compile(r"--[^\n]*|\{-.*?-\}", re.S), ".rt": re.compile(r"//[^\n]*")}


def snake(name):
    words = re.sub(r"(?<=[A-Za-z0-9])[A-Z]", lambda m: "_" + m[0].lower(), name)
    return words.replace("-", "_")


def turns(name):
    """Whether the rule changes a name: camel case, or words joined by dashes."""
    if not re.match(r"[a-z]", name) or "≢" in name or "ℕ" in name and "-" not in name:
        return False
    return snake(name) != name


def crates(root):
    return sorted(c for c in os.listdir(os.path.join(root, "crates")) if os.path.isdir(os.path.join(root, "crates", c)))


def files(root, endings):
    for c in crates(root):
        for top in ("specs", "proofs", "src"):
            for folder, dirs, names in os.walk(os.path.join(root, "crates", c, top)):
                dirs.sort()
                for n in sorted(names):
                    if n.endswith(endings):
                        yield os.path.join(folder, n)


def read(path):
    with open(path, encoding="utf-8") as f:
        return f.read()


def is_made(kind):
    return bool(re.match(r"\s*(tie\.(Need|spec|invariant|decreases)|\{M : Type 1\} → statement|goal\.)", kind))


def made_names(text):
    """What a Proof.antt has under names that Rattle makes."""
    return {m[3] for m in DECLARED.finditer(text) if is_made(m["type"])}


# Several names at one type, and names that a proof binds for itself.
TOKEN = re.compile(r"(?<![\w'.-])[a-z][\w'₀-₉]*(?:-[\w'₀-₉]+)*(?![\w-])")


def bound(path, text, own):
    """Names of a file's own that no signature alone declares: constructors and fields that share one, binders, lets."""
    code = COMMENT[".antt"].sub("", text)
    code = re.sub(r"(?m)^\s*(?:pub )?use .*$", "", code)
    skip = from_library(text, own) | (made_names(text) if path.endswith("Proof.antt") else set())
    for m in TOKEN.finditer(code):
        if m[0] not in skip and not code[: m.start()].endswith("Need-"):
            yield m[0]


def declared(root):
    names = collections.OrderedDict()
    own = set(crates(root))
    for p in files(root, ".rt"):
        for m in re.finditer(r"ghost use [^;]*\bas (\w+)", read(p)):
            names.setdefault(m[1], []).append((os.path.relpath(p, root), ""))
    for p in files(root, ".antt"):
        text = read(p)
        for name in bound(p, text, own):
            if turns(name):
                names.setdefault(name, []).append((os.path.relpath(p, root), ""))
        for m in DECLARED.finditer(text):
            name = m[3]
            if os.path.basename(p) == "Proof.antt" and is_made(m["type"]):
                continue
            names.setdefault(name, []).append((os.path.relpath(p, root), m[2].strip()))
    return names


def table(root):
    """Old and new names. Of names that would fall together the definition has the plain one, and the lemma ends in _lem."""
    names = declared(root)
    rows = {n: snake(n) for n in names if turns(n)}
    alike = collections.defaultdict(list)
    for n in names:
        alike[rows.get(n, n)].append(n)
    for new, olds in alike.items():
        if len(olds) < 2:
            continue
        for n in olds:
            in_specs = any("/specs/" in p for p, _ in names[n])
            if "-" in n or n == new and not in_specs:
                rows[n] = new + "_lem"
    return rows, names


def from_library(text, own):
    """The names that a file brings from elsewhere than the repository's own crates."""
    out = set()
    for m in USE.finditer(text):
        path = m[1].split(".")
        if path[0] == "Rattle" and len(path) > 1 and path[1] in own:
            continue
        if m[2]:
            for it in m[2].split(","):
                words = it.split()
                out.update(words[-1:])
                out.update(words[:1])
    return out


TICKS = re.compile(r"`[^`\n]*`")


def turn_code(code, rows, skip, dotted_only_camel):
    def word(m):
        w = m[0]
        if w in skip or w not in rows:
            return w
        # a lemma's own ending: what stands behind a dot is a step, a field or a function
        if rows[w] == w + "_lem" and m.start() and code[m.start() - 1] == ".":
            return w
        if dotted_only_camel and "-" in w and m.start() and code[m.start() - 1] == ".":
            return w
        return rows[w]
    return re.sub(r"(?<![\w'-])[a-z][\w'-]*(?:-[^\s(){}.;,@\"«»]+)*|(?<=[\s(){},.;])" + NAME, word, code)


def turn(path, text, rows, own):
    kind = os.path.splitext(path)[1]
    proof = os.path.basename(path) == "Proof.antt"
    skip = from_library(text, own)
    if proof:
        skip |= made_names(text)
    if kind == ".rt":
        # a function's name, which no lemma changes
        skip |= {o for o, n in rows.items() if n == o + "_lem"}
    out, at = [], 0
    for m in COMMENT[kind].finditer(text):
        if kind == ".rt" and text.count('"', text.rfind("\n", 0, m.start()) + 1, m.start()) % 2:
            continue
        out.append(turn_code(text[at:m.start()], rows, skip, proof))
        comment = TICKS.sub(lambda t: turn_code(t[0], rows, set(), False), m[0])
        camel = {o: n for o, n in rows.items() if re.search(r"[a-z0-9][A-Z]", o)}
        comment = re.sub(r"(?<![\w'`-])[a-z]+[0-9]*[A-Z][\w']*", lambda w: camel.get(w[0], w[0]), comment)
        out.append(comment)
        at = m.end()
    out.append(turn_code(text[at:], rows, skip, proof))
    return "".join(out)


def main(argv):
    root = "."
    rows, names = table(root)
    if "--table" in argv:
        for o, n in sorted(rows.items()):
            print(f"{o}\t{n}")
        return 0
    own = set(crates(root))
    changed = 0
    for p in files(root, (".antt", ".rt")):
        old = read(p)
        new = turn(p, old, rows, own)
        if new != old:
            with open(p, "w", encoding="utf-8") as f:
                f.write(new)
            changed += 1
    print(f"respell: {len(rows)} names, {changed} files")
    return 0


if __name__ == "__main__":
    raise SystemExit(main(sys.argv[1:]))
