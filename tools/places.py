#!/usr/bin/env python3
"""places.py: the places of docs/DESIGN-PASS.md, counted in crates/*/src by their text.

    tools/places.py [-l]      a line for each command; with -l each place too
"""
import collections
import glob
import re
import sys

LIST = "-l" in sys.argv[1:]
SOURCES = {f: open(f, encoding="utf-8").read().split("\n") for f in sorted(glob.glob("crates/*/src/**/*.rt", recursive=True))}


def lines(pattern, but=None):
    for f, text in SOURCES.items():
        for n, line in enumerate(text, 1):
            if re.search(pattern, line) and not (but and re.search(but, line)) and not line.lstrip().startswith("//"):
                yield f"{f}:{n}: {line.strip()}"


def functions():
    """Each function: its place, name, parameters, requires and the comment above it."""
    for f, text in SOURCES.items():
        for n, line in enumerate(text):
            m = re.match(r"\s*(?:pub(?:\(crate\))? )?(?:extern \"C\" )?fn (\w+)", line)
            if not m:
                continue
            head = []
            for k in range(n, len(text)):
                head.append(text[k])
                if text[k].rstrip().endswith("{") and not re.search(r"(requires|ensures)", text[k]) or text[k].strip() in ("{", "{}"):
                    break
            words = " ".join(" ".join(head).split())
            inner = re.search(r"\((.*?)\)(?: ->| requires| ensures| \{|$)", words)
            names = [p.split(":")[0].strip() for p in re.split(r",(?![^<(]*[>)])", inner.group(1)) if ":" in p] if inner else []
            needs = re.findall(r"requires (?:\w+ )?\{ (.*?) \}(?= ensures| requires| \{|$)", words)
            comment = []
            k = n - 1
            while k >= 0 and re.match(r"\s*(//|#\[)", text[k]):
                comment.insert(0, text[k].strip())
                k -= 1
            yield f"{f}:{n + 1}: {m.group(1)}", m.group(1), names, needs, " ".join(comment), words


def shared(groups, least):
    for key, places in sorted(groups.items(), key=lambda e: -len(e[1])):
        if len(places) >= least:
            yield f"{len(places)} x {key}: {', '.join(p.split(' ')[-1] for p in places)}"


def say(what, found):
    found = list(found)
    print(f"{what}: {len(found)}")
    if LIST:
        for place in found:
            print("    " + place)


FUNCTIONS = list(functions())
say("1a own enums", lines(r"^\s*(pub(\(crate\))? )?enum \w+"))
say("1b fields that hold a code", lines(r"^\s+(pub(\(crate\))? )?code: u8,"))
say("1c functions that answer a code", (p for p, name, *_, w in FUNCTIONS if re.search(r"-> u8\b", w) and re.search(r"cod(e|ed)\b|_code|asked_", p) and 'extern "C"' not in w))
say("1d flags in structs", lines(r"^\s+(pub(\(crate\))? )?\w+: bool,"))
say("1e signed numbers with -1 for a failure", lines(r"\bisize\b"))
say("1f functions that answer a number or no form for none",
    (p for p, _, _, _, c, w in FUNCTIONS if re.search(r"\b0,? (for|where|while)|; 0 |no form|nothing and 0|answers -1|16 for", c) and "->" in w and 'extern "C"' not in w))
say("1g constants for codes, kinds and items", (p for f in ("codes", "types", "table") for p in lines(r"const [A-Z_0-9]+: u(8|16) =") if f"/{f}.rt" in p))
say("3 loops but `for`", lines(r"^\s+(while |loop \{|'\w+: (while|loop))"))
say("4 equality, lesser, conversion by hand",
    (p for p, name, *_ in FUNCTIONS if re.match(r"(same|is_same|same_\w+|lesser|left|wide|lifted|signed_byte|gain_byte|one_less|further|first|first_samples|value_of|digit_of|is_digit|sign\d+|digit)$", name)))
say("4 derives but Clone, Copy, Drop", lines(r"derive\(.*(PartialEq|Ord|Hash|Debug|Display)"))
needs = collections.defaultdict(list)
for p, _, _, ns, _, _ in FUNCTIONS:
    for n in ns:
        for part in re.split(r" × ", n):
            needs[part.strip("() ")].append(p)
say("5a facts required by three functions or more", shared(needs, 3))
together = collections.defaultdict(list)
for p, _, names, *_ in FUNCTIONS:
    for i in range(len(names) - 2):
        together[", ".join(names[i:i + 3])].append(p)
say("5b three parameters that go together in three functions or more", shared(together, 3))
say("6 buffers of a fixed length", lines(r": \[\w+; \w+\]|= \[0\w*; "))
say("7 dyn, Fn", lines(r"\bdyn \w+|impl Fn|: Fn"))
