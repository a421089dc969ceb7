#!/usr/bin/env python3
"""Brings this repository's own antt names to the spelling of today's Rattle: words in snake case, types in camel case.

usage: python3 tools/respell.py [--check]

Run once, at the top, right after the port.py of the kit. It renames definitions, lemmas and fields that specs/ and proofs/ declare, wherever they are cited:
in .antt files, and in the clauses, ghost lines and comments of .rt files. Code, strings, names of functions and exported names stay.
With --check it writes nothing and lists names that would fall together.
"""
import collections
import glob
import re
import sys

WORD = r"[^\s(){}.;,@\"«»\[\]\\]+"
TOKEN = re.compile(r"--[^\n]*|\"(?:[^\"\\]|\\.)*\"|«[^»]*»|" + WORD)
# What is a fact, though its name began with a small letter.
FACTS = {"up_to": "UpTo", "frontTo": "FrontTo", "seenTo": "SeenTo"}
# Lemmas whose names would fall together with a definition's: they end in _lem, as today's library has it.
LEMMAS = set(
    "accepted-in alternative-most bits-of count-of digits-at end-of-line field-most folding-at folding-bits folding-fault good-pattern"
    " hash-of is-index is-of line-at may-hold may-precede most-rules read-plate rivals-stay".split()
)
# The same of lemmas that port.py respelled, whose names are also those of functions: by file.
IN_FILE = {
    "crates/plate/proofs/Parts.antt": {"digit_at": "digit_at_lem"},
    "crates/plate/proofs/Only.antt": {"first_key": "first_key_lem"},
    "crates/branches/proofs/Only.antt": {"same_branch": "same_branch_lem"},
}


def antt():
    found = glob.glob("crates/*/specs/**/*.antt", recursive=True) + glob.glob("crates/*/proofs/**/*.antt", recursive=True)
    return sorted(found)


def declared(path):
    out = set()
    for line in open(path, encoding="utf-8"):
        head = line.split("--")[0]
        m = re.match(r"^ {0,4}(?:(?:pub|abbrev|unfoldable) )*(?:(?:record|data) (?:pub )?)?(" + WORD + r")(?: :(?:\s|$)| \(|(?=\s*$))", head)
        if m and not re.match(r"^\s*(?:pub )?(?:use|mod|module|open|unfolding|ghost|let|in|record|data|elim) ", head) and " : " in head + " ":
            out.add(m[1])
        for f in re.findall(r"^ {2,4}pub (" + WORD + r")(?: [^:]*)? : ", head):
            out.add(f)
    return out


def respelled(name):
    if name in FACTS:
        return FACTS[name]
    if not re.match(r"[a-zμ]", name):
        return name
    if name in LEMMAS:
        return name.replace("-", "_") + "_lem"
    new = re.sub(r"(?<=[a-z0-9])([A-Z])", r"_\1", name).lower() if re.search(r"[a-z][A-Z]", name) else name
    new = re.sub(r"-(?=[A-Za-z0-9_])", "_", new)
    return new.replace("′", "'")


def table():
    names = set()
    for path in antt():
        if not path.endswith("/Proof.antt"):
            names |= declared(path)
    out = {n: respelled(n) for n in names}
    return {n: m for n, m in out.items() if n != m}


def turn_antt(text, names):
    def one(m):
        t = m[0]
        if t.startswith("--"):
            return re.sub(WORD, lambda w: names.get(w[0], w[0]) if re.search(r"[a-z][A-Z]", w[0]) else w[0], t)
        if t[0] in "\"«":
            return t
        return names.get(t, t)

    return TOKEN.sub(one, text)


def turn_rt(text, names):
    out, at = [], 0
    # A clause, a ghost item or field, up to the brace that closes it or the line's end.
    for m in re.finditer(r"(?m)^[ \t]*(?:(?:requires|ensures)\*?(?: \w+)? \{|ghost[^\n{]*[{;]|ghost use [^\n]*)", text):
        if m.start() < at:
            continue
        end = m.end()
        if "ghost use" in m[0]:
            end = text.index(";", m.start()) + 1
        elif m[0].endswith("{"):
            depth, end = 1, m.end()
            while depth:
                depth += {"{": 1, "}": -1}.get(text[end], 0)
                end += 1
        out.append(turn_comments(text[at : m.start()], names))
        out.append(turn_antt(text[m.start() : end], names))
        at = end
    out.append(turn_comments(text[at:], names))
    return "".join(out)


def turn_comments(text, names):
    def one(m):
        return re.sub(WORD, lambda w: names.get(w[0], w[0]) if re.search(r"[a-z][A-Z]", w[0]) else w[0], m[0])

    return re.sub(r"(?m)^\s*//[^\n]*", one, text)


def words(text):
    return {t for t in TOKEN.findall(text) if not t.startswith(("--", '"'))}


def main(argv):
    names = table()
    clashes = collections.Counter()
    for path in antt() + sorted(glob.glob("crates/*/src/**/*.rt", recursive=True)):
        old = open(path, encoding="utf-8").read()
        here = {**names, **IN_FILE.get(path, {})}
        new = turn_rt(old, here) if path.endswith(".rt") else turn_antt(old, here)
        if path.endswith(".antt"):
            by_new = collections.defaultdict(set)
            for w in words(old):
                by_new[here.get(w, w)].add(w)
            for n, ws in by_new.items():
                if len(ws) > 1:
                    clashes[(n, tuple(sorted(ws)), path)] += 1
        if "--check" not in argv and new != old:
            open(path, "w", encoding="utf-8").write(new)
    for (n, ws, path), _ in sorted(clashes.items()):
        print(f"{path}: {' and '.join(ws)} would both be {n}")
    print(f"{len(names)} names respelled")


main(sys.argv[1:])
