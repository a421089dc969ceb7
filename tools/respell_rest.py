#!/usr/bin/env python3
"""Brings to snake case what tools/respell.py passed over: lemmas that stand deeper in nested modules, by the list below.

usage: python3 tools/respell_rest.py

Run once, at the top, after the proofs had their present form. It renames wherever the names are cited in .antt files, but not behind a dot, where Rattle's own
names of steps stand.
"""
import glob
import re

WORD = r"[^\s(){}.;,@\"«»\[\]\\]+"
TOKEN = re.compile(r"--[^\n]*|\"(?:[^\"\\]|\\.)*\"|«[^»]*»|\.?" + WORD)
NAMES = """
accept-bad-rule accept-end all-added all-merged at-end at-end' behind-key behind-low closing-hit closing-step decoded-bad decoded-end decoded-zero
ending-none ending-return fine-again folding-fine folding-is folding-kept folding-noted folding-target folding-turn from-3 from-4 has-place held-pairs
hit-below holds-zero how-long left-hit left-miss lent-long lent-more lent-whole letter-ascii letter-none letter-wide none-3 none-4 none-5 none-fits
noted-set old-rises one-longer other-wrong pair-full pair-new pair-replaced pattern-good place-vowel plate-built ready-end ready-flag ready-foldings
ready-keys ready-other ready-pairs ready-start ready-vowel ready-zeros rest-bytes rest-text rule-fields rule-fine rule-first rule-full rule-turn
rules-are short-buffer short-index short-report sound-full sound-high sound-low start-wrong three-3 three-4 used-by used-on viewed-again vowel-wrong
wrote-head wrote-plate wrote-rule
""".split()


def main():
    table = {n: n.replace("-", "_") for n in NAMES}
    for path in sorted(glob.glob("crates/*/specs/**/*.antt", recursive=True) + glob.glob("crates/*/proofs/**/*.antt", recursive=True)):
        old = open(path, encoding="utf-8").read()
        new = TOKEN.sub(lambda m: table.get(m[0], m[0]), old)
        if new != old:
            taken = {t for t in TOKEN.findall(old)} & {table[n] for n in NAMES if re.search(r"(?<![\w.'-])" + re.escape(n) + r"(?![\w'-])", old)}
            if taken:
                print(f"{path}: {sorted(taken)} stands there already")
            open(path, "w", encoding="utf-8").write(new)


main()
