#!/usr/bin/env python3
"""Brings the repository's own names to the spelling of the kit, after the kit's own script: words in snake case, types in camel case, a dash between two names alone.

usage: python3 tools/respell.py            once, at the top of the repository

tools/names.tsv has a row for each definition, field and lemma: the old name, a tab, the new one. The names of goals in proof files follow those that the check makes now.
The crate hex becomes hex_text, since the kit has a library hex.
"""

import glob
import os
import re
import subprocess
import sys

SNAKE = "/opt/rattle/port/notes/2026-11-18-names-are-in-snake-case/snake.py"
GOALS = [
    (r"\boverflow-(add|sub|mul|shl|shr|cast|step|neg)\b", r"overflow_\1"),
    (r"\bnonzero-(div|rem)\b", r"nonzero_\1"),
    (r"\boffset-bounds\b", "offset_bounds"),
    (r"\bslice-bounds\b", "slice_bounds"),
    (r"\binvariant-of\b", "invariant_of"),
    (r"\bin-(err|ok|default)\b", r"in_\1"),
    (r"\btype-inv\b", "type_inv"),
]


# std's names that stand in names of steps
STD = {"saturating_add", "saturating_mul", "checked_mul", "checked_add", "copy_from_slice", "count_ones", "reduce_xor", "from_array", "to_array", "is_empty", "is_err", "from_str", "as_str", "byte_need", "split_at_mut", "iter_mut", "from_utf8", "to_vec", "as_slice", "unwrap_or"}


def sources():
    """The names with an underscore that stand in the code: steps of proofs are named after them."""
    names = set(STD)
    for p in glob.glob("crates/*/src/**/*.rt", recursive=True):
        with open(p) as f:
            names |= set(re.findall(r"\b[A-Za-z][A-Za-z0-9]*(?:_[A-Za-z0-9]+)+\b", f.read()))
    return names


def goals(text, names):
    for old, new in GOALS:
        text = re.sub(old, new, text)
    spelled = {n.replace("_", "-"): n for n in names}
    if spelled:
        text = re.sub(r"(?<![\w])(?:" + "|".join(sorted(map(re.escape, spelled), key=len, reverse=True)) + r")(?![\w])", lambda m: spelled[m[0]], text)
    return text


def main():
    top = os.path.dirname(os.path.dirname(os.path.abspath(sys.argv[0])))
    os.chdir(top)
    if os.path.isdir("crates/hex"):
        subprocess.run(["git", "mv", "crates/hex", "crates/hex_text"], check=True)
        with open("crates.txt") as f:
            lines = f.read()
        with open("crates.txt", "w") as f:
            f.write(re.sub(r"\bhex\b", "hex_text", lines))
        for p in glob.glob("crates/**/*.rt", recursive=True) + glob.glob("crates/**/*.antt", recursive=True) + glob.glob("crates/*/must-fail/*.edit"):
            with open(p) as f:
                t = f.read()
            u = re.sub(r"(?<![\w.:])hex::", "hex_text::", t.replace("Rattle.hex.", "Rattle.hex_text."))
            if u != t:
                with open(p, "w") as f:
                    f.write(u)
    subprocess.run([sys.executable, SNAKE, "--table", "tools/names.tsv", "--move", "crates"], check=True)
    names = sources()
    for p in [q for n in ("Answers", "Invariants", "Proof") for q in glob.glob(f"crates/*/proofs/**/{n}.antt", recursive=True)]:
        with open(p) as f:
            t = f.read()
        u = goals(t, names)
        if u != t:
            with open(p, "w") as f:
                f.write(u)


main()
