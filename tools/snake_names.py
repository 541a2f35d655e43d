#!/usr/bin/env python3
"""Spells the definitions and lemmas of this repository as today's Rattle does: words in snake case.

usage: python3 tools/snake_names.py      at the top of the repository, once, right after the kit's own script

It goes by text: it collects what the .antt files of crates/ declare, takes each name that begins with a small letter and
has a dash or a capital, and writes it in snake case wherever it stands in the .antt and .rt files of crates/. Names of
types, modules and files, of functions in src/, strings, words with a dash in comments, must-fail edits, and the names
that Rattle makes for goals stay. Two names that would fall together are told apart by the tables LEMMAS and CASES
below; the script does not look for others. A second run stops at once, since no name is left.
"""

import glob
import os
import re

# Lemmas that would fall together with the definition that they speak of, by the file that declares them.
LEMMAS = {
    "crates/words/proofs/Codec.antt": ["condition-at", "flag_at", "offset_at", "operation-at", "rotation-at", "transfer-at"],
    "crates/ledger/proofs/Examples.antt": ["every-step"],
    "crates/ledger/proofs/Moving.antt": ["way_back"],
    "crates/ledger/proofs/RowFacts.antt": ["handler-at", "main-at", "need-at", "spans-at"],
    "crates/inspection/proofs/Clearing.antt": ["either-marked", "instruction-cause", "word-cause"],
    "crates/inspection/proofs/Straying.antt": ["foreign-found"],
    "crates/machine/proofs/Transparency.antt": ["inside-image"],
}
# A case that would fall together with a definition of its own file.
CASES = {"large-word": "word_too_large"}

DECLARED = re.compile(r"^(\s*)((?:pub |abbrev |unfoldable )*)((?:[^\s(){}:.,;λ→]+ )+): ?")
TOKEN = re.compile(r"[\w'₀₁₂₃₄₅₆₇₈₉-]+")
MADE = re.compile(r"(?:^|[^\w'.])(?:c|l|g|goal|given)\.$")


def snake(name):
    name = name.replace("-", "_")
    name = re.sub(r"(?<=[a-z0-9'])([A-Z])", lambda m: "_" + m.group(1).lower(), name)
    return re.sub(r"_([A-Z])", lambda m: "_" + m.group(1).lower(), name)


def of_goals(path):
    """Whether the file answers goals, under names that Rattle makes."""
    return os.path.basename(path) in ("Answers.antt", "Invariants.antt", "Proof.antt")


def is_code(line):
    return not line.strip().startswith(("--", "//"))


def declared(path):
    names = set()
    for line in open(path, encoding="utf-8"):
        if not is_code(line) or re.match(r"\s*(pub )?use ", line):
            continue
        found = DECLARED.match(line.rstrip("\n") + " ")
        if not found or re.match(r"\s*goal\.", line[found.end() :]):
            continue
        if of_goals(path) and "pub" in found.group(2):
            continue
        names.update(found.group(3).split())
    return names - {"pub", "abbrev", "unfoldable", "let", "record", "data"}


def texts():
    paths = glob.glob("crates/*/**/*.antt", recursive=True) + glob.glob("crates/*/src/**/*.rt", recursive=True)
    return sorted(p for p in paths if "/out/" not in p)


def cited(text, module, name):
    """Whether the text imports the name from the module."""
    return any(re.search(rf"(?<![\w'-]){re.escape(name)}(?![\w'-])", m) for m in re.findall(rf"{re.escape(module)}\.\{{([^}}]*)\}}", text))


def turned_lemmas(path, text):
    """The names of LEMMAS that mean a lemma in this file."""
    here = {}
    for home, names in LEMMAS.items():
        crate, stem = home.split("/")[1], os.path.basename(home)[: -len(".antt")]
        for name in names:
            if path == home or cited(text, f"Rattle.{crate}.proofs.{stem}", name):
                here[name] = snake(name) + "_lem"
    return here


def respelled(path, names):
    text = open(path, encoding="utf-8").read()
    lemmas = turned_lemmas(path, text)
    lines = []
    for line in text.split("\n"):
        code = is_code(line)

        def turn(found):
            name = found.group(0)
            if not code and "-" in name:
                return name
            if of_goals(path) and MADE.search(line[: found.start()]):
                return name
            # the name of an answer, at the head of its line, `pub` before it or not
            if of_goals(path) and re.match(rf"(pub )?{re.escape(name)}( :|\b.*=)", line) and found.start() <= 4:
                return name
            if name in lemmas:
                return lemmas[name]
            return names.get(name, name)

        strings = re.split(r'("(?:[^"\\]|\\.)*")', line) if code else [line]
        if len(strings) == 1:
            lines.append(TOKEN.sub(turn, line))
            continue
        # strings stay; what stands between them is turned one piece at a time
        out = []
        for piece in strings:
            out.append(piece if piece.startswith('"') else TOKEN.sub(lambda m: lemmas.get(m.group(0), names.get(m.group(0), m.group(0))), piece))
        lines.append("".join(out))
    turned = "\n".join(lines)
    if turned != text:
        open(path, "w", encoding="utf-8").write(turned)
    return turned != text


def main():
    own = set()
    for path in texts():
        if path.endswith(".antt"):
            own |= declared(path)
    old = {n for n in own if re.match(r"[a-z]", n) and ("-" in n or re.search(r"[A-Z]", n))}
    if not old:
        raise SystemExit("nothing to do: no declared name has a dash or a capital")
    names = {n: CASES.get(n, snake(n)) for n in old}
    changed = sum(respelled(path, names) for path in texts())
    print(f"{len(names)} names, {changed} files")


if __name__ == "__main__":
    main()
