#!/usr/bin/env python3
"""Brings the repository's own definitions and lemmas to snake case, in specs/, proofs/ and the clauses of src/.

usage: tools/respell.py [--dry]    at the top, once, after the toolchain's own script for older repositories

A name is the repository's own where an .antt file gives it a signature. Names that the prover makes from the code
(an answer `x : goal.x`, a field of its records) and names of the library keep their spelling, and so do functions of
src/, strings, and all inputs and outputs. It stops where two names would fall together.
"""

import os
import re
import sys

NAME = r"[^\s(){}\[\],;.:=|]+"
SIGNATURE = re.compile(rf"\s*(?:\| )?(?:abbrev |unfoldable )?(?:pub )?({NAME}(?: +{NAME})*) :(?:\s|$)")
LET = re.compile(rf"\blet ({NAME}) (?::|=)")
IMPORT = re.compile(r"use ([\w.'-]+)(?:\.\{([^}]*)\})?(?: as (\S+))?")
TOKEN = re.compile(r"[^\s(){}\[\],;.:=|`\"/]+")
# lemmas that are told apart from the definition they speak of only by a dash
APART = {
    "ieee-value": "ieee_value_lem",
    "line-by": "line_by_lem",
    "line-of": "line_of_lem",
    "shown-last": "shown_last_lem",
    "sign-place": "sign_place_lem",
    "term-value": "term_value_lem",
}


def files(end):
    for folder, dirs, names in os.walk("crates"):
        dirs[:] = sorted(d for d in dirs if d not in ("out", "target", "data"))
        for name in sorted(names):
            if name.endswith(end):
                yield os.path.join(folder, name)


def read(path):
    with open(path, encoding="utf-8") as f:
        return f.read()


def snake(name):
    if name in APART:
        return APART[name]
    words = re.sub(r"(?<=[a-z0-9])(?=[A-Z][a-z])", "-", name.replace("′", "'"))
    words = re.sub(r"(?<=[a-z])(?=ℤ)", "-", words)
    return "_".join(w if len(w) == 1 else w[0].lower() + w[1:] for w in words.split("-"))


def collect(crates):
    own, foreign, made, tokens = set(), set(), set(), set()
    for path in files(".antt"):
        for line in read(path).split("\n"):
            if line.lstrip().startswith("--"):
                continue
            tokens.update(TOKEN.findall(line))
            use = re.match(r"(?:pub )?use ", line) and IMPORT.search(line)
            if use:
                inside = re.match(r"Rattle\.(\w+)", use.group(1))
                if not (inside and inside.group(1) in crates):
                    foreign.update(n.strip() for part in (use.group(2) or "").split(",") for n in part.split(" as "))
                continue
            answer = re.match(rf"(?:abbrev )?pub ({NAME}) : goal\.({NAME})", line)
            if answer:
                made.add(answer.group(1))
                continue
            sig = SIGNATURE.match(line)
            if sig:
                own.update(sig.group(1).split())
            own.update(LET.findall(line))
    return own, foreign, made, tokens


def main():
    crates = {line.split(":")[0].strip() for line in read("crates.txt").split("\n") if ":" in line}
    own, foreign, made, tokens = collect(crates)
    plain = re.compile(r"[a-z0-9][\w'′-]*$")
    turned = {}
    for name in sorted(own - foreign - made):
        if plain.match(name) and re.search(r"-|′|[a-z][A-Zℤ]", name) and snake(name) != name:
            turned[name] = snake(name)
    clash = [(n, t) for n, t in turned.items() if t in tokens or list(turned.values()).count(t) > 1]
    if clash:
        print("fall together:", *(f"{n} -> {t}" for n, t in clash), sep="\n  ")
        return 1
    for path in list(files(".antt")) + list(files(".rt")):
        text = read(path)
        answers = os.path.basename(path) in ("Answers.antt", "Invariants.antt", "Proof.antt")

        def turn(match):
            word, at = match.group(0), match.start()
            if word not in turned:
                return word
            if answers and text[at - 1] == "." and "--dry" in sys.argv:
                print(f"{path}: {text[text.rfind(chr(10), 0, at) + 1:text.find(chr(10), at)].strip()[:150]}  <{word}>")
            return turned[word]

        new = TOKEN.sub(turn, text)
        if new != text and "--dry" not in sys.argv:
            with open(path, "w", encoding="utf-8") as f:
                f.write(new)
    for name, to in turned.items():
        print(f"{name} {to}")
    return 0


if __name__ == "__main__":
    sys.exit(main())
