#!/usr/bin/env python3
"""Brings the repository's own definitions and lemmas to snake case.

Run once at the top, after the kit's port.py: `python3 tools/respell_names.py`. A name that a file of
specs/ or proofs/ declares and that has a dash gets underscores, wherever it stands as a whole word in
specs/, proofs/, must-fail/ and in the code of src/ (not in its comments and texts). Names of std and
the names that Rattle makes (in-Some, loop-place) keep their dashes. TOLD holds the names that would
fall together with a field of the code, or that only a proof binds.
"""
import os
import re

TOLD = {
    # fields of ImageView have the plain spelling
    "functions-at": "functions_from", "words-at": "words_from", "rules-at": "rules_from",
    "symbols-at": "symbols_from", "spelled-at": "spelled_from", "spelled_at": "spelled_from",
    # names that a proof binds
    "dimensions-kept": "dimensions_kept", "no-match": "no_match", "no-path": "no_path",
    "of-marks": "of_marks", "on-page": "on_page", "past-mark": "past_mark",
    "is-hole": "is_hole", "left-none": "left_none", "same-category": "same_category", "same-form": "same_form",
    "same-forms": "same_forms", "same-rule": "same_rule", "some-categories": "some_categories",
    "some-functions": "some_functions",
}
WORD = re.compile(r"[^\s(){}\[\].,;:«»⌜⌝|]+")
DECLARED = re.compile(
    r"^\s*(?:abbrev |unfoldable |mutual |pub |private |record |data |ruleset )*([^\s(){}:]+)\s+(?:[({].*)?:(?:\s|$)")
KIND = re.compile(r"^\s*(?:pub )*(?:record|data|ruleset)\s+([^\s(){}:]+)")
ANSWER = re.compile(r":\s*(goal|need|given)\.")
MADE = ("Answers.antt", "Invariants.antt", "Proof.antt")


def files(ending):
    for root, folders, names in os.walk("crates"):
        folders[:] = sorted(f for f in folders if f != "out")
        for name in sorted(names):
            if name.endswith(ending):
                yield os.path.join(root, name)


def declared():
    found = set()
    for path in files(".antt"):
        made = os.path.basename(path) in MADE
        for line in open(path):
            named = DECLARED.match(line)
            if named and "-" in named.group(1) and not (made and ANSWER.search(line)):
                found.add(named.group(1))
            kind = KIND.match(line)
            if kind and "-" in kind.group(1):
                found.add(kind.group(1))
    return {name for name in found - {"Decides-like"} if re.match(r"^[A-Za-z0-9_'-]+$", name) and not name.startswith("-")}


def respelled(text, names):
    return WORD.sub(lambda word: names.get(word.group(0), word.group(0)), text)


def code(text, names):
    """A definition is cited in a `ghost use` and in clauses; elsewhere the word is one of the code."""
    parts = re.split(r'(//[^\n]*|b?"(?:[^"\\]|\\.)*"|ghost use [^\n]*|(?:requires|ensures)\b[^\n]*)', text)
    known = {k: v for k, v in names.items() if "-" in k}
    turned = []
    for i, part in enumerate(parts):
        cites = part.startswith(("ghost use", "requires", "ensures"))
        turned.append(respelled(part, names if cites else known) if not i % 2 or cites else part)
    return "".join(turned)


def formal(text, names):
    parts = re.split(r"((?:^|(?<=\s))--\s[^\n]*)", text)
    return "".join(p if i % 2 else respelled(p, names) for i, p in enumerate(parts))


def write(path, turn, names):
    old = open(path).read()
    new = turn(old, names)
    if new != old:
        open(path, "w").write(new)


def main():
    names = {name: name.replace("-", "_") for name in declared()}
    names.update(TOLD)
    for path in files(".antt"):
        write(path, formal, names)
    for path in files(".rt"):
        write(path, code, names)
    for path in files(".edit"):
        write(path, respelled, {k: v for k, v in names.items() if "-" in k})
    print(f"{len(names)} names")


main()
