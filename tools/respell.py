#!/usr/bin/env python3
"""Brings the repository's own names in specs/, proofs/, clauses and must-fail edits to snake case.

usage: tools/respell.py [--list]     at the top of the repository

A word that specs/ or proofs/ declare and that has a dash or a capital inside it is spelled with underscores, as `textLimit`, `read-keeps`
and `same-length` are `text_limit`, `read_keeps` and `same_length`; a type keeps its capital. Names that the toolchain makes of the source
stay, and so do functions, exported names and whatever stands in strings. --list prints each old name beside its new one and writes nothing.
"""
import os
import re
import sys

WORD = r"[^\s(){}\[\].;,@\"«»`]+"
DECLARED = re.compile(
    r"(?m)^[ \t]*(?:let |in |where |pub |abbrev |unfoldable |record |data )*(" + WORD + r")(?: \{[^{}\n]*\})* :(?= |$)"
)
BOUND = re.compile(r"\blet (" + WORD + r")(?= [:=])")
RECORD = re.compile(r"\b(?:record|data) (" + WORD + r")")
# Heads of names that the toolchain makes, and that proofs of functions repeat.
MADE = re.compile(r"^(?:loop|if|in|returns|overflow|invariant|decreases|Need|At|In|After|Then|Else|Start)(?:-|$)")


def texts(root, endings):
    for folder, dirs, files in os.walk(os.path.join(root, "crates")):
        dirs[:] = sorted(d for d in dirs if d != "out")
        for name in sorted(files):
            if name.endswith(endings):
                yield os.path.join(folder, name)


def read(path):
    with open(path, encoding="utf-8") as f:
        return f.read()


def is_function_proof(path):
    return os.path.basename(path) in ("Proof.antt", "Answers.antt", "Invariants.antt")


# A lemma that would fall together with the definition that it speaks of.
LEMMAS = set(
    "hits-from input-from is-decimal line-score more-cells shared-over request-input session-words start-words threshold-word first-line "
    "last-field found-on passed-before score-at seen-at matter-at best-at reach-at reach-from first-from is-held left-of struck-task "
    "first-number judge-last".split()
)


# Types, which have a capital.
TYPES = {"isApart": "IsApart"}


def spelled(name):
    if name in TYPES:
        return TYPES[name]
    if name in LEMMAS:
        name += "_lem"
    name = re.sub(r"(?<=[a-z0-9])[A-Z]", lambda m: "_" + m[0].lower(), name) if name[0].islower() else name
    return name.replace("-", "_")


def is_word(name):
    return bool(re.fullmatch(r"[A-Za-z][A-Za-z0-9_'-]*", name))


def table(root):
    declared, standing = set(), set()
    for path in texts(root, (".antt",)):
        text = re.sub(r"--.*", "", read(path))
        found = set(DECLARED.findall(text)) | set(BOUND.findall(text)) | set(RECORD.findall(text))
        if is_function_proof(path):
            found = {it for it in found if re.search(r"[a-z0-9][A-Z]", it)}
        declared |= {it for it in found if is_word(it)}
        standing |= set(re.findall(WORD, text))
    out = {}
    for name in sorted(declared):
        if MADE.match(name):
            continue
        new = spelled(name)
        if new != name:
            out[name] = new
    met = {}
    for old, new in out.items():
        met.setdefault(new, []).append(old)
    for new, olds in sorted(met.items()):
        if len(olds) > 1:
            print(f"look: {', '.join(olds)} fall together as {new}", file=sys.stderr)
        if new in standing and new not in out:
            print(f"look: {new} stands already, beside {', '.join(olds)}", file=sys.stderr)
    return out


def clauses(text, turn):
    """Turns a source's `ghost use` items and what stands in the braces of its clauses."""
    out, at = [], 0
    for m in re.finditer(r"(?m)^[ \t]*(?:ghost use [^;]*;|(?:requires|ensures)\*?[^{\n]*\{)", text):
        if m.start() < at:
            continue
        end = m.end()
        if text[end - 1] == "{":
            depth = 1
            while depth:
                depth += {"{": 1, "}": -1}.get(text[end], 0)
                end += 1
        out += [text[at : m.start()], turn(text[m.start() : end])]
        at = end
    return "".join(out) + text[at:]


def main():
    root = os.getcwd()
    names = table(root)
    if "--list" in sys.argv:
        for old, new in names.items():
            print(old, new)
        return 0
    word = re.compile(r"(?<![^\s(){}\[\].;,@\"«»`])(" + WORD + r")")
    turn = lambda text: word.sub(lambda m: names.get(m[1], m[1]), text)
    changed = 0
    for path in texts(root, (".antt", ".rt", ".edit")):
        text = read(path)
        if path.endswith(".antt"):
            new = turn(text)
        elif path.endswith(".rt"):
            new = clauses(text, turn)
        else:
            new = re.sub(r"(?m)^(?:old|new): .*$", lambda m: turn(m[0]), text)
        if new != text:
            changed += 1
            with open(path, "w", encoding="utf-8") as f:
                f.write(new)
    print(f"respell: {len(names)} names, {changed} files")
    return 0


if __name__ == "__main__":
    sys.exit(main())
