#!/usr/bin/env python3
"""Spells this repository's own names of definitions, fields, lemmas and variables in snake case: the ones that the kit's port.py left.

usage: python3 tools/spell.py KIT        once, at the top, after KIT/port/port.py

KIT is the kit's folder. A name with a dash or with a capital inside, as reduced-same or mapOf, becomes reduced_same or map_of, wherever it stands in
crates/: in .antt files, in the clauses of .rt files, in must-fail edits and in comments. Left alone: types and modules, which are in camel case, names of the
kit's library, names that the check makes (tie.Need-returns), texts between quotation marks, and functions of src/. It stops, and writes nothing, where two
names of one file would fall together.
"""

import os
import re
import sys

WORD = re.compile(r"[^\s(){}\[\].,;:\"«»@`⌜⌝¬*/|&=<>]+")
DEFINED = re.compile(r"^(?:(?:pub|abbrev|unfoldable|opaque|ruleset|record|data) +)*([^\s(){}:;,.]+) +(?::|=|\()")
FIELD = re.compile(r"^ +(?:pub +)?([^\s(){}:;,.]+) +:")
BINDER = re.compile(r"[({]([^\s(){}:;,.=◌][^(){}:;,.=]*?) : |let +(?:\()?([^\s(){}:;,.=]+) |λ +([^.]+?)\. ")
# Names that would fall together with another of the same file: the kit's rule is that a lemma with its function's name gets _lem.
CHOSEN = {
    "sphere-of": "sphere_of_lem",
    "first-of": "first_of_lem",
    "digit-of": "digit_of_lem",
    "is-nan": "is_nan_lem",
    "about-corner": "about_corner_lem",
    "verdict-by": "verdict_by_lem",
    "said-lifted": "said_lifted_lem",
    "as-image": "as_image_lem",
    "same-dart": "same_dart_lem",
    "field-units": "field_units_lem",
    "root-upto": "root_upto_lem",
    "units_of": "units_of_lem",
    "same_place": "same_place_lem",
    "lifted_by": "lifted_by_lem",
    "mulAdd": "mul_add_of",
    "askText": "ask_text",
    "image-at": "image_at_lem",
    # names that are declared inside a module of a file, and imports under another name
    "imageAt": "image_at",
    "farAt": "far_at",
    "planeAt": "plane_at",
    "squareAt": "square_at",
    "byLength": "by_length",
    "meetingOf": "meeting_of",
    "taken-passed": "taken_passed",
    "reasons-passed": "reasons_passed",
    "right-room": "right_room",
    "no-new": "no_new",
    "yes-new": "yes_new",
}
# where such a name is the kit's own, or a function's of src/
KEPT = {"units_of": (".rt", ".edit"), "same_place": (".rt", ".edit"), "lifted_by": (".rt", ".edit")}
IMPORT = re.compile(r"^(?:ghost )?use ([^{;\s]+)\.\{([^}]*)\}", re.M)


def snake(name):
    if name[:1].isupper() and "-" not in name:
        return name
    s = name.replace("-", "_")
    s = re.sub(r"([a-z0-9])([A-Z]+)(?=[A-Z][a-z]|$|_|\d)", lambda m: m[1] + "_" + m[2].lower(), s)
    s = re.sub(r"([a-z0-9])([A-Z])", lambda m: m[1] + "_" + m[2].lower(), s)
    return s


def odd(name):
    return bool(re.search(r"[A-Za-z0-9]-[A-Za-z0-9]", name) or re.match(r"[a-z][A-Za-z0-9]*[A-Z]", name)) and not re.search(r"[◌→≢⊎×≤≡∙√]", name)


def files(top, ends):
    for folder, dirs, names in os.walk(top):
        dirs[:] = sorted(d for d in dirs if not (d == "out" and os.path.basename(os.path.dirname(folder)) == "crates"))
        for n in sorted(names):
            if n.endswith(ends):
                yield os.path.join(folder, n)


def read(path):
    with open(path, encoding="utf-8") as f:
        return f.read()


def own_crates():
    return {c for c in os.listdir("crates")}


def is_answer(path):
    """A file that answers one function's goals: its own names are made by the check."""
    return bool(re.search(r"/proofs/.+/(Proof|Answers|Invariants)\.antt$", path))


def main(kit):
    crates = own_crates()
    library = set()
    for p in files(os.path.join(kit, "rattle"), (".antt",)):
        for line in read(p).splitlines():
            m = DEFINED.match(line) or FIELD.match(line)
            if m and odd(m[1]):
                library.add(m[1])
    ours, local = set(), set()
    for p in files("crates", (".antt",)):
        if is_answer(p):
            continue
        for line in read(p).splitlines():
            if line.startswith("--"):
                continue
            m = DEFINED.match(line) or FIELD.match(line)
            if m and odd(m[1]):
                ours.add(m[1])
            for b in BINDER.finditer(line):
                for word in (b[1] or b[2] or b[3]).split():
                    if odd(word):
                        local.add(word)
    names = {n: snake(n) for n in ours | (local - library)} | CHOSEN
    names = {n: s for n, s in names.items() if n != s}
    fall, todo = [], {}
    for p in files("crates", (".antt", ".rt", ".edit")):
        text = read(p)
        theirs = set()
        for m in IMPORT.finditer(text):
            if not (m[1].startswith("Rattle.") and m[1].split(".")[1] in crates):
                theirs |= {w.strip().split(" as ")[-1] for w in m[2].split(",")}
        present = set(WORD.findall(text))
        seen = {}
        for w in present:
            if w in names and w not in theirs and not p.endswith(KEPT.get(w, ("none",))):
                seen.setdefault(names[w], set()).add(w)
        for s, olds in seen.items():
            if is_answer(p):
                continue
            if len(olds) > 1 or (s in present and s not in CHOSEN and s != "ask_text" and not p.endswith((".rt", ".edit"))):
                fall.append(f"{p}: {', '.join(sorted(olds))} would be {s}" + (", which stands there" if s in present else ""))

        if p.endswith(".antt"):
            pieces = re.split(r"(\"[^\"\n]*\")", text)
        else:
            pieces = re.split(r"(b?\"(?:[^\"\\\n]|\\.)*\")", text)
        out = []
        for piece in pieces:
            if piece.startswith(('"', 'b"')):
                out.append(piece)
                continue

            def turned(m, piece=piece):
                w = m[0]
                before = piece[max(0, m.start() - 5):m.start()]
                if w not in names or w in theirs or before.endswith(("tie.", "goal.")) or p.endswith(KEPT.get(w, ("none",))):
                    return w
                # in prose and in Rust only names with a capital inside: a dash there may join two words
                line = piece[piece.rfind("\n", 0, m.start()) + 1:m.start()]
                if "-" in w and (line.lstrip().startswith(("--", "//", "#")) or " -- " in line):
                    return w
                return names[w]

            out.append(WORD.sub(turned, piece))
        new = "".join(out)
        if new != text:
            todo[p] = new
    if fall:
        print("\n".join(fall))
        print(f"{len(fall)} places where names fall together; nothing was written")
        return 1
    for p, new in todo.items():
        with open(p, "w", encoding="utf-8") as f:
            f.write(new)
    print(f"{len(names)} names, {len(todo)} files")
    return 0


if __name__ == "__main__":
    raise SystemExit(main(sys.argv[1]) if len(sys.argv) > 1 else __doc__)
