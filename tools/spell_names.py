#!/usr/bin/env python3
"""Brings the repository's own names in specs/ and proofs/ to snake case: words are joined by `_`, as the library's are.

usage: python3 tools/spell_names.py [--say]      at the top of the repository, right after the kit's port.py; with --say it only tells

A name is respelled if a file of specs/ or a lemma file of proofs/ declares it (a definition, a lemma, a field, a constructor, or a
name bound inside a proof), it begins with a lower-case letter, and it has a dash or an upper-case letter after a lower-case one.
Left as they are: names that begin with a capital (types, and lemmas that begin with a type or with a record's letter), names that
a file imports from the kit, and what the check itself makes for a function (the files in proofs/F/ get the new names of what
they cite, and keep their own). Where the new spelling would be that of another name in the repository, `_lem` is added.
"""

import os
import re
import sys

LETTER = r"[^\s(){}\[\],;:.λ@\"`⦃⦄↦|=⁻¹]"
WORD = re.compile(r"[A-Za-z0-9_'₀-₉ₐ-ₜℤℕα-ωΑ-Ω\-]*[A-Za-z][A-Za-z0-9_'₀-₉ₐ-ₜℤℕα-ωΑ-Ω≤\-]*")
DECLARED = re.compile(r"^(?P<in>\s*)(?:pub )?(?:unfoldable )?(?:abbrev )?(?:pub )?(?P<name>[^\s:(){}]+) :")
IMPORT = re.compile(r"^(?:ghost )?(?:pub )?use ([\w.'+]+(?:-\w+)*)\.\{([^}]*)\}", re.M)


# what would fall together with another name of the same file, and is no lemma
CHOSEN = {"kind-of": "pair_kind", "nextIn": "next_in_sums", "nowIn": "now_in_sums",
          "number-at": "field_number_at", "rows-from": "rows_of_numbers", "rows-of": "rows_for"}


def files():
    for folder, dirs, names in os.walk("crates"):
        dirs[:] = sorted(d for d in dirs if d not in ("out", "must-fail"))
        for n in sorted(names):
            if n.endswith((".antt", ".rt")):
                yield os.path.join(folder, n)


def of_a_function(path):
    return re.search(r"/proofs/[^/]+/", path) is not None


def without_comments(text):
    return re.sub(r"--.*|^\s*//.*", "", text, flags=re.M)


def words_of(path, text):
    """The words that a file's statements can mean: not the modules of a path, nor functions of src/."""
    text = without_comments(text)
    if path.endswith(".rt"):
        return set(WORD.findall(" ".join(n for _, n in IMPORT.findall(text)))) | set(re.findall(r"\b(\w+): [&A-Zui]", text))
    return set(WORD.findall(re.sub(r"^use [^{\n]*", "", text, flags=re.M)))


def snake(name):
    name = re.sub(r"(?<=[a-z0-9])([A-Z])(?=[a-z])", lambda m: "_" + m.group(1).lower(), name)
    name = re.sub(r"(?<=[a-z0-9])([A-Z])(?![A-Za-z])", lambda m: "_" + m.group(1).lower() if m.group(1) == "Z" else m.group(1), name)
    name = re.sub(r"(?<=[A-Za-z0-9'])-(?=[A-Za-z0-9])", "_", name)
    return name


def main():
    own = {c.split(":")[0].split()[0] for c in open("crates.txt") if c.strip() and not c.startswith("#")}
    texts = {p: open(p, encoding="utf-8").read() for p in files()}
    kit_names, wanted = {}, set()
    for p, t in texts.items():
        kit_names[p] = set()
        for path, names in IMPORT.findall(t):
            if not any(path.startswith("Rattle." + c + ".") for c in own):
                kit_names[p] |= {n.split(" as ")[0].strip() for n in names.split(",")}
    for p, t in texts.items():
        if p.endswith(".antt") and not of_a_function(p):
            for w in set(WORD.findall(without_comments(t))):
                if re.match("[a-z]", w) and w != snake(w) and w not in kit_names[p]:
                    wanted.add(w)
    # only names that stand declared or bound in a file of ours: a word that nothing declares is the check's or the kit's
    declared = set()
    for p, t in texts.items():
        if p.endswith(".antt") and not of_a_function(p):
            for line in without_comments(t).split("\n"):
                m = DECLARED.match(line)
                if m:
                    declared.add(m.group("name"))
            for m in re.finditer(r"(?:\blet |[;,(] ?|\bλ |\{)([a-z][^\s:(){},;]*)(?= :| =|\.)", without_comments(t)):
                declared.add(m.group(1))
            for m in re.finditer(r"[({]((?:[^\s:(){},;]+ )+): ", without_comments(t)):
                declared |= set(m.group(1).split())
            for m in re.finditer(r"λ ((?:[^\s.()]+ ?)+)\.", without_comments(t)):
                declared |= set(m.group(1).split())
    undeclared = sorted(w for w in wanted if w not in declared)
    defined = {m.group("name") for p, t in texts.items() if "/specs/" in p for m in map(DECLARED.match, without_comments(t).split("\n")) if m}
    in_files = {p: words_of(p, t) for p, t in texts.items() if not of_a_function(p)}
    names = {}
    for w in sorted(wanted & declared, key=lambda w: (w not in defined, w)):
        here = [ws for ws in in_files.values() if w in ws]
        taken = lambda new: any(new in ws or any(names.get(v) == new for v in ws if v in names) for ws in here)
        new = CHOSEN.get(w, snake(w))
        while taken(new):
            new += "_lem"
        names[w] = new
    for t in texts.values():
        for m in re.finditer(r"^\s*(?:pub )?(?:unfoldable )?(?:abbrev )?(?:pub )?(?:record |data )?([A-Z][A-Za-z0-9']*(?:-[A-Za-z0-9']+)+)\b[^\n]*(?::|→) Type \d", without_comments(t), flags=re.M):
            names[m.group(1)] = "".join(part[:1].upper() + part[1:] for part in m.group(1).split("-"))
    if "--say" in sys.argv:
        print(len(names), "names;", sum(n.endswith("_lem") for n in names.values()), "would fall together:", {w: n for w, n in names.items() if n.endswith("_lem")})
        print("declared nowhere:", len(undeclared), undeclared)
        return
    for p, t in texts.items():
        def turn(m):
            w = m.group(0)
            return names[w] if w in names and w not in kit_names[p] else w
        lines = t.split("\n")
        new = "\n".join(WORD.sub(turn, line) for line in lines)
        if new != t:
            open(p, "w", encoding="utf-8").write(new)
    print(len(names), "names respelled")


main()
