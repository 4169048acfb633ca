#!/usr/bin/env python3
"""Brings the names of definitions, fields and lemmas in crates/ to the spelling of today's Rattle.

usage: tools/respell.py            at the top of the repository, once, after the kit's own scripts have run

Words are in snake case: `syncAt` is `sync_at`. A dash stands only between names that a lemma's own statement
has, as in `length-tab`; between plain words it is `_`, as in `found_however_cut`. Types keep their names, and so
do the functions of src/. It changes specs/, proofs/, the clauses and comments of src/, the must-fail edits, and
the names that README.md and docs/ give as code, but for docs/landings/, which say what was so when they were
written. It prints each name that it changed.
"""

import glob
import os
import re
import sys

# A definition that has the name of a word of the library.
BY_HAND = {
    "why": {"IsTrue": "IsTrueReason"},
}
# Names that a script of the kit has begun.
BEGUN = {"both-or": "both_or_lem", "status-after": "status_after_lem", "getD-tab": "get_or-tab", "getD-tabs": "get_or-tabs", "tab-getD": "tab-get_or", "answer-in": "answer_in_lem"}
LETTER = r"[^\s(){}\[\],.;:`\"|\\]"
HUMPED = re.compile(r"(?<![\w'.-])[a-z][a-z0-9_]*[A-Z]\w*(?![\w'-])")
DECLARED = re.compile(
    r"^[ \t]*(?:(?:abbrev|unfoldable|pub|data|record|infix\w*)[ \t]+)*(" + LETTER + r"+)[ \t]*(?:[({][^\n]*?[)}][ \t]*)*:[ \t](.*(?:\n[ \t]+(?:→|\()[^=\n]*$)*)",
    re.M,
)


def snake(word):
    return re.sub(r"([a-z0-9])([A-Z])", lambda m: m.group(1) + "_" + m.group(2).lower(), word)


def respelled(name, statement, is_lemma):
    parts = name.split("-")
    words = [p if p[:1].isupper() else snake(p) for p in parts]
    said = set()
    if is_lemma and len(words) == 2:
        bound = {w for them in re.findall(r"[({]([^:(){}]*?) :", statement) for w in them.split()}
        said = {snake(t) for t in re.findall(LETTER + "+", statement) if t not in bound}
    return ("-" if said & set(words) else "_").join(words)


def files(*folders):
    for folder in folders:
        for p in sorted(glob.glob(f"crates/*/{folder}/**/*", recursive=True)):
            if os.path.isfile(p) and "/out/" not in p:
                yield p


def names():
    new = {}
    for p in files("specs", "proofs"):
        if not p.endswith(".antt") or os.path.basename(p) in ("Proof.antt", "Lib.antt"):
            continue
        text = open(p, encoding="utf-8").read()
        for m in DECLARED.finditer(text):
            name, statement = m.group(1), m.group(2)
            if not re.search(r"[a-z0-9][A-Z]|-", name) or name[:1].isupper() or not name[:1].isalpha():
                continue
            new.setdefault(name, set()).add(respelled(name, statement, "/proofs/" in p and not m.group(0).startswith((" ", "\t")) or "→" in statement and "-" in name and "/proofs/" in p))
    for p in files("specs", "proofs"):
        for line in open(p, encoding="utf-8") if p.endswith(".antt") else []:
            if not line.lstrip().startswith("--"):
                for name in HUMPED.findall(line):
                    new.setdefault(name, {snake(name)})
    return {old: sorted(them, key=lambda n: n.count("-"))[0] for old, them in new.items()} | BEGUN


def told_apart(new):
    """A lemma that would have the name of a definition ends in `_lem`."""
    definitions, lemmas = {}, {}
    functions = {f for p in files("src") for f in re.findall(r"\bfn (\w+)", open(p, encoding="utf-8").read())}
    for p in files("specs", "proofs"):
        if p.endswith(".antt") and os.path.basename(p) not in ("Proof.antt", "Lib.antt"):
            crate = p.split("/")[1]
            for m in DECLARED.finditer(open(p, encoding="utf-8").read()):
                name = m.group(1)
                kind = definitions if "abbrev" in m.group(0) or "unfoldable" in m.group(0) or "/specs/" in p else lemmas
                kind.setdefault(new.get(name, name), set()).add((name, crate))
    for it in sorted(set(definitions) & set(lemmas)):
        olds = {n for n, _ in definitions[it]}
        for name, crate in sorted(lemmas[it]):
            if name in olds:
                continue
            if any(n != it for n in olds) or name != it:
                if name == it and it in functions:
                    print(f"look: {crate}: the lemma {name} has the name of a definition and of a function")
                else:
                    new[name] = it + "_lem"
    return new


def main():
    new = {a: b for a, b in told_apart(names()).items() if a != b}
    token = re.compile(r"(?<![\w'-])(" + "|".join(re.escape(n) for n in sorted(new, key=len, reverse=True)) + r")(?![\w'-])")
    plain = set()
    for p in files("specs", "proofs"):
        if p.endswith(".antt"):
            plain |= {m.group(1) for m in DECLARED.finditer(open(p, encoding="utf-8").read())}
    for old, it in sorted(new.items()):
        if it in plain and it not in new:
            print(f"look: {old} -> {it}, which another declaration has")
    taken = {}
    for old, it in sorted(new.items()):
        if it in taken:
            print(f"look: {old} and {taken[it]} both become {it}")
        taken[it] = old

    def code(text):
        return token.sub(lambda m: new[m.group(1)], text)

    def quoted(text):
        return re.sub(r"`[^`\n]+`", lambda m: code(m.group(0)), text)

    def by_hand(p, text):
        for crate, them in BY_HAND.items():
            for a, b in them.items():
                if f"crates/{crate}/" in p or f"Rattle.{crate}." in text:
                    text = re.sub(r"(?<![\w'-])" + a + r"(?![\w'-])", b, text)
        return text

    changed = 0
    for p in list(files("specs", "proofs", "src", "must-fail")) + ["README.md"] + sorted(glob.glob("docs/*.md")):
        if not p.endswith((".antt", ".rt", ".edit", ".md")):
            continue
        text = open(p, encoding="utf-8").read()
        out = []
        fenced = False
        for line in text.split("\n"):
            if p.endswith(".md"):
                if line.startswith("```"):
                    fenced = not fenced
                out.append(code(line) if fenced else quoted(line))
            elif p.endswith(".antt"):
                at = line.find("--") if line.lstrip().startswith("--") else -1
                out.append(quoted(line) if at >= 0 else code(line))
            elif p.endswith(".edit"):
                out.append(code(line) if line.startswith(("old:", "new:")) else quoted(line))
            else:
                out.append(quoted(line) if line.lstrip().startswith("//") else code(line) if re.match(r"\s*(ghost use|requires|ensures)\b|\s*[^;]*[≡→×≤λ]", line) else line)
        it = by_hand(p, "\n".join(out))
        if it != text:
            changed += 1
            open(p, "w", encoding="utf-8").write(it)
    for old, it in sorted(new.items()):
        print(f"{old} -> {it}")
    print(f"{len(new)} names, {changed} files", file=sys.stderr)


if __name__ == "__main__":
    main()
