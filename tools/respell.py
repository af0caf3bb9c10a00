#!/usr/bin/env python3
"""Respells the repository's own definitions, lemmas, fields and local names of specs/ and proofs/ in snake case.

usage: python3 tools/respell.py        at the top of the repository, once, after the kit's port.py
       python3 tools/respell.py --list prints the renaming and what falls together, and writes nothing

Words are in snake case, types and modules in camel case. A name is ours where a file of specs/ or a file of lemmas of proofs/ declares it;
the names of the prover's library stay, and so do functions of src/, exported names, strings, inputs and outputs.
"""
import glob
import json
import os
import re
import sys

NAME = r"[A-Za-z_0-9α-ωΑ-Ω₀-₉'][A-Za-z0-9_α-ωΑ-Ω₀-₉'\-]*[A-Za-z0-9_α-ωΑ-Ω₀-₉']|[A-Za-z]"
TOKEN = re.compile(r"(?<![A-Za-z0-9_'\-])(?:" + NAME + r")(?![A-Za-z0-9_'\-])")
STRING = re.compile(r"\"(?:[^\"\\]|\\.)*\"")
GENERATED = ("Proof.antt",)


def read(path):
    with open(path, encoding="utf-8") as f:
        return f.read()


def crates():
    return sorted(os.path.basename(os.path.dirname(os.path.dirname(p))) for p in glob.glob("crates/*/src/"))


def antt(kind):
    return sorted(glob.glob(f"crates/*/{kind}/**/*.antt", recursive=True))


def lemma_files():
    return [p for p in antt("specs") + antt("proofs") if os.path.basename(p) not in GENERATED]


def walk_files():
    return [p for p in antt("proofs") if os.path.basename(p) in GENERATED]


def code(line):
    """A line without its comment."""
    at = line.find("--")
    while at > 0 and line[at - 1] not in " \t" and at >= 0:
        at = line.find("--", at + 2)
    return line if at < 0 else line[:at]


def snake(name):
    if not name[0].islower():
        return name
    name = re.sub(r"(?<=[a-z0-9])([A-Z])", lambda m: "_" + m[1].lower(), name)
    return name.replace("-", "_")


def odd(name):
    return name[0].islower() and ("-" in name or re.search(r"[a-z0-9][A-Z]", name))


def imports(text, own):
    """The names that a file takes from modules that are not the repository's own."""
    out = set()
    for m in re.finditer(r"(?m)^(?:pub )?use ([^\s{;]+?)\.\{([^}]*)\}", text):
        root = m[1].split(".")
        if not (root[0] == "Rattle" and len(root) > 1 and root[1] in own):
            for w in m[2].split(","):
                w = w.strip()
                out.add(w.split(" as ")[0])
    return out


def declared():
    """What the files of specs/ and the lemmas of proofs/ declare: definitions, lemmas, fields, local names."""
    own, out, library = crates(), {}, {}
    for p in lemma_files():
        text = "\n".join(code(l) for l in read(p).split("\n"))
        for w in imports(text, own):
            library.setdefault(w, p)
        for m in re.finditer(r"(?m)^\s*(?:(?:pub|abbrev|unfoldable|mutual)\s+)*(" + NAME + r")\s*:(?=\s|$)", text):
            out.setdefault(m[1], p)
        for m in re.finditer(r"[({]((?:" + NAME + r")(?:\s+(?:" + NAME + r"))*)\s*:(?=\s)", text):
            for w in m[1].split():
                out.setdefault(w, p)
        for m in re.finditer(r"λ\s+((?:[({]?" + NAME + r"[)}]?\s*)+)\.(?=\s)", text):
            for w in re.findall(NAME, m[1]):
                out.setdefault(w, p)
        for m in re.finditer(r"\blet\s+(" + NAME + r")\s*[:=]", text):
            out.setdefault(m[1], p)
    return out, library


# What falls together in one file, a definition with another name, keeps apart so: a lemma that would have its definition's name gets `_lem`,
# a field of a record that would have a name of its own record's types another word.
APART = {"by-node": "entered_by_node", "by-range": "entered_by_range", "by-statement": "entered_by_statement", "by-generation": "entered_by_generation", "rows-size": "rows_length"}
# Names that were in snake case already, by crate, beside a definition that comes to have the same.
BESIDE = {"sheet_text": {"after_line"}, "tally": {"count_at", "left_by"}, "petalchurn": {"left_by"}, "rules": {"held_by"}, "meta_never_goes_back": {"not_lower"}}


def renaming():
    """Each odd name of the lemma files that no import from elsewhere brings, and what it becomes."""
    names, library = declared()
    tokens = {}
    for p in lemma_files():
        tokens[p] = set(TOKEN.findall("\n".join(code(line) for line in read(p).split("\n"))))
        for w in tokens[p]:
            names.setdefault(w, p)
    to = {n: snake(n) for n in names if odd(n) and n not in library}
    for n, s in sorted(to.items()):
        if n in APART:
            to[n] = APART[n]
        elif "-" in n and any(n in t and (s in t or any(m in t for m in alike(s, n, to))) for t in tokens.values()):
            to[n] = s + "_lem"
    return to, names, library


def alike(s, n, to, by={}):
    if not by:
        for m in to:
            by.setdefault(snake(m), set()).add(m)
    return by.get(s, set()) - {n}


# Words of English that a lemma has for its name too: in a comment they stay.
ENGLISH = ("look-ups", "whole-trace")
COMMENT = re.compile(r"(?:^|(?<=\s))(?:--|//).*$", re.M)


def turned(text, names):
    """The text with the names respelled, but for strings, and in comments for words of English."""
    plain = {n: s for n, s in names.items() if n not in ENGLISH}
    out, at = [], 0
    pieces = sorted([(m.start(), m.end(), 0) for m in STRING.finditer(text)] + [(m.start(), m.end(), 1) for m in COMMENT.finditer(text)])
    for start, end, comment in pieces:
        if start < at:
            continue
        out.append(TOKEN.sub(lambda m: names.get(m[0], m[0]), text[at:start]))
        out.append(TOKEN.sub(lambda m: plain.get(m[0], m[0]), text[start:end]) if comment else text[start:end])
        at = end
    return "".join(out + [TOKEN.sub(lambda m: names.get(m[0], m[0]), text[at:])])


def imported(text, own):
    """The names that a file takes from the repository's own modules."""
    out = set()
    for m in re.finditer(r"(?m)^(?:pub )?use Rattle\.(\w+)[^\s{;]*?\.\{([^}]*)\}", text):
        if m[1] in own:
            for w in m[2].split(","):
                out |= set(w.strip().split(" as "))
    return out


def turned_walk(text, names, own):
    """A file that goes along a function's code: there a dashed name is ours only where it is imported or a field, the others are the prover's."""
    ours = imported(text, own)

    def one(m):
        w = m[0]
        if w not in names or ("-" in w and w not in ours and not names[w] == APART.get(w)):
            return w
        return names[w]

    return TOKEN.sub(one, text)


def turned_page(text, names):
    return re.sub(r"`[^`\n]+`", lambda m: TOKEN.sub(lambda n: names.get(n[0], n[0]), m[0]), text)


def main():
    names, _, _ = renaming()
    if "--list" in sys.argv:
        json.dump(names, sys.stdout, indent=0, ensure_ascii=False, sort_keys=True)
        return 0
    own, n, new = crates(), 0, {}
    for p in lemma_files() + walk_files() + sorted(glob.glob("crates/*/src/**/*.rt", recursive=True)):
        beside = {w: w + "_lem" for w in BESIDE.get(p.split("/")[1], ())} if p.endswith(".antt") else {}
        walk = os.path.basename(p) in GENERATED
        new[p] = turned_walk(read(p), names | beside, own) if walk else turned(read(p), names | beside)
    for p in ["README.md", "CONTRIBUTING.md", *sorted(glob.glob("docs/*.md"))]:
        new[p] = turned_page(read(p), names)
    for p, text in new.items():
        if text != read(p):
            with open(p, "w", encoding="utf-8") as f:
                f.write(text)
            n += 1
    print(f"respell: {len(names)} names, {n} files")
    return 0


if __name__ == "__main__":
    raise SystemExit(main())
