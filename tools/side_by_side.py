#!/usr/bin/env python3
"""Prints the last part of docs/DESIGN-PASS.md: public functions, public types, definitions and named laws of two checkouts, old and new.

usage: tools/side_by_side.py OLD NEW        two folders with the repository as it stood and as it stands
"""
import collections
import glob
import os
import re
import sys

OLD, NEW = sys.argv[1:3]


def read(path):
    with open(path, encoding="utf-8") as f:
        return f.read()


def one_line(text):
    text = " ".join(text.split())
    return text.replace("( ", "(").replace(", )", ")").replace(",)", ")")


# ---- functions

def functions(root):
    """Functions by their paths: signature and clauses, each in a line; and which of them are public."""
    found, public = collections.OrderedDict(), set()
    for f in sorted(glob.glob(f"{root}/crates/*/src/*.rt")):
        crate, module = f.split("/crates/")[1].split("/src/")
        module = module[:-3]
        lines = read(f).split("\n")
        owner = None
        for i, line in enumerate(lines):
            m = re.match(r"impl(?:<[^>]*>)? (?:(?:\w|::)+(?:<[^>]*>)? for )?(\w+)", line)
            if m:
                owner = m.group(1)
            if line == "}":
                owner = None
            m = re.match(r"^( *)(pub(?:\(crate\))? )?(?:extern \"C\" )?fn (\w+)", line)
            if not m:
                continue
            indent, is_public, name = m.groups()
            parts, at = [], i
            while lines[at] != indent + "{":
                parts.append(lines[at].strip())
                if re.search(r"[^(\[,λ{] \{$|;$", lines[at]) and not re.match(r"\s*(requires|ensures)\b", lines[at]):
                    break
                at += 1
            rows = []
            for p in parts:
                if re.match(r"(requires|ensures)\b", p) or not rows:
                    rows.append(p)
                else:
                    rows[-1] += " " + p
            path = f"{crate}::{module}::" + (f"{owner}::" if indent and owner else "") + name
            found[path] = [one_line(rows[0].rstrip("{"))] + ["    " + one_line(r) for r in rows[1:]]
            if is_public:
                public.add(path)
    return found, public


def moved(old, new):
    """Functions whose path is another now: the only one of their name in their crate."""
    where = {}
    for n in old:
        if n not in new:
            crate, name = n.split("::")[0], n.split("::")[-1]
            there = [k for k in new if k not in old and k.split("::")[0] == crate and k.split("::")[-1] == name]
            if len(there) == 1:
                where[n] = there[0]
    return where


# ---- types

def types(root):
    found = collections.OrderedDict()
    for f in sorted(glob.glob(f"{root}/crates/*/src/*.rt")):
        crate = f.split("/crates/")[1].split("/")[0]
        text = re.sub(r"^\s*//[^\n]*\n", "", read(f), flags=re.M)
        for m in re.finditer(r"^pub (struct|enum) (\w+)[^{;]*(\{.*?^\}|;)", text, re.M | re.S):
            body = re.sub(r"#\[[^\n]*\]\n?", "", m.group(0))
            found[f"{crate}.{m.group(2)}"] = one_line(body)
        for m in re.finditer(r"^pub type (\w+)[^\n]*;", text, re.M):
            found[f"{crate}.{m.group(1)}"] = one_line(m.group(0))
    return found


# ---- definitions and laws

def items(root, part):
    """Definitions of specs/ or laws of proofs/, by crate, file and name: their text without comments, by lines."""
    found = collections.OrderedDict()
    for f in sorted(glob.glob(f"{root}/crates/*/{part}/**/*.antt", recursive=True)):
        base = os.path.basename(f)
        if base == "Lib.antt" or part == "proofs" and base in ("Answers.antt", "Invariants.antt", "Proof.antt"):
            continue
        crate = f.split("/crates/")[1].split("/")[0]
        text = re.sub(r"^[ ]*--[^\n]*\n", "", read(f), flags=re.M)
        for block in re.split(r"\n\s*\n", text):
            rows = [l for l in block.split("\n") if l.strip() and not re.match(r"\s*(use|pub use|module|unfolding|where)\b", l)]
            if not rows:
                continue
            m = re.match(r"\s*(?:abbrev |unfoldable )?(?:pub )?(?:record |data |abbrev )?([^\s:(]+)", rows[0])
            if not m or not re.search(r"\bpub\b", rows[0]) and part == "specs":
                continue
            found.setdefault(f"{crate}/{base[:-5]}.{m.group(1)}", []).extend(rows)
    return found


SPELLED = [(r"\b(none|Clear|Missing|Nothing|Unknown|Unmarked|NotThere)\b", "None"), (r"\b(some|Marked|At|Known|There)\b", "Some"),
           (r"\b(Maybe|MaybeNode)\b", "Option")]


def plain(rows):
    text = one_line(" ".join(rows))
    for a, b in SPELLED:
        text = re.sub(a, b, text)
    return re.sub(r"[()]", "", text).replace("Option.", "")


def diff(old, new):
    print("\n```diff")
    for l in old:
        print("- " + l)
    for l in new:
        print("+ " + l)
    print("```\n")


def pages(title, names, old, new, label=lambda n: n):
    print(f"### {title} ({len(names)})\n")
    for n in names:
        print(f"`{label(n)}`")
        diff(old.get(n, []), new.get(n, []))


def main():
    (a, said_old), (b, said_new) = functions(OLD), functions(NEW)
    where = moved(a, b)
    now = {n: where.get(n, n) for n in a}
    b_now = {n: b[now[n]] for n in a if now[n] in b}
    seen = [n for n in a if n in said_old or now[n] in said_new]
    pages("Public functions that changed", [n for n in seen if n in b_now and (a[n] != b_now[n] or n in where)], a, b_now,
          lambda n: n if n not in where else f"{n}`, now `{where[n]}")
    pages("Public functions that are gone", [n for n in seen if n not in b_now], a, {})
    pages("New public functions", [n for n in b if n in said_new and n not in a and n not in where.values()], {}, b)

    a, b = types(OLD), types(NEW)
    print("### Public types\n\n```diff")
    for n in sorted(set(a) | set(b)):
        if a.get(n) != b.get(n):
            print("  " + n.split(".")[0])
            if n in a:
                print("- " + a[n])
            if n in b:
                print("+ " + b[n])
    print("```\n")

    a, b = items(OLD, "specs"), items(NEW, "specs")
    label = lambda n: n.split(".")[0].replace("/", "/specs/")
    both = [n for n in a if n in b and a[n] != b[n]]
    spelled = [n for n in both if plain(a[n]) == plain(b[n])]
    print(f"### Definitions that differ in the spelling of an option alone ({len(spelled)})\n")
    print("`none`, `Clear`, `Missing`, `Nothing` are `None` now; `some x`, `Marked n`, `At n` are `Some ..`.\n")
    print(", ".join(f"`{n}`" for n in spelled) + ".\n")
    pages("Definitions that changed", [n for n in both if n not in spelled], a, b, label)
    pages("Definitions that are gone", [n for n in a if n not in b], a, b, label)
    pages("New definitions", [n for n in b if n not in a], a, b, label)

    said = " ".join(read(f) for f in [f"{OLD}/README.md"] + sorted(glob.glob(f"{OLD}/docs/*.md")))
    words = set(re.findall(r"[\w'\-◌]+", " ".join(re.findall(r"`[^`\n]+`", said))))

    def statement(rows):
        keep = []
        for r in rows:
            if keep and re.match(r"\s*[\w'\-]+( [^:→]*)? = ?", r) or keep and " = " in r and "→" not in r.split(" = ")[0]:
                break
            keep.append(r)
        return [one_line(" ".join(keep))]

    a, b = items(OLD, "proofs"), items(NEW, "proofs")
    a = {n: statement(r) for n, r in a.items() if n.split(".")[1] in words and " : " in " ".join(r)}
    b = {n: statement(r) for n, r in b.items()}
    same = [n for n in a if n in b and a[n] == b[n]]
    both = [n for n in a if n in b and a[n] != b[n]]
    spelled = [n for n in both if plain(a[n]) == plain(b[n])]
    changed = [n for n in both if n not in spelled]
    gone = [n for n in a if n not in b]
    label = lambda n: n.split(".")[0].replace("/", "/proofs/")
    print(f"### Theorems and laws that README or docs/ name ({len(a)})\n")
    alone = ", ".join(f"`{n}`" for n in spelled)
    print(f"As they stood: {len(same)}; differing in the spelling of an option alone: {len(spelled)} ({alone}); "
          f"changed: {len(changed)}; gone: {len(gone)}.\n")
    for n in changed:
        print(f"`{label(n)}`")
        diff(a[n], b[n])
    for n in gone:
        print(f"`{label(n)}`, gone")
        diff(a[n], [])


main()
