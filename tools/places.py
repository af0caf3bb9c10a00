#!/usr/bin/env python3
"""Counts the places that docs/DESIGN-PASS.md speaks of, in the sources of a checkout: tools/places.py [ROOT] [-v]."""
import collections
import glob
import os
import re
import sys

verbose = "-v" in sys.argv
roots = [a for a in sys.argv[1:] if a != "-v"]
os.chdir(roots[0] if roots else os.path.join(os.path.dirname(__file__), ".."))
files = sorted(glob.glob("crates/*/src/*.rt"))
text = {f: open(f).read() for f in files}


def code(f):
    """The lines of a file that are no comment, with their numbers."""
    return [(i, l) for i, l in enumerate(text[f].split("\n"), 1) if not l.lstrip().startswith("//")]


def lines(pattern, clauses=None):
    """Lines that match: of code only, or of contracts only."""
    found = []
    for f in files:
        for i, l in code(f):
            in_clause = bool(re.match(r"\s*(requires|ensures)\b", l))
            if clauses is not None and in_clause != clauses:
                continue
            if re.search(pattern, l):
                found.append(f"{f}:{i}: {l.strip()}")
    return found


FUNCTION = re.compile(r"^( *)(?:#\[[^\n]*\]\n *)*(?:pub(?:\(crate\))? )?(?:extern \"C\" )?fn (\w+)[^{]*?\n?((?:\1    (?:requires|ensures)[^\n]*\n)*)\1?\{\n(.*?)^\1\}", re.M | re.S)


def functions():
    for f in files:
        for m in FUNCTION.finditer(text[f]):
            yield f, m.group(2), m.group(3), m.group(4)


def twins():
    """Groups of functions whose bodies are the same but for names, numbers and texts."""
    groups = collections.defaultdict(list)
    for f, name, _, body in functions():
        plain = re.sub(r"//[^\n]*", "", body)
        plain = re.sub(r"b?\"[^\"]*\"", "S", plain)
        plain = re.sub(r"\b\d[\w]*\b", "N", plain)
        plain = re.sub(r"\b(?!(?:if|else|let|mut|while|for|in|match|return|loop|break|true|false|as|Some|None|Ok|Err)\b)[A-Za-z_]\w*", "I", plain)
        plain = re.sub(r"\s+", " ", plain).strip()
        if plain.count(";") + plain.count("{") >= 2:
            groups[plain].append(f"{f}: {name}")
    return [g for g in groups.values() if len(g) > 1]


def enums():
    found = []
    for f in files:
        for m in re.finditer(r"^(?:pub )?enum (\w+)(?:<[^>]*>)? \{\n(.*?)^\}", text[f], re.M | re.S):
            variants = [v.strip() for v in re.sub(r"//[^\n]*", "", m.group(2)).split("\n") if v.strip()]
            plain = [v for v in variants if "(" not in v]
            full = [v for v in variants if "(" in v]
            # One variant with a value beside one without, or a variant that says that nothing is wrong.
            if (len(variants) == 2 and len(full) >= 1) or any(re.match(r"(Nothing|Sound|None|Not)\b", v) for v in plain):
                found.append(f"{f}: {m.group(1)} {{{', '.join(v.rstrip(',') for v in variants)}}}")
    return found


def flags():
    """Structs with a bool beside another field."""
    found = []
    for f in files:
        for m in re.finditer(r"^(?:pub )?struct (\w+)(?:<[^>]*>)? \{\n(.*?)^\}", text[f], re.M | re.S):
            fields = re.findall(r"^\s*(?:pub )?(\w+): ([^\n]*?),?$", re.sub(r"//[^\n]*", "", m.group(2)), re.M)
            kinds = [t for _, t in fields]
            if "bool" in kinds and any(t != "bool" for t in kinds):
                found.append(f"{f}: {m.group(1)} {{{', '.join(n for n, _ in fields)}}}")
    return found


def facts():
    """Facts that stand in three contracts or more, by their shape."""
    shapes = collections.Counter()
    for f in files:
        for _, l in code(f):
            m = re.match(r"\s*requires(?: \w+)? \{ (.*) \}$", l)
            if not m:
                continue
            for part in re.split(r" × ", m.group(1).replace("(", " ").replace(")", " ")):
                shape = re.sub(r"\b(rec|new|old|value|stated|s|a|b|last|next|name|split|it|work|rows|tally|out|log|words|x|y|key)\.(now|old)\b", r"_.now", " ".join(part.split()))
                shapes[shape] += 1
    return [f"{n} times: {s}" for s, n in shapes.most_common() if n >= 3]


def report(name, found):
    print(f"{name}: {len(found)}")
    if verbose:
        for x in found:
            print("   ", x if isinstance(x, str) else "; ".join(x))


report("1 own enums of the shape of Option or Result", enums())
report("1 flags with a value beside", flags())
report("1 numbers for refusals or kinds", lines(r"(REFUSED \+|const [A-Z]+: u64 = (1|2|4|8|16|32|64|128|256);|return (5|8|10);|refusal != 0|refusal == 0)", clauses=False))
report("1 a number that is 0 for nothing, tested", lines(r"\bif \w+ (==|!=) 0 \{|while 0 < ", clauses=False))
t = twins()
report("2 groups of twins", t)
print(f"2 functions in them: {sum(len(g) for g in t)}")
report("3 loops by hand: while and loop", lines(r"^\s*('\w+: )?(while|loop)\b", clauses=False))
report("4 comparisons and copies by hand", [f"{f}: {n}" for f, n, _, _ in functions() if re.match(r"(same_|are_same|bytes_|alike|is_ticket_of|copy_)", n)])
report("4 conversions by hand: casts", lines(r"\bas (u8|u16|u32|u64|usize)\b", clauses=False))
report("4 conversions by hand: functions", [f"{f}: {n}" for f, n, _, _ in functions() if re.match(r"(wide\d+|index|cause|state|effect|number_of|refusal_of|truth|verdict_of|kind_word|found_number)$", n)])
report("5 facts in three contracts or more", facts())
report("5 parameters log, work, count, cap together", [f"{f}: {m}" for f in files for m in re.findall(r"fn (\w+)(?:<[^>]*>)?\(\s*log: [^,]*,\s*work: [^,]*,\s*(?:count|n): usize,\s*cap: usize", text[f])])
report("6 buffers with a length beside", lines(r"\[0u(8|64); ", clauses=False))
report("7 switches by a flag that is passed", lines(r"\w\([^()]*\b(true|false)\b[^()]*\)", clauses=False))
answers = glob.glob("crates/*/proofs/**/Answers.antt", recursive=True) + glob.glob("crates/*/proofs/**/Invariants.antt", recursive=True)
laws = glob.glob("crates/*/proofs/*.antt")
print(f"8 files of answers and invariants: {len(answers)}, their lines: {sum(open(f).read().count(chr(10)) for f in answers)}")
print(f"8 files of laws: {len(laws)}, their lines: {sum(open(f).read().count(chr(10)) for f in laws)}")
print(f"all lines of sources: {sum(t.count(chr(10)) for t in text.values())}")
