#!/usr/bin/env python3
"""Counts, in crates/*/src, the places of the eight points of docs/DESIGN-PASS.md, and lists them with --list.

python3 tools/places.py [--list] [FOLDER]"""
import collections
import glob
import re
import sys

LIST = "--list" in sys.argv
rest = [a for a in sys.argv[1:] if a != "--list"]
ROOT = rest[0] if rest else "."
FILES = {p[len(ROOT) + 1:]: open(p).read() for p in sorted(glob.glob(f"{ROOT}/crates/*/src/**/*.rt", recursive=True))}
COMMENT = re.compile(r"//[^\n]*")


def show(point, what, places):
    print(f"{point} {len(places):4} {what}")
    if LIST:
        for p in places:
            print("        ", p)


def lines(pattern, text_of=lambda s: s):
    found = []
    for p, s in FILES.items():
        for n, line in enumerate(s.split("\n"), 1):
            if line.lstrip().startswith(("//", "ghost", "requires", "ensures", "×")):
                continue
            if re.search(pattern, line):
                found.append(f"{p}:{n}: {line.strip()}")
    return found


def items(keyword):
    for p, s in FILES.items():
        for m in re.finditer(rf"^(?:pub )?{keyword} (\w+)[^{{;]*\{{(.*?)^\}}", s, re.S | re.M):
            yield p, m.group(1), COMMENT.sub("", m.group(2))


# 1: enums of two cases, one of them with a value, or with a case Refused; flags beside values; numbers for none, refusals and kinds
enums = []
for p, name, body in items("enum"):
    cases = re.findall(r"^    (\w+)(\(|\s*\{)?", body, re.M)
    if any(c == "Refused" for c, _ in cases) or (len(cases) == 2 and any(v for _, v in cases)):
        enums.append(f"{p}: {name}")
show(1, "enums of the shape of Option or Result", enums)
flags = []
for p, name, body in items("struct"):
    fields = re.findall(r"^    (?:pub )?(\w+): ([^,\n]+)", body, re.M)
    flags += [f"{p}: {name}.{f}" for f, t in fields if t == "bool" and len(fields) > 1]
show(1, "flags beside values", flags)
show(1, "numbers for none", lines(r"^\s*(return )?(16|0xFFFF);?$"))
show(1, "numbers for refusals and kinds", lines(r"Refused\(\d+, |number: (\d+|u8)|Refused\(u8, |call: u8|^\s+\d => "))

# 2: pairs of functions with the same name and parameters, or the same body but for names
fns = collections.defaultdict(list)
for p, s in FILES.items():
    for m in re.finditer(r"^( *)(?:pub )?(?:extern \"C\" )?fn (\w+)[^\n]*?\((.*?)^\1\{\n(.*?)^\1\}", s, re.S | re.M):
        body = re.sub(r"\s+", " ", COMMENT.sub("", m.group(4)))
        if len(body) < 60:
            continue
        seen = {}
        shape = re.sub(r"[A-Za-z_]\w*", lambda w: seen.setdefault(w.group(0), f"v{len(seen)}") if not re.match(r"(let|mut|if|else|while|for|in|return|match|loop)$", w.group(0)) else w.group(0), body)
        fns[shape].append(f"{p}: {m.group(2)}")
show(2, "functions with the body of another, but for names", [x for v in fns.values() if len(v) > 1 for x in v])
names = collections.defaultdict(list)
for p, s in FILES.items():
    for m in re.finditer(r"\bfn (\w+)", s):
        names[m.group(1)].append(p)
show(2, "functions with the name of another", [f"{n}: {', '.join(v)}" for n, v in sorted(names.items()) if len(v) > 1])

# 3: loops; of them those that count by hand
loops = lines(r"^\s*('\w+: )?(while|loop)\b")
show(3, "loops that are no for", loops)
counted = []
for p, s in FILES.items():
    for m in re.finditer(r"^( *)(?:'\w+: )?(?:while|loop)\b[^\n]*\{\n(.*?)^\1\}", s, re.S | re.M):
        if re.search(r"^\s*(?:self\.)?\w+ (\+|-)= 1;", m.group(2), re.M):
            counted.append(f"{p}: {s[: m.start()].count(chr(10)) + 1}")
show(3, "loops that count an index by hand", counted)

# 4: equality, copying and conversion by hand
show(4, "equality, copying and conversion by hand", lines(r"fn (same\w*|one_if|bit|wide|word|number|next|fill|write|write_bytes|put)\(|next\.\w == \w+\.\w"))

# 5: facts required by three or more functions; functions with more than seven parameters
facts = collections.Counter()
for s in FILES.values():
    for m in re.finditer(r"requires(?: \w+)? \{((?:[^{}]|\{[^{}]*\})*)\}", s):
        for part in m.group(1).split(" × "):
            facts[re.sub(r"\s+", " ", part).strip().strip("()")] += 1
many = {k: v for k, v in facts.items() if v >= 3}
show(5, f"facts required by three or more functions, {sum(many.values())} times in all", [f"{v} {k}" for k, v in sorted(many.items(), key=lambda x: -x[1])])
wide = []
for p, s in FILES.items():
    for m in re.finditer(r"\bfn (\w+)(?:<[^>]*>)?\(((?:[^()]|\([^()]*\))*)\)", s):
        n = len([a for a in m.group(2).split(",") if a.strip()])
        if n > 7:
            wide.append(f"{p}: {m.group(1)}, {n}")
show(5, "functions with more than seven parameters", wide)

# 6: words at a place in a row of words; slices with their length beside, by what is required of it
show(6, "words at a place in a row of words", lines(r"\[[^\]]*\b\d+ \* [a-z_.]+[^\]]*\]|^\s*let (at|from|to) = \d+ \* "))
show(6, "facts on a slice and a length beside it", [f"{v} {k}" for k, v in sorted(facts.items(), key=lambda x: -x[1]) if re.match(r"(\d+ \* )?[a-z_.]+( \+ \d+)? ≤ length ", k)])

# 7: switches on a number that says which step to run
show(7, "switches on a number", lines(r"match (i|call|asked\.call)\b"))

# 8: the files of the functions' proofs
answers = sorted(glob.glob(f"{ROOT}/crates/*/proofs/**/Answers.antt", recursive=True))
total = sum(open(p).read().count("\n") for p in answers)
print(f"8 {len(answers):4} files of answers, {total} lines, {sum(len(re.findall(r'^pub ', open(p).read(), re.M)) for p in answers)} answers")
