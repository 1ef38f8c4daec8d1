#!/usr/bin/env python3
"""Respells the project's own definitions and lemmas as the toolchain's libraries spell theirs: words in snake case, types in camel
case; a dash joins two names, as in `length-up_to`, and a plain word hangs on by `_`.

Reads what crates/*/specs and crates/*/proofs declare and rewrites each such name where it stands as a whole word: in .antt and .rt
files, and between backticks in comments and pages. Where a lemma would get its definition's name it gets `_lem` besides.

    tools/respell.py [FOLDER]           rewrites the repository in FOLDER (else this one)
    tools/respell.py --list [FOLDER]    prints the pairs alone
"""
import glob
import re
import sys

END = r"\s(){}\[\].,;:@`\"⟦⟧⌜⌝"
TOKEN = re.compile("[^" + END + "]+")
MARKS = r"(?:(?:abbrev|unfoldable|record|data|pub|opaque|pattern)\s+)*"
DECLARED = re.compile(r"^(\s*)(" + MARKS + r")((?:[^" + END + r"]+\s+)*[^" + END + r"]+)\s*(?=[:({])")
# Lines of proof files whose names the toolchain fixes.
ANSWER = re.compile(r" : (?:tie|goal)\.|\bstatement M\b")
DEFINES = re.compile("abbrev|unfoldable|record|data")
TYPE = re.compile(r"[A-Z][a-z]+\w*")
# Names that would fall together with another one where both are used.
CHOSEN = {
    "mayBe": "maybe_rules",
    "no-entry": "without_entry",
    "no-share": "absent_share",
    "no-sheet": "without_sheets",
    "of-sheet": "on_sheet",
    "records-of": "of_records",
    "tally-of": "is_tally",
}
# Names of the toolchain's libraries that lemmas are named after.
KNOWN = set(
    "length map take drop keep foldl foldr fold get_or reverse sum max min suc append concat size member subset insert filter".split()
)
IMPORT = re.compile(r"^(?:ghost )?(?:pub )?use ([^{\n;]+)\.\{([^}]*)\}", re.M)
KEYWORDS = {"let", "in", "use", "mod", "where", "if", "then", "else", "for", "private", "infix", "infixl", "infixr", "record", "module", "open"}


def is_symbol(p):
    return re.search(r"\w", p) is None


def snake(p):
    """One part between dashes: a type keeps its capital, all else is in snake case."""
    if TYPE.fullmatch(p):
        return p
    p = re.sub(r"([a-z0-9])([A-Z])", r"\1_\2", p)
    return re.sub(r"[A-Z]+", lambda m: m.group().lower(), p)


def respelled(name, names):
    name = name.replace("getD", "get_or")
    parts = name.split("-")
    if "◌" in name:
        return name.replace("-", "_") if re.search(r"\w", name) else name
    if len(name) == 1 or "" in parts or parts[0] in ("then", "else"):
        return name
    new = [snake(p) for p in parts]
    if len(new) == 2 and all(p in names or TYPE.fullmatch(p) or is_symbol(p) for p in new):
        return "-".join(new)
    if len(new) > 1 and TYPE.fullmatch(new[0]):
        return new[0] + "-" + "_".join(new[1:])
    return "_".join(new)


def sources(top):
    specs = glob.glob(top + "/crates/*/specs/**/*.antt", recursive=True)
    proofs = glob.glob(top + "/crates/*/proofs/**/*.antt", recursive=True)
    return sorted(specs + proofs)


def imported(top):
    """The names that are imported from the toolchain's libraries."""
    crates = {line.split(":")[0] for line in open(top + "/crates.txt", encoding="utf-8")}
    names = set()
    for path in sources(top) + glob.glob(top + "/crates/*/src/**/*.rt", recursive=True):
        for module, listed in IMPORT.findall(open(path, encoding="utf-8").read()):
            if module.split(".")[:2][-1] not in crates:
                names |= {n.split(" as ")[0].strip() for n in listed.split(",")}
    return names


def declared(top):
    """The names that the files of definitions and lemmas declare, fields and constructors too, and those of them that are definitions."""
    own, definitions = set(), set()
    for path in sources(top):
        for line in open(path, encoding="utf-8"):
            if ANSWER.search(line):
                continue
            own |= set(re.findall(r"^\s+deriving \S+ as (\S+)", line))
            m = DECLARED.match(line)
            if line.lstrip().startswith("--") or not m:
                continue
            words = [w for w in TOKEN.findall(m.group(3)) if not is_symbol(w)]
            if set(words) & KEYWORDS or re.search("[=→λ∀]", m.group(3)):
                continue
            own |= set(words)
            own |= {w for word in words if "◌" in word for w in word.split("◌") if "-" in w}
            if DEFINES.search(m.group(2)):
                definitions |= set(words)
    return own, definitions


def pairs(top):
    own, definitions = declared(top)
    names = KNOWN | {snake(re.sub(r"[◌?]", "", d)) for d in definitions}
    table = {n: CHOSEN.get(n) or respelled(n, names) for n in sorted(own)}
    taken = {}
    for n, new in table.items():
        taken.setdefault(new, []).append(n)
    for new, olds in taken.items():
        for n in olds:
            if len(olds) > 1 and "-" in n:
                table[n] = new + "_lem"
    outside = imported(top)
    return {n: new for n, new in table.items() if n != new and n not in outside}


def rewrite_words(text, table):
    return TOKEN.sub(lambda m: table.get(m.group(), m.group()), text)


def rewrite_quoted(text, table):
    return re.sub(r"`[^`\n]*`", lambda m: rewrite_words(m.group(), table), text)


def rewrite_code(text, table, comment):
    out = []
    for line in text.split("\n"):
        m = comment.search(line)
        at = m.start() if m else len(line)
        out.append(rewrite_words(line[:at], table) + rewrite_quoted(line[at:], table))
    return "\n".join(out)


def main(args):
    top = next((a for a in args if not a.startswith("--")), ".")
    table = pairs(top)
    if "--list" in args:
        for old, new in sorted(table.items()):
            print(old, new)
        return
    antt, rt = re.compile(r"(?:^|(?<=\s))--(?=\s|-|$)"), re.compile(r"//")
    code = [(p, antt) for p in sources(top)] + [(p, rt) for p in glob.glob(top + "/crates/*/src/**/*.rt", recursive=True)]
    pages = glob.glob(top + "/*.md") + glob.glob(top + "/docs/*.md")
    for path, comment in code + [(p, None) for p in pages]:
        text = open(path, encoding="utf-8").read()
        out = rewrite_code(text, table, comment) if comment else rewrite_quoted(text, table)
        if out != text:
            open(path, "w", encoding="utf-8").write(out)


main(sys.argv[1:])
