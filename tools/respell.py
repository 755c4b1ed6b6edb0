#!/usr/bin/env python3
"""Brings this repository's own definitions and lemmas to the spelling of its kit: words in snake case, types in camel case.

usage: respell.py [--check]    at the top of the repository, once, behind the kit's own port.py

A dash stays where it joins the names of two definitions (`word_at-append`); every other dash and hump becomes an underscore
(`readOf` read_of, `accepted-is-scored` accepted_is_scored), and a middle dot in the name of a module becomes one too. Names of
src/, of the kit and of what it generates keep their spelling. --check writes nothing and lists names that would fall together.
"""
import collections
import glob
import re
import sys

W = r"[^\s(){}.;,@\"«»\[\]\\`]+"
PLAIN = {"length", "take", "drop", "set", "get_or", "map", "append", "replicate"}  # definitions of the kit that our lemmas' names begin or end with
GENERATED = {"tie", "goal", "lts", "c"}
# Where a field or a parameter of src/ has the new spelling, or a definition that the file also reads.
CHOSEN = {
    "maxCombo": "combo_limit",
    "scoreBased": "score_based_value",
    "lastStart": "last_start_of",
    "firstStart": "first_start_of",
    "largestGain": "largest_gain_of",
    "combosBefore": "combos_before_of",
    "firstNoSlider": "first_no_slider_of",
    "max-combo": "max_combo_fits",
    "combo-points": "combo_points_fit",
    "in_order": "in_order_lem",
    "gets_none": "gets_none_lem",
}

files = sorted(glob.glob("crates/*/specs/**/*.antt", recursive=True) + glob.glob("crates/*/proofs/**/*.antt", recursive=True))


def read(path):
    with open(path, encoding="utf-8", newline="") as f:
        return f.read()


def declared(path):
    """(name, kind, in a data or record) of each name that a file declares."""
    block = None
    for line in read(path).split("\n"):
        if not line.strip() or line.strip().startswith("--"):
            continue
        ind = len(line) - len(line.lstrip())
        head = re.match(r"^\s*(?:(?:pub|abbrev|unfoldable) )*(data|record) (" + W + ")", line)
        if head:
            yield head[2], head[1], ""
            block = (ind, head[1])
            continue
        if block and ind <= block[0]:
            block = None
        it = re.match(r"^\s*((?:(?:pub|abbrev|unfoldable|ruleset) )*)(" + W + r") :( .*|)$", line)
        if it and it[2] not in ("use", "module", "let", "in"):
            if "tie.Need" in line or it[2].endswith(("-spec", "_spec")):
                continue
            yield it[2], ("field" if block[1] == "record" else "con") if block else "def", it[3]


def snake(word):
    """One word without dashes: a fact or a type keeps its capital, a constant its capitals."""
    if re.match(r"[A-Z]", word) or not re.search(r"[a-z0-9][A-Z]", word):
        return word
    word = re.sub(r"(?<=[a-z0-9])([A-Z])", r"_\1", word)
    return word.lower()


def spelled(name, defs):
    if name not in lemmas:
        defs = set()
    if name in CHOSEN:
        return CHOSEN[name]
    if not re.search(r"-|[a-z0-9][A-Z]", name) or re.match(r"[A-Z][A-Za-z0-9]*$", name):
        return name
    if "→" in name or "◌" in name:
        return name
    if re.fullmatch(r"[A-Z0-9]+(-[A-Z0-9]+)+", name):
        return name.replace("-", "_")
    words = [snake(w) for w in name.split("-")]
    out, group = words[0], words[0]
    for i in range(1, len(words)):
        right = words[i:]
        joins = group in defs and any("_".join(right[:k]) in defs for k in range(1, len(right) + 1))
        if joins:
            out, group = out + "-" + words[i], words[i]
        else:
            out, group = out + "_" + words[i], group + "_" + words[i]
    return out


names = collections.defaultdict(set)
for path in files:
    for name, kind, _ in declared(path):
        names[name].add(kind)
own_specs, lemmas = set(), set()
for path in files:
    if "/specs/" in path:
        for name, kind, of in declared(path):
            if kind in ("data", "record") or (kind == "def" and "≡" not in of):
                own_specs.add(snake(name) if "-" not in name else name)
    for name, kind, _ in declared(path):
        if kind == "def" and "/proofs/" in path:
            lemmas.add(name)
defs = own_specs | PLAIN
table = {n: spelled(n, defs) for n in names}
taken = {m for n, m in table.items() if "-" not in n} | {m for n, m in table.items() if n == m}
# a lemma that would have the name of a definition
table = {n: m + "_lem" if "-" in n and m != n and m in taken and n not in CHOSEN else m for n, m in table.items()}
table = {n: m for n, m in table.items() if n != m}
fields = {n: m for n, m in table.items() if "field" in names[n]}

TOKEN = re.compile(r"--[^\n]*|\"(?:[^\"\\]|\\.)*\"|«[^»]*»|\.?" + W)


def foreign(text):
    """The names that a file takes from elsewhere, which keep their spelling."""
    out = set()
    for m in re.finditer(r"^\s*(?:ghost |pub |unfoldable )*use ([^\s{]+?)\.\{([^}]*)\}", text, re.M):
        if not re.match(r"Rattle\.(" + OWN + r")\.(specs|proofs)\b", m[1]):
            out |= {it.strip().split(" as ")[-1] for it in m[2].split(",")} | {it.strip().split(" ")[0] for it in m[2].split(",")}
    return out


OWN = "|".join(sorted({p.split("/")[1] for p in files}))
ALIAS = re.compile(r"\b(as )(" + W + ")")


def prose(text):
    """A comment or a page: what stands between backticks, and humps anywhere."""
    text = re.sub(r"`([^`\n]*)`", lambda m: "`" + re.sub(r"(?<![\w/.-])" + W, lambda t: table.get(t[0], t[0]), m[1]) + "`", text)
    return re.sub(r"(?<![\w`/.-])[a-z][a-z0-9]*(?:[A-Z][a-z0-9]*)+(?![\w-])", lambda m: table.get(m[0], m[0]), text)


def turned(path, text):
    kept = foreign(text)
    aliases = {a[2] for a in ALIAS.finditer(text) if "·" in a[2]}

    def one(m):
        t = m[0]
        if t.startswith("--"):
            return prose(t)
        if t[0] in "\"«":
            return t
        if t.startswith("."):
            before = re.search(W + r"$", text[: m.start()])
            if t[1:] in fields and not (before and before[0] in GENERATED):
                return "." + fields[t[1:]]
            return t
        if t in aliases:
            return t.replace("·", "_")
        return t if t in kept else table.get(t, t)

    return TOKEN.sub(one, text)


def clause_lines(path, text):
    """In .rt files only ghost lines, clauses and comments are antt."""
    out, inside = [], 0
    for line in text.split("\n"):
        code, _, note = line.partition("//")
        begins = re.match(r"\s*(ghost|requires|ensures)\b", code)
        if begins or inside > 0:
            if begins and inside <= 0:
                inside = 0
            code = TOKEN.sub(lambda m: m[0] if m[0].startswith(".") and m[0][1:] not in fields else (table.get(m[0], m[0]) if not m[0].startswith(".") else "." + fields[m[0][1:]]), code)
            inside += code.count("{") - code.count("}")
        out.append(code + ("//" + prose(note) if "//" in line else ""))
    return "\n".join(out)


def together():
    """Names that would fall together: in one file two tokens that become one."""
    for path in files + sorted(glob.glob("crates/*/src/*.rt")):
        text = read(path)
        kept = foreign(text)
        seen = collections.defaultdict(set)
        body = re.sub(r"--[^\n]*|//[^\n]*", "", text)
        for m in re.finditer(r"(?<![.\w])" + W, body):
            t = m[0]
            if path.endswith(".rt") and not re.search(r"[-a-zA-Z]", t):
                continue
            seen[t if t in kept else table.get(t, t)].add(t)
        for new, olds in sorted(seen.items()):
            if len(olds) > 1:
                yield path, new, sorted(olds)


if __name__ == "__main__":
    if sys.argv[1:] == ["--check"]:
        for row in together():
            print(*row)
        by = collections.defaultdict(list)
        for n in names:
            by[table.get(n, n)].append(n)
        for new, olds in sorted(by.items()):
            if len(olds) > 1:
                print("ONE NAME", new, olds)
        print(len(table), "names")
        raise SystemExit
    for path in files + sorted(glob.glob("crates/*/src/**/*.rt", recursive=True)):
        text = read(path)
        new = turned(path, text) if path.endswith(".antt") else clause_lines(path, text)
        if new != text:
            with open(path, "w", encoding="utf-8", newline="") as f:
                f.write(new)
    for path in ["README.md", *sorted(glob.glob("docs/*.md")), *sorted(glob.glob("crates/*/must-fail/*"))]:
        text = read(path)
        if path.endswith(".md"):
            new = prose(text)
        else:
            new = re.sub(r"(?<![\w/.])" + W, lambda m: table.get(m[0], m[0]), text)
        if new != text:
            with open(path, "w", encoding="utf-8", newline="") as f:
                f.write(new)
    print(len(table), "names")
