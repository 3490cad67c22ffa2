#!/usr/bin/env python3
"""Places in crates/*/src that docs/DESIGN-PASS.md counts, point by point.

    tools/places.py [POINT] [FOLDER]     counts of each point, or the places of one (1 to 8); FOLDER: a checkout, here if none
"""
import collections
import os
import re
import sys


def sources(root):
    for folder, _, names in sorted(os.walk(os.path.join(root, "crates"))):
        if "/src" not in folder or "/out/" in folder:
            continue
        for name in sorted(names):
            if name.endswith(".rt"):
                path = os.path.join(folder, name)
                yield os.path.relpath(path, root), open(path).read()


def closing(text, start):
    depth = 0
    for i in range(start, len(text)):
        depth += text[i] in "([{"
        depth -= text[i] in ")]}"
        if depth == 0:
            return i
    return len(text) - 1


class Function:
    def __init__(self, path, name, comment, parameters, result, clauses, body):
        self.path, self.name, self.comment = path, name, comment
        self.parameters, self.result, self.clauses, self.body = parameters, result, clauses, body

    def place(self):
        return f"{self.path}: {self.name}"


def functions(path, text):
    for m in re.finditer(r"(?m)^((?:[ \t]*//[^\n]*\n)*)[ \t]*(?:pub )?(?:extern \"C\" )?fn (\w+)(?:<[^(]*>)?\(", text):
        end = closing(text, m.end() - 1)
        parameters = [re.sub(r"\s+", " ", p.strip()) for p in re.split(r",(?![^<\[(]*[>\])])", text[m.end():end]) if p.strip()]
        clause_start = re.compile(r"\n\s*(requires|ensures|ghost)\b|\{|;").search(text, end)
        result = text[end + 1:clause_start.start()].replace("->", "").strip()
        i = clause_start.start()
        clauses = []
        clause = re.compile(r"\s*(requires|ensures)\*? ?(\w*) ?\{")
        while True:
            c = clause.match(text, i)
            if not c:
                break
            stop = closing(text, c.end() - 1)
            clauses.append((c.group(1), re.sub(r"\s+", " ", text[c.end():stop].strip())))
            i = stop + 1
        b = re.compile(r"\s*\{").match(text, i)
        body = text[b.end():closing(text, b.end() - 1)] if b else ""
        yield Function(path, m.group(2), m.group(1), parameters, result, clauses, body)


def enums(path, text):
    for m in re.finditer(r"(?m)^(?:pub )?enum (\w+)(?:<[^>]*>)? \{", text):
        body = text[m.end():closing(text, m.end() - 1)]
        body = re.sub(r"//[^\n]*", "", body)
        yield m.group(1), [v.strip() for v in re.split(r",(?![^(]*\))", body) if v.strip()]


def parts(term):
    """The facts that a clause joins by ×."""
    term = term.strip()
    while term.startswith("(") and closing(term, 0) == len(term) - 1:
        term = term[1:-1].strip()
    if re.search(r"→|λ|\blet\b", term):
        return [term]
    out, depth, start = [], 0, 0
    for i, c in enumerate(term):
        depth += c in "([{"
        depth -= c in ")]}"
        if c == "×" and depth == 0:
            out.append(term[start:i])
            start = i + 1
    out.append(term[start:])
    return [term] if len(out) == 1 else [p for o in out for p in parts(o)]


def point1(path, text, fs):
    for name, variants in enums(path, text):
        filled = [v for v in variants if "(" in v]
        if len(variants) in (2, 3) and filled and all(v.count(",") == 0 for v in filled):
            yield f"{path}: enum {name}"
        elif len(variants) == 2 and {"Stored", "Full"} == set(variants):
            yield f"{path}: enum {name}"
        elif len(variants) > 2 and variants[0] in ("Nothing", "None"):
            yield f"{path}: enum {name}"
    for m in re.finditer(r"(?m)^pub struct (\w+) \{([^}]*)\}", text):
        if re.search(r"outcome: Outcome", m.group(2)) and "written" in m.group(2):
            yield f"{path}: struct {m.group(1)}"
    for f in fs:
        if f.result in ("u8", "usize") and re.search(r"if there is none|0 for none|else 255|, 255\b", f.comment):
            yield f.place()
        elif any(p == "all: bool" for p in f.parameters) and any("number" in p for p in f.parameters):
            yield f.place()
        elif re.search(r"\bcode: u8\b", " ".join(f.parameters)) and f.result:
            yield f.place()


def shape(f):
    """The words of a function without what a type, size or constant may differ in."""
    body = re.sub(r"//[^\n]*", "", f.body)
    words = re.findall(r"[A-Za-z_]\w*(?:::\w+)*|\d+|\S", body)
    known = {"let", "mut", "if", "else", "return", "while", "for", "in", "match", "as", "self", "true", "false", "Ok", "Err", "Some", "None", "Index"}
    named = {re.split(r":", p)[0].strip().replace("mut ", "") for p in f.parameters}
    seen, out = {}, []
    for w in words:
        if w in known or not re.match(r"[A-Za-z_\d]", w):
            out.append(w)
        elif w in named:
            out.append(seen.setdefault(w, f"p{len(seen)}"))
        else:
            out.append("#")
    return " ".join(out)


def point2(all_functions):
    groups = collections.defaultdict(list)
    for f in all_functions:
        s = shape(f)
        if s.count(" ") > 3:
            groups[(f.path.split("/")[1], len(f.parameters), s)].append(f)
    for _, fs in sorted(groups.items(), key=lambda g: g[1][0].path):
        if len(fs) > 1:
            yield f"{fs[0].path}: " + ", ".join(f.name for f in fs)


def point3(path, fs):
    for f in fs:
        for _ in re.findall(r"(?m)^\s*(?:'\w+: )?(?:while|loop)\b", f.body):
            yield f.place()


def point4(path, fs):
    for f in fs:
        body = re.sub(r"//[^\n]*", "", f.body).strip()
        arms = re.findall(r"=> ([^,{]+),", body)
        constant = [a for a in arms if re.match(r"^(true|false|\d+|!?\w+|\w+::\w+(\(\w+(::\w+)?\))?)$", a.strip())]
        if body.startswith("match") and len(arms) > 1 and len(constant) == len(arms):
            yield f.place()
        elif re.match(r"^(same|greater|newer|same_\w+)$", f.name):
            yield f.place()
        elif len(re.findall(r"if [^{]*\{\s*return (?:true|false|\w+::\w+|\d+);\s*\}", body)) > 0 and f.result in ("bool", "Kind"):
            yield f.place()
        elif re.match(r"^\(?\w+[^;]*(/ 16777216|/ 256)\b", body.replace("[", "").strip()) and "as u8" in body:
            yield f.place()


def point5(all_functions):
    facts = collections.defaultdict(set)
    for f in all_functions:
        for kind, text in f.clauses:
            if kind == "requires":
                for p in parts(text):
                    p = re.sub(r"\b(memory|slots|t)\.(old|now)\b", "x", p)
                    p = re.sub(r"\b(out|text|p)\.(old|now)\b", r"\1", p)
                    p = re.sub(r"^(k|i|from|to|n) < (8|64|slots_most|rows_most)$", lambda m: "index < " + m.group(2).replace("slots_most", "8").replace("rows_most", "64"), p)
                    facts[p].add(f.place())
    for p, places in sorted(facts.items(), key=lambda x: -len(x[1])):
        if len(places) >= 3:
            yield f"{len(places):4} functions: {p}"


def point6(path, text, fs):
    for m in re.finditer(r"(?m)^pub struct (\w+) \{([^}]*)\}", text):
        if re.search(r"\[\w+; \w+\]", m.group(2)) and re.search(r"\b(len|count): usize", m.group(2)):
            yield f"{path}: struct {m.group(1)}"
    for m in re.finditer(r"(?m)^pub const (\w+_AT): usize", text):
        yield f"{path}: const {m.group(1)}"


def point7(path, fs):
    for f in fs:
        if re.search(r"\bwhole: bool|\ball: bool|\bsweep: bool|\bentered: bool|\bwanted: bool", " ".join(f.parameters)):
            yield f.place()
        elif len(re.findall(r"=> \w+(?:::\w+)*\(|=> \{\s", f.body)) >= 3:
            yield f.place()
        elif len(re.findall(r"if \w+ == \d+ \{\s*return \w+(::\w+)*\(", f.body)) >= 3:
            yield f.place()


def point8(root):
    answers = collections.Counter()
    for folder, _, names in os.walk(os.path.join(root, "crates")):
        if "/out" in folder:
            continue
        for name in names:
            if name in ("Answers.antt", "Invariants.antt"):
                text = open(os.path.join(folder, name)).read()
                answers[folder.split("crates/")[1].split("/")[0]] += len(re.findall(r"(?m)^(?:abbrev )?pub [\w-]+ :", text))
    for c in sorted(answers):
        yield f"{c}: {answers[c]} answers and invariants"


def main():
    wanted = [int(a) for a in sys.argv[1:] if a.isdigit()]
    folders = [a for a in sys.argv[1:] if not a.isdigit()]
    root = folders[0] if folders else os.path.join(os.path.dirname(os.path.abspath(__file__)), "..")
    found = collections.defaultdict(list)
    everything = []
    for path, text in sources(root):
        fs = list(functions(path, text))
        everything += fs
        found[1] += point1(path, text, fs)
        found[3] += point3(path, fs)
        found[4] += point4(path, fs)
        found[6] += point6(path, text, fs)
        found[7] += point7(path, fs)
    found[2] = list(point2(everything))
    found[5] = list(point5(everything))
    found[8] = list(point8(root))
    for p in range(1, 9):
        if not wanted:
            print(f"point {p}: {len(found[p])}")
        elif p in wanted:
            print("\n".join(found[p]))


if __name__ == "__main__":
    main()
