#!/usr/bin/env python3
"""What differs between a commit and the checkout: signatures, clauses, types, definitions and statements, old and new side by side.

    tools/changes.py COMMIT > docs/DESIGN-PASS.tsv
"""
import os
import re
import subprocess
import sys
import tempfile

from places import closing

HERE = os.path.join(os.path.dirname(os.path.abspath(__file__)), "..")


def flat(text):
    text = re.sub(r"//[^\n]*", "", text)
    text = re.sub(r"\s+", " ", text).strip()
    return re.sub(r",? ([)\]])", r"\1", re.sub(r"([(\[]) ", r"\1", text))


def code(text):
    """Functions (signature and clauses), structs, enums, types and constants of a source, by name."""
    out = {}
    impl = ""
    for m in re.finditer(r"(?m)^impl(?:<[^>]*>)? ([^{]+?) \{|^\}|^( *)(pub(?:\(crate\))? )?(?:const )?(?:extern \"C\" )?fn (\w+)|^(pub )?(struct|enum|trait) (\w+)|^(pub )(type|const) (\w+)", text):
        if m.group(0).startswith("impl"):
            impl = m.group(1) + "::"
        elif m.group(0) == "}":
            impl = ""
        elif m.group(4):
            body = re.compile(r"(?m)^ *\{$|\{\n|;\n").search(text, m.end())
            i = text.index("(", m.end())
            i = closing(text, i)
            # clauses up to the body
            j = i + 1
            while True:
                c = re.compile(r"\s*(?:->(?:\[[^\]]*\]|[^{;\[])*?)?(?=\s*(?:requires|ensures|ghost|\{|;))").match(text, j)
                j = c.end() if c else j
                c = re.compile(r"\s*(?:requires|ensures|ghost)\*? ?[\w: ]*\{").match(text, j)
                if not c:
                    break
                j = closing(text, c.end() - 1) + 1
            inside = bool(m.group(2)) and impl
            kind = "fn" if (m.group(3) or inside) else "private fn"
            out[(kind, (impl if inside else "") + m.group(4))] = flat(text[m.start():j])
        elif m.group(6):
            i = re.compile(r"[({;]").search(text, m.end()).start()
            end = closing(text, i) if text[i] != ";" else i
            out[(m.group(6), m.group(7))] = flat(text[m.start():end + 1])
        else:
            end = re.compile(r";\n").search(text, m.end()).start()
            out[(m.group(9), m.group(10))] = flat(text[m.start():end])
    return out


START = re.compile(r"(\s*)(?:abbrev |unfoldable |infix\w* \d+ )*(pub )?(?:abbrev |unfoldable )*(record |data )?([^\s:(]+)")


def headed(text):
    """The lines but comments, each behind the heads of the `module _ (..) where` that it stands in; a head counts as an empty line."""
    heads, opened = [], False
    for line in text.split("\n"):
        if line.lstrip().startswith("--"):
            continue
        at = len(line) - len(line.lstrip())
        if opened:
            heads[-1] = (heads[-1][0], heads[-1][1] + " " + line.strip())
        else:
            while line.strip() and heads and at <= heads[-1][0]:
                heads.pop()
            if not re.match(r"\s*module _\b", line):
                yield " ".join(head for _, head in heads), line
                continue
            heads.append((at, line.strip()))
        opened = not line.rstrip().endswith("where")
        yield "", ""
    yield "", ""


def terms(text, specs):
    """Definitions of a file of specs/ (whole), or statements of one of proofs/ (without their proofs), by name: each `pub` line begins one, but
    for the fields of a record."""
    out = {}
    name, kept, deep, record, proof = None, [], 0, False, False
    for head, line in headed(text):
        m = START.match(line)
        inner = record and line.startswith(" " * (deep + 1))
        begins = m and m.group(2) and not inner and not re.match(r"\s*pub (use|mod)\b", line)
        # a private statement, or one of less depth, right behind it
        other = not inner and (re.match(r" {%d}(abbrev |unfoldable )*[^\s:]+ :( |$)" % deep, line) or not line.startswith(" " * deep))
        if name and (begins or other or not line.strip()):
            key = ("definition" if specs else "statement", name)
            value = re.sub(r"\s+", " ", " ".join(kept)).strip()
            # a name that two modules of a file have
            out[key] = out[key] + " | " + value if key in out else value
            name = None
        record = record and bool(line.strip())
        if begins:
            name, kept, deep, record, proof = m.group(4), [head, line], len(m.group(1)), bool(m.group(3)), False
        elif name:
            proof = proof or bool(not specs and not record and re.match(r"\s*(unfolding\b|%s(?!\S).*=)" % re.escape(name), line))
            if not proof:
                kept.append(line)
    return out


def everything(root):
    out = {}
    for folder, dirs, names in os.walk(os.path.join(root, "crates")):
        dirs[:] = [d for d in dirs if d != "out"]
        for name in sorted(names):
            path = os.path.relpath(os.path.join(folder, name), root)
            crate = path.split("/")[1]
            text = open(os.path.join(folder, name), errors="replace").read() if name.endswith((".rt", ".antt", ".edit")) else ""
            if name.endswith(".rt"):
                found = code(text)
            elif "/specs/" in path and name.endswith(".antt"):
                found = terms(text, True)
            elif re.search(r"/proofs/[^/]+\.antt$", path):
                found = terms(text, False)
            elif name.endswith(".edit"):
                found = {("edit", name): text.strip().replace("\n", " | ")}
            else:
                continue
            for (kind, n), value in found.items():
                out[(crate, path.split("/", 2)[2], kind, n)] = value
    return out


def main():
    with tempfile.TemporaryDirectory() as folder:
        tar = subprocess.run(["git", "-C", HERE, "archive", sys.argv[1], "crates"], check=True, capture_output=True).stdout
        subprocess.run(["tar", "x", "-C", folder], input=tar, check=True)
        old = everything(folder)
    new = everything(HERE)
    # what only moved to another file of its crate keeps its name
    gone = {(k[0], k[2], k[3]): k for k in old if k not in new}
    print("crate\tfile\twhat\tname\told\tnew")
    for k in sorted(set(old) | set(new)):
        if k[2] == "private fn":
            continue
        if k in old and k not in new and any((c, w, n) == (k[0], k[2], k[3]) for (c, f, w, n) in new if (c, f, w, n) not in old):
            continue
        a, b = old.get(k), new.get(k)
        if a is None:
            moved = gone.get((k[0], k[2], k[3]))
            a = old.get(moved) if moved else None
        if a != b:
            print("\t".join([k[0], k[1], k[2], k[3], a or "-", b or "-"]))


main()
