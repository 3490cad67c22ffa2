#!/usr/bin/env python3
"""Spells this repository's own definitions and lemmas as today's Rattle does: words in snake case.

usage: tools/spelling.py [--list]     at the top of the repository, once, after port.py

A name that specs/ or a lemma file of proofs/ declares (a definition, a lemma, a constructor, a field) and that is written in camel case
or with dashes gets underscores, in every .antt file, in the clauses of every .rt file and in every must-fail edit.
A file that imports a name of that spelling from a library keeps it there. A lemma that would fall together with a definition gets _lem.
"""

import glob
import re
import sys

START = re.compile(r"^(?:(?:abbrev|unfoldable|pub|mutual)\s+)*((?:data|record)\s+)?([^\s(){}.;,@\"«»:]+)\s*(.*)$")
WORDS = {"use", "mod", "unfolding", "ruleset", "infix", "infixl", "infixr", "open", "in", "let", "as"}
TOKEN = re.compile(r"[^\s(){}.;,@\"«»]+")
USE = re.compile(r"\buse ([^\s;{]+)\.\{([^}]*)\}")


def head(rest):
    """What stands behind the colon of a declaration, or None."""
    depth = 0
    for at, c in enumerate(rest):
        if c in "({":
            depth += 1
        elif c in ")}":
            depth -= 1
        elif depth == 0 and c == ":":
            return rest[at + 1 :]
        elif depth == 0 and not c.isspace():
            return None
    return None


def declared(path):
    """Each name that a file declares: at its left edge, in a module or a where-block, and the fields and constructors of its types."""
    inside = None
    with open(path, encoding="utf-8") as it:
        for line in it.read().split("\n"):
            text = line.strip()
            if text.startswith("--") or not text:
                continue
            m = START.match(text)
            is_one = m and m[2] not in WORDS and m[2][0] not in "({λ" and head(m[3]) is not None
            if not line.startswith(" "):
                inside = m[1] if is_one else None
            if is_one:
                yield m[2]
            elif inside and re.match(r"  \S", line):
                names, found, _ = text.partition(" : ")
                if found:
                    yield from (n for n in names.replace("pub ", "").split() if n[0] not in "({")


def own_files():
    return sorted(glob.glob("crates/*/specs/**/*.antt", recursive=True) + glob.glob("crates/*/proofs/*.antt"))


def snake(name):
    return re.sub(r"(?<=[a-z0-9])[A-Z]", lambda m: "_" + m[0].lower(), name).replace("-", "_")


def renamed():
    """The new name of each name that changes. A lemma whose new name is a definition's gets _lem."""
    names = {n for f in own_files() if not f.endswith("/Lib.antt") for n in declared(f)}
    turned = {n: snake(n) for n in names if re.match(r"[a-z≤]", n) and snake(n) != n}
    defined = {b for a, b in turned.items() if "-" not in a} | (names - set(turned))
    for old, new in turned.items():
        if "-" in old and new in defined:
            turned[old] = new + "_lem"
    # Lemmas that had their underscores already and meet a definition's new name.
    met = {b for a, b in turned.items() if "-" not in a} & names
    return turned | {n: n + "_lem" for n in met}


def of_libraries(text):
    """The names that a file imports from a library which isn't this repository's."""
    own = {c.split("/")[1] for c in glob.glob("crates/*/src")}
    found = set()
    for path, names in USE.findall(text):
        steps = path.split(".")
        if steps[0] != "Rattle" or steps[1] not in own:
            found |= {n.strip().split(" ")[0] for n in names.split(",")}
    return found


def turn(text, names, kept, ghost):
    def one(m):
        t = m[0]
        # Behind a dot a name with underscores may be a step of a proof or a field of the code.
        is_step = re.match(r"[a-z_0-9]+$", t) and text[m.start() - 1 : m.start()] == "."
        return names[t] if t in names and t not in kept and not is_step else t

    if not ghost:
        return TOKEN.sub(one, text)
    names = {a: b for a, b in names.items() if not re.fullmatch(r"[a-z_0-9]+", a)}
    # Rust has no dash in a name and this repository's has no camel case below a type: what is turned stands in clauses and comments.
    return re.sub(r'"(?:[^"\\\n]|\\.)*"|' + TOKEN.pattern, lambda m: m[0] if m[0].startswith('"') else one(m), text)


def main():
    names = renamed()
    if "--list" in sys.argv:
        print("\n".join(f"{a}\t{b}" for a, b in sorted(names.items())))
        return
    files = glob.glob("crates/*/specs/**/*.antt", recursive=True) + glob.glob("crates/*/proofs/**/*.antt", recursive=True)
    files += glob.glob("crates/*/src/**/*.rt", recursive=True) + glob.glob("crates/*/must-fail/*")
    for path in files:
        with open(path, encoding="utf-8") as it:
            was = it.read()
        now = turn(was, names, of_libraries(was), path.endswith(".rt"))
        if now != was:
            with open(path, "w", encoding="utf-8") as it:
                it.write(now)


if __name__ == "__main__":
    main()
