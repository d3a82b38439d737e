#!/usr/bin/env python3
"""Spells the definitions and lemmas of specs/ and proofs/ as today's Rattle does: words in snake case.

usage: tools/spell-names.py [--check]      at the top of the repository, once, after the kit's port.py

    readNumber, needMore          ->  read_number, need_more
    value-short, by-step          ->  value_short, by_step
    drop-set : drop i (set l i d) ->  drop-set, since a dash joins two names that the statement has

    by-zero, beside byZero        ->  by_zero_lem, beside by_zero

It reads which names are declared in the .antt files, and turns them in crates/, in must-fail edits and between backticks in README.md and docs/.
Functions of src/, exported names and text in quotes stay. It prints each new name that stands already in a file that gets it. With --check it
writes nothing.
"""

import os
import re
import sys

WORD = re.compile(r"[^\s(){}.;,@\"«»\[\]\\:|`]+")
DECLARED = re.compile(
    r"^(\s*)(?:(?:pub|abbrev|unfoldable|record|data) )*([^\s:(){}.;,|]+)((?: [({][^:]*:.*?[)}])*) : (.*)$"
)
# Names of another library or of Rattle's own making, which keep their spelling.
KEPT = {"⊎-elim"}
# Lemmas of one file that would fall together with a definition that the file names.
LEMMAS = {
    "crates/laws/proofs/Building.antt": ["left_by"],
    "crates/laws/proofs/Faults.antt": ["no_zero"],
    "crates/laws/proofs/Refused.antt": ["no_zero"],
    "crates/row_builder/proofs/Heads.antt": ["end_by"],
}


def files(*ends):
    for folder, folders, names in os.walk("crates"):
        folders[:] = sorted(f for f in folders if f != "out")
        for name in sorted(names):
            if name.endswith(ends):
                yield os.path.join(folder, name)


def read(path):
    with open(path, encoding="utf-8", newline="") as f:
        return f.read()


def is_walk(path):
    return os.path.basename(path) == "Proof.antt"


def declared(text):
    """Each declared name with its statement."""
    lines = text.split("\n")
    for i, line in enumerate(lines):
        if line.lstrip().startswith(("--", "let ", "use ", "pub use ", "module ", "pub module ", "|")):
            continue
        m = DECLARED.match(line)
        if m and m[2] not in ("module", "where", "let", "mod"):
            statement = m[3] + " " + m[4]
            for later in lines[i + 1 :]:
                if not later.startswith(m[1] + "  ") or not later.strip():
                    break
                statement += " " + later.strip()
            yield m[2], statement


def snake(name):
    return re.sub(r"(?<=[a-z0-9])[A-Z]", lambda m: "_" + m[0].lower(), name)


def is_camel(name):
    return re.fullmatch(r"[a-z][\w'-]*", name) and re.search(r"[a-z0-9][A-Z]", name)


def dashed(name, statements):
    parts = name.split("-")
    words = {snake(w) for s in statements for w in WORD.findall(s)}
    out = parts[0]
    for before, after in zip(parts, parts[1:]):
        joins = snake(before) in words and snake(after) in words and len(before) > 1 and len(after) > 1
        out += ("-" if joins else "_") + after
    return snake(out)


def table():
    statements = {}
    for path in files(".antt"):
        if not is_walk(path):
            for name, statement in declared(read(path)):
                statements.setdefault(name, []).append(statement)
    plain = {name: of for name, of in statements.items() if re.fullmatch(r"[A-Za-z][\w'-]*", name) and name not in KEPT}
    new = {name: snake(name) for name in plain if "-" not in name and is_camel(name)}
    taken = {new.get(name, name) for name in plain if "-" not in name}
    for name, of in plain.items():
        if "-" in name:
            new[name] = dashed(name, of)
            if new[name] in taken and new[name] != name:
                new[name] += "_lem"
    return {old: it for old, it in new.items() if old != it}


def turned(text, path, names):
    walk = is_walk(path) or path.endswith(".rt")
    own = {name for name, _ in declared(text)} if walk else set()
    lemmas = LEMMAS.get(path, [])

    def one(m):
        word = m[0]
        if word in lemmas:
            return word + "_lem"
        if "-" in word and walk and (word in own or m.start() > 0 and text[m.start() - 1] == "."):
            return word
        if word in names:
            return names[word]
        return snake(word) if path.endswith(".antt") and is_camel(word) else word

    return WORD.sub(one, text)


def in_quotes(text, turn):
    """Turns what stands outside quoted text."""
    return "".join(part if part.startswith('"') else turn(part) for part in re.split(r'("(?:[^"\\\n]|\\.)*")', text))


def main():
    names = table()
    changed = {}
    for path in files(".antt", ".rt", ".edit"):
        old = read(path)
        new = in_quotes(old, lambda part: turned(part, path, names))
        if new == old:
            continue
        there = set(WORD.findall(old))
        for word in sorted(there):
            to = names.get(word) or (path.endswith(".antt") and is_camel(word) and snake(word)) or word
            if to != word and to in there and not (path in LEMMAS and to in LEMMAS[path]):
                print("stands already:", path, word, to)
        changed[path] = new
    for path in ["README.md"] + [os.path.join(f, n) for f, _, ns in os.walk("docs") for n in ns if n.endswith(".md")]:
        old = read(path)
        new = re.sub(r"`[^`\n]+`", lambda m: WORD.sub(lambda w: names.get(w[0], w[0]), m[0]), old)
        if new != old:
            changed[path] = new
    both = {}
    for old, to in names.items():
        both.setdefault(to, []).append(old)
    for to, olds in both.items():
        if len(olds) > 1:
            print("fall together:", to, olds)
    if "--check" not in sys.argv:
        for path, text in changed.items():
            with open(path, "w", encoding="utf-8", newline="") as f:
                f.write(text)
    print(f"{len(names)} names, {len(changed)} files")


main()
