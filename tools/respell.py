#!/usr/bin/env python3
"""Spells the repository's own definitions and lemmas as today's Rattle does: words in snake case, types in camel case, a prime as an
apostrophe. Run once at the top, after the kit's port.py: it takes the names from the definitions in specs/ and proofs/ themselves and
writes them anew in crates/ (the edits among them), README.md and docs/. Functions of src/, exported names, strings, inputs and outputs keep
their names: no word of a .rt file changes outside its clauses and `ghost` lines. Names that fall together end it before it writes."""

import os
import re
import sys

ROOT = os.path.dirname(os.path.dirname(os.path.realpath(__file__)))
# A word of antt: no blank, bracket, dot, comma or semicolon.
WORD = re.compile(r"[^\s(){}\[\].,;\"`:]+")
# A signature's head: `name :`, `name (x : A) :`, a field, a constructor, a record, a data type.
HEAD = re.compile(r"^\s*(?:(?:abbrev|unfoldable|record|data|pub)\s+)*([^\s(){}\[\].,;\"λ=:]+)(?=\s+(?:[({][^=]*?)?:(?:\s|$))")
# Goals of a function's walk are made names, which the check spells.
GOAL = re.compile(r":\s*tie\.(?:Need-|invariant|decreases)")
MADE = re.compile(r"(-spec|_spec)$")


# Two names that would fall together: the second one's name says more.
APART = {
    "inRows": "rows_state",
    "inCols": "cols_state",
    "inOrders": "orders_state",
    "signed-of": "signed_of_signed",
    "heads-of": "heads_of_are_heads",
    "order-lines": "order_lines_fit",
    "sheet-text": "sheet_text_is",
}


def files(*ends):
    for folder, dirs, names in os.walk(os.path.join(ROOT, "crates")):
        dirs[:] = sorted(d for d in dirs if d != "out")
        for name in sorted(names):
            if name.endswith(ends):
                yield os.path.join(folder, name)


def read(path):
    with open(path, encoding="utf-8") as f:
        return f.read()


def snake(name):
    """The name in snake case: a dash is `_`, a capital within a word starts a new one; a type keeps its form."""
    name = name.replace("′", "'")
    if name[0].isupper():
        return name
    name = re.sub(r"([a-z])([A-Z])", lambda m: m[1] + "_" + m[2].lower(), name)
    return re.sub(r"(?<=[\w'ℕℤ])-(?=[\wℕℤ])", "_", name)


def signatures(path):
    lines = read(path).split("\n")
    for k, line in enumerate(lines):
        line = line.split("--")[0] if line.lstrip().startswith("--") else line
        m = HEAD.match(line)
        if m:
            yield m[1], line


def own_names():
    own, goals = set(), set()
    for path in files(".antt"):
        walk = os.path.basename(path) == "Proof.antt"
        for name, line in signatures(path):
            if walk and (GOAL.search(line) or MADE.search(name)):
                goals.add(name)
            else:
                own.add(name)
    return own, goals


def kit_names():
    """What the files import from the kit's libraries."""
    kit = set()
    for path in files(".antt", ".rt"):
        for m in re.finditer(r"use ([\w.]+)\.\{([^}]*)\}", read(path)):
            crate = m[1].split(".")[1] if m[1].startswith("Rattle.") else ""
            if crate in ("", "std") or not os.path.isdir(os.path.join(ROOT, "crates", crate)):
                kit |= {w.strip() for w in m[2].split(",")}
    return kit


def turned(text, new):
    return WORD.sub(lambda m: new.get(m[0], m[0]), text)


def turned_antt(text, new):
    """Code as it is, and of a comment what stands between backquotes."""
    out = []
    for line in text.split("\n"):
        at = re.search(r"(^|\s)--(\s|$)", line)
        code, note = (line[: at.start()], line[at.start():]) if at else (line, "")
        out.append(turned(code, new) + re.sub(r"`[^`]*`", lambda m: turned(m[0], new), note))
    return "\n".join(out)


def turned_rt(text, new):
    """Clauses, `ghost` lines, and of a comment what stands between backquotes."""
    out, deep, clause = [], 0, False
    for line in text.split("\n"):
        bare = line.lstrip()
        if bare.startswith("//"):
            out.append(re.sub(r"`[^`]*`", lambda m: turned(m[0], new), line))
            continue
        if not clause and re.match(r"(requires|ensures|ghost)\b", bare):
            clause = True
        if clause:
            deep += line.count("{") - line.count("}")
            out.append(turned(line, new))
            clause = deep > 0 or (bare.startswith("ghost") and not bare.rstrip().endswith((";", ",", "}")))
            deep = max(deep, 0)
        else:
            out.append(line)
    return "\n".join(out)


def turned_edit(text, new):
    """An edit's texts: of a definition all of it, of a function's body the words of clauses."""
    out, antt = [], False
    for line in text.split("\n"):
        if line.startswith("file:"):
            antt = line.rstrip().endswith(".antt")
        m = re.match(r"(old|new):(.*)$", line)
        out.append(m[1] + ":" + turned(m[2], new) if m and (antt or re.search(r"\b(requires|ensures|ghost)\b", m[2])) else line)
    return "\n".join(out)


def turned_page(text, new):
    """Of a page what stands between backquotes."""
    return re.sub(r"`[^`\n]*`", lambda m: turned(m[0], new), text)


def main():
    own, goals = own_names()
    kit = kit_names()
    new = {}
    for name in sorted(own - kit):
        fresh = APART.get(name, snake(name))
        if fresh != name:
            new[name] = fresh
            if "◌" in name:
                new[name.strip("◌")] = fresh.strip("◌")
    clash = sorted((a, b) for a, b in new.items() if b in own or b in kit)
    twice = sorted(b for b in set(new.values()) if sum(c == b for c in new.values()) > 1)
    made = sorted(set(new) & goals)
    for a, b in clash:
        print(f"falls together: {a} with {b}")
    for b in twice:
        print(f"falls together: two names become {b}")
    if made:
        print("own names that are goals' names somewhere, and stay there: " + " ".join(made))
    if "--look" in sys.argv or twice or clash:
        print(f"{len(new)} names; nothing was written")
        return 1
    for path in files(".antt"):
        text = read(path)
        mine = new
        if os.path.basename(path) == "Proof.antt":
            here = {n for n, line in signatures(path) if GOAL.search(line) or MADE.search(n)}
            mine = {a: b for a, b in new.items() if a not in here}
        write(path, text, turned_antt(text, mine))
    for path in files(".rt"):
        text = read(path)
        write(path, text, turned_rt(text, new))
    for path in files(".edit"):
        text = read(path)
        write(path, text, turned_edit(text, new))
    pages = [os.path.join(ROOT, "README.md")]
    for folder, _, names in os.walk(os.path.join(ROOT, "docs")):
        pages += [os.path.join(folder, n) for n in sorted(names) if n.endswith(".md")]
    for path in pages:
        text = read(path)
        write(path, text, turned_page(text, new))
    print(f"{len(new)} names are spelled anew")
    return 0


def write(path, old, text):
    if text != old:
        with open(path, "w", encoding="utf-8") as f:
            f.write(text)


if __name__ == "__main__":
    raise SystemExit(main())
