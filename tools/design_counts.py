#!/usr/bin/env python3
"""Counts the places of docs/DESIGN-PASS.md in crates/*/src, of the checkout or of the folder named by the argument."""
import glob
import re
import sys

top = sys.argv[1] if len(sys.argv) > 1 else "."
sources = {path: open(path).read() for path in sorted(glob.glob(top + "/crates/*/src/*.rt"))}


def crate(path):
    return path.split("/crates/")[1].split("/")[0]


def tell(title, places):
    print(f"{title}: {len(places)}")
    for place in places:
        print("   ", place)


def matching(pattern):
    return [f"{crate(path)}: {line.strip()}" for path, text in sources.items() for line in text.split("\n") if re.match(pattern, line)]


def functions():
    form = re.compile(r'^[ \t]*(?:pub )?(?:extern "C" )?fn (\w+)[^(]*\(([^{]*?)\)\s*(?:->|requires|ensures|\{|\n)', re.M | re.S)
    for path, text in sources.items():
        for found in form.finditer(text):
            yield crate(path), found.group(1), found.group(2)


def loops():
    counted, others = [], []
    for path, text in sources.items():
        lines = text.split("\n")
        for number, line in enumerate(lines):
            head = re.match(r"( *)(?:'\w+: )?(while|loop)\b", line)
            if not head or line.lstrip().startswith("//"):
                continue
            body = []
            for after in lines[number + 1:]:
                if after.startswith(head.group(1) + "}"):
                    break
                body.append(after)
            step = re.compile(re.escape(head.group(1)) + r"    \w+ \+= 1;")
            (counted if any(step.match(inner) for inner in body) else others).append(f"{crate(path)}: {line.strip()}")
    return counted, others


tell("1. enums", matching(r"(pub )?enum "))
tell("1. fields that are flags", matching(r" +(pub )?[a-z_]+: bool,"))
tell("1. answers by a number that stands for none (comment above the function)", matching(r"// .*\b(or ROWS where|, or n where)"))
counted, others = loops()
tell("3. loops that count by hand", counted)
tell("3. other loops by while or loop", others)
tell("4. equality, conversion and printing by hand (names)", [
    f"{name}: {function}" for name, function, _ in functions()
    if re.fullmatch(r"number|same|same_text|letter_or_digit|is_digit|magnitude|wide|long|raised|lowered|at_most|order|addition|head_of|print_unsigned|print_signed", function)
])
groups = {
    "a table and its size": ["table: &[i16]", "n: usize"],
    "additions and heads": ["additions:", "heads:"],
    "rows and columns of marks": ["rows:", "columns:"],
    "gaps and givers": ["gaps:", "givers:"],
    "steps of a search": ["next:", "step:"],
    "additions, stars and heads of an answer": ["adds:", "stars:", "heads:"],
    "a section and N": ["section: Section", "n: usize"],
    "labels of rows and of columns": ["rows: &", "cols: &"],
}
for title, words in groups.items():
    tell("5. " + title, [f"{name}: {function}" for name, function, given in functions() if all(word in given for word in words)])
clauses = {
    "Square": r"Square [a-z.]+ n|\(Square [a-z.]+ n\)",
    "Given": r"Given [a-z.]+ n additions",
    "N labels in a buffer": r"width \* n ≤ length",
    "a table of n × n": r"length table\.now ≡ n \* n",
}
for title, form in clauses.items():
    print(f"5. clauses that say {title}:", sum(len(re.findall(form, text)) for text in sources.values()))
answers = [open(path).read() for path in glob.glob(top + "/crates/*/proofs/**/Answers.antt", recursive=True)]
print("8. answers:", sum(len(re.findall(r"^pub .* : goal\.", text, re.M)) for text in answers), "in", len(answers), "files of",
      sum(text.count("\n") for text in answers), "lines")
laws = [open(path).read() for path in glob.glob(top + "/crates/*/proofs/*.antt")]
print("8. laws:", len(laws), "files of", sum(text.count("\n") for text in laws), "lines")
