#!/usr/bin/env python3
"""Writes inputs for the program and the answers that it must print: NAME.sheet and NAME.answer in a folder.

    python3 tests/program_sheets.py FOLDER

Additions, stars, heads, ties and the index figure come from route_vectors.py, which works them out from the definitions of documents
01 and 02 and checks them; the sheets and the printed pages are joined here from their lines. Nothing is shared with the crates.
"""
import os
import random
import sys

import route_vectors as truth

A = truth.A
LONGEST = 12288


def sheet(t, rows, cols):
    """The lines of a labelled table's sheet."""
    n = len(t)
    orders = [f"{i + 1} {j + 1} {t[i][j]}" for i in range(n) for j in range(n) if t[i][j] is not A]
    return [f"rows {n}", *rows, f"cols {n}", *cols, f"orders {len(orders)}", *orders]


def page(t):
    """The lines of the printed answer of a table."""
    l = truth.simplest(t)
    if l is None:
        return ["refused 6"]
    stars = truth.first(truth.maxima(t, l))
    sections = {"adds": l, "stars": [j + 1 for j in stars], "heads": truth.heads_of(t, l),
                "ties": [count for _, _, count in truth.column_heads(t, l)], "sum": [truth.total(t, stars)], "index": [truth.index(t, l)]}
    return [str(line) for name, values in sections.items() for line in (f"{name} {len(values)}", *values)]


# The index figure on both sides of each edge, written down by hand.
FIGURES = {
    # one row
    "0": 1,
    "1": 0,
    "-1": 0,
    # a head 0, without a negative order and with one that is no star and no maximum, also outside the row and the column of that head
    "5 0 / 5 0": 1,
    "5 0 / -1 0": 0,
    "2 - 0 / - 2 0 / 0 0 -": 3,
    "2 -1 0 / - 2 0 / 0 0 -": 2,
    "2 -100 0 / - 2 0 / 0 0 -": 2,
    "0 - - / - 2 1 / - 1 3": 1,
    "0 - - / - 2 -1 / - 1 3": 0,
    # a head 0, without a negative order and with one that is starred
    "2 0 / 0 -": 3,
    "2 0 / 0 -1": 1,
    "0 100 / -100 -100": 100,
    # all heads above 0, with orders 0, with nothing but orders 0 in a column, and without
    "5 0 0 / 5 0 0 / 0 1 1": 1,
    "2 1 - / 0 - 0 / - - 0": 2,
    "1 - / - 2": 0,
    # heads below 0, with a head 0 beside them and without
    "-5 - / - -3": 0,
    "-5 - / - 0": 0,
    "-5 - / - 3": 0,
}


def figures():
    """The tables above, and large ones in which one place decides."""
    yield from ((truth.read(rows), figure) for rows, figure in FIGURES.items())
    for j in range(0, 32, 31):
        yield [[int(i != j) if i == k else A for k in range(32)] for i in range(32)], 1
    for i, j in ((0, 0), (0, 31), (31, 0), (31, 31)):
        yield [[-1 if (k, m) == (i, j) else 0 for m in range(32)] for k in range(32)], 0
    yield [[0] * 32 for _ in range(32)], 1


def text(lines):
    return "".join(f"{line}\n" for line in lines).encode()


def names(kind, n):
    """n labels of eight bytes."""
    return [f"{kind}{i:0{8 - len(kind)}}" for i in range(1, n + 1)]


def tabled(t):
    return text(sheet(t, names("row", len(t)), names("col", len(t)))), text(page(t))


def inputs():
    """Each input with its answer."""
    chance = random.Random(10)
    pendulum = sheet(truth.PENDULUM, ["fx", "fy", "rod"], ["x", "y", "pull"])

    # 32 rows: additions up to (N - 1) x 200 and heads on both sides of 0, so that the page is long; every place present, so that
    # the sheet is; every place alike, so that all rows tie in every column; few orders, so that many do
    stairs = truth.staircase(32, -100, 100, -100)
    chance.shuffle(stairs)
    yield "long_page", tabled(stairs)
    yield "long_sheet", tabled([[chance.randint(-100, 100) for _ in range(32)] for _ in range(32)])
    yield "all_100", tabled([[100] * 32 for _ in range(32)])
    yield "many_ties", tabled([[A if chance.randrange(5) == 0 else chance.randint(-1, 1) for _ in range(20)] for _ in range(20)])
    yield "one_row", tabled([[-3]])
    yield "no_transversal", tabled(truth.read("0 - / 7 -"))
    yield "no_orders", tabled([[A] * 32 for _ in range(32)])
    yield "one_absent_place", tabled([[A]])
    for at, (t, figure) in enumerate(figures(), 1):
        given, answer = tabled(t)
        assert answer.endswith(b"index 1\n%d\n" % figure), (t, answer)
        yield f"figure_{at}", (given, answer)

    # a line wrong, missing, unended, one too many, and no sheet at all
    for at in range(len(pendulum)):
        wrong = pendulum[:at] + [pendulum[at] + " "] + pendulum[at + 1:]
        yield f"wrong_line_{at + 1}", (text(wrong), b"refused 10 %d\n" % (at + 1))
    yield "missing", (text(pendulum[:-1]), b"refused 10 15\n")
    yield "unended", (text(pendulum)[:-1], b"refused 10 15\n")
    yield "one_too_many", (text(pendulum + [""]), b"refused 10 16\n")
    yield "empty", (b"", b"refused 10 1\n")
    yield "every_byte", (bytes(range(256)), b"refused 10 1\n")

    # the longest input that is read as a sheet, and longer ones
    for length in (LONGEST - 1, LONGEST):
        yield f"bytes_{length}", (text(pendulum).ljust(length, b"x"), b"refused 10 16\n")
        yield f"feeds_{length}", (text(pendulum).ljust(length, b"\n"), b"refused 10 16\n")
    for length in (LONGEST + 1, LONGEST + 2, 2 * LONGEST, 100 * LONGEST):
        yield f"bytes_{length}", (text(pendulum).ljust(length, b"x"), b"refused 9\n")
        yield f"feeds_{length}", (text(pendulum).ljust(length, b"\n"), b"refused 9\n")


def main():
    [folder] = sys.argv[1:]
    for name, (given, answer) in inputs():
        for kind, written in (("sheet", given), ("answer", answer)):
            with open(os.path.join(folder, f"{name}.{kind}"), "wb") as out:
                out.write(written)


if __name__ == "__main__":
    main()
