#!/usr/bin/env python3
"""Writes crates/route_vectors/stdin (the vectors of the public calls on tables) and crates/route_vectors/stdout (what is expected).

The expected answers come straight from the definitions of documents 01 and 02 and share no code with the crates. Nothing here grows trees or
lowers additions: a transversal of greatest sum is found (up to N = 7 by trying every transversal, above that by longest
augmenting paths), the additions are what its places need to be column maxima, and then each answer is checked against the
definitions:
- that the additions are a canon, by looking at every column;
- that no canon has a smaller addition: each row has a chain of rows down to one with addition 0, each tight with the next in its own
  column of a transversal of greatest sum, so that no canon can do with less; and where the box is small enough, by trying every list of
  additions in it;
- that no complete transversal exists: by trying all (N up to 7), or by rows whose present orders lie in fewer columns;
- the stars: the first of all transversals of column maxima, by trying them in order (N up to 7), or row by row by matching.

    python3 tests/route_vectors.py           writes both files
    python3 tests/route_vectors.py --check   says whether both files are as this script would write them
"""
import itertools
import os
import random
import sys

HOME = os.path.join(os.path.dirname(os.path.abspath(__file__)), "..", "crates", "route_vectors")
A = None  # an absent place
ROWS, ORDER, HANDED = 32, 100, 10000


def once(answer):
    """Works each table's answer out once."""
    known = {}

    def asked(t):
        key = tuple(map(tuple, t))
        if key not in known:
            known[key] = answer(t)
        return known[key]
    return asked


# ---- document 01's definitions ----

def transversals(allowed):
    """Every choice of one allowed column for each row, no two the same, in the order of the columns written from row 1 on."""
    def rest(i, used):
        if i == len(allowed):
            yield []
            return
        for j in allowed[i]:
            if j not in used:
                for tail in rest(i + 1, used | {j}):
                    yield [j] + tail
    return rest(0, frozenset())


def present(t):
    return [[j for j, v in enumerate(row) if v is not A] for row in t]


def heads_of(t, l):
    n = len(t)
    columns = [[t[i][j] + l[i] for i in range(n) if t[i][j] is not A] for j in range(n)]
    return [max(c) if c else None for c in columns]


def column_heads(t, l):
    """Document 02: of each column the head, the lowest row that holds it, from 1, and how many rows do; all 0 where no order is present."""
    held = [[i + 1 for i, row in enumerate(t) if row[j] is not A and row[j] + l[i] == h] for j, h in enumerate(heads_of(t, l))]
    return [(h, rows[0], len(rows)) if rows else (0, 0, 0) for h, rows in zip(heads_of(t, l), held)]


def index(t, l):
    """Document 02: the largest addition, plus one when some head is 0; in a table with a negative order the largest addition."""
    if any(v is not A and v < 0 for row in t for v in row):
        return max(l)
    return max(l) + 1 if 0 in heads_of(t, l) else max(l)


def maxima(t, l):
    h = heads_of(t, l)
    return [[j for j in cs if t[i][j] + l[i] == h[j]] for i, cs in enumerate(present(t))]


def total(t, columns):
    return sum(t[i][j] for i, j in enumerate(columns))


# ---- first transversals, and whether there is one ----

def matched(allowed, n):
    """A matching of all rows, or None; None only with a set of rows that has too few columns."""
    row_of = {}

    def place(i, seen):
        for j in allowed[i]:
            if j not in seen:
                seen.add(j)
                if j not in row_of or place(row_of[j], seen):
                    row_of[j] = i
                    return True
        return False

    for i in range(n):
        seen = set()
        if not place(i, seen):
            rows = {i} | {row_of[j] for j in seen}
            reach = {j for k in rows for j in allowed[k]}
            assert len(reach) < len(rows)
            return None
    columns = [None] * n
    for j, i in row_of.items():
        columns[i] = j
    return columns


def first(allowed):
    """The first transversal of the allowed places, or None."""
    n = len(allowed)
    if n <= 7:
        return next(transversals(allowed), None)
    if matched(allowed, n) is None:
        return None
    left = [list(cs) for cs in allowed]
    for i in range(n):
        for j in left[i]:
            fixed = [[c for c in cs if c != j] for cs in left]
            fixed[i] = [j]
            if matched(fixed, n) is not None:
                left = fixed
                break
    return [cs[0] for cs in left]


# ---- a transversal of greatest sum ----

@once
def greatest(t):
    """A transversal of greatest sum, or None."""
    n = len(t)
    if n <= 7:
        return max(transversals(present(t)), key=lambda c: total(t, c), default=None)
    places = present(t)
    row_of = [None] * n
    for _ in range(n):
        free = [i for i in range(n) if i not in row_of]
        best = [None] * n  # the longest alternating way from a free row to each column, and the row before it
        gain = {i: 0 for i in free}
        for _ in range(n + 1):
            for i in list(gain):
                for j in places[i]:
                    if row_of[j] != i and (best[j] is None or best[j][0] < gain[i] + t[i][j]):
                        best[j] = (gain[i] + t[i][j], i)
            for j in range(n):
                if best[j] is not None and row_of[j] is not None:
                    gain[row_of[j]] = best[j][0] - t[row_of[j]][j]
        ends = [j for j in range(n) if row_of[j] is None and best[j] is not None]
        if not ends:
            return None
        j = max(ends, key=lambda c: best[c][0])
        while True:
            i = best[j][1]
            before = row_of.index(i) if i in row_of else None
            row_of[j] = i
            if before is None:
                break
            row_of[before] = None
            j = before
    return [row_of.index(i) for i in range(n)]


# ---- the simplest canon, checked ----

@once
def simplest(t):
    """The simplest canon, or None where no complete transversal exists."""
    n = len(t)
    if first(present(t)) is None:
        return None
    s = greatest(t)
    l = [0] * n
    for _ in range(n + 1):
        for i, j in enumerate(s):
            l[i] = max([l[i]] + [t[k][j] + l[k] - t[i][j] for k in range(n) if t[k][j] is not A])
    check_least(t, s, l)
    return l


def check_least(t, s, l):
    n = len(t)
    tight = maxima(t, l)
    assert all(s[i] in tight[i] for i in range(n)), "no canon"
    # every canon keeps s on column maxima, so a tight pair (i, k) in column s[i] keeps l[i] - l[k] from falling
    settled = {i for i in range(n) if l[i] == 0}
    while True:
        more = {i for i in range(n) if i not in settled for k in settled if s[i] in tight[k]}
        if not more:
            break
        settled |= more
    assert len(settled) == n, "not the least"
    if (max(l) + 2) ** n <= 20000:
        canons = [m for m in itertools.product(range(max(l) + 2), repeat=n) if is_canon(t, m)]
        assert tuple(map(min, zip(*canons))) == tuple(l) and tuple(l) in canons


def is_canon(t, l):
    return first(maxima(t, l)) is not None


# ---- the calls ----

def refusal(call, n, table, given, lent):
    """The lowest refusal that applies, or None."""
    if n == 0 or n > ROWS:
        return 1
    if len(table) != n * n or any(len(b) != n for b in ([given] if call != 1 else []) + (lent if call != 4 else [])):
        return 2
    if any(v is not A and not -ORDER <= v <= ORDER for v in table):
        return 3
    if call in (2, 4, 5) and any(g > HANDED for g in given):
        return 4
    if call == 5:
        return None
    if call == 3 and sorted(given) != list(range(1, n + 1)):
        return 5
    t = square(n, table)
    if first(present(t)) is None:
        return 6
    if call in (2, 4) and not is_canon(t, given):
        return 7
    if call == 3:
        columns = [g - 1 for g in given]
        if any(t[i][j] is A for i, j in enumerate(columns)) or total(t, columns) != total(t, greatest(t)):
            return 8
    return None


def square(n, table):
    return [list(table[i * n:i * n + n]) for i in range(n)]


def outcome(call, n, table, given, lent):
    """The answer's words, and what the lent additions, stars and heads hold afterwards; for call 5 heads, rows and counts."""
    number = refusal(call, n, table, given, lent)
    if number is not None:
        return f"refused {number}", lent
    t = square(n, table)
    if call == 5:
        return "done", [list(values) for values in zip(*column_heads(t, given))]
    l = simplest(t)
    if call == 4:
        return ("yes" if list(given) == l else "no"), lent
    stars = first(maxima(t, l))
    assert max(l) <= (n - 1) * 2 * ORDER and min(l) == 0
    return f"sum {total(t, stars)}", [l, [j + 1 for j in stars], heads_of(t, l)]


# ---- the vectors ----

VECTORS = []


CALLS = ("route 1", "route 2", "route 3", "yes or no", "heads of columns")
LENT = ("adds", "stars", "heads")
COLUMNS = ("heads", "rows", "counts")


def vector(title, call, n, table, given=(), lengths=None):
    """Distinct values fill what is lent; `lengths` are those of the lent additions, stars and heads, or of heads, rows and counts."""
    lengths = lengths if lengths is not None else ((n, n, n) if call != 4 else (0, 0, 0))
    fill = {"heads": (-7001, -1), "adds": (5001, 1), "rows": (5001, 1), "stars": (6001, 1), "counts": (6001, 1)}
    names = COLUMNS if call == 5 else LENT
    lent = [[fill[name][0] + fill[name][1] * k for k in range(length)] for name, length in zip(names, lengths)]
    VECTORS.append((f"{title}; {CALLS[call - 1]}", call, n, list(table), list(given), lent))


def flat(rows):
    return [v for row in rows for v in row]


def read(text):
    return [[A if w == "-" else int(w) for w in row.split()] for row in text.split("/")]


def written(rows):
    return " / ".join(" ".join("-" if v is A else str(v) for v in row) for row in rows)


def from_additions(title, rows, *lists):
    """Routes 2 and the yes-or-no from each list."""
    for given in lists:
        for call in (2, 4):
            vector(f"{title} from {' '.join(map(str, given[:10]))}", call, len(rows), flat(rows), given)


def from_columns(title, rows, *lists):
    for given in lists:
        vector(f"{title} with {' '.join(map(str, given[:10]))}", 3, len(rows), flat(rows), given)


def columns_under(title, rows, *lists):
    """Heads of columns under each list of additions."""
    for given in lists:
        vector(f"{title} under {' '.join(map(str, given[:10]))}", 5, len(rows), flat(rows), given)


def every_call(title, rows):
    """All calls on one table: from the simplest canon, from one with 7 more in each row, from the stars, and the like where none exists."""
    n = len(rows)
    vector(title, 1, n, flat(rows))
    l = simplest(rows)
    columns_under(title, rows, l or [0] * n)
    if l is None:
        from_additions(title, rows, [0] * n)
        from_columns(title, rows, list(range(1, n + 1)))
        return
    from_additions(title, rows, l, [v + 7 for v in l])
    from_columns(title, rows, [j + 1 for j in first(maxima(rows, l))])


JACOBI = read("""14 23 1 5 73 91 10 34 5 99 / 25 32 2 4 62 81 9 23 4 88 / 14 1 7 16 21 7 13 12 3 77 / 11 53 61 4 3 1 12 1 4 91
    / 9 21 23 18 27 3 6 9 12 15 / 4 16 18 13 5 12 23 21 14 81 / 25 43 13 16 83 10 91 3 7 13 / 27 7 17 37 73 8 11 24 23 22
    / 25 12 18 27 32 18 24 23 14 88 / 16 28 30 25 34 10 13 16 19 42""")
CHAIN = {"B": [0, 2, 13, 0, 11, 9, 0, 0, 2, 4], "C": [0, 6, 17, 0, 15, 13, 0, 0, 6, 8], "D": [0, 10, 21, 0, 19, 13, 0, 0, 10, 12],
         "E": [0, 10, 22, 0, 20, 13, 0, 1, 11, 13], "F": [9, 19, 31, 0, 29, 22, 0, 10, 20, 22],
         "G": [10, 20, 32, 0, 30, 23, 0, 10, 21, 23], "H": [11, 21, 33, 0, 31, 24, 0, 11, 22, 24]}
FIRST_OF_001 = read("""7 7 4 15 14 6 1 / 3 8 7 6 11 14 10 / 6 11 15 16 15 23 10 / 4 11 14 25 20 21 27 / 5 2 8 10 23 18 30
    / 1 8 3 9 6 20 17 / 11 12 8 22 24 21 40""")
SECOND_OF_001 = read("""11 7 6 4 6 4 11 / 11 12 11 11 3 11 12 / 8 11 15 14 9 6 8 / 19 10 16 25 11 12 22 / 18 15 15 20 24 9 24
    / 10 18 23 21 19 23 21 / 5 14 10 27 31 20 40""")
PENDULUM = read("2 - 0 / - 2 0 / 0 0 -")


def raised(rows, l):
    return [[v + l[i] for v in row] for i, row in enumerate(rows)]


def staircase(n, low, high, corner):
    """Each row after the first must be raised to the one before it: low on the diagonal, high to its right, all else absent."""
    rows = [[A] * n for _ in range(n)]
    for i in range(n):
        rows[i][i] = low if i else corner
        if i:
            rows[i - 1][i] = high
    return rows


def edges():
    """Document 01, "Tables on both sides of each edge" and "Wrong ways that look right"."""
    for text in ("-3", "-", "5 0 / 5 0", "1 0 / 2 0", "0 100 / -100 -100", "100 100 / -100 -100", "0 - / 7 -", "0 - / - 7",
                 "5 0 0 / 5 0 0 / 0 1 1", "5 0 / 0 5"):
        every_call(text, read(text))
    every_call("the pendulum", PENDULUM)
    from_additions("the pendulum", PENDULUM, [4, 4, 6], [0, 0, 1], [1, 0, 2], [0, 0, 0], [0, 0, 3])
    from_columns("the pendulum", PENDULUM, [3, 2, 1], [1, 3, 2], [1, 2, 3], [2, 3, 1], [3, 1, 2])
    from_additions("-3", read("-3"), [10000], [10001], [4294967295])
    from_columns("-3", read("-3"), [1], [0], [2], [4294967295])
    from_columns("5 0 / 5 0", read("5 0 / 5 0"), [1, 1], [1, 3], [2, 1], [0, 1], [1, 0], [2, 2], [4294967295, 1])
    from_columns("1 0 / 2 0", read("1 0 / 2 0"), [1, 2])
    from_columns("0 - / - 7", read("0 - / - 7"), [2, 1])
    from_additions("5 0 / 0 5", read("5 0 / 0 5"), [0, 3], [3, 0], [0, 5], [0, 6], [6, 0])
    from_additions("100 100 / -100 -100", read("100 100 / -100 -100"), [0, 199], [0, 201], [10000, 0])
    every_call("Jacobi's square", JACOBI)


def limits():
    """Both ends of each limit."""
    for n, lengths, entries in ((0, (0, 0, 0), 0), (0, (1, 1, 1), 1), (33, (33, 33, 33), 1089), (33, (32, 32, 32), 1024),
                                (4294967296, (0, 0, 0), 0), (64, (0, 0, 0), 0)):
        for call in (1, 2, 3, 4, 5):
            vector(f"N = {n} with {entries} entries", call, n, [0] * entries, range(1, lengths[0] + 1), lengths if call != 4 else None)
    for v in (100, -100, 101, -101, 32767, -32767):
        for call in (1, 2, 3, 4, 5):
            vector(f"{v}", call, 1, [v], [1] if call == 3 else [0])
        for k in range(4):
            vector(f"{v} in place {k + 1} of four", 1 + k, 2, [v if k == j else 0 for j in range(4)], [1, 2])
    every_call("N = 32, all entries 100", [[100] * 32 for _ in range(32)])
    vector("N = 32, all entries -100", 1, 32, [-100] * 1024)
    vector("N = 32, the last entry 101", 1, 32, [0] * 1023 + [101])
    vector("N = 32, the last entry -101", 1, 32, [0] * 1023 + [-101])
    vector("N = 32, all absent", 1, 32, [A] * 1024)
    up = staircase(32, -100, 100, -100)
    every_call("N = 32, a staircase to 6200 with sum -3200", up)
    from_additions("N = 32, a staircase", up, [3800 + 200 * i for i in range(32)], [3801 + 200 * i for i in range(32)],
                   [200 * i for i in range(31)] + [6199], [0] * 32)
    vector("N = 32, the staircase from below", 1, 32, flat(up[::-1]))
    vector("N = 32, the staircase with its columns turned", 1, 32, flat(row[::-1] for row in up))
    vector("N = 32, a staircase with corner 100", 1, 32, flat(staircase(32, -100, 100, 100)))
    vector("N = 31, a staircase to 6000", 1, 31, flat(staircase(31, -100, 100, 0)))
    every_call("N = 3, a staircase to 400", staircase(3, -100, 100, 100))
    short = [row[:] for row in up]
    short[31][31] = A
    every_call("N = 32, a staircase without its last step", short)
    full = [[100 - abs(i - 2 * j) % 201 for j in range(32)] for i in range(32)]
    every_call("N = 32, 100 - |i - 2 j|", full)
    from_columns("N = 32, 100 - |i - 2 j|", full, list(range(32, 0, -1)), list(range(1, 33)))


def lengths():
    """Each lent slice one too short and one too long."""
    for n, table in ((1, [0]), (2, [5, 0, 5, 0]), (32, [0] * 1024)):
        stars = list(range(1, n + 1))
        for d in (-1, 1):
            for call in (1, 2, 3, 4, 5) if n < 32 else (1, 3):
                longer = table + [0] if d == 1 else table[:-1]
                vector(f"N = {n}, table of {len(longer)}", call, n, longer, stars)
            for call in (2, 3, 4, 5):
                vector(f"N = {n}, {n + d} given", call, n, table, stars + [n + 1] if d == 1 else stars[:-1])
            for call in (1, 2, 3, 5) if n < 32 else (1,):
                for k, word in enumerate(("additions", "stars", "heads") if call != 5 else COLUMNS):
                    lent = [n, n, n]
                    lent[k] += d
                    vector(f"N = {n}, {n + d} {word}", call, n, table, stars, lent)


def precedence():
    """Where several refusals apply, the lowest is given."""
    bad, none = [101, A, 0, A], [0, A, 7, A]
    for call in (1, 2, 3, 4, 5):
        lent = (1, 3, 2) if call != 4 else None
        vector("1 before 2 and 3", call, 33, bad, [10001], lent)
        vector("1 before 2 and 3, N = 0", call, 0, bad, [10001], lent)
        vector("2 before 3", call, 2, bad + [0], [10001, 0], (2, 2, 2) if call != 4 else None)
        vector("2 before 3, lent slices", call, 2, bad, [10001], lent)
        vector("3 before 4, 5 and 6", call, 2, bad, [10001, 10001])
    from_additions("4 before 6", read("0 - / 7 -"), [10001, 0], [0, 10001])
    from_additions("4 before 7", read("5 0 / 0 5"), [10001, 0], [10001, 10001])
    from_additions("6 before 7", read("0 - / 7 -"), [0, 1], [10000, 10000])
    from_columns("5 before 6", read("0 - / 7 -"), [1, 1], [0, 2], [3, 1])
    from_columns("5 before 8", read("1 0 / 2 0"), [1, 1], [1, 3])
    from_columns("6 before 8", read("0 - / 7 -"), [1, 2], [2, 1])
    from_columns("8, a star on an absent place", read("0 - / - 7"), [2, 1])


def columns():
    """Heads of columns: no order at all, one row, all rows tied, ties that additions make and break, both ends of the limits."""
    columns_under("-", read("-"), [10000], [10001])
    columns_under("-3", read("-3"), [10000], [10001], [4294967295])
    columns_under("0 - / 7 -", read("0 - / 7 -"), [7, 0], [8, 0], [10000, 10000], [10001, 0], [0, 10001])
    columns_under("5 0 / 5 0", read("5 0 / 5 0"), [1, 0], [0, 1], [10000, 9999])
    columns_under("0 - 1 / - - 1 / 0 - -", read("0 - 1 / - - 1 / 0 - -"), [0, 0, 0], [1, 0, 0], [0, 1, 1], [0, 0, 10000], [10000, 10000, 10000])
    columns_under("-100 100 / 100 -100", read("-100 100 / 100 -100"), [0, 0], [200, 0], [0, 200], [10000, 9800], [9800, 10000])
    columns_under("-1 -2 / -1 -1", read("-1 -2 / -1 -1"), [0, 0], [1, 0], [1, 1], [2, 1])
    columns_under("the pendulum", PENDULUM, [0, 0, 0], [0, 0, 1], [0, 0, 3], [4, 4, 6])
    columns_under("Jacobi's square", JACOBI, [0] * 10, *CHAIN.values())
    columns_under("000 note 16", read("2 2 2 / - 1 - / - 0 0"), [0, 0, 0], [0, 1, 1])
    same = [[0] * 32 for _ in range(32)]
    columns_under("N = 32, all entries 0", same, [10000] * 32, [0] * 31 + [1], [1] + [0] * 31, [0] * 31 + [10001])
    vector("N = 32, the last entry 101", 5, 32, [0] * 1023 + [101], [10001] * 32)


def handed():
    """Canons at the limit of 10,000."""
    from_additions("0 - / - 7", read("0 - / - 7"), [10000, 10000], [10000, 0], [0, 10000], [0, 10001])
    from_additions("100 100 / -100 -100", read("100 100 / -100 -100"), [9800, 10000], [9800, 10001], [9801, 10000], [9799, 10000], [10000, 10000])
    top = [9967 + v for v in CHAIN["H"]]
    from_additions("Jacobi's square", JACOBI, top, [v + 1 for v in top])
    from_additions("N = 32, all entries 100", [[100] * 32 for _ in range(32)], [10000] * 32, [10000] * 31 + [9999])


def sources():
    """The squares printed in 000 to 003, with their misprints set right."""
    from_columns("Jacobi's square", JACOBI, [6, 2, 1, 3, 4, 8, 7, 5, 10, 9], [6, 2, 1, 3, 9, 8, 7, 5, 10, 4],
                 [6, 2, 10, 3, 4, 8, 7, 5, 1, 9], [6, 2, 10, 3, 9, 8, 7, 5, 1, 4], list(range(1, 11)))
    for name, l in CHAIN.items():
        from_additions(f"Jacobi's square, square {name}'s additions", JACOBI, l)
        if max(flat(raised(JACOBI, l))) <= ORDER:
            every_call(f"Jacobi's square {name}", raised(JACOBI, l))
        else:
            vector(f"Jacobi's square {name}", 1, 10, flat(raised(JACOBI, l)))
    misprinted = [row[:] for row in JACOBI]
    for i, j, v in ((2, 6, 18), (3, 1, 58), (6, 1, 48), (9, 6, 18)):
        misprinted[i][j] = v
    every_call("Jacobi's square with the four misprints of 002", misprinted)
    every_call("001, first example", FIRST_OF_001)
    from_additions("001, first example", FIRST_OF_001, [5, 8, 3, 1, 5, 6, 0], [4, 7, 2, 0, 4, 5, 0], [4, 5, 0, 0, 2, 3, 0], [4, 4, 0, 0, 1, 3, 0])
    from_columns("001, first example", FIRST_OF_001, [1, 2, 3, 4, 5, 6, 7], [2, 1, 3, 4, 5, 6, 7])
    every_call("001, first example's canon as a table", raised(FIRST_OF_001, [5, 8, 3, 1, 5, 6, 0]))
    every_call("001, second example", SECOND_OF_001)
    from_additions("001, second example", SECOND_OF_001, [14, 10, 8, 2, 7, 0, 0], [8, 6, 7, 0, 1, 0, 0], [9, 7, 8, 1, 2, 0, 0],
                   [10, 7, 8, 2, 3, 0, 0], [11, 7, 8, 2, 4, 0, 0], [8, 6, 8, 2, 7, 0, 0])
    from_columns("001, second example", SECOND_OF_001, [1, 2, 3, 4, 5, 6, 7])
    every_call("001, second example's derived table", raised(SECOND_OF_001, [8, 6, 8, 2, 7, 0, 0]))
    every_call("000 note 16", read("2 2 2 / - 1 - / - 0 0"))
    every_call("003 note 7", read("1 2 / 1 4"))
    for m in ([3, 1, 4], [50, -50, 0], [-50, -50, -49], [7, 50, -3, 20]):
        rows = [[a + b for b in m] for a in m]
        every_call(f"001 line 357, m = {m}", rows)
        if len(m) == 3:
            from_columns(f"001 line 357, m = {m}", rows, *map(list, itertools.permutations(range(1, 4))))


def signed():
    """Signed tables around zero: all of two rows with entries absent, -1, 0 and 1; some of more rows, some with absent places."""
    for cells in itertools.product((A, -1, 0, 1), repeat=4):
        rows = [list(cells[:2]), list(cells[2:])]
        vector(written(rows), 1, 2, flat(rows))
        columns_under(written(rows), rows, [0, 0])
    dice = random.Random(1865)
    for n, width, holes in ((3, 1, 0), (3, 1, 2), (4, 2, 3), (4, 100, 0), (5, 2, 2), (5, 100, 3), (6, 3, 2), (6, 100, 2), (7, 2, 2), (7, 100, 3),
                            (8, 2, 2), (12, 3, 5), (20, 4, 6), (32, 5, 7)):
        for k in range(4 if n < 8 else 1):
            rows = [[A if dice.randrange(10) < holes else dice.randint(-width, width) for _ in range(n)] for _ in range(n)]
            every_call(f"{n} rows from -{width} to {width}, table {k + 1}", rows)
            from_columns(f"{n} rows from -{width} to {width}, table {k + 1}", rows, dice.sample(range(1, n + 1), n))


# ---- what the documents print themselves ----

JACOBI_SAYS = "sum 508, adds 11 21 33 0 31 24 0 11 22 24, stars 6 2 1 3 4 8 7 5 10 9, heads 47 53 61 49 84 102 91 45 43 110"
PENDULUM_SAYS = "sum 2, adds 0 0 2, stars 1 3 2, heads 2 2 0"
PRINTED = {
    "-3; route 1": "sum -3, adds 0, stars 1, heads -3",
    "-; route 1": "refused 6",
    "5 0 / 5 0; route 1": "sum 5, adds 0 0, stars 1 2, heads 5 0",
    "1 0 / 2 0; route 1": "sum 2, adds 0 0, stars 2 1, heads 2 0",
    "1 0 / 2 0 with 1 2; route 3": "refused 8",
    "0 100 / -100 -100; route 1": "sum 0, adds 0 100, stars 2 1, heads 0 100",
    "100 100 / -100 -100; route 1": "sum 0, adds 0 200, stars 1 2, heads 100 100",
    "0 - / 7 -; route 1": "refused 6",
    "0 - / - 7; route 1": "sum 7, adds 0 0",
    "5 0 0 / 5 0 0 / 0 1 1; route 1": "sum 6, adds 1 1 0, stars 1 2 3, heads 6 1 1",
    "the pendulum; route 1": PENDULUM_SAYS,
    "the pendulum from 4 4 6; route 2": PENDULUM_SAYS,
    "the pendulum from 0 0 1; route 2": "refused 7",
    "the pendulum from 1 0 2; route 2": "refused 7",
    "-3 from 10000; route 2": "sum -3, adds 0",
    "-3 from 10001; route 2": "refused 4",
    "5 0 / 5 0 with 1 1; route 3": "refused 5",
    "5 0 / 5 0 with 1 3; route 3": "refused 5",
    "5 0 / 0 5 from 0 3; route 2": "sum 10, adds 0 0",
    "5 0 / 0 5 from 0 3; yes or no": "no",
    "N = 32, all entries 100; route 1": "sum 3200",
    "N = 33 with 1089 entries; route 1": "refused 1",
    "101; route 1": "refused 3",
    "-101; route 1": "refused 3",
    "Jacobi's square; route 1": JACOBI_SAYS,
    "Jacobi's square with 6 2 1 3 9 8 7 5 10 4; route 3": JACOBI_SAYS,
    "Jacobi's square with 6 2 10 3 4 8 7 5 1 9; route 3": JACOBI_SAYS,
    "Jacobi's square with 6 2 10 3 9 8 7 5 1 4; route 3": JACOBI_SAYS,
    "Jacobi's square, square H's additions from 11 21 33 0 31 24 0 11 22 24; yes or no": "yes",
    "001, first example from 5 8 3 1 5 6 0; route 2": "sum 138, adds 4 4 0 0 1 3 0",
    "001, second example; route 1": "sum 150, adds 14 10 8 2 7 0 0",
    "000 note 16; route 1": "sum 3, adds 0 1 2, stars 1 2 3, heads 2 2 2",
    "003 note 7; route 1": "sum 5, adds 0 0",
    # document 02: "In a column with no present order head, count and row are 0."
    "- under 0; heads of columns": "done, heads 0, rows 0, counts 0",
    "0 - / 7 - under 0 0; heads of columns": "done, heads 7 0, rows 2 0, counts 1 0",
    "5 0 / 5 0 under 0 0; heads of columns": "done, heads 5 0, rows 1 1, counts 2 2",
    "5 0 / 5 0 under 0 1; heads of columns": "done, heads 6 1, rows 2 2, counts 1 1",
}


def check_printed(expected):
    """What documents 000 to 003 and 01 print, and what four columns are by document 02's words, is what was worked out here."""
    answers = dict(zip(expected[::2], expected[1::2]))
    for title, words in PRINTED.items():
        assert (answers[title] + ",").startswith(words + ","), (title, words, answers[title])


# ---- the two files ----

def listed(values):
    return " ".join([str(len(values))] + ["-" if v is A else str(v) for v in values])


def files():
    for section in (edges, limits, lengths, precedence, columns, handed, sources, signed):
        section()
    given, expected = [str(len(VECTORS))], []
    for title, call, n, table, handed_in, lent in VECTORS:
        rolled = lent[1:] + lent[:1] if call == 5 else lent  # heads are the last list of every vector
        given += [title, " ".join([str(call), str(n)] + [listed(v) for v in [table, handed_in] + rolled])]
        words, after = outcome(call, n, table, handed_in, lent)
        names = zip(COLUMNS if call == 5 else LENT, after)
        expected += [title, words + "".join(", " + " ".join([name] + [str(v) for v in values]) for name, values in names)]
    check_printed(expected)
    return "\n".join(given) + "\n", "\n".join(expected) + "\n"


def main():
    texts = dict(zip(("stdin", "stdout"), files()))
    for name, text in texts.items():
        path = os.path.join(HOME, name)
        if "--check" in sys.argv:
            if open(path).read() != text:
                sys.exit(f"{name} is not what this script writes")
        else:
            open(path, "w").write(text)
    print(f"{len(VECTORS)} vectors, {len(texts['stdin'])} bytes")


if __name__ == "__main__":
    main()
