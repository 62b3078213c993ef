#!/usr/bin/env python3
"""Makes the vectors of crates/sheet_vectors: the files of data/, the list of them in args, and what the program must print, in stdout.

The reader and the writer below are written straight from document 01, "The sheet" and "Refusal numbers", and share no code and no
design with the crates: the reader here finds the first wrong line by regular expressions, the writer joins strings.
Run it in the repository's root: python3 tests/sheet_vectors.py [--check]. With --check it writes nothing, and fails where what is
stored is not what it makes.
"""
import os
import re
import sys

sys.set_int_max_str_digits(20000)

ABSENT = -32768
HERE = "crates/sheet_vectors"


# ---- document 01, once more -------------------------------------------------------------------------------------------------

def lines_of(sheet):
    """The ended lines, and what stands behind the last line feed."""
    parts = sheet.split(b"\n")
    return parts[:-1], parts[-1]


NUMBER = rb"(?:0|[1-9][0-9]*)"
SIGNED = rb"(?:0|-?[1-9][0-9]*)"
LABEL = rb"[A-Za-z0-9]{1,8}"


def read(sheet):
    """("rows", n, table, rows, cols) or ("refused", number, line)."""
    if len(sheet) > 12288:
        return ("refused", 9, 0)
    lines, tail = lines_of(sheet)
    at = 0

    def wrong():
        return ("refused", 10, at + 1)

    def due(pattern):
        """The match of the next line, or None where it is missing, unended or of another form."""
        if at >= len(lines):
            return None
        return re.fullmatch(pattern, lines[at])

    m = due(rb"rows (" + NUMBER + rb")")
    if not m or not 1 <= int(m.group(1)) <= 32:
        return wrong()
    n = int(m.group(1))
    at += 1
    labels = []
    for section in range(2):
        seen = []
        for _ in range(n):
            if not due(LABEL) or lines[at] in seen:
                return wrong()
            seen.append(lines[at])
            at += 1
        labels.append(seen)
        if section == 0:
            m = due(rb"cols (" + NUMBER + rb")")
            if not m or int(m.group(1)) != n:
                return wrong()
            at += 1
    m = due(rb"orders (" + NUMBER + rb")")
    if not m or int(m.group(1)) > n * n:
        return wrong()
    k = int(m.group(1))
    at += 1
    table = [ABSENT] * (n * n)
    last = (0, 0)
    for _ in range(k):
        m = due(rb"(" + NUMBER + rb") (" + NUMBER + rb") (" + SIGNED + rb")")
        if not m:
            return wrong()
        i, j, v = (int(g) for g in m.groups())
        if not (1 <= i <= n and 1 <= j <= n and -100 <= v <= 100) or (i, j) <= last:
            return wrong()
        last = (i, j)
        table[(i - 1) * n + (j - 1)] = v
        at += 1
    if at < len(lines) or tail:
        return wrong()
    return ("rows", n, table, labels[0], labels[1])


def write(n, table, rows, cols):
    """The sheet of a table whose labels are byte strings."""
    text = [b"rows %d" % n] + rows + [b"cols %d" % n] + cols
    orders = [b"%d %d %d" % (p // n + 1, p % n + 1, v) for p, v in enumerate(table) if v != ABSENT]
    return b"\n".join(text + [b"orders %d" % len(orders)] + orders) + b"\n"


def labels_in(buffer, n):
    """The labels of a buffer, or None where one is malformed or repeated."""
    found = []
    for k in range(n):
        m = re.fullmatch(rb"([A-Za-z0-9]{1,8})\0*", buffer[8 * k:8 * k + 8])
        if not m or m.group(1) in found:
            return None
        found.append(m.group(1))
    return found


# ---- what the program prints ------------------------------------------------------------------------------------------------

def mix(numbers):
    h = 0
    for x in numbers:
        h = (h % 65521 * 31 + x % 65536 + 1) % 65521
    return h


def over(front, room):
    return list(front) + list(room)[len(front):]


def refusal(number, line=0):
    return b" refused %d %d" % (number, line) if number == 10 else b" refused %d line 0" % number


def read_says(sheet, t, r, c):
    table, rows, cols = [7] * 1100, [7] * 300, [7] * 300
    if (t, r, c) != (1024, 256, 256):
        said = refusal(2)
    else:
        got = read(sheet)
        if got[0] == "refused":
            said = refusal(got[1], got[2])
        else:
            _, n, entries, row_labels, col_labels = got
            said = b" rows %d" % n
            table = over(entries, table)
            rows = over(b"".join(x.ljust(8, b"\0") for x in row_labels), rows)
            cols = over(b"".join(x.ljust(8, b"\0") for x in col_labels), cols)
    return said + b" table %d rows %d cols %d" % (mix(v + 32768 for v in table), mix(rows), mix(cols))


def write_says(n, table, rows, cols, room):
    out = [7] * 12400
    if not 1 <= n <= 32:
        said = refusal(1)
    elif (len(table), len(rows), len(cols)) != (n * n, 8 * n, 8 * n):
        said = refusal(2)
    elif any(v != ABSENT and not -100 <= v <= 100 for v in table):
        said = refusal(3)
    elif labels_in(rows, n) is None or labels_in(cols, n) is None:
        said = refusal(11)
    else:
        sheet = write(n, table, labels_in(rows, n), labels_in(cols, n))
        if len(sheet) > room:
            said = refusal(12)
        else:
            said = b" bytes %d" % len(sheet)
            out = over(sheet, out)
    return said + b" room %d" % mix(out)


# ---- the vectors ------------------------------------------------------------------------------------------------------------

vectors = {}


def two(x):
    return bytes([x // 256, x % 256])


def reading(name, sheet, t=1024, r=256, c=256):
    assert name not in vectors, name
    vectors[name] = (b"R" + two(t) + two(r) + two(c) + sheet, read_says(sheet, t, r, c))


def writing(name, n, table, rows, cols, room):
    assert name not in vectors, name
    body = b"".join(two(v + 32768) for v in table) + rows + cols
    vectors[name] = (b"W" + two(n) + two(len(table)) + two(len(rows)) + two(len(cols)) + two(room) + body,
                     write_says(n, table, rows, cols, room))


PENDULUM = b"""rows 3
fx
fy
rod
cols 3
x
y
pull
orders 6
1 1 2
1 3 0
2 2 2
2 3 0
3 1 0
3 2 0
"""
KINDS = {1: "rows", 3: "row_label", 5: "cols", 7: "col_label", 9: "orders", 10: "first_order", 12: "order", 15: "last_order"}


def with_line(k, text):
    lines, _ = lines_of(PENDULUM)
    lines[k - 1] = text
    return b"\n".join(lines) + b"\n"


def damage():
    lines, _ = lines_of(PENDULUM)
    for k, kind in KINDS.items():
        line = lines[k - 1]
        numbers = [m for m in re.finditer(rb"-?[0-9]+", line)]
        edits = {
            "return": line + b"\r",
            "tab": line.replace(b" ", b"\t", 1) if b" " in line else line + b"\t",
            "trailing_blank": line + b" ",
            "leading_blank": b" " + line,
            "doubled_blank": line.replace(b" ", b"  ", 1) if b" " in line else b"  " + line,
            "empty": b"",
            "nul": line + b"\0",
            "high": line + b"\xe9",
            "nul_alone": b"\0",
            "colon": line[:-1] + b":",
            "slash": line[:-1] + b"/",
        }
        for m in numbers:
            a, e = m.span()
            edits["zero_%d" % a] = line[:a] + b"0" + line[a:]
            edits["plus_%d" % a] = line[:a] + b"+" + line[a:]
            edits["minus_%d" % a] = line[:a] + b"-" + line[a:]
            edits["minus_zero_%d" % a] = line[:a] + b"-0" + line[e:]
            edits["none_%d" % a] = line[:a] + line[e:]
            v = int(m.group())
            for name, x in {"256": v + 256, "65536": v + 65536, "2_32": v + 2 ** 32, "2_64": v + 2 ** 64,
                            "huge": int("9" * 60), "33": 33, "101": 101, "10": 10}.items():
                edits["wrap_%s_%d" % (name, a)] = line[:a] + b"%d" % x + line[e:]
        for name, text in edits.items():
            reading("%s_%s" % (kind, name), with_line(k, text))
        # the line missing, doubled, split, unended, and the sheet cut before it
        reading("%s_missing" % kind, b"\n".join(lines[:k - 1] + lines[k:]) + b"\n")
        reading("%s_twice" % kind, b"\n".join(lines[:k] + lines[k - 1:]) + b"\n")
        reading("%s_extra_empty" % kind, b"\n".join(lines[:k] + [b""] + lines[k:]) + b"\n")
        reading("%s_unended" % kind, b"\n".join(lines[:k]))
        reading("%s_cut" % kind, b"".join(x + b"\n" for x in lines[:k - 1]))
        reading("%s_ends" % kind, b"".join(x + b"\n" for x in lines[:k]))


def label_damage():
    for k, kind in ((3, "row"), (7, "col")):
        first = {3: b"fx", 7: b"x"}[k]
        for name, text in {"eight": b"abcdefgh", "nine": b"abcdefghi", "digits": b"01234567", "repeated": first, "longer": first + b"1",
                           "upper": first.upper(), "dash": b"a-b", "under": b"a_b", "blank": b"a b", "at": b"@", "bracket": b"[",
                           "tick": b"`", "brace": b"{", "utf8": "é".encode(), "del": b"\x7f", "rows": b"rows", "Z": b"Z", "z": b"z"}.items():
            reading("%s_name_%s" % (kind, name), with_line(k, text))


def heading_damage():
    for name, text in {"zero": b"rows 0", "33": b"rows 33", "upper": b"Rows 3", "word": b"row 3", "bare": b"rows", "blank": b"rows ",
                       "two": b"rows 3 3", "cols": b"cols 3", "sum": b"rows 1+2", "dot": b"rows 3."}.items():
        reading("heading_rows_" + name, with_line(1, text))
    for name, text in {"two": b"cols 2", "four": b"cols 4", "rows": b"rows 3", "orders": b"orders 3"}.items():
        reading("heading_cols_" + name, with_line(5, text))
    for name, text in {"zero": b"orders 0", "five": b"orders 5", "seven": b"orders 7", "nine": b"orders 9", "ten": b"orders 10",
                       "cols": b"cols 6"}.items():
        reading("heading_orders_" + name, with_line(9, text))


def order_damage():
    swap, _ = lines_of(PENDULUM)
    swap[9], swap[10] = swap[10], swap[9]
    reading("orders_swapped", b"\n".join(swap) + b"\n")
    for name, text in {"same_place": b"1 3 1", "back_a_row": b"1 2 2", "row_0": b"0 2 2", "col_0": b"2 0 2", "row_4": b"4 1 0",
                       "col_4": b"2 4 0", "high": b"2 2 100", "higher": b"2 2 101", "low": b"2 2 -100", "lower": b"2 2 -101",
                       "minus_0": b"2 2 -0", "minus": b"2 2 -", "two_minus": b"2 2 --1", "four": b"2 2 2 2", "two": b"2 2", "one": b"2",
                       "absent": b"2 2 -32768", "far": b"3 3 1", "letters": b"a b c", "minus_01": b"2 2 -01"}.items():
        reading("order_says_" + name, with_line(12, text))
    reading("few_places", with_line(13, b"3 3 0"))
    top = b"\n".join(lines_of(PENDULUM)[0][:8]) + b"\n"
    reading("few_places_end", top + b"orders 2\n3 3 0\n")
    reading("few_places_nine", top + b"orders 9\n3 3 0\n")


def table_of(n, f):
    return [f(i, j) for i in range(n) for j in range(n)]


def names(n, letter):
    return [letter + b"%d" % k for k in range(n)]


def packed(labels):
    return b"".join(x.ljust(8, b"\0") for x in labels)


def sizes():
    reading("pendulum", PENDULUM)
    reading("nothing", b"")
    reading("one_feed", b"\n")
    reading("one_place", b"rows 1\nr\ncols 1\nc\norders 1\n1 1 -3\n")
    reading("one_absent", b"rows 1\nr\ncols 1\nc\norders 0\n")
    full = write(32, [-100] * 1024, [b"row%05d" % k for k in range(32)], [b"col%05d" % k for k in range(32)])
    reading("largest", full)
    reading("largest_and_line", full + b"1 1 1\n")
    reading("largest_12288", full + b"x" * (12288 - len(full)))
    reading("largest_12289", full + b"x" * (12289 - len(full)))
    reading("feeds_12288", b"\n" * 12288)
    reading("feeds_12289", b"\n" * 12289)
    reading("number_12288", b"rows " + b"3" * (12288 - 6) + b"\n")
    mixed = table_of(7, lambda i, j: ABSENT if (3 * i + 5 * j) % 4 == 0 else (17 * i - 29 * j) % 201 - 100)
    reading("seven", write(7, mixed, names(7, b"r"), names(7, b"c")))
    for name, lengths in {"table_1023": (1023, 256, 256), "table_1025": (1025, 256, 256), "rows_255": (1024, 255, 256),
                          "rows_257": (1024, 257, 256), "cols_255": (1024, 256, 255), "cols_257": (1024, 256, 257),
                          "all_0": (0, 0, 0)}.items():
        reading("lent_" + name, PENDULUM, *lengths)
    reading("lent_before_long", b"\n" * 12289, 1023, 256, 256)
    reading("lent_before_line", b"x\n", 1024, 255, 256)


def written():
    t = [2, ABSENT, 0, ABSENT, 2, 0, 0, 0, ABSENT]
    r, c = packed([b"fx", b"fy", b"rod"]), packed([b"x", b"y", b"pull"])
    size = len(PENDULUM)
    assert write(3, t, [b"fx", b"fy", b"rod"], [b"x", b"y", b"pull"]) == PENDULUM
    writing("write_pendulum", 3, t, r, c, size)
    writing("write_larger", 3, t, r, c, size + 1)
    writing("write_room", 3, t, r, c, 12400)
    writing("write_small", 3, t, r, c, size - 1)
    writing("write_none", 3, t, r, c, 0)
    writing("write_0_rows", 0, [], b"", b"", 100)
    writing("write_33_rows", 33, [0] * 1089, b"a" * 264, b"b" * 264, 12400)
    writing("write_many_rows", 65535, t, r, c, 12400)
    writing("write_0_before_2", 0, t, r, c, 0)
    writing("write_table_short", 3, t[:8], r, c, size)
    writing("write_table_long", 3, t + [0], r, c, size)
    writing("write_rows_short", 3, t, r[:23], c, size)
    writing("write_rows_long", 3, t, r + b"\0", c, size)
    writing("write_cols_short", 3, t, r, c[:23], size)
    writing("write_cols_long", 3, t, r, c + b"\0", size)
    writing("write_2_before_3", 3, [101] * 8, r, c, size)
    for v in (100, 101, -100, -101, 32767, -32767, -32768):
        writing("write_entry_%s" % str(v).replace("-", "minus_"), 3, [v] + t[1:], r, c, 12400)
    writing("write_3_before_11", 3, [101] + t[1:], b"\0" * 24, c, 0)
    for name, label in {"empty": b"", "blank": b"a b", "dash": b"a-b", "feed": b"a\n", "high": b"\xe9", "gap": b"a\0b", "eight": b"abcdefgh",
                        "repeated": b"fy", "one": b"1", "at": b"@", "tick": b"`", "brace": b"{", "bracket": b"[", "colon": b":", "slash": b"/",
                        "leading": b"\0a", "last": b"a\0\0\0\0\0\0b"}.items():
        writing("write_row_" + name, 3, t, packed([label, b"fy", b"rod"]), c, 12400)
        writing("write_col_" + name, 3, t, r, packed([b"x", b"y", label.replace(b"fy", b"x")]), 12400)
    writing("write_11_before_12", 3, t, packed([b"", b"fy", b"rod"]), c, 0)
    writing("write_absent", 1, [ABSENT], packed([b"r"]), packed([b"r"]), 100)
    writing("write_minus_3", 1, [-3], packed([b"r"]), packed([b"c"]), 100)
    full = [b"row%05d" % k for k in range(32)], [b"col%05d" % k for k in range(32)]
    most = len(write(32, [-100] * 1024, *full))
    writing("write_largest", 32, [-100] * 1024, packed(full[0]), packed(full[1]), most)
    writing("write_largest_small", 32, [-100] * 1024, packed(full[0]), packed(full[1]), most - 1)
    mixed = table_of(7, lambda i, j: ABSENT if (3 * i + 5 * j) % 4 == 0 else (17 * i - 29 * j) % 201 - 100)
    writing("write_seven", 7, mixed, packed(names(7, b"r")), packed(names(7, b"c")), 12400)


def main():
    sizes()
    damage()
    label_damage()
    heading_damage()
    order_damage()
    written()
    names_in_order = sorted(vectors)
    files = {"data/" + name: vectors[name][0] for name in names_in_order}
    files["args"] = "".join(name + "\n" for name in names_in_order).encode()
    files["stdout"] = b"".join(name.encode() + vectors[name][1] + b"\n" for name in names_in_order)
    stored = ["data/" + name for name in os.listdir(HERE + "/data")] if os.path.isdir(HERE + "/data") else []
    if sys.argv[1:] == ["--check"]:
        surplus = sorted(set(stored) - set(files))
        different = [path for path in files if not same_file(HERE + "/" + path, files[path])]
        if surplus or different:
            sys.exit(f"crates/sheet_vectors is not what tests/sheet_vectors.py makes: {', '.join((surplus + different)[:5])}")
        print(f"tests/sheet_vectors.py: the stored vectors are its own, {len(vectors)} of them")
        return
    os.makedirs(HERE + "/data", exist_ok=True)
    for path in stored:
        os.remove(HERE + "/" + path)
    for path, content in files.items():
        with open(HERE + "/" + path, "wb") as out:
            out.write(content)
    print(len(vectors), "vectors")


def same_file(path, content):
    """Is there a file with this content?"""
    if not os.path.isfile(path):
        return False
    with open(path, "rb") as stored:
        return stored.read() == content


main()
