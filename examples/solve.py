"""The rod pendulum, solved from Python, and the ties that a drawing screen would mark: python3 examples/solve.py LIBRARY

LIBRARY is a shared object made from the archive:
  cc -shared -o libcanon.so -Wl,--whole-archive crates/exports/out/libexports.a -Wl,--no-whole-archive
"""
import ctypes
import sys

ABSENT = -32768


def lent(rows):
    """A table (None where an unknown is absent) as the library takes it."""
    entries = [ABSENT if order is None else order for row in rows for order in row]
    return (ctypes.c_int16 * len(entries))(*entries)


def call(function, *handed):
    """Calls a function of the library: a size goes in as it is, a slice with its length, a single result as a pointer."""
    words = []
    for one in handed:
        if isinstance(one, int):
            words.append(ctypes.c_size_t(one))
        elif isinstance(one, ctypes.Array):
            words += [one, ctypes.c_size_t(len(one))]
        else:
            words.append(ctypes.byref(one))
    function.restype = ctypes.c_uint32
    refused = function(*words)
    if refused:
        raise ValueError(f"refused {refused}")


def solve(library, rows):
    """The simplest canon of a table: additions, stars, heads and the sum."""
    n = len(rows)
    adds, stars, heads, total = (ctypes.c_uint32 * n)(), (ctypes.c_uint32 * n)(), (ctypes.c_int32 * n)(), ctypes.c_int32()
    call(library.canon_solve, n, lent(rows), adds, stars, heads, total)
    return list(adds), list(stars), list(heads), total.value


def column_heads(library, rows, adds):
    """Under these additions, for each column: its head, the lowest row that holds it, and how many rows do."""
    n = len(rows)
    given, heads, lowest, counts = (ctypes.c_uint32 * n)(*adds), (ctypes.c_int32 * n)(), (ctypes.c_uint32 * n)(), (ctypes.c_uint32 * n)()
    call(library.canon_column_heads, n, lent(rows), given, heads, lowest, counts)
    return list(zip(heads, lowest, counts))


def slots(labels):
    """Labels as the library takes them: 8 bytes each, filled up with zero bytes."""
    text = b"".join(label.encode().ljust(8, b"\0") for label in labels)
    return (ctypes.c_uint8 * len(text))(*text)


def printed(library, rows, equations, unknowns):
    """The printed answer of a labelled table, by way of its sheet."""
    sheet, text, length = (ctypes.c_uint8 * 12288)(), (ctypes.c_uint8 * 4000)(), ctypes.c_size_t()
    call(library.canon_write_sheet, len(rows), lent(rows), slots(equations), slots(unknowns), sheet, length)
    call(library.canon_print, (ctypes.c_uint8 * length.value)(*sheet[:length.value]), text, length)
    return bytes(text[:length.value]).decode()


def main():
    library = ctypes.CDLL(sys.argv[1])
    equations, unknowns = ["fx", "fy", "rod"], ["x", "y", "pull"]
    rows = [[2, None, 0], [None, 2, 0], [0, 0, None]]
    adds, stars, heads, total = solve(library, rows)
    columns = column_heads(library, rows, adds)
    ties = [count for _, _, count in columns]
    # The index figure stands in the printed answer, under its heading.
    lines = printed(library, rows, equations, unknowns).splitlines()
    index = lines[lines.index("index 1") + 1]
    sections = {"adds": adds, "stars": stars, "heads": heads, "ties": ties, "sum": [total], "index": [index]}
    for name, values in sections.items():
        print(f"{name} {len(values)}", *values, sep="\n")
    for number, (head, lowest, count) in enumerate(columns, 1):
        if count > 1:
            print(f"column {number}: {count} rows share {head}, the lowest is row {lowest}")


main()
