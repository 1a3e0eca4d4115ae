#!/usr/bin/env python3
"""Times how long a built program judges large files: bench/files.py PATH_OF_NXT

One has a table of 49,000 entries of which the last stands on the byte of the one before it; one has 65,000 code words with a
jump in each second statement, the last of which lands inside one. In the others arrays in arrays name rows: many variables the
same long rows that overlap, pairs of rows, clusters of 15 to 240 lists in the elements of 500 rows, lists in rows of 64
strides, and lists whose rows are the bytes of their own table. Prints for each the seconds of the processor and the program's
line. The program has 16 MiB for its data; it ends with status 5 where that doesn't do.
"""
import os
import resource
import struct
import subprocess
import sys
import tempfile

ENTRIES = 49000
PAIRS = 13000
MEMORY = 16 * 1024 * 1024
MOV = struct.pack("<3H", 0x601B, 0, 0)


def image(static_size, entries, words):
    """A file of one clump with a table of ubytes without defaults, given as their places, and code."""
    head = b"MindstormsNXT\0\0\5" + struct.pack(
        "<11H", len(entries), static_size, static_size, 0, 0, 0, 0, 0, 0, 1, len(words) // 2
    )
    table = b"".join(struct.pack("<BBH", 1, 1, place) for place in entries)
    return head + table + struct.pack("<BBH", 0, 0, 0) + words


def jump(offset):
    return struct.pack("<Hh", 0x4025, offset)


def table_file(last_place):
    """A file whose table ends with a ubyte at a place."""
    return image(65535, list(range(ENTRIES - 1)) + [last_place], jump(0))


def code_file(last_offset):
    """A file of pairs of a mov and a jump behind it, the last jump by an offset."""
    return image(1, [0], (MOV + jump(2)) * (PAIRS - 1) + MOV + jump(last_offset))


def nest(depth, place):
    """The entries of a list in lists of a byte, `depth` lists in all, at a place."""
    return [(7, place)] + [(7, 0)] * (depth - 1) + [(1, 0)]


def rows_file(entries, numbers, rows, data):
    """A file of these entries, by code and place, whose variables name rows: a place behind the table, a stride and a count."""
    static = 2 * len(numbers)
    behind = static + 10 * (len(rows) + 1)
    rows = [(0, 10, len(rows) + 1)] + [(behind + at, stride, count) for at, stride, count in rows]
    rows[0] = (static, 10, len(rows))
    dynamic = b"".join(struct.pack("<5H", *row, 0, 0) for row in rows) + data
    size = static + len(dynamic)
    words = jump(0)
    head = b"MindstormsNXT\0\0\5" + struct.pack(
        "<11H", len(entries), size, static, size, static, len(dynamic), 0, 0, static, 1, len(words) // 2
    )
    table = b"".join(struct.pack("<BBH", code, 0, place) for code, place in entries)
    defaults = struct.pack("<%dH" % len(numbers), *numbers) + dynamic
    return head + table + defaults + b"\0" * (len(defaults) % 2) + struct.pack("<BBH", 0, 0, 0) + words


def full_file(variables, depth, rows, step, first):
    """Variables that are `depth` deep, whose rows name all rows. Each row begins `step` bytes behind the one before it, and variable i names
    row first(i)."""
    entries = sum((nest(depth, 2 * i) for i in range(variables)), [])
    count = (65000 - 2 * variables - 10 * (rows + 1)) // 2
    places = [(step * r, 2, count - (step * r + 1) // 2) for r in range(rows)]
    data = struct.pack("<%dH" % count, *(1 + i % rows for i in range(count)))
    return rows_file(entries, [first(i) for i in range(variables)], places, data)


def pairs_file(variables, width):
    """Variables of a list of two clusters of `width` lists, each of which names another pair of 200 long rows."""
    inner = [entry for j in range(width) for entry in nest(2, 2 * j)]
    entries = [entry for i in range(variables) for entry in [(7, 2 * i), (8, width)] + inner]
    names = [
        variables + 1 + (i * 37 + j if i % 2 == 0 else i * 91 + j * 7) % 200
        for i in range(variables + 1)
        for j in range(width)
    ]
    behind = 2 * len(names)
    count = (65000 - 2 * variables - 10 * (variables + 201) - behind) // 2
    rows = [(2 * width * i, 2 * width, 2) for i in range(variables)]
    rows += [(behind + r % 2, 2, count - 1 - r // 2 % 50) for r in range(200)]
    return rows_file(entries, range(1, variables + 1), rows, struct.pack("<%dH" % len(names), *names) + bytes(2 * count))


def members_file(clusters, members, rows, step):
    """Lists of lists of a cluster of `members` lists. Variable i reads it in all rows, from row i on, which end together and
    begin `step` bytes behind one another."""
    inner = [entry for j in range(members) for entry in nest(1, 2 * j)]
    entries = [entry for i in range(clusters) for entry in [(7, 2 * i), (7, 0), (8, members)] + inner]
    names = [clusters + 1 + i % rows for i in range(clusters + rows)]
    behind = 2 * len(names)
    count = (65000 - 2 * clusters - 10 * (clusters + rows + 1) - behind) // 2
    outer = [(2 * i, 2, rows) for i in range(clusters)]
    places = [(behind + step * r, 2 * members, (2 * count - step * r) // (2 * members)) for r in range(rows)]
    numbers = [1 + i % (clusters + rows - 2) for i in range(count)]
    data = struct.pack("<%dH" % (len(names) + count), *names, *numbers)
    return rows_file(entries, range(1, clusters + 1), outer + places, data)


def strides_file(variables, lists, least, each):
    """Variables that all name one row, of `each` clusters of lists in lists. The lists of one place in it name as many rows, of
    a stride of their own among 64 from `least` on, so that lists that stand side by side are read in rows of other strides."""
    inner = [entry for j in range(lists) for entry in nest(2, 2 * j)]
    entries = [entry for i in range(variables) for entry in [(7, 2 * i), (8, lists)] + inner]
    names = [2 + j % 64 * each + x for x in range(each) for j in range(lists)]
    behind = 2 * len(names)
    count = 65000 - 2 * variables - 10 * (64 * each + 2) - behind
    starts = [(stride, stride * x // each) for stride in range(least, least + 64) for x in range(each)]
    rows = [(0, 2 * lists, each)] + [(behind + at, stride, (count - at) // stride) for stride, at in starts]
    return rows_file(entries, [1] * variables, rows, struct.pack("<%dH" % len(names), *names) + bytes(count))


def own_table_file(entries, variables, rows, stride=2):
    """A file of these entries whose variables all name one row. Its elements, and the one element of `stride` bytes of each
    other row, are numbers in the table of rows itself, so that each list is read in as many rows as there are."""
    static = 2 * variables
    names = [(2 + (7 * r + 1) % (rows - 2), 2 + (11 * r + 5) % (rows - 2)) for r in range(rows)]
    fitting = rows - stride // 10 - 10
    numbers = [r if r < fitting else r * 7919 % fitting + 2 for r in range(2, rows)]
    places = [(static, 10, rows), (static + 28, 10, rows - 3)] + [(static + 10 * r + 6, stride, 1) for r in numbers]
    dynamic = b"".join(struct.pack("<5H", *place, *name) for place, name in zip(places, names))
    size = static + len(dynamic)
    words = jump(0)
    head = b"MindstormsNXT\0\0\5" + struct.pack(
        "<11H", len(entries), size, static, size, static, len(dynamic), 0, 0, static, 1, len(words) // 2
    )
    table = b"".join(struct.pack("<BBH", code, 0, place) for code, place in entries)
    return head + table + struct.pack("<%dH" % variables, *[1] * variables) + dynamic + struct.pack("<BBH", 0, 0, 0) + words


def own_rows_file(variables, rows, place, stride=2):
    """Variables eight deep in rows of one element that are numbers in their own table. The list that is `level` levels
    deep in variable i stands at place(i, level) in an element."""
    inner = [[(7, 0)] + [(7, place(i, level)) for level in range(6)] + [(1, 0)] for i in range(variables)]
    entries = [entry for i in range(variables) for entry in [(7, 2 * i)] + inner[i]]
    return own_table_file(entries, variables, rows, stride)


FILES = (
    ("49,000 entries, the last overlaps", table_file(ENTRIES - 2)),
    ("65,000 words, the last jump is lost", code_file(-2)),
    ("5,400 variables of 500 rows", full_file(5400, 8, 500, 0, lambda i: 1)),
    ("16,000 pairs of rows", pairs_file(50, 320)),
    ("1,480 clusters of 15 lists", members_file(1480, 15, 500, 2)),
    ("590 clusters of 40 lists", members_file(590, 40, 500, 2)),
    ("300 clusters of 80 lists", members_file(300, 80, 500, 2)),
    ("100 clusters of 240 lists", members_file(100, 240, 500, 2)),
    ("250 clusters of 64 strides", strides_file(250, 64, 128, 60)),
    ("5,400 rows in their own table", own_rows_file(5400, 5400, lambda i, level: 10 * (i % 64), 641)),
)


def small():
    resource.setrlimit(resource.RLIMIT_DATA, (MEMORY, MEMORY))


def main():
    nxt = os.path.abspath(sys.argv[1])
    with tempfile.TemporaryDirectory() as folder:
        path = os.path.join(folder, "file")
        for name, program in FILES:
            with open(path, "wb") as f:
                f.write(program)
            child = subprocess.Popen([nxt, "check", path], stdout=subprocess.PIPE, preexec_fn=small)
            line = child.stdout.read().decode().strip()
            _, status, used = os.wait4(child.pid, 0)
            seconds = used.ru_utime + used.ru_stime
            print("%-36s %5.2f s, status %d: %s" % (name, seconds, os.waitstatus_to_exitcode(status), line), flush=True)


main()
