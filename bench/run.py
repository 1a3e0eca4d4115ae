#!/usr/bin/env python3
"""Times long runs and large scripts on a built program: bench/run.py PATH_OF_NXT [CASE]

The first cases run 4,000,000 bytecodes each. Then come scripts of 100,000 rows: the rows of every kind in turn; the longest
rows, with empty lines between them up to 16,777,216 bytes; telegrams of every command in turn; telegrams that read the longest
message; and telegrams that start a program again which has 2,000 lists, or 32,000 bytes. The last scripts have 16,777,216 bytes
and no row. Then a full pool is dumped 256 times, as often as a script may; lists change places with an effort of 255 at the end of
each turn; and the same is dumped 256 times. The last case lists a program of 251,110 bytes. Prints the seconds, the greatest size
of the process in memory, and the report's size and last line. With the name of a case that one alone is run. A size in memory
below that of this script itself isn't seen.
"""
import os
import struct
import sys
import tempfile
import time


def image(entries, static_size, defaults, words, rows=(), lists=b""):
    """An image with one clump and these table entries, static defaults, code words, rows of the table of rows, and lists."""
    data = bytes(defaults) + b"".join(struct.pack("<5H", *row, 0, 0) for row in rows) + lists
    dynamic = len(data) - len(defaults)
    at, dope = (len(defaults), static_size) if rows else (0, 0)
    head = b"MindstormsNXT\0\0\5" + struct.pack(
        "<11H", len(entries), static_size + dynamic, static_size, len(data), at, dynamic, 0, 0, dope, 1, len(words)
    )
    front = head + b"".join(struct.pack("<BBH", *entry) for entry in entries) + data
    pad = bytes(len(front) % 2)
    return front + pad + bytes(4) + struct.pack("<%dH" % len(words), *words)


# jmp to itself
JUMP = image([], 0, [], [0x4025, 0])
# n ulong, one ubyte 1, top ulong 4294967295: add n, n, one; brcmp LT to the jmp; finclump; jmp to the add
LOOP = image(
    [(5, 1, 0), (1, 0, 4), (5, 0, 8)],
    12,
    [1, 255, 255, 255, 255],
    [0x8000, 0, 0, 1, 0x8026, 7, 0, 2, 0x602A, 0, 0xFFFF, 0x4025, 0xFFF5],
)
# 20,000 jumps: the even ones forward to the next but one, the odd ones back, and round at both ends
HOPS = 20000
ROUND = image(
    [],
    0,
    [],
    [word for i in range(HOPS) for word in (0x4025, {1: 0xFFFE, HOPS - 2: 2}.get(i, 0xFFFC if i % 2 else 4))],
)
# 30,000 variables of one byte, and 32,767 jumps to themselves
FULL = image([(1, 1, i) for i in range(30000)], 30000, [], [0x4025, 0] * 32767)
# n slong, port ubyte 2: getin n, port, scaled value; jmp back
SENSOR = image([(6, 1, 0), (1, 0, 4)], 5, [2], [0x8032, 0, 1, 4, 0x4025, 0xFFFC])
# a cluster of one ulong: syscall GetStartTick; jmp back
CALL = image([(8, 0, 1), (5, 1, 0)], 4, [], [0x6028, 25, 0, 0x4025, 0xFFFD])
# write is a cluster of three: a result, a mailbox and a text of 20 letters; read one of four: a result, a mailbox, whether to
# take the message out, which is 1, and a text: syscall MessageWrite; syscall MessageRead; jmp back
MAIL = image(
    [(8, 0, 3), (2, 1, 6), (1, 1, 7), (7, 0, 0), (1, 0, 0), (8, 0, 4), (2, 1, 8), (1, 1, 9), (1, 0, 10), (7, 1, 2), (1, 0, 0)],
    12,
    [1, 0, 1],
    [0x6028, 26, 0, 0x6028, 27, 5, 0x4025, 0xFFFA],
    [(12, 10, 2), (32, 1, 21)],
    b"a message of 20 lett\0",
)
# a list of 2,000 lists of a byte each, and the jump
LISTS = 2000
MANY = image(
    [(7, 0, 0), (7, 0, 0), (1, 0, 0)],
    2,
    struct.pack("<H", 1),
    [0x4025, 0],
    [(2, 10, LISTS + 2), (10 * (LISTS + 2) + 2, 2, LISTS)]
    + [(10 * (LISTS + 2) + 2 + 2 * LISTS + i, 1, 1) for i in range(LISTS)],
    struct.pack("<%dH" % LISTS, *range(2, LISTS + 2)) + bytes(LISTS),
)
# a list of 32,000 bytes, and the jump
LONG = image([(7, 0, 0), (1, 0, 0)], 2, struct.pack("<H", 1), [0x4025, 0], [(2, 10, 2), (22, 1, 32000)], bytes(32000))

# a list that fills the pool, and the jump
FULL_POOL = image([(7, 0, 0), (1, 0, 0)], 2, struct.pack("<H", 1), [0x4025, 0], [(2, 10, 2), (22, 1, 32744)], bytes(32744))
# two lists that are given up in turn, before a third one, which moves where the pool settles
MOVING = b"""dseg segment
first byte[]
last byte[]
other byte[]
dseg ends
thread main
again:
arrinit first, 1, 1000
arrinit last, 2, 1000
arrsubset first, first, 0, 0
arrinit other, 3, 1000
arrsubset last, last, 0, 0
arrsubset other, other, 0, 0
jmp again
endt
"""

RUNS = [b"run,1000000\n"] * 4
DUMPS = 256
ROWS = 100000
BYTES = 16777216


def telegram(text):
    return b"telegram," + text.encode() + b"\n"


def in_turn(rows):
    """As many rows as a script may have, which are these in turn."""
    return (rows[i % len(rows)] for i in range(ROWS))


KINDS = [
    b"run,350\n",
    b"tick,1000000\n",
    b"reading,3,65535,65535,-32768\n",
    b"tacho,2,-128,-2147483648,-2147483648,-2147483648\n",
    b"button,3,1,255\n",
    b"battery,65535\n",
    b"random,-32768\n",
    telegram("000b"),
    b"compact,65535\n",
]
MESSAGE = "00091327" + "61" * 38 + "00"
READ = telegram("0013130000")
# every command that there is, one that there isn't, and one that isn't asked for a reply
COMMANDS = [
    telegram(digits)
    for digits in (
        "000070726f6772616d2e72786500",
        "0003b8010100",
        "0004ff64070100200000000000",
        "0005030580",
        "000602",
        "000703",
        "000803",
        MESSAGE,
        "000a0201",
        "000b",
        "000c",
        "000d",
        "0011",
        "0013130001",
        "0001",
        "00ff" + "00" * 62,
        "8004ff9c070100200000000000",
    )
]
# a telegram of 64 bytes, in quotes, with a byte order mark in front: there is no longer row
LONGEST = b'\xef\xbb\xbf"telegram","' + b"00ff" + b"00" * 62 + b'"\n'
GAP = b"\n" * (BYTES // ROWS - len(LONGEST))


def filled(rows):
    """These rows, and empty lines behind them up to the length that a script may have."""
    size = 0
    for row in rows:
        size += len(row)
        yield row
    yield from (b"\n" for _ in range(BYTES - size))


CASES = (
    ("jump", JUMP, lambda: RUNS),
    ("loop", LOOP, lambda: RUNS),
    ("round", ROUND, lambda: RUNS),
    ("sensor", SENSOR, lambda: RUNS),
    ("call", CALL, lambda: RUNS),
    ("mail", MAIL, lambda: RUNS),
    ("kinds", JUMP, lambda: in_turn(KINDS)),
    ("longest", JUMP, lambda: filled([LONGEST + GAP] * ROWS)),
    ("storm", JUMP, lambda: in_turn(COMMANDS)),
    ("reads", JUMP, lambda: [telegram("0009133b" + "61" * 58 + "00")] + [READ] * (ROWS - 1)),
    ("again", MANY, lambda: in_turn(COMMANDS[:1])),
    ("anew", LONG, lambda: in_turn(COMMANDS[:1])),
    ("empty", JUMP, lambda: filled([])),
    ("marks", JUMP, lambda: (b"\xef\xbb\xbf\n" for _ in range(BYTES // 4))),
    ("dumps", FULL_POOL, lambda: [b"run,1000\n", b"dump\n"] * DUMPS),
    ("settles", MOVING, lambda: RUNS, "run", "--effort", "255", "nbc"),
    ("moves", MOVING, lambda: [b"run,1003\n", b"dump\n"] * DUMPS, "run", "--effort", "255", "nbc"),
    # lists the program, and reads no script
    ("list", FULL, None, "list"),
)


def last_line(path):
    """The size of a report, and its last line."""
    size = os.path.getsize(path)
    with open(path, "rb") as f:
        f.seek(max(size - 200, 0))
        lines = f.read().splitlines()
    return size, lines[-1].decode() if lines else ""


def run(nxt, name, program, script, command):
    with tempfile.TemporaryDirectory() as folder:
        paths = [os.path.join(folder, file) for file in ("program", "script", "report")]
        for path, pieces in zip(paths, ([program], script or ())):
            with open(path, "wb") as f:
                f.writelines(pieces)
        words = command + (paths[:1] if script is None else paths[:2])
        began = time.monotonic()
        child = os.posix_spawn(
            nxt,
            [nxt] + words,
            os.environ,
            file_actions=[(os.POSIX_SPAWN_OPEN, 1, paths[2], os.O_WRONLY | os.O_CREAT, 0o600)],
        )
        _, status, usage = os.wait4(child, 0)
        seconds = time.monotonic() - began
        size, last = last_line(paths[2])
    status = os.waitstatus_to_exitcode(status)
    print(
        "%-7s status %d, %.2f s, at most %d KiB; a report of %d bytes, which ends with %s"
        % (name, status, seconds, usage.ru_maxrss, size, last),
        flush=True,
    )


def main():
    nxt = os.path.abspath(sys.argv[1])
    for name, program, script, *command in CASES:
        if sys.argv[2:] in ([], [name]):
            run(nxt, name, program, script and script(), command or ["run", "rxe"])


main()
