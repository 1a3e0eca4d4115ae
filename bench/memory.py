#!/usr/bin/env python3
"""Refuses each allocation of a built program in turn: bench/memory.py --binary PATH_OF_NXT

Runs commands of every form. Each is first run with ample memory, which must end with the status that is due. Then it is run again
and again, and of the allocations that it makes the first is refused, then the second, and so on, one in each run, until a run
makes fewer. Each of those runs must end with status 5, and must have written a front of what was written with ample memory, to
standard output and to the image alike, or must end just as with ample memory, where it did without; nothing goes to standard error. Prints how many allocations of each command were refused,
and their sum. At the first run that ends otherwise, or not within a minute, prints what was found, and exits with 1.

A library that is loaded before the C library does the refusing. It is compiled with gcc into a temporary folder.
"""
import argparse
import contextlib
import os
import subprocess
import sys
import tempfile

LIBRARY = r"""
#include <errno.h>
#include <stdlib.h>
#include <unistd.h>

extern void *__libc_malloc(size_t);
extern void *__libc_calloc(size_t, size_t);
extern void *__libc_realloc(void *, size_t);
extern void *__libc_memalign(size_t, size_t);

/* The call that is refused, counted from 1, where the calls begin to count; and where that is told. */
static long refused;
static int told;

__attribute__((constructor)) static void begin(void)
{
    refused = atol(getenv("NXT_REFUSED"));
    told = atoi(getenv("NXT_TOLD"));
}

static int refuses(void)
{
    if (refused == 0 || --refused > 0)
        return 0;
    if (write(told, "", 1) != 1)
        abort();
    errno = ENOMEM;
    return 1;
}

void *malloc(size_t size) { return refuses() ? NULL : __libc_malloc(size); }
void *calloc(size_t count, size_t size) { return refuses() ? NULL : __libc_calloc(count, size); }
void *realloc(void *block, size_t size) { return refuses() ? NULL : __libc_realloc(block, size); }
void *aligned_alloc(size_t to, size_t size) { return refuses() ? NULL : __libc_memalign(to, size); }

int posix_memalign(void **block, size_t to, size_t size)
{
    *block = refuses() ? NULL : __libc_memalign(to, size);
    return *block == NULL ? ENOMEM : 0;
}
"""

# sets the power of the motor at output A to 75, and ends
MOTOR = bytes.fromhex(
    "4d696e6473746f726d734e585400000503000300030003000300000000000000000001000a00"
    "010000000200010001000200004b02000000000031e00e00000002000100000002002a600000ffff"
)
# lists in lists, which are put together to a text
NESTED = b"""#include "NXTDefs.h"
dseg segment
  a byte[] 'ab'
  y byte[] 'hi'
  x byte[][]
  dt TDrawText
dseg ends
thread main
  strcat a, a, a
  arrbuild x, y, y
  replace x, x, 0, a
  index y, x, 1
  index dt.Text, x, 0
  strcat dt.Text, dt.Text, y
  syscall DrawText, dt
endt
"""
# a label that no line has
REFUSED = b"thread main\njmp Away\nendt\n"
# rows of every kind; among them telegrams that set three motors, put a message, take it out, stop the program and start it again
SCRIPT = b"""reading,2,500,512,60
tacho,0,75,360,360,720
button,3,1,1
battery,7500
random,-77
run,3
tick,100
telegram,0004ff64070100200000000000
telegram,0009000368690000
telegram,00090003686900
telegram,0013000001
telegram,0003b8010100
telegram,00ff
dump
run,10
compact,1
telegram,000070726f6772616d2e72786500
run,2
telegram,0001
dump
"""
BAD = b"run,3\ndump\nrun,3,3\nrun,3\n"

FILES = {
    "motor.rxe": MOTOR,
    "cut.rxe": MOTOR[:50],
    "nested.nbc": NESTED,
    "refused.nbc": REFUSED,
    "script.csv": SCRIPT,
    "bad.csv": BAD,
}

# a name, the words, and the status with ample memory; the first command makes the image that later ones read
CASES = (
    ("asm", "asm nested.nbc nested.rxe", 0),
    ("run nbc", "run nbc nested.nbc script.csv", 0),
    ("run rxe", "run rxe nested.rxe script.csv", 0),
    ("run --effort", "run --effort 2 nbc nested.nbc script.csv", 0),
    ("check", "check nested.rxe", 0),
    ("list", "list nested.rxe", 0),
    ("gen", "gen 7", 0),
    ("refused image", "check cut.rxe", 1),
    ("refused text", "run nbc refused.nbc script.csv", 1),
    ("bad script", "run rxe motor.rxe bad.csv", 6),
    ("no form", "run rxe motor.rxe", 2),
)

NO_MEMORY = 5
IMAGE = "nested.rxe"


class Offence(Exception):
    pass


def image_in(folder):
    path = os.path.join(folder, IMAGE)
    if not os.path.exists(path):
        return b""
    with open(path, "rb") as f:
        return f.read()


def run(nxt, library, folder, words, refused):
    """Runs a command whose allocation of this number is refused, none where it is 0: whether there was one, the status, and what
    was written to standard output."""
    ear, mouth = os.pipe()
    env = {"LD_PRELOAD": library, "NXT_REFUSED": str(refused), "NXT_TOLD": str(mouth)}
    try:
        done = subprocess.run([nxt] + words, cwd=folder, env=env, pass_fds=[mouth], capture_output=True, timeout=60)
    except subprocess.TimeoutExpired:
        raise Offence("it runs for more than a minute")
    finally:
        os.close(mouth)
        with os.fdopen(ear, "rb") as f:
            was_refused = f.read() != b""
    if done.stderr:
        raise Offence("something was written to standard error")
    return was_refused, done.returncode, done.stdout


def refuse_each(nxt, library, folder, words, status):
    """How many allocations of a command were refused, one in each run, and how many of them it did without."""
    _, ended, report = run(nxt, library, folder, words, 0)
    if ended != status:
        raise Offence("with ample memory: status %d, due is %d" % (ended, status))
    image = image_in(folder)
    count = spared = 0
    while True:
        if words[0] == "asm":
            with contextlib.suppress(FileNotFoundError):
                os.remove(os.path.join(folder, IMAGE))
        was_refused, ended, front = run(nxt, library, folder, words, count + 1)
        if not was_refused:
            break
        count += 1
        if (ended, front, image_in(folder)) == (status, report, image):
            spared += 1
            continue
        if ended != NO_MEMORY:
            raise Offence("allocation %d is refused: status %d, due is %d" % (count, ended, NO_MEMORY))
        if not report.startswith(front):
            raise Offence("allocation %d is refused: the report is no front of what is due" % count)
        if not image.startswith(image_in(folder)):
            raise Offence("allocation %d is refused: the image is no front of what is due" % count)
    if (ended, front, image_in(folder)) != (status, report, image):
        raise Offence("where nothing is refused, it ends otherwise than before")
    if count == 0:
        raise Offence("it asks the C library for no memory, so nothing is shown")
    return count, spared


def main():
    p = argparse.ArgumentParser()
    p.add_argument("--binary", required=True)
    a = p.parse_args()
    nxt = os.path.abspath(a.binary)
    total = 0
    with tempfile.TemporaryDirectory() as folder:
        library = os.path.join(folder, "refuse.so")
        subprocess.run(
            ["gcc", "-O1", "-shared", "-fPIC", "-x", "c", "-", "-o", library], input=LIBRARY.encode(), check=True
        )
        for name, data in FILES.items():
            with open(os.path.join(folder, name), "wb") as f:
                f.write(data)
        for name, words, status in CASES:
            try:
                count, spared = refuse_each(nxt, library, folder, words.split(), status)
            except Offence as found:
                print("%s: %s" % (name, found))
                sys.exit(1)
            print("%-13s %6d, of which it did without %d" % (name, count, spared), flush=True)
            total += count
    print("%-13s %6d" % ("all", total))


main()
