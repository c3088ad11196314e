#!/usr/bin/env python3
"""Prints what reading, writing, composing, transforming, inverting and applying operations costs.

    python3 bench/operations.py [PROGRAM]

PROGRAM is crates/bench_operations/out/bench_operations unless it is given (`rt run` in crates/bench_operations builds it). It
reads operations as bytes from standard input, so nothing but the work named is in its time and memory.

A comb is an operation on a document of 1,000,000 items that retains and inserts in turn. The hostile operation has as many
bytes as a delta may: 17,000 annotations run at once, and at each of 7,000 boundaries one of them ends. In the one with runs in turn
15,000 run, and retained items and insertions come in turn. An edit inserts or
deletes one letter in the middle of a document in pieces; what is inverted inserts one there, or deletes one or 500. All letters
are marked with one annotation, and then no more.
"""

import os
import struct
import subprocess
import sys
import tempfile

ITEMS = 1_000_000
KEYS, BOUNDARIES, KEY_LENGTH = 17_000, 7_000, 22


def text(value):
    return struct.pack(">I", len(value)) + value.encode()


def retain(count):
    return b"\x01" + struct.pack(">Q", count)


def operation(components):
    return struct.pack(">I", len(components)) + b"".join(components)


def comb(count, items, letter):
    """An operation of so many components, retained runs and single letters in turn, and a retained rest where that is odd."""
    inserts = count // 2
    run = items // (inserts + count % 2)
    parts = [part for _ in range(inserts) for part in (retain(run), b"\x02" + text(letter))]
    rest = items - inserts * run
    if count % 2:
        return operation(parts + [retain(rest)])
    return operation([retain(run + rest)] + parts[1:])


def key(number):
    return "annotation/%0*d" % (KEY_LENGTH - len("annotation/"), number)


def boundary(ends, changes):
    ended = struct.pack(">I", len(ends)) + b"".join(text(key(number)) for number in ends)
    changed = struct.pack(">I", len(changes)) + b"".join(text(key(number)) + b"\0\0" for number in changes)
    return b"\x0a" + ended + changed


def value(text_or_none):
    return b"\0" if text_or_none is None else b"\1" + text(text_or_none)


def marked(count, old, new):
    """One annotation of so many items goes from the old value to the new one."""
    begins = b"\x0a" + struct.pack(">II", 0, 1) + text("bold") + value(old) + value(new)
    ends = b"\x0a" + struct.pack(">I", 1) + text("bold") + struct.pack(">I", 0)
    return operation([begins, retain(count), ends])


def hostile():
    """Each key's change asks for its absence and leaves it absent, so the operation composes with itself."""
    parts = [boundary([], range(KEYS))]
    for number in range(BOUNDARIES - 2):
        parts += [retain(1), boundary([number], [])]
    parts += [retain(1), boundary(range(BOUNDARIES - 2, KEYS), [])]
    return operation(parts)


def in_turn(keys=15_000, boundaries=6_500):
    """Retained items and insertions in turn, under annotations that both show alike; each boundary ends one of them."""
    starts = b"".join(text(key(number)) + value(None) + value("") for number in range(keys))
    parts = [b"\x0a" + struct.pack(">II", 0, keys) + starts]
    for number in range(boundaries):
        parts += [retain(1), b"\x02" + text("x"), boundary([number], [])]
    parts += [retain(1), boundary(range(boundaries, keys), [])]
    return operation(parts)


def measure(program, work, first, second, repeats, document=operation([])):
    """The nanoseconds for one time, what came of it, and the peak memory of the program in KiB."""
    with tempfile.TemporaryFile() as source, tempfile.TemporaryFile() as sink:
        source.write(first + second + document)
        source.seek(0)
        child = subprocess.Popen([program, work, str(repeats)], stdin=source, stdout=sink)
        _, status, usage = os.wait4(child.pid, 0)
        if status:
            sys.exit("%s %s ended with status %d" % (program, work, status))
        sink.seek(0)
        said = sink.read().decode()
    size, each = said.split(": ")[1].split(", ")
    return int(each.split()[0]), int(size), usage.ru_maxrss


def show(name, work, first, second, repeats):
    each, size, peak = measure(PROGRAM, work, first, second, repeats)
    print("%-28s %-10s %12.1f microseconds %9d KiB at the peak, result %d" % (name, work, each / 1000, peak, size), flush=True)


def letters(count):
    """An operation that makes a document of so many letters."""
    return operation([b"\x02" + text("abcdefghij" * (count // 10))])


def show_edits(count, repeats):
    before, behind = retain(count // 2), retain(count - count // 2)
    there = operation([before, b"\x02" + text("x"), behind])
    back = operation([before, b"\x05" + text("x"), behind])
    each, size, peak = measure(PROGRAM, "edit", there, back, repeats, letters(count))
    print("%9d letters, an edit %9.2f microseconds %9d KiB at the peak" % (size, each / 2000, peak), flush=True)


def show_marks(count):
    there, back = marked(count, None, "1"), marked(count, "1", None)
    each, _, peak = measure(PROGRAM, "edit", there, back, 3, letters(count))
    print("%9d letters, all of them marked, and then no more %9.1f milliseconds each %9d KiB at the peak" % (count, each / 2e6, peak), flush=True)


def show_inverses(count, repeats):
    there, more = count // 2, "abcdefghij" * 50
    for what, change, taken in (("inserts one letter", b"\x02" + text("x"), 0), ("deletes one", b"\x05" + text("a"), 1), ("deletes 500", b"\x05" + text(more), 500)):
        op = operation([part for part in (retain(there), change, retain(count - there - taken)) if part != retain(0)])
        each, _, peak = measure(PROGRAM, "invert", op, op, repeats, letters(count))
        print("%9d letters, the inverse of what %s %9.2f microseconds %9d KiB at the peak" % (count, what, each / 1000, peak), flush=True)


def main():
    for count in (1_000, 100_000, 1_000_000):
        show_edits(count, 20_000)
    for count in (1_000, 100_000):
        show_inverses(count, 20_000)
    for count in (1_000, 100_000, 1_000_000):
        show_marks(count)
    for count in (10, 100, 1_000):
        first, second = comb(count, ITEMS, "a"), comb(count, ITEMS, "b")
        onto = comb(count, ITEMS + count // 2, "c")
        repeats = 100_000 // count
        show("%d components" % count, "read", first, second, repeats)
        show("%d components" % count, "write", first, second, repeats)
        show("%d components" % count, "compose", first, onto, repeats)
        show("%d components" % count, "transform", first, second, repeats)
    made = hostile()
    for work in ("read", "write", "compose", "transform"):
        show("hostile, %d bytes" % len(made), work, made, made, 1)
    made = in_turn()
    for work in ("read", "write"):
        show("in turn, %d bytes" % len(made), work, made, made, 1)


HERE = os.path.dirname(os.path.abspath(__file__))
PROGRAM = sys.argv[1] if len(sys.argv) > 1 else os.path.join(HERE, "../crates/bench_operations/out/bench_operations")

if __name__ == "__main__":
    main()
