#!/usr/bin/env python3
"""memory.py [MEGABYTES]: how much memory the program takes for files that are made to take much.

Each file is a store with areas of so many megabytes (16 where none are given), which is filled with one sort of record: many
small items, items with values, calls of live transactions, or records that are damaged at their end. `boost check` and `boost
show` are run on each, as they are built from crates/boost_main. Prints, for each file, how many bytes its records have, the
status of both, how much memory each took at its peak beyond what an empty store takes, and how many bytes that is for each
byte of the records.
"""
import multiprocessing
import os
import struct
import subprocess
import sys
import tempfile

TOP = os.path.dirname(os.path.dirname(os.path.realpath(__file__)))
BOOST = os.path.join(TOP, "crates/boost_main/out/boost_main")
SET, MAP, QUEUE, COUNTER, POOL, STOCK = range(1, 7)
MARKS, NAME, ITEM, LIVE_CALL, LIVE_LATER, IMAGE_END, BEGIN = 11, 7, 8, 9, 10, 12, 13
MAKE, CALL, COMMIT = 1, 2, 4
BODY = 65535


def u64(number):
    return struct.pack(">Q", number)


def value(length):
    return struct.pack(">H", length) + b"v" * length


def marks():
    return bytes([MARKS]) + u64(1 << 20) + u64(1 << 40)


def named(tag, kind, name):
    return bytes([tag, kind, len(name)]) + name


def begin(number):
    return bytes([BEGIN]) + u64(number)


def called(tag, number, at, call, reply, inverse):
    return bytes([tag]) + u64(number) + bytes([at]) + call + reply + inverse


def item(*parts):
    return bytes([ITEM]) + b"".join(parts)


# Each sort of file: the records of its image, and those of its journal, without an end.


def names():
    """256 collections with names of 64 bytes."""
    for at in range(256):
        kind = 1 + at % 6
        yield named(NAME, kind, b"%064d" % at)
        if kind in (COUNTER, STOCK):
            yield item(b"\0" * 16)


def items_of(kind, record):
    """A collection with as many items as fit."""
    yield named(NAME, kind, b"c")
    number = 0
    while True:
        yield record(number)
        number += 1


def live(calls, records):
    """A counter or a map, 64 live transactions, and so many calls of each."""
    yield from records
    for number in range(1, 65):
        yield begin(number)
    for turn in range(calls):
        for number in range(1, 65):
            yield turn, number


def live_bumps(tag):
    bump = bytes([12]) + u64(1)
    back = bytes([12]) + u64(2**64 - 1)
    for found in live(1024, [named(NAME, COUNTER, b"n"), item(b"\0" * 16)] if tag == LIVE_CALL else []):
        yield found if isinstance(found, bytes) else called(tag, found[1], 0, bump, b"\0", back)


def live_laters(kind, code):
    """Live transactions that deferred a bump of a counter, or a filling of a stock, by 1."""
    for found in live(1024, [named(NAME, kind, b"n"), item(b"\0" * 16)]):
        yield found if isinstance(found, bytes) else bytes([LIVE_LATER]) + u64(found[1]) + bytes([0, code]) + u64(1)


def live_puts():
    """Each live transaction puts keys of its own, so that all of them stand there."""
    yield named(NAME, MAP, b"m")
    keys = [number * 2048 + turn for number in range(1, 65) for turn in range(1024)]
    for key in keys:
        yield item(u64(key), value(256))
    for number in range(1, 65):
        yield begin(number)
    for turn in range(1024):
        for number in range(1, 65):
            key = u64(number * 2048 + turn)
            put = bytes([5]) + key + value(256)
            yield called(LIVE_CALL, number, 0, put, bytes([4]) + value(256), put)


def overwritten():
    """A journal of transactions that put one value again and again."""
    yield named(MAKE, MAP, b"m")
    number, last = 1, None
    while True:
        yield begin(number)
        put = bytes([5]) + u64(0) + value(256)
        reply, inverse = (bytes([4]) + value(256), put) if last else (bytes([3]), bytes([6]) + u64(0))
        yield called(CALL, number, 0, put, reply, inverse)
        yield bytes([COMMIT]) + u64(number)
        number, last = number + 1, True


def empty_transactions():
    number = 1
    while True:
        yield begin(number)
        yield bytes([COMMIT]) + u64(number)
        number += 1


SORTS = {
    "256 names of 64 bytes": (names, None),
    "a set": (lambda: items_of(SET, lambda n: item(u64(n))), None),
    "a pool": (lambda: items_of(POOL, lambda n: item(u64(n))), None),
    "a queue": (lambda: items_of(QUEUE, lambda n: item(u64(n), u64(n))), None),
    "a queue of one pair": (lambda: items_of(QUEUE, lambda n: item(u64(7), u64(7))), None),
    "a map of empty values": (lambda: items_of(MAP, lambda n: item(u64(n), value(0))), None),
    "a map of values of 1 byte": (lambda: items_of(MAP, lambda n: item(u64(n), value(1))), None),
    "a map of values of 256 bytes": (lambda: items_of(MAP, lambda n: item(u64(n), value(256))), None),
    "a set of one element again and again": (lambda: items_of(SET, lambda n: item(u64(7))), None),
    "64 live transactions of 1,024 bumps": (lambda: live_bumps(LIVE_CALL), None),
    "64 live transactions of 1,024 laters": (lambda: live_laters(COUNTER, 12), None),
    "64 live transactions of 1,024 fillings": (lambda: live_laters(STOCK, 19), None),
    "64 live transactions of 1,024 puts": (live_puts, None),
    "a journal of 64 live transactions of 1,024 bumps": (
        lambda: iter([named(NAME, COUNTER, b"n"), item(b"\0" * 16)]), lambda: live_bumps(CALL)),
    "a journal of one value put again": (lambda: iter([]), overwritten),
    "a journal of empty transactions": (lambda: iter([]), empty_transactions),
}


def blocks(records, room, end=b""):
    """Blocks of whole records, as many as fit into the room, and behind the last record the end."""
    out, body, used = [], [], 0

    def close():
        out.append(b"\xa7" + struct.pack(">I", used) + b"".join(body))
        body.clear()

    for record in records:
        if used + len(record) > BODY:
            room -= 5 + used
            close()
            used = 0
        if 5 + used + len(record) + len(end) + 6 > room:
            break
        body.append(record)
        used += len(record)
    if used + len(end) > BODY:
        close()
        used = 0
    body.append(end)
    used += len(end)
    if used:
        close()
    return b"".join(out)


def store(area, image, journal):
    """The bytes of a store, and how many of them are records."""
    head = bytearray(4096)
    head[:17] = b"BOOSTED1\xa7" + u64(area)
    room = area - 64
    made = blocks((record for part in ([marks()], image()) for record in part), room, bytes([IMAGE_END]))
    if journal:
        made += blocks(journal(), room - len(made))
    return bytes(head) + made + b"\0" * (2 * area - len(made)), len(made)


def peak(*words):
    """The status of a run, and the most memory that it had, in bytes."""
    with open(os.devnull, "wb") as null:
        run = subprocess.Popen([BOOST, *words], stdout=null, stderr=null)
        _, status, used = os.wait4(run.pid, 0)
        run.returncode = os.waitstatus_to_exitcode(status) if hasattr(os, "waitstatus_to_exitcode") else status >> 8
    return run.returncode, used.ru_maxrss * 1024


def main():
    # What a program has at its peak counts what the process had that started it. So a small one starts them all, which
    # is made before any file is.
    with multiprocessing.Pool(1) as starter:
        measure(int(sys.argv[1] if len(sys.argv) > 1 else "16") << 20, lambda *words: starter.apply(peak, words))


def measure(area, peak):
    """Prints what each sort of file takes, by what tells the status and the peak of a run."""
    with tempfile.TemporaryDirectory() as folder:
        path = os.path.join(folder, "disk")
        if peak("format", path, "--area", str(area))[0] != 0:
            raise SystemExit("memory: the program is not there")
        base = peak("check", path)[1]
        print(f"an empty store: {base >> 10} KB")
        for name, (image, journal) in SORTS.items():
            whole, used = store(area, image, journal)
            told = []
            for command in ("check", "show"):
                with open(path, "wb") as file:
                    file.write(whole)
                status, most = peak(command, path)
                told.append(f"{command} {status}: {max(0, most - base) >> 10} KB, {max(0, most - base) / used:.1f} a byte")
            print(f"{name}: {used >> 10} KB of records; {'; '.join(told)}", flush=True)


if __name__ == "__main__":
    main()
