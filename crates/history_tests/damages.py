#!/usr/bin/env python3
"""What becomes of the worked journal where one of its bytes is another, or where it is cut: the rows of src/damages.rt.

`damages.py` works each case out by the grammar of docs/FORMATS.md, and fails where a row of the table says another or a case has
no row. `damages.py --print` prints the rows. Nothing here follows the crate's own way: a file is split into bodies, a body into
words, and a history of one process is judged by its paths.
"""
import os
import re
import sys

FILE = bytes.fromhex(
    "7470736c02000000" "010b00" "0001010003616464000000" "011f00" "0101000000"
) + b"process a c x add 1 5 end\n" + bytes.fromhex("010800" "0201000000000000" "010500" "0301000000" "00")

NAME = re.compile(rb"[a-z][a-z0-9_]{0,31}")
NUMBER = re.compile(rb"0|[1-9][0-9]*")
AMOUNT = re.compile(rb"0|-?[1-9][0-9]*")
# The options of each kind in their order, each with its numbers and the one that is left out.
OPTIONS = {
    b"c": [(b"undo", 1, 64, 3), (b"refuse", 0, 99, 0), (b"undorefuse", 0, 99, 0)],
    b"p": [(b"refuse", 0, 99, 0)],
    b"r": [(b"tries", 1, 64, 3), (b"refuse", 0, 99, 0)],
}


class Refused(Exception):
    """Why a file is no journal."""


def bodies(file):
    """The bodies of a log of file 0."""
    if file[:8] not in (b"tpsl\x01\x00\x00\x00", b"tpsl\x02\x00\x00\x00"):
        raise Refused("BadHeader")
    found, at = [], 8
    while True:
        number = len(found) + 1
        if at >= len(file):
            raise Refused(f"BadRecord({number})")
        if file[at] == 0:
            return found
        size = int.from_bytes(file[at + 1:at + 3], "little")
        if at + 3 + size > len(file):
            raise Refused(f"BadRecord({number})")
        found.append(file[at + 3:at + 3 + size])
        at += 3 + size


def takes(subsystem, verb):
    """Whether a subsystem takes the verb of a code: add, take, look, put, hold, free."""
    kinds = [(0, 1, 2)] * 4 + [(2, 3)] * 2 + [(2, 4, 5)] * 2
    return subsystem < 8 and verb in kinds[subsystem]


def catalog(data):
    """The names of the operations of a catalog that is all of the bytes, or None."""
    if len(data) < 3 or data[0] not in (1, 2):
        return None
    count, at, names = int.from_bytes(data[1:3], "little"), 3, []
    if count > 256:
        return None
    for _ in range(count):
        if at >= len(data):
            return None
        end = at + 1 + data[at]
        name = data[at + 1:end]
        if end + 2 > len(data) or not NAME.fullmatch(name) or name in names or not takes(data[end], data[end + 1]):
            return None
        names.append(name)
        at = end + 2
    # A pair has a code up to 1 in version 1, and up to 2 in version 2.
    pairs = data[at:]
    if len(pairs) != count * (count + 1) // 2 or any(pair > data[0] for pair in pairs):
        return None
    return names


def step(words, operations):
    """The kind of the step in front of these words, and the words behind it; None where there is none."""
    if len(words) < 5 or words[0] not in OPTIONS or words[2] not in operations:
        return None
    if not NAME.fullmatch(words[1]) or not NUMBER.fullmatch(words[3]) or not AMOUNT.fullmatch(words[4]):
        return None
    if int(words[3]) > 4294967295 or abs(int(words[4])) > 1000000000:
        return None
    rest = words[5:]
    for option, least, most, usual in OPTIONS[words[0]]:
        if rest[:1] == [option]:
            number = rest[1:2]
            if not number or not NUMBER.fullmatch(number[0]) or not least <= int(number[0]) <= most or int(number[0]) == usual:
                return None
            rest = rest[2:]
    return words[0], rest


def process(text, operations):
    """The kinds of a process without choices whose canonical text this is, or None. No case here has a choice."""
    if not text.endswith(b"\n"):
        return None
    words = text[:-1].split(b" ")
    if words[:1] != [b"process"] or len(words) < 3 or not NAME.fullmatch(words[1]) or words[-1] != b"end":
        return None
    kinds, names, rest = [], [], words[2:-1]
    while rest:
        found = step(rest, operations)
        if found is None or rest[1] in names:
            return None
        names.append(rest[1])
        kinds.append(found[0])
        rest = found[1]
    # A step that can be refused behind a commit point gets the process stuck.
    fixed = [at for at, kind in enumerate(kinds) if kind != b"c"]
    stuck = any(kind != b"r" for kind in kinds[fixed[0] + 1:]) if fixed else False
    return kinds if 0 < len(kinds) <= 256 and not stuck else None


def events(found):
    """How many events the history of these bodies has."""
    operations = catalog(found[0][1:]) if found and found[0][:1] == b"\x00" else None
    if operations is None:
        raise Refused("BadRecord(1)")
    started = []
    for number, body in enumerate(found[1:], 2):
        tag, process_number = body[:1], int.from_bytes(body[1:5], "little")
        one = started[process_number - 1] if 0 < process_number <= len(started) else None
        if tag == b"\x01" and len(body) >= 5:
            kinds = process(body[5:], operations)
            if kinds is None:
                raise Refused(f"BadRecord({number})")
            allowed = process_number == len(started) + 1
            one = {"kinds": kinds, "net": [], "done": [], "active": True}
            started.append(one)
        elif tag == b"\x02" and len(body) == 8 and body[7] < 2:
            done = int.from_bytes(body[5:7], "little")
            allowed = one is not None and one["active"]
            if allowed and body[7]:
                allowed = one["net"][-1:] == [done] and one["kinds"][done] == b"c"
                one["net"] = one["net"][:-1]
            elif allowed:
                allowed = done == len(one["net"]) < len(one["kinds"]) and all(done > other for other in one["done"])
                one["net"] = one["net"] + [done]
                one["done"].append(done)
        elif tag == b"\x03" and len(body) == 5:
            allowed = one is not None and one["active"] and len(one["net"]) in (0, len(one["kinds"]))
            if allowed:
                one["active"] = False
        else:
            raise Refused(f"BadRecord({number})")
        if not allowed:
            raise Refused(f"BadHistory({number})")
    return len(found) - 1


def answer(file):
    """What opening a file answers, as the table has it."""
    try:
        return f"Ok({events(bodies(file))})"
    except Refused as refused:
        return f"Err(JournalError::{refused})"


def in_rows():
    """Places, each from one on and below another, and bytes, each from one on and below another, that have one answer there."""
    rows = []
    for place in range(len(FILE)):
        runs = []
        for byte in range(256):
            if byte == FILE[place]:
                continue
            told = answer(FILE[:place] + bytes([byte]) + FILE[place + 1:])
            if runs and runs[-1][2] == told:
                runs[-1][1] = byte + 1
            else:
                runs.append([byte, byte + 1, told])
        runs[0][0], runs[-1][1] = 0, 256
        if rows and rows[-1][2] == runs:
            rows[-1][1] = place + 1
        else:
            rows.append([place, place + 1, runs])
    return [(first, last, *run) for first, last, runs in rows for run in runs]


def cuts():
    """The lengths to which the file may be cut, from one on and below another, with one answer."""
    rows = []
    for length in range(len(FILE)):
        told = answer(FILE[:length])
        if rows and rows[-1][2] == told:
            rows[-1][1] = length + 1
        else:
            rows.append([length, length + 1, told])
    return rows


def lines():
    """The rows as they stand in the table, each with the least, a middle and the greatest of its bytes."""
    for row in in_rows():
        place, behind, byte, beyond, told = row
        yield "    (%d, %d, %d, %d, %d, %s)," % (place, behind, byte, (byte + beyond) // 2, beyond - 1, told)
    for row in cuts():
        yield "    (%d, %d, %s)," % tuple(row)


def main():
    if sys.argv[1:] == ["--print"]:
        print("\n".join(lines()))
        return
    table = os.path.join(os.path.dirname(os.path.abspath(__file__)), "src", "damages.rt")
    with open(table) as text:
        stands = [line.rstrip("\n") for line in text if re.match(r"    \(\d+, \d+, ", line)]
    if stands != list(lines()):
        print("damages.py: the table of damages says another than the format", file=sys.stderr)
        sys.exit(1)


if __name__ == "__main__":
    main()
