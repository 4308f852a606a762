#!/usr/bin/env python3
"""Writes the table of crates/trials: its input, and the answers that are expected.

    tools/cases.py DIR      DIR/stdin and DIR/stdout

The answer of each named case is written here by hand, and the second program must agree with it; those of the sweeps
(every value of every byte of an image) and of the damaged images come from the second program.
"""
import random
import struct
import sys

from images import EXAMPLE_EVENTS, EXAMPLE_STATES, image, state
from second import EVENTS, GRAPH, events, events_text, graph, states_text, verdict

OK = "accepted"


def refused(number, place):
    return f"refused {number} {place} 0"


def header(kind, count):
    return struct.pack("<HH", kind, count)


def pair(offset, size):
    return struct.pack("<II", offset, size)


# state 0 (line 10) leaves by event 0 to 1 and by event 1 to 2, state 1 is closed, state 2 (line 30) has no exits
THREE = image(GRAPH, [state(10, [(0, 1), (1, 2)]), b"", state(30, [])])
assert len(THREE) == 44
LETTERS = [bytes([a, b]) for a in b"abcdefgh" for b in b"abcdefgh"]

NAMED = [
    # too short, and as short as can be
    ("events-0-bytes", EVENTS, b"", refused(1, 0)),
    ("events-1-byte", EVENTS, b"\1", refused(1, 0)),
    ("events-3-bytes", EVENTS, b"\1\0\1", refused(1, 0)),
    ("events-4-bytes", EVENTS, header(1, 1), refused(4, 4)),
    ("graph-0-bytes", GRAPH, b"", refused(1, 0)),
    ("graph-1-byte", GRAPH, b"\2", refused(1, 0)),
    ("graph-3-bytes", GRAPH, b"\2\0\0", refused(1, 0)),
    ("graph-of-no-states", GRAPH, header(2, 0), OK),
    ("graph-of-no-states-and-more", GRAPH, header(2, 0) + b"abc", OK),
    # kinds
    ("events-kind-0", EVENTS, image(0, [b"a"]), refused(2, 0)),
    ("events-kind-2", EVENTS, image(2, [b"a"]), refused(2, 0)),
    ("events-kind-256", EVENTS, image(256, [b"a"]), refused(2, 0)),
    ("graph-kind-1", GRAPH, image(1, [b""]), refused(2, 0)),
    ("graph-kind-3", GRAPH, image(3, [b""]), refused(2, 0)),
    ("graph-kind-512", GRAPH, image(512, [b""]), refused(2, 0)),
    # counts
    ("events-count-0", EVENTS, image(1, []), refused(3, 2)),
    ("events-count-1", EVENTS, image(1, [b"a"]), OK),
    ("events-count-64", EVENTS, image(1, LETTERS), OK),
    ("events-count-65", EVENTS, image(1, LETTERS + [b"z"]), refused(3, 2)),
    ("events-count-256", EVENTS, header(1, 256), refused(3, 2)),
    ("graph-count-1", GRAPH, image(2, [b""]), OK),
    ("graph-count-4096", GRAPH, image(2, [b""] * 4096), OK),
    ("graph-count-4097", GRAPH, image(2, [b""] * 4097), refused(3, 2)),
    ("graph-count-65535", GRAPH, header(2, 65535), refused(3, 2)),
    # pairs cut short
    ("events-pairs-cut", EVENTS, image(1, [b"a"])[:11], refused(4, 11)),
    ("graph-pairs-cut", GRAPH, THREE[:27], refused(4, 27)),
    ("graph-pairs-whole", GRAPH, THREE[:28], refused(5, 4)),
    # where parts lie
    ("first-before-pairs-end", EVENTS, header(1, 1) + pair(11, 1) + b"a", refused(5, 4)),
    ("first-at-pairs-end", EVENTS, header(1, 1) + pair(12, 1) + b"a", OK),
    ("first-behind-a-gap", EVENTS, header(1, 1) + pair(14, 1) + b"??a", OK),
    ("bytes-behind-the-last", EVENTS, header(1, 1) + pair(12, 1) + b"a??", OK),
    ("parts-touch", EVENTS, header(1, 2) + pair(20, 2) + pair(22, 1) + b"abc", OK),
    ("parts-overlap", EVENTS, header(1, 2) + pair(20, 2) + pair(21, 2) + b"abc", refused(5, 12)),
    ("parts-swapped", EVENTS, header(1, 2) + pair(21, 1) + pair(20, 1) + b"ab", refused(5, 12)),
    ("part-ends-at-the-end", EVENTS, header(1, 1) + pair(12, 3) + b"abc", OK),
    ("part-ends-behind-the-end", EVENTS, header(1, 1) + pair(12, 4) + b"abc", refused(5, 4)),
    ("part-begins-behind-the-end", EVENTS, header(1, 1) + pair(16, 1) + b"abc", refused(5, 4)),
    ("offset-over-all", EVENTS, header(1, 1) + pair(0xFFFFFFFF, 1) + b"abc", refused(5, 4)),
    ("sum-past-32-bits", EVENTS, header(1, 1) + pair(0xFFFFFFF0, 0x20) + b"abc", refused(5, 4)),
    ("sum-past-32-bits-inside", EVENTS, header(1, 1) + pair(0xFFFFFFFF, 14) + b"abc", refused(5, 4)),
    ("length-over-all", EVENTS, header(1, 1) + pair(12, 0xFFFFFFFF) + b"abc", refused(5, 4)),
    ("empty-at-the-end", GRAPH, header(2, 1) + pair(12, 0), OK),
    ("empty-behind-the-end", GRAPH, header(2, 1) + pair(13, 0), refused(5, 4)),
    ("empty-before-pairs-end", GRAPH, header(2, 1) + pair(11, 0), refused(5, 4)),
    ("empty-out-of-order", GRAPH, header(2, 2) + pair(20, 4) + pair(20, 0) + b"\0" * 4, refused(5, 12)),
    ("empty-in-order", GRAPH, header(2, 3) + pair(28, 0) + pair(28, 4) + pair(32, 0) + b"\0" * 4, OK),
    # lengths of names
    ("name-of-0", EVENTS, image(1, [b""]), refused(6, 4)),
    ("name-of-1", EVENTS, image(1, [b"a"]), OK),
    ("name-of-16", EVENTS, image(1, [b"abcdefgh_1234567"]), OK),
    ("name-of-17", EVENTS, image(1, [b"abcdefgh_12345678"]), refused(6, 4)),
    ("second-name-of-0", EVENTS, image(1, [b"a", b"", b""]), refused(6, 12)),
    # lengths of states
    ("state-of-0", GRAPH, image(2, [b""]), OK),
    ("state-of-1", GRAPH, image(2, [b"\0"]), refused(6, 4)),
    ("state-of-2", GRAPH, image(2, [b"\0\0"]), refused(6, 4)),
    ("state-of-3", GRAPH, image(2, [b"\0\0\0"]), refused(6, 4)),
    ("state-of-4", GRAPH, image(2, [b"\0" * 4]), OK),
    ("state-of-6", GRAPH, image(2, [b"\0" * 6]), refused(6, 4)),
    ("state-of-4100", GRAPH, image(2, [b"\0" * 4100]), OK),
    ("state-of-4102", GRAPH, image(2, [b"\0" * 4102]), refused(6, 4)),
    ("state-of-4104", GRAPH, image(2, [b"\0" * 4104]), refused(6, 4)),
    ("second-state-of-6", GRAPH, image(2, [b"\0" * 4, b"\0" * 6, b"\0"]), refused(6, 12)),
    # names
    ("digit-first", EVENTS, image(1, [b"1a"]), refused(7, 12)),
    ("underscore-first", EVENTS, image(1, [b"_a"]), refused(7, 12)),
    ("capital-inside", EVENTS, image(1, [b"aBc"]), refused(7, 13)),
    ("high-byte-last", EVENTS, image(1, [b"abc\xff"]), refused(7, 15)),
    ("second-name-wrong", EVENTS, image(1, [b"ab", b"c-d"]), refused(7, 23)),
    # exits
    ("event-63", GRAPH, image(2, [state(0, [(63, 0)])]), OK),
    ("event-64", GRAPH, image(2, [state(0, [(64, 0)])]), refused(7, 16)),
    ("event-255", GRAPH, image(2, [state(0, [(0, 0), (255, 0)])]), refused(7, 20)),
    ("target-last", GRAPH, image(2, [state(0, [(0, 2)]), b"", b""]), OK),
    ("target-outside", GRAPH, image(2, [state(0, [(0, 3)]), b"", b""]), refused(7, 32)),
    ("target-swapped", GRAPH, image(2, [state(0, [(0, 256)]), b"", b""]), refused(7, 32)),
    ("second-byte-1", GRAPH, header(2, 1) + pair(12, 8) + b"\0\0\0\0\0\1\0\0", refused(7, 16)),
    ("second-state-wrong", GRAPH, image(2, [state(9, [(0, 0)]), state(9, [(0, 0), (0, 2)])]), refused(7, 36)),
    # names repeated
    ("repeated-at-once", EVENTS, image(1, [b"ab", b"ab"]), refused(8, 12)),
    ("repeated-later", EVENTS, image(1, [b"ab", b"c", b"ab"]), refused(8, 20)),
    ("two-repeated", EVENTS, image(1, [b"a", b"b", b"c", b"b", b"a"]), refused(8, 28)),
    ("thrice", EVENTS, image(1, [b"a", b"a", b"a"]), refused(8, 12)),
    ("a-front-is-another-name", EVENTS, image(1, [b"ab", b"a", b"abc"]), OK),
    # two faults at once, in both orders
    ("kind-and-count", EVENTS, header(2, 65), refused(2, 0)),
    ("count-and-pairs", EVENTS, header(1, 65), refused(3, 2)),
    ("pairs-and-place", EVENTS, header(1, 2) + pair(0, 1) + b"abc", refused(4, 15)),
    ("place-then-length", EVENTS, header(1, 2) + pair(19, 1) + pair(20, 17) + b"a" * 17, refused(5, 4)),
    ("length-then-place", EVENTS, header(1, 2) + pair(20, 17) + pair(36, 1) + b"a" * 17, refused(5, 12)),
    ("length-then-form", EVENTS, image(1, [b"", b"A"]), refused(6, 4)),
    ("form-then-length", EVENTS, image(1, [b"A", b""]), refused(6, 12)),
    ("form-then-repeat", EVENTS, image(1, [b"A", b"b", b"b"]), refused(7, 28)),
    ("repeat-then-form", EVENTS, image(1, [b"b", b"b", b"A"]), refused(7, 30)),
    ("form-then-form", EVENTS, image(1, [b"aB", b"C"]), refused(7, 21)),
    ("graph-length-then-place", GRAPH, header(2, 2) + pair(20, 5) + pair(24, 4) + b"\0" * 8, refused(5, 12)),
    ("graph-exit-then-length", GRAPH, image(2, [state(0, [(64, 0)]), b"\0"]), refused(6, 12)),
    ("graph-length-then-exit", GRAPH, image(2, [b"\0", state(0, [(64, 0)])]), refused(6, 4)),
    ("graph-exit-then-exit", GRAPH, image(2, [state(0, [(0, 0), (0, 9)]), state(0, [(64, 0)])]), refused(7, 28)),
]


def damaged(rng, kind):
    """A small image with some bytes changed, cut or added."""
    if kind == EVENTS:
        names = [bytes(rng.choice(b"abz09_") for _ in range(rng.randint(1, 4))) for _ in range(rng.randint(1, 4))]
        data = bytearray(image(EVENTS, [b"a" + name for name in names]))
    else:
        n = rng.randint(0, 4)
        exits = [[(rng.randrange(64), rng.randrange(n)) for _ in range(rng.randint(0, 2))] for _ in range(n)]
        data = bytearray(image(GRAPH, [state(rng.randrange(2**32), xs) if rng.random() < 0.7 else b"" for xs in exits]))
    for _ in range(rng.choice([0, 1, 1, 2])):
        at = rng.randrange(len(data))
        data[at] = rng.choice([0, 1, 2, 4, 16, 20, 28, 64, 97, 255, rng.randrange(256), data[at] ^ 1])
    if rng.random() < 0.2:
        del data[rng.randrange(len(data)) :]
    return bytes(data)


def swept(kind, data):
    """For each byte of an image, what becomes of the image with each value of that byte: runs of values with one answer."""
    lines = []
    for at in range(len(data)):
        answers = [verdict(kind, data[:at] + bytes([b]) + data[at + 1 :]) for b in range(256)]
        first = 0
        for b in range(256):
            if b == 255 or answers[b + 1] != answers[b]:
                lines.append(f"{at} {first} {b} {answers[b]}")
                first = b + 1
    return lines


def main():
    table, answers = [], []

    def case(label, word, kind, data):
        table.append(f"{label} {word} {data.hex()}")
        answers.append(f"{label} {verdict(kind, data)}")

    def events_case(label, data):
        case(label, "events", EVENTS, data)
        if answers[-1].endswith(OK):
            answers.extend(events_text(events(data)))

    for label, kind, data, answer in NAMED:
        assert verdict(kind, data) == answer, (label, verdict(kind, data), answer)
        if kind == EVENTS:
            events_case(label, data)
        else:
            case(label, "graph", kind, data)
    events_case("two-events", image(EVENTS, [b"a", b"b"]))
    case("three-states", "show", GRAPH, THREE)
    answers.extend(states_text([b"a", b"b"], graph(THREE)))
    events_case("four-events", image(EVENTS, EXAMPLE_EVENTS))
    names = EXAMPLE_EVENTS
    example = image(GRAPH, EXAMPLE_STATES)
    case("example", "show", GRAPH, example)
    answers.extend(states_text(names, graph(example)))
    for label, word, kind, data in (
        ("every-byte-of-names", "sweep-events", EVENTS, image(EVENTS, [b"ab", b"c_1"])),
        ("every-byte-of-a-long-name", "sweep-events", EVENTS, image(EVENTS, [b"abcdefgh_1234567"])),
        ("every-byte-of-states", "sweep-graph", GRAPH, THREE),
    ):
        table.append(f"{label} {word} {data.hex()}")
        answers.append(label)
        answers.extend(swept(kind, data))
    rng = random.Random(20261118)
    for i in range(150):
        events_case(f"damaged-events-{i}", damaged(rng, EVENTS))
        if answers[-1].startswith("event "):
            names = events(bytes.fromhex(table[-1].split(" ")[2]))
        data = damaged(rng, GRAPH)
        case(f"damaged-graph-{i}", "show", GRAPH, data)
        if answers[-1].endswith(OK):
            answers.extend(states_text(names, graph(data)))
    folder = sys.argv[1]
    open(f"{folder}/stdin", "w").write("\n".join(table) + "\n")
    open(f"{folder}/stdout", "w").write("\n".join(answers) + "\n")


if __name__ == "__main__":
    main()
