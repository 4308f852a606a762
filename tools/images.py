#!/usr/bin/env python3
"""Writes images, by docs/IMAGES.md and independently of the product's code.

    tools/images.py example DIR     events.img and graph.img of the example that ships in crates/inspect/data
    tools/images.py largest FILE    a graph of 4,096 states with 1,024 exits each (about 17 MB)
    tools/images.py damaged FILE    the same, but the target of the very last exit is not below 4,096
"""
import struct
import sys

EVENTS, GRAPH = 1, 2


def image(kind, parts):
    """The header, a pair for each part, and the parts without gaps."""
    at = 4 + 8 * len(parts)
    pairs = b""
    for part in parts:
        pairs += struct.pack("<II", at, len(part))
        at += len(part)
    return struct.pack("<HH", kind, len(parts)) + pairs + b"".join(parts)


def state(line, exits):
    """The part of an open state; a closed one has the part b""."""
    return struct.pack("<I", line) + b"".join(struct.pack("<BBH", event, 0, target) for event, target in exits)


ISSUE, DONE, MISSED, TIMER = range(4)
EXAMPLE_EVENTS = [b"issue", b"done", b"missed", b"timer"]
# Garbage collection of a card controller: 0 idle, 1 erase issued, 2 waits with a timer, 3 the die maker's erase library, 4 gives up.
EXAMPLE_STATES = [
    state(118, [(ISSUE, 1)]),
    state(131, [(DONE, 0), (MISSED, 2)]),
    state(140, [(TIMER, 3)]),
    b"",
    state(163, []),
]


def largest(last_target):
    """Every state leaves to the states behind it, in turn."""
    states = [state(s, [(j % 64, (s + j) % 4096) for j in range(1024)]) for s in range(4095)]
    exits = [(j % 64, (4095 + j) % 4096) for j in range(1023)] + [(63, last_target)]
    return image(GRAPH, states + [state(4095, exits)])


def main():
    match sys.argv[1:]:
        case ["example", folder]:
            open(f"{folder}/events.img", "wb").write(image(EVENTS, EXAMPLE_EVENTS))
            open(f"{folder}/graph.img", "wb").write(image(GRAPH, EXAMPLE_STATES))
        case ["largest", path]:
            open(path, "wb").write(largest(0))
        case ["damaged", path]:
            open(path, "wb").write(largest(4096))
        case _:
            sys.exit(__doc__)


if __name__ == "__main__":
    main()
