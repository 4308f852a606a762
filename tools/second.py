"""A second program: judges and prints images by docs/IMAGES.md and docs/REFUSALS.md, independently of the product's code."""
import re
import struct

EVENTS, GRAPH = 1, 2
NAME = re.compile(rb"[a-z][a-z0-9_]*")


class Refused(Exception):
    """A reason by its number, and a place."""

    def __init__(self, number, place):
        super().__init__(number, place)
        self.number, self.place = number, place


def parts_of(kind, data):
    """The pairs of an image of this kind, as (offset, length)."""
    if len(data) < 4:
        raise Refused(1, 0)
    found, count = struct.unpack_from("<HH", data)
    if found != kind:
        raise Refused(2, 0)
    if count > (64 if kind == EVENTS else 4096) or (kind == EVENTS and count == 0):
        raise Refused(3, 2)
    if len(data) < 4 + 8 * count:
        raise Refused(4, len(data))
    pairs = [struct.unpack_from("<II", data, 4 + 8 * i) for i in range(count)]
    end = 4 + 8 * count
    for i, (offset, size) in enumerate(pairs):
        if offset < end or offset + size > len(data):
            raise Refused(5, 4 + 8 * i)
        end = offset + size
    return pairs


def events(data):
    """The names of an event list."""
    pairs = parts_of(EVENTS, data)
    for i, (_, size) in enumerate(pairs):
        if not 1 <= size <= 16:
            raise Refused(6, 4 + 8 * i)
    names = [data[offset : offset + size] for offset, size in pairs]
    for (offset, size), name in zip(pairs, names):
        fits = NAME.match(name)
        length = fits.end() if fits else 0
        if length < size:
            raise Refused(7, offset + length)
    for i, name in enumerate(names):
        if name in names[:i]:
            raise Refused(8, 4 + 8 * i)
    return names


def graph(data):
    """The states of a graph: None where closed, else its line and its exits."""
    pairs = parts_of(GRAPH, data)
    for i, (_, size) in enumerate(pairs):
        if size not in range(0, 4101, 4):
            raise Refused(6, 4 + 8 * i)
    for offset, size in pairs:
        for at in range(offset + 4, offset + size, 4):
            event, zero, target = struct.unpack_from("<BBH", data, at)
            if event > 63 or zero or target >= len(pairs):
                raise Refused(7, at)
    states = []
    for offset, size in pairs:
        if size == 0:
            states.append(None)
        else:
            exits = [struct.unpack_from("<BBH", data, at)[::2] for at in range(offset + 4, offset + size, 4)]
            states.append((struct.unpack_from("<I", data, offset)[0], exits))
    return states


def verdict(kind, data):
    """`accepted`, or `refused NUMBER PLACE DEPTH`: no refusal of an image has a depth but 0."""
    try:
        (events if kind == EVENTS else graph)(data)
        return "accepted"
    except Refused as why:
        return f"refused {why.number} {why.place} 0"


def events_text(names):
    return [f"events {len(names)}"] + [f"event {i} {name.decode()}" for i, name in enumerate(names)]


def states_text(names, states):
    lines = [f"states {len(states)}"]
    for s, state in enumerate(states):
        if state is None:
            lines.append(f"state {s} closed 31 0")
            continue
        line, exits = state
        lines.append(f"state {s} line {line} exits {len(exits)}")
        for event, target in exits:
            name = names[event].decode() if event < len(names) else "-"
            lines.append(f"exit {event} {name} {target}")
    return lines
