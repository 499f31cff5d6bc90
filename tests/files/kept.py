"""Exports and messages as bytes, written from docs/design/BYTES.md alone: no code of the kit takes part."""
import uuid
import zlib

KINDS = {"sum+": 1, "sum": 0, "gauge": 2}
TAGS = {"sum+": 0, "sum": 0, "gauge": 1}


def number(n):
    """Groups of seven bits, the lowest first."""
    made = bytearray()
    while n > 127:
        made.append(n & 127 | 128)
        n >>= 7
    return bytes([*made, n])


def integer(n):
    return number(2 * n if n >= 0 else -2 * n - 1)


class Writing:
    """What is written so far, with the places of the texts that came."""

    def __init__(self, head):
        self.made, self.places = bytearray(head), {}

    def number(self, n):
        self.made += number(n)

    def text(self, text):
        if text in self.places:
            return self.number(self.places[text])
        raw = text.encode()
        if len(raw) <= 64:
            self.places[text] = len(self.places) + 1
        self.made += b"\0" + number(len(raw)) + raw

    def writer(self, service, instance):
        self.text(service)
        self.made += b"\x10" + uuid.UUID(int=instance).bytes

    def stream(self, stream):
        scope, name, unit, shape = stream
        for text in (scope, name, unit):
            self.text(text)
        if isinstance(shape, str):
            return self.number(KINDS[shape])
        self.made += b"\3" + number(len(shape)) + b"".join(map(integer, shape))

    def attributes(self, attrs):
        self.number(len(attrs))
        for key in sorted(attrs, key=str.encode):
            self.text(key)
            self.value(attrs[key])

    def value(self, value):
        if isinstance(value, str):
            self.number(0)
            return self.text(value)
        self.made += bytes([1 + value]) if isinstance(value, bool) else b"\3" + integer(value)

    def payload(self, shape, payload):
        if payload is None:
            self.made += b"\4"
        elif isinstance(shape, str):
            self.made += bytes([TAGS[shape]]) + integer(payload)
        else:
            total, buckets, span = payload
            self.made += bytes([3 if span else 2]) + number(sum(buckets)) + integer(total)
            self.made += number(len(buckets)) + b"".join(map(number, buckets)) + b"".join(map(integer, span or ()))

    def sealed(self):
        return bytes(self.made) + zlib.adler32(self.made).to_bytes(4, "big")


def export(service, instance, start, time, points):
    """The bytes of an export, each of whose points is a stream, attributes and a payload."""
    writing = Writing(b"KTSK\2")
    writing.writer(service, instance)
    writing.number(start)
    writing.number(time)
    writing.number(len(points))
    before = None
    for stream, attrs, payload in points:
        writing.number(int(stream != before))
        if stream != before:
            writing.stream(stream)
        before = stream
        writing.attributes(attrs)
        writing.payload(stream[3], payload)
    return writing.sealed()


def message(sender, receiver, cells, delta=None):
    """The bytes of a message with these cells, which stand in the order of their keys: writer, start, stream, attributes, time, payload."""
    writing = Writing(b"KTSM\2" + number(sender) + number(receiver) + (b"\0" if delta is None else b"\1" + number(delta)))
    writing.number(len(cells))
    before = (None, None)
    for writer, start, stream, attrs, time, payload in cells:
        shared = (before[0] == (writer, start)) + (before == ((writer, start), stream))
        writing.number(shared)
        if shared < 1:
            writing.writer(*writer)
            writing.number(start)
        if shared < 2:
            writing.stream(stream)
        before = ((writer, start), stream)
        writing.attributes(attrs)
        writing.number(time)
        writing.payload(stream[3], payload)
    return writing.sealed()


def ack(sender, receiver, change):
    writing = Writing(b"KTSM\2" + number(sender) + number(receiver) + b"\2" + number(change))
    return writing.sealed()
