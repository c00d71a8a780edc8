#!/usr/bin/env python3
"""The bench's listing, written a second time and apart from the bench.

    bench_reference.py make > crates/bench/stdin
    bench_reference.py list < crates/bench/stdin > crates/bench/stdout

`make` writes a tape with all nine tags and faults among them. `list` lists a tape by the rules of
docs/service.md and docs/tape.md. It knows no table and no search: whether numbers fit is asked of
the placements, by matching (each number in its first or its second bucket, four to a bucket).
"""
import random
import struct
import sys

BLOCKS, BOUND, BUCKETS, SLOTS, STREAMS, LONGEST = 8, 2**32 - 1, 2, 4, 4, 65535
LAYERS = {13: 1, 16: 1, 14: 2, 15: 2, 6: 4, 12: 4}
CONTENTS = {1: 4, 2: 4, 3: 4, 4: 4, 5: 4, 6: 12, 7: 4, 8: 4, 9: 0}


class Refused(Exception):
    pass


def homes(number):
    """The two buckets of an old-line number."""
    turned = ((number >> 8) | (number << 24)) & 0xFFFFFFFF
    digest = number + (turned << 32)
    return digest % BUCKETS, (digest >> 32) % BUCKETS


def fits(numbers):
    """Whether each number can be given one of its buckets, four numbers to a bucket at most."""
    placed = [[] for _ in range(BUCKETS)]

    def place(number, seen):
        for bucket in homes(number):
            if bucket in seen:
                continue
            seen.add(bucket)
            if len(placed[bucket]) < SLOTS:
                placed[bucket].append(number)
                return True
            for other in list(placed[bucket]):
                placed[bucket].remove(other)
                if place(other, seen):
                    placed[bucket].append(number)
                    return True
                placed[bucket].append(other)
        return False

    return all(place(number, set()) for number in numbers)


class Card:
    def __init__(self):
        self.waiting = list(range(BLOCKS))
        self.settled, self.streams, self.condemned = {}, {}, set()

    def give(self, number):
        """No number is out between two fields, so none is busy."""
        if number >= BOUND:
            raise Refused(3)
        return self.send(number)

    def send(self, number):
        if not self.waiting:
            raise Refused(5)
        if number not in self.settled and not fits([*self.settled, number]):
            raise Refused(6)
        return self.waiting.pop(0)

    def commit(self, number, block):
        if number in self.settled:
            self.waiting.append(self.settled[number])
        self.settled[number] = block

    def call(self, tag, contents):
        if tag in (1, 2, 3):
            (number,) = struct.unpack(">I", contents)
            block = self.give(number)
            if tag == 1:
                self.commit(number, block)
            elif tag == 2:
                self.waiting.append(block)
            else:
                self.condemned.add(block)
            return f"ok {block}"
        if tag in (4, 5):
            (number,) = struct.unpack(">I", contents)
            if number >= BOUND:
                raise Refused(3)
            block = self.settled.get(number)
            if tag == 5 and block is not None:
                del self.settled[number]
                self.waiting.append(block)
            return "none" if block is None else f"ok {block}"
        if tag == 6:
            label = contents[:4]
            first, length = struct.unpack(">II", contents[4:])
            if length == 0 or first + length > BOUND:
                raise Refused(11)
            if label in self.streams:
                raise Refused(8)
            if len(self.streams) == STREAMS:
                raise Refused(12)
            self.streams[label] = (first, first + length)
            return "ok"
        if tag in (7, 8):
            if contents not in self.streams:
                raise Refused(9)
            number, end = self.streams[contents]
            if tag == 8:
                del self.streams[contents]
                return f"ok {number}"
            if number == end:
                raise Refused(10)
            block = self.send(number)
            self.streams[contents] = (number + 1, end)
            self.commit(number, block)
            return f"ok {block}"
        counts = (len(self.waiting), 0, len(self.settled), len(self.condemned))
        return "tally " + " ".join(map(str, counts))


def fault(number):
    return f"fault {LAYERS.get(number, 3)} {number}"


def listing(tape):
    if len(tape) > LONGEST:
        yield 0, fault(16)
        return
    card, place = Card(), 0
    while place < len(tape):
        head = tape[place:place + 3]
        size = int.from_bytes(head[1:], "big")
        contents = tape[place + 3:place + 3 + size]
        if len(head) < 3 or len(contents) < size:
            yield place, fault(13)
            return
        if head[0] not in CONTENTS:
            yield place, fault(14)
        elif size != CONTENTS[head[0]]:
            yield place, fault(15)
        else:
            try:
                yield place, card.call(head[0], contents)
            except Refused as refused:
                yield place, fault(refused.args[0])
        place += 3 + size


def field(tag, contents=b""):
    return bytes([tag]) + struct.pack(">H", len(contents)) + contents


def sample():
    """Some kilobytes: the five fields of the README, a stream from its opening to its close, and a mix."""
    pick = random.Random(7)
    labels = [bytes(x) for x in ([1, 0, 2, 3], [0, 0, 0, 0], [255, 255, 255, 255], [1, 0, 2, 4], [7, 1, 0, 1])]
    numbers = [0, 2, 4, 6, 8, 10, 12, 14, 1, 256, 768, 131328, 2**32 - 2, 2**32 - 1]

    def number(tag, n):
        return field(tag, struct.pack(">I", n))

    def opening(label, first, length):
        return field(6, label + struct.pack(">II", first, length))

    yield number(1, 0) + number(4, 0) + number(4, 2) + field(9) + field(0x7F)
    yield opening(labels[0], 100, 3) + field(7, labels[0]) * 4 + field(8, labels[0]) * 2
    yield opening(labels[0], 100, 0) + opening(labels[0], 2**32 - 2, 2) + opening(labels[0], 2**32 - 1, 2**32 - 1)
    yield b"".join(opening(label, 0, 16) for label in labels) + opening(labels[0], 5, 5)
    for _ in range(640):
        tag = pick.choice([1, 1, 1, 1, 2, 4, 4, 5, 5, 5, 5, 6, 7, 7, 8, 9])
        if tag <= 5:
            yield number(tag, pick.choice(numbers))
        elif tag == 6:
            yield opening(pick.choice(labels), pick.choice(numbers), pick.choice([0, 1, 2, 3, 16, 2**32 - 1]))
        elif tag in (7, 8):
            yield field(tag, pick.choice(labels))
        else:
            yield field(9)
        if pick.random() < 0.02:
            yield field(pick.choice([0, 1, 6, 7, 9, 10, 200]), bytes(pick.randrange(5)))
        if pick.random() < 0.003:
            yield number(3, pick.choice(numbers))
    yield field(9) + number(1, 0)[:5]


def main():
    if sys.argv[1:] == ["make"]:
        sys.stdout.buffer.write(b"".join(sample()))
    elif sys.argv[1:] == ["list"]:
        for place, words in listing(sys.stdin.buffer.read()):
            print(place, words)
    else:
        sys.exit("usage: bench_reference.py make > TAPE, or bench_reference.py list < TAPE")


if __name__ == "__main__":
    main()
