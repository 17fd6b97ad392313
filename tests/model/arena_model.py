"""An independent model of document 01's arena and its byte files, for tests.

Written from the document alone: it shares no code and no idea with crates/ (dictionaries here, searches over blocks there).
"""

import operator

BLOCK = 512
PAYLOAD = 480
LIMIT = 4_294_967_295
META = (0, bytes(16))


class Refused(Exception):
    def __init__(self, reason):
        super().__init__(reason)
        self.reason = reason


def check_sum(block):
    return sum(map(operator.mul, range(1, 509), block))


def sealed(block):
    return bytes(block[:508]) + check_sum(block).to_bytes(4, "little")


def number_at(block):
    return int.from_bytes(block[20:24], "little")


def made(tag, file, number, payload=bytes(PAYLOAD)):
    which, name = file
    return sealed(bytes([tag, which, 0, 0]) + name + number.to_bytes(4, "little") + payload + bytes(8))


def legal(arena):
    return len(arena) % BLOCK == 0 and 16 <= len(arena) // BLOCK <= 4096


def sound(arena):
    """Every clause of document 01's paragraph, in its order."""
    heads, datas = {}, {}
    for k in range(len(arena) // BLOCK):
        b = arena[k * BLOCK:(k + 1) * BLOCK]
        if b[0] == 0:
            if any(b):
                return False
            continue
        if b[0] > 2 or b[1] > 1 or b[2] or b[3]:
            return False
        if b[1] == 0 and any(b[4:20]):
            return False
        if b[0] == 1 and any(b[24:504]):
            return False
        if any(b[504:508]) or int.from_bytes(b[508:512], "little") != check_sum(b):
            return False
        file = (b[1], bytes(b[4:20]))
        if b[0] == 1:
            if file in heads:
                return False
            heads[file] = number_at(b)
        else:
            if (file, number_at(b)) in datas:
                return False
            datas[(file, number_at(b))] = b[24:504]
    for (file, number), payload in datas.items():
        if file not in heads or PAYLOAD * number >= heads[file]:
            return False
        if any(payload[max(0, heads[file] - PAYLOAD * number):]):
            return False
    return True


class Arena:
    """A sound arena, kept as its blocks; each store either happens whole or raises Refused and changes nothing."""

    def __init__(self, blocks):
        self.blocks = [bytes(BLOCK)] * blocks

    def bytes(self):
        return b"".join(self.blocks)

    def place(self, tag, file, number=None):
        for k, b in enumerate(self.blocks):
            if b[0] == tag and (b[1], b[4:20]) == file and (number is None or number_at(b) == number):
                return k
        return None

    def free(self):
        return [k for k, b in enumerate(self.blocks) if b[0] == 0]

    def length(self, file):
        head = self.place(1, file)
        if head is None:
            raise Refused(19)
        return number_at(self.blocks[head])

    def payload(self, file, number):
        k = self.place(2, file, number)
        return bytes(PAYLOAD) if k is None else self.blocks[k][24:504]

    def span(self, file, pos, n):
        """The bytes from pos on; past the length they are zeros, as in an absent block."""
        return bytes(self.payload(file, p // PAYLOAD)[p % PAYLOAD] for p in range(pos, pos + n))

    def read(self, file, pos, n):
        if pos + n > self.length(file):
            raise Refused(19)
        return self.span(file, pos, n)

    def put(self, file, pos, data):
        old = self.length(file)
        end = pos + len(data)
        if end > LIMIT:
            raise Refused(17)
        touched = range(pos // PAYLOAD, (end - 1) // PAYLOAD + 1) if data else range(0)
        absent = [q for q in touched if self.place(2, file, q) is None]
        free = self.free()
        if len(absent) > len(free):
            raise Refused(17)
        places = dict(zip(absent, free))
        if end > old:
            self.blocks[self.place(1, file)] = made(1, file, end)
        for q in touched:
            payload = bytearray(self.payload(file, q))
            for p in range(max(pos, q * PAYLOAD), min(end, q * PAYLOAD + PAYLOAD)):
                payload[p - q * PAYLOAD] = data[p - pos]
            k = places.get(q)
            if k is None:
                k = self.place(2, file, q)
            self.blocks[k] = made(2, file, q, bytes(payload))

    def cut(self, file, size):
        self.length(file)
        if size > LIMIT:
            raise Refused(17)
        for k, b in enumerate(self.blocks):
            if b[0] == 2 and (b[1], b[4:20]) == file:
                kept = size - PAYLOAD * number_at(b)
                if kept <= 0:
                    self.blocks[k] = bytes(BLOCK)
                elif kept < PAYLOAD:
                    self.blocks[k] = made(2, file, number_at(b), b[24:24 + kept] + bytes(PAYLOAD - kept))
        self.blocks[self.place(1, file)] = made(1, file, size)

    def make(self, file):
        free = self.free()
        if not free:
            raise Refused(17)
        self.blocks[free[0]] = made(1, file, 0)

    def drop(self, file):
        self.length(file)
        self.blocks = [bytes(BLOCK) if b[0] and (b[1], b[4:20]) == file else b for b in self.blocks]


PRIME = 4_294_967_291
PART = 8192
# The powers of 257 by which a part's bytes count, the first byte's first.
POWERS = [pow(257, PART - 1 - i, PRIME) for i in range(PART)]


def sum_of(data):
    """The sum that call scripts print: h becomes (h x 257 + b + 1) mod 4,294,967,291 with each byte b."""
    h = 0
    for at in range(0, len(data), PART):
        part = data[at:at + PART]
        powers = POWERS[PART - len(part):]
        h = (h * pow(257, len(part), PRIME) + sum(map(operator.mul, powers, part)) + sum(powers)) % PRIME
    return h
