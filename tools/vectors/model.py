"""A small model of the states, written from docs/FORMAT.md and the blocks of include/tromvask.h, apart from the proved code: the calls on an encoder
and on a decoder, and both states as blocks of bytes. make.py compares it with every recorded and hand-written answer of these calls, and
takes from it what a case does not tell: the block after a call.
"""
import struct

LIMIT = 8  # channels
SCALES = [1, 7, 21, 45, 84, 138, 211, 304, 421, 562, 731, 928, 1157, 1419, 1715, 2048]
ROWS = [[sign * m for m in ((3 * s + 2) // 4, (5 * s + 1) // 2, (9 * s + 1) // 2, 7 * s) for sign in (1, -1)] for s in SCALES]
RECIPROCALS = [-(-65536 // s) for s in SCALES]
CODES = [7, 7, 7, 5, 5, 3, 3, 1, 0, 0, 2, 2, 4, 4, 6, 6, 6]
NEW = ([0, 0, 0, 0], [0, 0, -8192, 16384])
NOTHING = ([0, 0, 0, 0], [0, 0, 0, 0])


class Refused(Exception):
    """A refusal by its number; 14 has the channel and the bytes that stand in the output."""

    def __init__(self, number, channel=0, out=b""):
        self.number, self.channel, self.out = number, channel, out


def wrapped(x):
    return (x + 2**31) % 2**32 - 2**31


def sign(x):
    return (x > 0) - (x < 0)


def clamp(x, low, high):
    return max(low, min(high, x))


def short(x):
    return -32768 <= x <= 32767


def big(x, n):
    return (x % 256**n).to_bytes(n, "big")


# ---- the predictor, and a slice either way

def divide(v, sf):
    n = wrapped(v * RECIPROCALS[sf] + 32768) >> 16
    return n + sign(v) - sign(n)


def predicted(lms):
    return wrapped(sum(h * w for h, w in zip(*lms))) >> 13


def moved(lms, value, heard):
    history, weights = lms
    return history[1:] + [heard], [w - (value >> 4) if h < 0 else w + (value >> 4) for h, w in zip(history, weights)]


def attempt(lms, sf, sample):
    """One sample: its code, its cost, and the predictor after it."""
    prediction = predicted(lms)
    code = CODES[clamp(divide(sample - prediction, sf), -8, 8) + 8]
    heard = clamp(prediction + ROWS[sf][code], -32768, 32767)
    penalty = max(0, (wrapped(sum(w * w for w in lms[1])) >> 18) - 2303)
    return code, (sample - heard) ** 2 + penalty**2, moved(lms, ROWS[sf][code], heard)


def encode_slice(lms, samples):
    best, won = float("inf"), None
    for first, sf in sorted((attempt(lms, sf, samples[0])[1], sf) for sf in range(16)):
        if first > best:
            break
        rank, word, after = 0, sf, lms
        for i, sample in enumerate(samples):
            code, cost, after = attempt(after, sf, sample)
            rank, word = rank + cost, word << 3 | code
            if rank > best or (i == 10 and 2 * rank > best):
                break
        else:
            if rank < best:
                best, won = rank, (word << 3 * (20 - len(samples)), after)
    return won


def decode_slice(lms, word):
    """Twenty samples, and the predictor after them."""
    samples = []
    for i in range(20):
        value = ROWS[word >> 60][word >> 57 - 3 * i & 7]
        samples.append(clamp(predicted(lms) + value, -32768, 32767))
        lms = moved(lms, value, samples[-1])
    return samples, lms


# ---- an encoder's state: channels, rate, total, and a predictor for each channel

def create(c, rate, total):
    if not 1 <= c <= LIMIT:
        raise Refused(11)
    if not 1 <= rate <= 16777215:
        raise Refused(12)
    if total == 0:
        raise Refused(13)
    return c, rate, total, [NEW] * c


def check_encoder(state):
    try:
        create(*state[:3])
    except Refused:
        raise Refused(8)
    if any(not short(h) for history, _ in state[3][: state[0]] for h in history):
        raise Refused(8)


def check_weights(state, out):
    for j, (_, weights) in enumerate(state[3][: state[0]]):
        if not all(map(short, weights)):
            raise Refused(14, j, out)


def file_header(state, room):
    check_encoder(state)
    if room < 8:
        raise Refused(7)
    return b"qoaf" + big(state[2], 4)


def put_frame(state, samples):
    c, rate, total, lms = state
    n = len(samples) // c
    groups = -(-n // 20)
    out = big(c, 1) + big(rate, 3) + big(n, 2) + big(8 + 16 * c + 8 * c * groups, 2)
    out += b"".join(big(x, 2) for history, weights in lms[:c] for x in history + weights)
    lms = list(lms)
    for g in range(groups):
        for j in range(c):
            word, lms[j] = encode_slice(lms[j], samples[j::c][20 * g : 20 * g + 20])
            out += big(word, 8)
    return out, (c, rate, total, lms[:c])


def encode_frame(state, samples, room):
    """A frame's bytes, and the state after it."""
    check_encoder(state)
    c = state[0]
    if len(samples) == 0 or len(samples) % c or len(samples) // c > 5120:
        raise Refused(13)
    if room < frame_need(c, len(samples) // c):
        raise Refused(7)
    check_weights(state, b"")
    return put_frame(state, samples)


def frame_need(c, n):
    return 8 + 16 * c + 8 * c * -(-n // 20)


def file_need(c, total):
    return 8 + -(-total // 5120) * (8 + 16 * c) + 8 * c * -(-total // 20)


def encode_file(state, samples, room):
    check_encoder(state)
    c, _, total, _ = state
    if len(samples) != total * c:
        raise Refused(13)
    if room < file_need(c, total):
        raise Refused(7)
    out, after = b"qoaf" + big(total, 4), state
    for start in range(0, len(samples), 5120 * c):
        check_weights(after, out)
        more, after = put_frame(after, samples[start : start + 5120 * c])
        out += more
    return out, after


def predictors(lms, c):
    every = (list(lms) + [NOTHING] * LIMIT)[:c] + [NOTHING] * (LIMIT - min(c, LIMIT))
    return b"".join(big(x, 4) for history, weights in every[:LIMIT] for x in history + weights)


def encoder_block(state):
    c, rate, total, lms = state
    return big(c, 1) + big(rate, 4) + big(total, 4) + predictors(lms, c)


def read_predictors(data):
    values = struct.unpack(">%di" % (8 * LIMIT), data)
    return [(list(values[8 * j : 8 * j + 4]), list(values[8 * j + 4 : 8 * j + 8])) for j in range(LIMIT)]


ENCODER_SIZE = 9 + 32 * LIMIT


def read_encoder(block):
    if len(block) != ENCODER_SIZE:
        raise Refused(8)
    c, rate, total = struct.unpack(">BII", block[:9])
    return c, rate, total, read_predictors(block[9:])


# ---- a decoder's state

class Decoder:
    FIELDS = ("mode", "total", "first_channels", "first_rate", "place", "channels", "rate", "samples", "remaining", "next", "end", "given")
    LAYOUT = ">BIBIQBIHHHHB"
    SIZE = 32 + 72 * LIMIT

    def __init__(self, fields=(), lms=(), pending=()):
        fields = tuple(fields) + (0,) * 12
        for name, value in zip(self.FIELDS, fields):
            setattr(self, name, value)
        self.lms = (list(lms) + [NOTHING] * LIMIT)[:LIMIT]
        self.pending = (list(pending) + [0] * 20 * LIMIT)[: 20 * LIMIT]

    def fields(self):
        return [getattr(self, name) for name in self.FIELDS]

    def copy(self):
        return Decoder(self.fields(), self.lms, self.pending)

    # the block that a call writes: a function of the view
    def block(self):
        fields = self.fields()
        if self.mode == 0:
            fields[1:4] = [0, 0, 0]
        kept = [x if self.next <= i < self.end else 0 for i, x in enumerate(self.pending)]
        return struct.pack(self.LAYOUT, *fields) + predictors(self.lms, self.channels) + b"".join(big(x, 2) for x in kept)

    # any block of the right length as it stands
    def raw(self):
        return struct.pack(self.LAYOUT, *self.fields()) + predictors(self.lms, LIMIT) + b"".join(big(x, 2) for x in self.pending)

    @staticmethod
    def read(block):
        if len(block) != Decoder.SIZE or block[0] > 1 or block[31] > 1:
            raise Refused(8)
        pending = struct.unpack(">%dh" % (20 * LIMIT), block[32 + 32 * LIMIT :])
        return Decoder(struct.unpack(Decoder.LAYOUT, block[:32]), read_predictors(block[32 : 32 + 32 * LIMIT]), pending)

    def check(self, data):
        most = 32768 + 17920 * (3277 - -(-self.remaining // 20))
        fixed = self.total >= 1 and 1 <= self.first_channels <= LIMIT and 1 <= self.first_rate <= 16777215
        good = (
            self.place <= len(data)
            and (self.mode == 0 or fixed)
            and self.channels <= LIMIT
            and (self.channels >= 1 or self.remaining == 0)
            and self.remaining <= self.samples
            and self.next <= self.end <= 20 * self.channels
            and all(short(h) for history, _ in self.lms[: self.channels] for h in history)
            and all(abs(w) <= most for _, weights in self.lms[: self.channels] for w in weights)
        )
        if not good:
            raise Refused(8)

    # ---- the calls: each changes the state, which is a copy that the caller drops on a refusal

    def settle(self):
        """An accepted call that leaves no sample pending sets next and end to 0."""
        if self.next == self.end:
            self.next = self.end = 0

    def group(self, data):
        """The next slice group: its samples, which are pending now."""
        c = self.channels
        if len(data) - self.place < 8 * c:
            raise Refused(5)
        count = min(20, self.remaining)
        for j in range(c):
            word = int.from_bytes(data[self.place + 8 * j : self.place + 8 * j + 8], "big")
            heard, self.lms[j] = decode_slice(self.lms[j], word)
            self.pending[j : count * c : c] = heard[:count]
        self.place += 8 * c
        self.remaining -= count
        self.next, self.end = 0, count * c

    def into(self, data, room):
        self.check(data)
        self.given = 1
        got = []
        while True:
            n = min(room - len(got), self.end - self.next)
            got += self.pending[self.next : self.next + n]
            self.next += n
            if len(got) == room or self.remaining == 0:
                break
            self.group(data)
        self.settle()
        return got

    def frame(self, data):
        """The frame header and predictor state at the place; nothing at the end."""
        rest = data[self.place :]
        if len(rest) < 8:
            return None
        c, rate, n, size = rest[0], int.from_bytes(rest[1:4], "big"), int.from_bytes(rest[4:6], "big"), int.from_bytes(rest[6:8], "big")
        slices = (size - 8 - 16 * c) // 8
        if c == 0 or rate == 0 or size <= 8 + 16 * c or slices % c or slices // c > 256:
            raise Refused(3)
        if c > LIMIT:
            raise Refused(6)
        if self.mode == 1 and (c, rate) != (self.first_channels, self.first_rate):
            raise Refused(4)
        if len(rest) < 8 + 16 * c:
            raise Refused(5)
        values = struct.unpack(">%dh" % (8 * c), rest[8 : 8 + 16 * c])
        for j in range(c):
            self.lms[j] = (list(values[8 * j : 8 * j + 4]), list(values[8 * j + 4 : 8 * j + 8]))
        self.place += 8 + 16 * c
        self.channels, self.rate, self.samples, self.remaining = c, rate, n, n
        return c, rate, n

    def next_frame(self, data):
        self.check(data)
        while self.remaining:
            self.group(data)
        self.next = self.end = 0
        self.given = 1
        return self.frame(data)

    def next_item(self, data):
        """`("sample", x)`, `("header", (c, rate, n))` or nothing at the end."""
        self.check(data)
        if self.next == self.end and self.given == 0:
            self.given = 1
            self.settle()
            return "header", (self.channels, self.rate, self.samples)
        if self.next == self.end and self.remaining == 0:
            self.settle()
            found = self.frame(data)
            return None if found is None else ("header", found)
        if self.next == self.end:
            self.group(data)
        x = self.pending[self.next]
        self.next += 1
        self.settle()
        return "sample", x

    def facts(self, data):
        self.check(data)
        if self.mode == 1:
            return self.total, self.first_channels, self.first_rate
        return 0, self.channels, self.rate

    def seconds(self, data):
        self.check(data)
        return self.total / self.first_rate if self.mode == 1 else 0.0


def coded_frame(found):
    """The answer to a frame, or to none."""
    return 0 if found is None else found[0] * 2**48 + found[1] * 2**16 + found[2]


def coded_item(item):
    if item is None:
        return 0
    kind, value = item
    return 2**60 + coded_frame(value) if kind == "header" else 2**61 + value % 2**16


def open_decoder(data):
    if len(data) < 4:
        raise Refused(5)
    if data[:4] != b"qoaf":
        raise Refused(1)
    if len(data) < 8:
        raise Refused(5)
    total = int.from_bytes(data[4:8], "big")
    state = Decoder((0, 0, 0, 0, 8))
    if total != 0:
        found = state.frame(data)
        if found is None:
            raise Refused(2)
        state.mode, state.total, state.first_channels, state.first_rate = 1, total, found[0], found[1]
    return state
