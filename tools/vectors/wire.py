"""The lines of `replay`: a request and its answer as hex (tools/README.md, "vectors")."""
import struct

# what lent lists are filled with, so that a store can be seen
FILL = b"\x5a"

CALLS = {
    "qoa_decode_need": 0x01,
    "qoa_channels": 0x02,
    "qoa_rate": 0x03,
    "qoa_part_length": 0x04,
    "qoa_facts_total": 0x05,
    "qoa_facts_channels": 0x06,
    "qoa_facts_rate": 0x07,
    "qoa_facts_seconds": 0x08,
    "qoa_encode_need": 0x09,
    "qoa_div": 0x0A,
    "qoa_decode_all": 0x11,
    "qoa_decode_frames": 0x12,
    "qoa_encode_all": 0x21,
    "qoa_decoder_size": 0x31,
    "qoa_decoder_open": 0x32,
    "qoa_decoder_into": 0x33,
    "qoa_decoder_next_frame": 0x34,
    "qoa_decoder_next_item": 0x35,
    "qoa_decoder_facts": 0x36,
    "qoa_decoder_seconds": 0x37,
    "qoa_encoder_size": 0x41,
    "qoa_encoder_new": 0x42,
    "qoa_encoder_header": 0x43,
    "qoa_encoder_frame": 0x44,
    "qoa_encoder_file": 0x45,
}

# the kinds of lists that are given back, with the bytes of an element
LENT = (("state", 3, 1), ("out", 4, 1), ("samples", 5, 2), ("facts", 6, 4))


def samples_of(values):
    return struct.pack("<%dh" % len(values), *values)


def lay(kind, width, data):
    return bytes([kind]) + (len(data) // width).to_bytes(4, "big") + data


def request(name, numbers=(), bytes=b"", **lent):
    out = CALLS[name].to_bytes(1, "big")
    if numbers:
        out += lay(1, 8, b"".join(n.to_bytes(8, "big") for n in numbers))
    if bytes:
        out += lay(2, 1, bytes)
    return out + lists(lent)


def lists(lent):
    return b"".join(lay(kind, width, lent[name]) for name, kind, width in LENT if name in lent)


def reply(answer, lent):
    bits = struct.pack(">d", answer) if isinstance(answer, float) else (answer % 2**64).to_bytes(8, "big")
    return bits + lists(lent)


class Lines:
    def __init__(self):
        self.requests = []
        self.answers = []
        self.count = 0

    def remark(self, text):
        self.requests.append(text)
        self.answers.append(text)

    def put(self, line, answer):
        self.requests.append(line)
        self.answers.append(answer)
        self.count += 1

    def ask(self, name, answer, after=None, **given):
        """A call with its answer; lent lists that `after` does not name stay as they were given."""
        lent = {key: given[key] for key, _, _ in LENT if key in given}
        self.put(request(name, **given).hex(), reply(answer, {**lent, **(after or {})}).hex())

    def say(self, name, words, **given):
        """A call that is answered in words."""
        self.put(request(name, **given).hex(), words)
