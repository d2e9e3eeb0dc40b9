"""Cases of the C interface's states that the texts of states.txt and encoder.txt can't say: blocks of another length, a mode or a flag over 1,
bytes that mean nothing, room for facts, and each order of refusals. Every answer is written here by hand, from docs/FORMAT.md and include/tromvask.h; the block
after an accepted call is the model's.
"""
import model
from model import Decoder, big
from wire import FILL, samples_of

# the example file of docs/FORMAT.md: one mono sample 0 at 44100 Hz
RUN = bytes.fromhex("716f6166000000010100ac4400010020000000000000000000000000e00040000000000000000000")
# the same as a stream
STREAM = RUN[:4] + bytes(4) + RUN[8:]
# a frame of nine channels, of another rate, one with a cut state, one whose header is bad
NINE = bytes.fromhex("0900ac4400010099")
OTHER = bytes.fromhex("0100ac45000100200000000000000000000000000000000000000000000000000000")
CUT = RUN[8:30]
BAD = bytes(8)


class Blocks:
    def __init__(self, lines):
        self.lines = lines

    def say(self, text):
        self.lines.remark("# " + text)

    def ask(self, name, answer, **given):
        self.lines.ask(name, answer, **given)

    # ---- blocks that are only written

    def opening(self):
        self.say("---- Opening into a block: as long as it has to be, longer, shorter; 7 comes last")
        self.ask("qoa_decoder_size", Decoder.SIZE)
        self.ask("qoa_encoder_size", model.ENCODER_SIZE)
        for data in (RUN, STREAM):
            block = model.open_decoder(data).block()
            for spare in (0, 1, 100):
                lent = FILL * (Decoder.SIZE + spare)
                self.ask("qoa_decoder_open", 0, bytes=data, state=lent, after={"state": block + lent[len(block) :]})
            for room in (0, 1, Decoder.SIZE - 1):
                self.ask("qoa_decoder_open", -7, bytes=data, state=FILL * room)
        refused = ((b"", 5), (RUN[:3], 5), (b"qoag" + RUN[4:], 1), (RUN[:7], 5), (RUN[:8], 2), (RUN[:15], 2), (RUN[:8] + BAD, 3))
        refused += ((RUN[:8] + NINE, 6), (RUN[:31], 5))
        for data, number in refused:
            self.ask("qoa_decoder_open", -number, bytes=data, state=FILL * Decoder.SIZE)
            self.ask("qoa_decoder_open", -number, bytes=data, state=FILL * 3)
        self.say("a stream of which no frame is read opens without one")
        lent = FILL * Decoder.SIZE
        self.ask("qoa_decoder_open", 0, bytes=STREAM[:8], state=lent, after={"state": model.open_decoder(STREAM[:8]).block()})

    def creating(self):
        self.say("---- A new encoder: 11, 12, 13, then 7")
        for numbers in ((1, 1, 1), (8, 16777215, 2**32 - 1)):
            block = model.encoder_block(model.create(*numbers))
            for spare in (0, 1, 100):
                lent = FILL * (model.ENCODER_SIZE + spare)
                self.ask("qoa_encoder_new", 0, numbers=numbers, state=lent, after={"state": block + lent[len(block) :]})
            for room in (0, 1, model.ENCODER_SIZE - 1):
                self.ask("qoa_encoder_new", -7, numbers=numbers, state=FILL * room)
        refused = (((0, 0, 0), 11), ((9, 0, 0), 11), ((255, 1, 1), 11), ((1, 0, 0), 12), ((1, 16777216, 0), 12), ((8, 2**32 - 1, 1), 12))
        refused += (((1, 1, 0), 13), ((8, 16777215, 0), 13))
        for numbers, number in refused:
            self.ask("qoa_encoder_new", -number, numbers=numbers, state=FILL * model.ENCODER_SIZE)
            self.ask("qoa_encoder_new", -number, numbers=numbers, state=b"")

    # ---- blocks that are read

    def refused_decoder(self, block, data):
        """8 in every call on a decoder, before all else, with every list as it was given."""
        lent, facts = FILL * 6, FILL * 12
        self.ask("qoa_decoder_into", -8, bytes=data, state=block, samples=lent)
        self.ask("qoa_decoder_into", -8, bytes=data, state=block)
        self.ask("qoa_decoder_next_frame", -8, bytes=data, state=block)
        self.ask("qoa_decoder_next_item", -8, bytes=data, state=block)
        self.ask("qoa_decoder_facts", -8, bytes=data, state=block, facts=facts)
        self.ask("qoa_decoder_facts", -8, bytes=data, state=block, facts=facts[:8])
        self.ask("qoa_decoder_seconds", -8.0, bytes=data, state=block)

    def bad_decoders(self):
        self.say("---- Blocks that are no decoder's state: of another length, a mode or a flag of 2 and more, 8 before 7")
        good = model.open_decoder(RUN).block()
        for block in (b"", good[:1], good[:-1], good + b"\0", good + good, FILL * Decoder.SIZE, b"\xff" * Decoder.SIZE):
            self.refused_decoder(block, RUN)
        for place, value in ((0, 2), (0, 255), (31, 2), (31, 255)):
            self.refused_decoder(good[:place] + bytes([value]) + good[place + 1 :], RUN)
        self.say("a place past the bytes, by the bytes and by the block")
        self.refused_decoder(good, RUN[:31])
        self.refused_decoder(good[:10] + big(41, 8) + good[18:], RUN)

    def accepted(self, name, block, data, answer, lent=None):
        """An accepted call, into the samples that are lent where any are: the block after it is the model's."""
        state = Decoder.read(block)
        if lent is not None:
            heard = samples_of(state.into(data, len(lent) // 2))
            value, given, after = len(heard) // 2, {"samples": lent}, {"samples": heard + lent[len(heard) :]}
        elif name == "qoa_decoder_next_frame":
            value, given, after = model.coded_frame(state.next_frame(data)), {}, {}
        else:
            value, given, after = model.coded_item(state.next_item(data)), {}, {}
        if value != answer:
            raise SystemExit("%s is to be answered %d, the model answers %d" % (name, answer, value))
        self.ask(name, answer, bytes=data, state=block, after={"state": state.block(), **after}, **given)
        return state.block()

    def each_call(self, block, data, answers):
        """Into, next frame and next item from the same block."""
        count, frame, item = answers
        self.accepted("qoa_decoder_into", block, data, count, FILL * 12)
        self.accepted("qoa_decoder_next_frame", block, data, frame)
        self.accepted("qoa_decoder_next_item", block, data, item)

    def junk(self):
        self.say("---- What means nothing, and is 0 in the block that is written")
        header = 2**60 + 2**48 + 44100 * 2**16 + 1
        fixed = model.open_decoder(RUN)
        fixed.lms = fixed.lms[:1] + [([2**31 - 1] * 4, [-(2**31)] * 4)] * 7
        fixed.pending = [-23131] * 160
        self.say("junk in unused channels and in every pending entry, where none is pending")
        self.each_call(fixed.raw(), RUN, (1, 0, header))
        self.say("the same with three pending from 4 to 7 of a frame that is done")
        fixed.remaining, fixed.place, fixed.next, fixed.end = 0, 40, 4, 7
        self.each_call(fixed.raw(), RUN, (3, 0, 2**61 + (-23131) % 2**16))
        self.say("a stream with junk in the three fields of the fixed mode")
        stream = model.open_decoder(STREAM)
        stream.total, stream.first_channels, stream.first_rate = 2**32 - 1, 255, 2**32 - 1
        self.each_call(stream.raw(), STREAM, (0, 2**48 + 44100 * 2**16 + 1, 2**60))
        block, facts = stream.raw(), FILL * 12
        self.ask("qoa_decoder_facts", 0, bytes=STREAM, state=block, facts=facts, after={"facts": bytes(12)})
        self.ask("qoa_decoder_seconds", 0.0, bytes=STREAM, state=block)
        self.say("an accepted call on no room writes the block anew too")
        self.accepted("qoa_decoder_into", fixed.raw(), RUN, 0, b"")
        self.say("a refused one leaves it as it was, junk and all")
        fixed.remaining, fixed.place, fixed.next, fixed.end = 1, 32, 0, 0
        lent = FILL * 6
        self.ask("qoa_decoder_into", -5, bytes=RUN[:39], state=fixed.raw(), samples=lent)
        self.ask("qoa_decoder_next_frame", -5, bytes=RUN[:39], state=fixed.raw())
        fixed.given = 1
        self.ask("qoa_decoder_next_item", -5, bytes=RUN[:39], state=fixed.raw())

    def moving(self):
        self.say("---- On to the next frame: 3, 6, 4, 5 in fixed mode, 3, 6, 5 in a stream, and a rate of 32 bits")
        for data, fixed, numbers in ((RUN, 1, (3, 6, 4, 5)), (STREAM, 0, (3, 6, None, 5))):
            state = model.open_decoder(data)
            if not fixed:
                state.next_frame(data)
            state.next_frame(data)
            block = state.block()
            for more, number in zip((BAD, NINE, OTHER, CUT), numbers):
                if number is not None:
                    self.ask("qoa_decoder_next_frame", -number, bytes=data + more, state=block)
                    self.ask("qoa_decoder_next_item", -number, bytes=data + more, state=block)
            for more in range(8):
                self.ask("qoa_decoder_next_frame", 0, bytes=data + bytes(more), state=block)
                self.ask("qoa_decoder_next_item", 0, bytes=data + bytes(more), state=block)
        self.accepted("qoa_decoder_next_frame", block, STREAM + OTHER, 2**48 + 44101 * 2**16 + 1)
        wide = Decoder((0, 0, 0, 0, 0, 8, 2**32 - 1, 65535))
        self.accepted("qoa_decoder_next_item", wide.raw(), b"", 2**60 + 8 * 2**48 + (2**32 - 1) * 2**16 + 65535)
        self.say("samples of both signs")
        wide = Decoder((0, 0, 0, 0, 0, 1, 5, 0, 0, 0, 3, 1), (), (-32768, -1, 32767))
        block = wide.raw()
        for sample in (0x8000, 0xFFFF, 0x7FFF):
            block = self.accepted("qoa_decoder_next_item", block, b"", 2**61 + sample)

    def facts(self):
        self.say("---- Room for facts: three numbers, more, fewer; 8 comes before 7")
        block = model.open_decoder(RUN).block()
        told = big(1, 4) + big(1, 4) + big(44100, 4)
        for count in (3, 4, 16):
            facts = FILL * 4 * count
            self.ask("qoa_decoder_facts", 0, bytes=RUN, state=block, facts=facts, after={"facts": told + facts[12:]})
        for count in (0, 1, 2):
            self.ask("qoa_decoder_facts", -7, bytes=RUN, state=block, facts=FILL * 4 * count)
            self.ask("qoa_decoder_facts", -8, bytes=RUN, state=block[:-1], facts=FILL * 4 * count)
        self.say("88200 samples at 44100 Hz")
        data = RUN[:4] + big(88200, 4) + RUN[8:]
        self.ask("qoa_decoder_seconds", 2.0, bytes=data, state=model.open_decoder(data).block())

    # ---- an encoder's blocks

    def refused_encoder(self, block):
        """8 in every call on an encoder, before 13 and 7."""
        for samples, room in ((bytes(2), 64), (b"", 0)):
            given = {"state": block, "samples": samples, "out": FILL * room}
            self.ask("qoa_encoder_frame", -8, **given)
            self.ask("qoa_encoder_file", -8, **given)
        self.ask("qoa_encoder_header", -8, state=block, out=FILL * 8)
        self.ask("qoa_encoder_header", -8, state=block, out=FILL * 7)

    def encoders(self):
        self.say("---- Blocks that are no encoder's state: of another length, each field at fault")
        good = model.encoder_block(model.create(1, 44100, 1))
        for block in (b"", good[:1], good[:-1], good + b"\0", good + good, FILL * len(good), b"\xff" * len(good), bytes(len(good))):
            self.refused_encoder(block)
        for place, field in ((0, b"\0"), (0, b"\x09"), (1, bytes(4)), (1, big(16777216, 4)), (5, bytes(4)), (9, big(32768, 4)), (21, big(-32769, 4))):
            self.refused_encoder(good[:place] + field + good[place + len(field) :])
        self.say("---- The file header: 8 bytes, 7 where there is less room; the block is only read")
        header = b"qoaf" + big(1, 4)
        for room in (8, 9, 20):
            lent = FILL * room
            self.ask("qoa_encoder_header", 8, state=good, out=lent, after={"out": header + lent[8:]})
        for room in (0, 1, 7):
            self.ask("qoa_encoder_header", -7, state=good, out=FILL * room)
        self.say("---- Junk in unused channels: 0 in the block that is written, as it was after a refusal")
        junk = good[:41] + b"\x7f\xff\xff\xff" * 56
        frame = RUN[8:]
        after = model.encoder_block((1, 44100, 1, [([0, 0, 0, 1], [0, 0, -8192, 16384])]))
        for name, out in (("qoa_encoder_frame", frame), ("qoa_encoder_file", RUN)):
            lent = FILL * (len(out) + 3)
            given = {"state": junk, "samples": bytes(2), "out": lent}
            self.ask(name, len(out), after={"state": after, "out": out + lent[len(out) :]}, **given)
            self.ask(name, -7, state=junk, samples=bytes(2), out=FILL * (len(out) - 1))
            self.ask(name, -13, state=junk, out=lent)
        self.ask("qoa_encoder_header", 8, state=junk, out=FILL * 8, after={"out": header})
        self.say("14 leaves the block as it was; of a frame it tells the channel, of a file the bytes too")
        wide = big(2, 1) + big(1, 4) + big(1, 4) + bytes(48) + big(32768, 4) + bytes(12) + b"\x55" * 192
        self.ask("qoa_encoder_frame", -(14 + 256), state=wide, samples=bytes(4), out=FILL * 56)
        lent = FILL * 64
        self.ask("qoa_encoder_file", -(14 + 256 + 65536 * 8), state=wide, samples=bytes(4), out=lent, after={"out": header + lent[8:]})

    # ---- lines that are no request

    def words(self):
        self.say("---- Lines that are no request")
        answers = (
            ("0", "not hex"),
            ("0g", "not hex"),
            ("0102000000010", "not hex"),
            ("0A", "not hex"),
            (" 01", "not hex"),
            ("ff", "no such call"),
            ("00", "no such call"),
            ("13", "no such call"),
            ("0100", "no such kind of list"),
            ("0107", "no such kind of list"),
            ("01ff00000000", "no such kind of list"),
            ("0102", "a list is cut, too long, or out of order"),
            ("0102000000", "a list is cut, too long, or out of order"),
            ("010200000001", "a list is cut, too long, or out of order"),
            ("01020000000171ff", "no such kind of list"),
            ("0105000000010000" + "0200000000", "a list is cut, too long, or out of order"),
            ("0102000000000200000000", "a list is cut, too long, or out of order"),
            ("0401" + "00000004" + "00" * 32, "a list is cut, too long, or out of order"),
            ("3103" + "00001001" + "00" * 4097, "a list is cut, too long, or out of order"),
        )
        for line, words in answers:
            self.lines.put(line, words)
        self.say("a line of 131072 digits is read, a longer one is not")
        data = 65536 - 6
        self.lines.put("01" + "02" + big(data, 4).hex() + "00" * data, big(-1, 8).hex())
        self.lines.put("0" * 131073, "line too long")
        self.lines.put("01", big(-5, 8).hex())


def put(lines):
    """Puts every case; answers how many lines they are."""
    before = lines.count
    cases = Blocks(lines)
    lines.remark("")
    for group in (cases.opening, cases.creating, cases.bad_decoders, cases.junk, cases.moving, cases.facts, cases.encoders, cases.words):
        group()
        lines.remark("")
    return lines.count - before
