#!/usr/bin/env python3
"""Makes crates/replay/stdin and crates/replay/stdout: requests for the program `replay`, and the answers that it must give.

From vectors.txt, the source's recorded answers (`oracle vectors`), each turned into the refusals' numbers and words; from states.txt and
encoder.txt, cases written by hand; and from blocks.py, cases of blocks that only the C interface can be given. A case of several calls is
several lines. A case that docs/DIFFERENCES.md lists is marked by a comment with its number there. The answers are those of the cases; the
state's block after a call, which no case tells, is model.py's, which has to give every answer of a case too. Run it from the root:

    python3 tools/vectors/make.py            writes both files, and prints how many cases and lines there are
    python3 tools/vectors/make.py --check    compares them with what it would write
"""
import fnmatch
import re
import struct
import sys

import blocks
import model
from model import Decoder, Refused, big
from wire import FILL, Lines, samples_of

HERE = "tools/vectors/"
STDIN = "crates/replay/stdin"
STDOUT = "crates/replay/stdout"

REFUSALS = {
    "NotQoaFile": 1,
    "NoSamples": 2,
    "InvalidFrameHeader": 3,
    "IncompatibleFrame": 4,
    "IoError(UnexpectedEof)": 5,
    "InvalidChannels": 11,
    "InvalidSampleRate": 12,
    "InvalidSamples": 13,
}

# verb and name of a case, its number in docs/DIFFERENCES.md, and the port's refusal
DIFFERENCES = [
    ("decode", "nine-first-*", 1, 6),
    ("decode", "nine-second-*", 2, 6),
    ("frames", "*-tail-1", 8, 5),
    ("frames", "*-tail-7", 8, 5),
    ("encode", "creation 1 16777216 1", 6, 12),
    ("encode", "creation 8 16777216 1", 6, 12),
]

# room beyond the need, so that a store past the count would be seen
SPARE = 7
# one accepted decode or encode in so many is asked with the exact room too, and with one sample or byte less
SOME = 8


def refused(number):
    return "refused %d" % number


def data_of(word):
    return b"" if word == "-" else bytes.fromhex(word)


def written_out(word):
    """`00*16` is the byte 00 sixteen times, and `+` puts parts together; any other word stays as it is."""
    if re.fullmatch(r"[0-9a-f]+(\*[0-9]+)?(\+[0-9a-f]+(\*[0-9]+)?)*", word) is None:
        return word
    parts = [part.split("*") for part in word.split("+")]
    return "".join(part[0] * int(part[1]) if len(part) == 2 else part[0] for part in parts)


def difference(verb, name):
    for kind, pattern, number, refusal in DIFFERENCES:
        if kind == verb and fnmatch.fnmatch(name, pattern):
            return number, refusal
    return None


def numbers_in(text):
    return [] if text == "-" else [int(x) for x in text.split(",")]


def predictors_in(text):
    values = numbers_in(text)
    values += [0] * (8 * model.LIMIT - len(values))
    return [(values[8 * j : 8 * j + 4], values[8 * j + 4 : 8 * j + 8]) for j in range(model.LIMIT)]


def decoder_in(text):
    head, lms, pending = text.split("/")
    fields = numbers_in(head)
    return Decoder(fields, predictors_in(lms), numbers_in(pending))


def listed(values):
    return ",".join(str(x) for x in values) or "-"


def view(state):
    lms = [x for history, weights in state.lms[: state.channels] for x in history + weights]
    return "%s/%s/%s" % (listed(state.fields()), listed(lms), listed(state.pending[state.next : state.end]))


def encoder_in(text):
    """The state, and the block of it, with unused channels as they are given."""
    head, lms = text.split("/")
    c, rate, total = (numbers_in(head) + [0, 0, 0])[:3]
    lms = predictors_in(lms)
    return (c, rate, total, lms), big(c, 1) + big(rate, 4) + big(total, 4) + model.predictors(lms, model.LIMIT)


def encoder_text(state):
    c, rate, total, lms = state
    return "%d,%d,%d/%s" % (c, rate, total, listed(x for history, weights in lms[:c] for x in history + weights))


def answered(call, *args):
    """What a call of the model gives, or its refusal."""
    try:
        return call(*args), None
    except Refused as refusal:
        return None, refusal


class Cases:
    """Each case as lines: `ask` puts one call's request and answer."""

    def __init__(self):
        self.lines = Lines()
        self.count = 0
        self.differing = 0
        self.accepted = 0
        self.modelled = 0

    # ---- the source's list

    def listed(self, verb, name, words):
        """The refusal of a listed difference, with its comment, or nothing."""
        found = difference(verb, name)
        if found is None:
            self.lines.remark("# %s %s" % (verb, name))
            return None
        number, refusal = found
        self.differing += 1
        said = " ".join(words)
        said = said if len(said) <= 60 else said[:57] + "..."
        self.lines.remark("# %s %s, difference %d: the source says %s" % (verb, name, number, said))
        return refused(refusal)

    def recorded_one(self, verb, name, numbers, data, words, need):
        """A recorded decode, frames or encode. An accepted one has more room than it needs, and at times the exact room and less."""
        answer = self.listed(verb, " ".join([name] + numbers), words)
        if answer is None and words[0] in REFUSALS:
            answer = refused(REFUSALS[words[0]])
        if answer is not None:
            self.case([verb] + numbers + ["100", data], answer)
            return
        self.case([verb] + numbers + [str(need + SPARE), data], " ".join(words))
        self.accepted += 1
        if self.accepted % SOME == 0:
            self.case([verb] + numbers + [str(need), data], " ".join(words))
            if need > 0:
                self.lines.remark("# difference 3: the source has no room to be too small")
                self.case([verb] + numbers + [str(need - 1), data], refused(7))

    def recorded(self, line):
        said, answer = line.split(" =", 1)
        verb, name, *data = said.split(" ")
        words = answer.split()
        if verb in ("decode", "frames", "encode"):
            need = len(data_of(words[-1])) // (1 if verb == "encode" else 2) if words[0] == "ok" else 0
            self.recorded_one(verb, name, data[:-1], data[-1], words, need)
        elif verb == "pieces":
            self.recorded_pieces(name, data, words)
        else:
            script = data[1] if verb == "calls" else ",".join("i" for _ in words)
            self.recorded_calls(verb, name, data[0], script, words)

    def recorded_pieces(self, name, data, words):
        """The source answers with the samples per channel before a frame's bytes (difference 15)."""
        self.lines.remark("# pieces %s" % name)
        answers = [refused(REFUSALS[word]) if word in REFUSALS else "ok " + word.split(":")[1] for word in words[1:]]
        self.case(["pieces"] + data[:3] + data[3].split("/"), " ; ".join(["ok", "ok " + words[0]] + answers))

    def recorded_calls(self, verb, name, data, script, words):
        """The source stops at its first error, so there may be fewer answers than steps. Every list here opens."""
        self.lines.remark("# %s %s" % (verb, name))
        steps = script.split(",")[: len(words)]
        ops = [{"i": "n", "n": "f"}.get(step, step.replace("d:", "i")) for step in steps]
        answers = [self.recorded_step(step, word) for step, word in zip(steps, words)]
        self.case(["calls", data] + ops, " ; ".join(["ok"] + answers))

    def recorded_step(self, step, word):
        if word == "end":
            return word
        if word in REFUSALS:
            return refused(REFUSALS[word])
        fields = word.split(":")
        if fields[0] == "H":
            return " ".join(["header" if step == "i" else "ok"] + fields[1:])
        if fields[0] == "S":
            return "sample " + fields[1]
        return "ok " + fields[1]

    def written(self, text):
        """Cases by hand: a request, then its answer after `= `. Empty lines and comments stand in both files."""
        request = None
        for line in text.splitlines():
            if line.startswith("= "):
                self.case([written_out(word) for word in request.split(" ")], line[2:])
                request = None
                continue
            if request is not None:
                raise SystemExit("no answer: " + request)
            if line == "" or line.startswith("#"):
                self.lines.remark(line)
            else:
                request = line

    # ---- a case as lines

    def case(self, request, answer):
        verb, *fields = request
        getattr(self, "ask_" + verb)(fields, answer)
        self.count += 1

    def ask(self, name, answer, **given):
        self.lines.ask(name, answer, **given)

    def agreed(self, request, expected, modelled):
        """A case's answer has to be the model's too."""
        if expected != modelled:
            raise SystemExit("%s\nis to be answered\n%s\nthe model answers\n%s" % (request, expected, modelled))
        self.modelled += 1

    def ask_decode(self, fields, answer):
        room, data = int(fields[0]), data_of(fields[1])
        words = answer.split(" ")
        lent = FILL * 2 * room
        if words[0] == "refused":
            number = int(words[1])
            self.ask("qoa_decode_all", -number, bytes=data, samples=lent)
            if number != 7:
                for name in ("qoa_decode_need", "qoa_channels", "qoa_rate"):
                    self.ask(name, -number, bytes=data)
            return
        heard = data_of(words[3])
        self.ask("qoa_decode_all", len(heard) // 2, bytes=data, samples=lent, after={"samples": heard + lent[len(heard) :]})
        self.ask("qoa_decode_need", len(heard) // 2, bytes=data)
        self.ask("qoa_channels", int(words[1]), bytes=data)
        self.ask("qoa_rate", int(words[2]), bytes=data)

    def ask_frames(self, fields, answer):
        room, data = int(fields[0]), data_of(fields[1])
        words = answer.split(" ")
        lent = FILL * 2 * room
        if words[0] == "refused":
            self.ask("qoa_decode_frames", -int(words[1]), bytes=data, samples=lent)
            return
        heard = data_of(words[1])
        self.ask("qoa_decode_frames", len(heard) // 2, bytes=data, samples=lent, after={"samples": heard + lent[len(heard) :]})

    def ask_part(self, fields, answer):
        at, data = int(fields[0]), data_of(fields[1])
        words = answer.split(" ")
        if words[0] == "refused":
            self.ask("qoa_part_length", -int(words[1]), numbers=[at], bytes=data)
            return
        part = data_of(words[1])
        if data[at : at + len(part)] != part:
            raise SystemExit("no part of the bytes: " + answer)
        self.ask("qoa_part_length", len(part), numbers=[at], bytes=data)

    def ask_facts(self, fields, answer):
        data = data_of(fields[0])
        words = answer.split(" ")
        if words[0] == "refused":
            values = [-int(words[1])] * 3 + [float(-int(words[1]))]
        else:
            values = [int(word) for word in words[1:4]] + [struct.unpack(">d", data_of(words[5]))[0]]
        for name, value in zip(("total", "channels", "rate", "seconds"), values):
            self.ask("qoa_facts_" + name, value, bytes=data)

    def ask_div(self, fields, answer):
        v, sf = int(fields[0]), int(fields[1])
        words = answer.split(" ")
        if words[0] == "ok":
            self.agreed(fields, int(words[1]), model.divide(v, sf))
            self.ask("qoa_div", int(words[1]), numbers=[v % 2**64, sf])
        else:
            self.lines.say("qoa_div", answer, numbers=[v % 2**64, sf])

    # ---- a decoder's state

    def ask_calls(self, fields, answer):
        data = data_of(fields[0])
        answers = answer.split(" ; ")
        state, refusal = answered(model.open_decoder, data)
        self.agreed(fields, answers[0], "ok" if refusal is None else refused(refusal.number))
        lent = FILL * (Decoder.SIZE + SPARE)
        if refusal is not None:
            self.ask("qoa_decoder_open", -refusal.number, bytes=data, state=lent)
            return
        block = state.block()
        self.ask("qoa_decoder_open", 0, bytes=data, state=lent, after={"state": block + lent[len(block) :]})
        self.steps(state, block, data, fields[1:], answers[1:])

    def ask_from(self, fields, answer):
        state = decoder_in(fields[0])
        self.steps(state, state.raw(), data_of(fields[1]), fields[2:], answer.split(" ; "))

    def steps(self, state, block, data, ops, answers):
        if len(ops) != len(answers):
            raise SystemExit("not an answer to each step: " + " ".join(ops))
        for op, expected in zip(ops, answers):
            call = {"i": self.step_into, "f": self.step_frame, "n": self.step_item, "s": self.step_facts, "v": self.step_view}[op[0]]
            state, block = call(state, block, data, op, expected)

    def step_view(self, state, block, data, op, expected):
        self.agreed(op, expected, view(state))
        return state, block

    def stepped(self, name, state, block, data, call, given=None):
        """A call on a copy: its answer and the state after it, or the refusal, which is a line of its own."""
        after = state.copy()
        got, refusal = answered(getattr(after, call), data, *([] if given is None else [given]))
        if refusal is None:
            return got, after, None
        return None, state, refused(refusal.number)

    def step_into(self, state, block, data, op, expected):
        room = int(op[1:])
        got, after, refusal = self.stepped("into", state, block, data, "into", room)
        lent = FILL * 2 * room
        self.agreed(op, expected, refusal or "ok " + (samples_of(got).hex() or "-"))
        if refusal:
            self.ask("qoa_decoder_into", -int(refusal.split()[1]), bytes=data, state=block, samples=lent)
            return state, block
        heard = data_of(expected.split(" ")[1])
        told = {"state": after.block(), "samples": heard + lent[len(heard) :]}
        self.ask("qoa_decoder_into", len(got), bytes=data, state=block, samples=lent, after=told)
        return after, after.block()

    def step_frame(self, state, block, data, op, expected):
        got, after, refusal = self.stepped("frame", state, block, data, "next_frame")
        self.agreed(op, expected, refusal or ("end" if got is None else "ok %d %d %d" % got))
        if refusal:
            self.ask("qoa_decoder_next_frame", -int(refusal.split()[1]), bytes=data, state=block)
            return state, block
        self.ask("qoa_decoder_next_frame", model.coded_frame(got), bytes=data, state=block, after={"state": after.block()})
        return after, after.block()

    def step_item(self, state, block, data, op, expected):
        got, after, refusal = self.stepped("item", state, block, data, "next_item")
        said = refusal or ("end" if got is None else "header %d %d %d" % got[1] if got[0] == "header" else "sample %d" % got[1])
        self.agreed(op, expected, said)
        if refusal:
            self.ask("qoa_decoder_next_item", -int(refusal.split()[1]), bytes=data, state=block)
            return state, block
        self.ask("qoa_decoder_next_item", model.coded_item(got), bytes=data, state=block, after={"state": after.block()})
        return after, after.block()

    def step_facts(self, state, block, data, op, expected):
        got, _, refusal = self.stepped("facts", state, block, data, "facts")
        seconds = 0.0 if refusal else state.seconds(data)
        said = refusal or "ok %d %d %d %d %s" % (*got, state.mode, struct.pack(">d", seconds).hex())
        self.agreed(op, expected, said)
        lent = FILL * 16
        if refusal:
            number = -int(refusal.split()[1])
            self.ask("qoa_decoder_facts", number, bytes=data, state=block, facts=lent)
            self.ask("qoa_decoder_seconds", float(number), bytes=data, state=block)
            return state, block
        facts = b"".join(big(x, 4) for x in got) + lent[12:]
        self.ask("qoa_decoder_facts", 0, bytes=data, state=block, facts=lent, after={"facts": facts})
        self.ask("qoa_decoder_seconds", seconds, bytes=data, state=block)
        return state, block

    # ---- an encoder's state

    def ask_encode(self, fields, answer):
        c, rate, total, room = (int(x) for x in fields[:4])
        given = {"numbers": [c, rate, total], "samples": data_of(fields[4]), "out": FILL * room}
        words = answer.split(" ")

        def run():
            return model.encode_file(model.create(c, rate, total), samples_in(fields[4]), room)

        self.told_file(fields, "qoa_encode_all", words, answered(run), given, None)
        if words[0] == "ok":
            self.ask("qoa_encode_need", len(data_of(words[1])), numbers=[c, total])
        elif words[1] == "11" or (words[1] == "13" and total == 0):
            self.ask("qoa_encode_need", -int(words[1]), numbers=[c, total])

    def told_file(self, fields, name, words, got, given, after):
        """A whole file's answer: the bytes, or 14 with the bytes before it, or another refusal."""
        result, refusal = got
        lent = given["out"]
        if words[0] == "ok":
            out = data_of(words[1])
            self.agreed(fields, out.hex(), "" if result is None else result[0].hex())
            told = {"out": out + lent[len(out) :]}
            if after is not None:
                told["state"] = model.encoder_block(result[1])
                self.agreed(fields, words[2], encoder_text(result[1]))
            self.ask(name, len(out), after=told, **given)
        elif words[1] == "14":
            count, channel, out = int(words[2]), int(words[3]), data_of(words[4])
            self.agreed(fields, (channel, out.hex()), (refusal.channel, refusal.out.hex()))
            self.ask(name, -(14 + 256 * channel + 65536 * count), after={"out": out + lent[len(out) :]}, **given)
        else:
            self.agreed(fields, int(words[1]), refusal.number)
            self.ask(name, -int(words[1]), **given)

    def ask_oneshot(self, fields, answer):
        state, block = encoder_in(fields[0])
        room = int(fields[1])
        given = {"state": block, "samples": data_of(fields[2]), "out": FILL * room}
        got = answered(model.encode_file, state, samples_in(fields[2]), room)
        self.told_file(fields, "qoa_encoder_file", answer.split(" "), got, given, state)

    def one_frame(self, fields, state, block, room, word, expected):
        """A frame: the state and its block after it."""
        lent = FILL * room
        given = {"state": block, "samples": data_of(word), "out": lent}
        got, refusal = answered(model.encode_frame, state, samples_in(word), room)
        words = expected.split(" ")
        if words[0] == "refused":
            number, channel = int(words[1]), int(words[2]) if len(words) > 2 else 0
            self.agreed(fields, (number, channel), (refusal.number, refusal.channel))
            self.ask("qoa_encoder_frame", -(number + 256 * channel), **given)
            return state, block
        out, after = got
        self.agreed(fields, words[1], out.hex())
        if len(words) > 2:
            self.agreed(fields, words[2], encoder_text(after))
        told = {"state": model.encoder_block(after), "out": data_of(words[1]) + lent[len(out) :]}
        self.ask("qoa_encoder_frame", len(out), after=told, **given)
        return after, model.encoder_block(after)

    def ask_frame(self, fields, answer):
        state, block = encoder_in(fields[0])
        self.one_frame(fields, state, block, int(fields[1]), fields[2], answer)

    def ask_pieces(self, fields, answer):
        numbers = [int(x) for x in fields[:3]]
        answers = answer.split(" ; ")
        lent = FILL * (model.ENCODER_SIZE + SPARE)
        state, refusal = answered(model.create, *numbers)
        self.agreed(fields, answers[0], "ok" if refusal is None else refused(refusal.number))
        if refusal is not None:
            self.ask("qoa_encoder_new", -refusal.number, numbers=numbers, state=lent)
            return
        block = model.encoder_block(state)
        self.ask("qoa_encoder_new", 0, numbers=numbers, state=lent, after={"state": block + lent[len(block) :]})
        room = FILL * (8 + SPARE)
        header = data_of(answers[1].split(" ")[1])
        self.agreed(fields, header, model.file_header(state, 8))
        self.ask("qoa_encoder_header", 8, state=block, out=room, after={"out": header + room[8:]})
        for word, expected in zip(fields[3:], answers[2:]):
            need = model.frame_need(state[0], len(data_of(word)) // 2 // state[0])
            state, block = self.one_frame(fields, state, block, need + SPARE, word, expected)


def samples_in(word):
    data = data_of(word)
    return [x for (x,) in struct.iter_unpack("<h", data)]


def main():
    cases = Cases()
    with open(HERE + "vectors.txt") as file:
        for line in file:
            cases.recorded(line.rstrip("\n"))
    recorded = cases.count
    for name in ("states.txt", "encoder.txt"):
        with open(HERE + name) as file:
            cases.written(file.read())
    by_hand = cases.count - recorded
    of_blocks = blocks.put(cases.lines)
    made = {STDIN: cases.lines.requests, STDOUT: cases.lines.answers}
    for path, lines in made.items():
        text = "\n".join(lines) + "\n"
        if sys.argv[1:] == ["--check"]:
            with open(path) as file:
                if file.read() != text:
                    raise SystemExit(path + " is not what this script makes")
        else:
            with open(path, "w") as file:
                file.write(text)
    print("%d cases: %d from the source's list, %d listed differences, %d by hand; %d lines are calls, %d of them of blocks.py; %d answers are the model's too" % (
        cases.count, recorded, cases.differing, by_hand, cases.lines.count, of_blocks, cases.modelled))


main()
