//! Compares calls in a row on states with the source, in one process: calls [COUNT] [SEED]. Requests are made by seed; every answer, all lent
//! memory and the whole block after each call must be as the source and docs/FORMAT.md say. Prints how many, or the first difference in full with status 1.
#[path = "../oracle/signals.rs"]
#[allow(dead_code)]
mod signals;
#[path = "../compare/inputs.rs"]
#[allow(dead_code)]
mod inputs;
#[path = "../compare/listed.rs"]
#[allow(dead_code)]
mod listed;
mod any;
mod block;
mod decoding;
mod encoding;
mod port;

use block::{Decoder, Encoder, DECODER, ENCODER};
use inputs::below;
use port::{Lent, Op, Said, Writing};
use qoaudio::QoaDesc;
use signals::{signal, Random, KINDS};
use std::collections::BTreeMap;
use std::process::exit;

/// What is being compared: what to show where it differs.
struct Case<'a> {
    kind: &'a str,
    bytes: &'a [u8],
    calls: String,
    given: Vec<u8>,
}

fn hex(bytes: &[u8]) -> String {
    bytes.iter().map(|b| format!("{b:02x}")).collect()
}

impl Case<'_> {
    fn differs(&self, source: String, port: String) -> ! {
        println!("DIFFERENCE\nkind   {}\nbytes  {}\ncalls  {}\nblock  {}", self.kind, hex(self.bytes), self.calls, hex(&self.given));
        println!("source {source}\nport   {port}");
        exit(1)
    }

    fn same(&self, source: &Said, port: &Said) {
        if source != port {
            self.differs(format!("{source:?}"), format!("{port:?}"));
        }
    }

    fn same_block(&self, source: &[u8], port: &[u8]) {
        if source != port {
            self.differs(hex(source), hex(port));
        }
    }
}

#[derive(Default)]
struct Tally {
    inputs: BTreeMap<String, u64>,
    answers: BTreeMap<String, u64>,
    blocks: u64,
}

impl Tally {
    fn input(&mut self, kind: &str) {
        *self.inputs.entry(kind.into()).or_default() += 1;
    }

    fn answer(&mut self, said: &Said) {
        let key = match said {
            Said::Number(0) => "0".into(),
            Said::Number(n) => ["a frame", "a header", "a sample"][(n >> 60) as usize].into(),
            Said::Samples(_) => "samples".into(),
            Said::Facts(_) => "facts".into(),
            Said::Seconds(_) => "seconds".into(),
            Said::Bytes(_) => "bytes".into(),
            Said::Refused(n) => format!("refused {}", n & 0xff),
            Said::RefusedAfter(_, bytes) => format!("refused 14 after {}", if bytes.len() > 8 { "frames" } else { "the header" }),
            Said::Fault(why) => why.to_string(),
        };
        *self.answers.entry(key).or_default() += 1;
    }

    fn print(&self, what: &str) {
        let all = |counts: &BTreeMap<String, u64>| counts.iter().map(|(k, n)| format!("{k}: {n}")).collect::<Vec<_>>().join(", ");
        println!("{what}: {}\n    answers: {}", all(&self.inputs), all(&self.answers));
        let sum = |counts: &BTreeMap<String, u64>| counts.values().sum::<u64>();
        println!("    {} requests with {} answers and {} whole blocks after them compared, 0 differences", sum(&self.inputs), sum(&self.answers), self.blocks);
    }
}

// ---- decoders

/// A room: none, one, beside a slice or a group, or any; now and then a large one.
fn room(r: &mut Random) -> usize {
    if below(r, 50) == 0 {
        return below(r, 20000);
    }
    match below(r, 4) {
        0 => [0, 1, 2, 19, 20, 21, 39, 40, 41, 159, 160, 161][below(r, 12)],
        1 => 20 * (1 + below(r, 8)) * (1 + below(r, 3)),
        _ => below(r, 300),
    }
}

fn op(r: &mut Random) -> Op {
    match below(r, 13) {
        0..=4 => Op::Into(room(r)),
        5..=7 => Op::Frame,
        8..=10 => Op::Item,
        11 => Op::Facts(below(r, 6)),
        _ => Op::Seconds,
    }
}

/// Up to a few dozen calls, items often in a run.
fn ops(r: &mut Random) -> Vec<Op> {
    let mut all = Vec::new();
    for _ in 0..1 + below(r, 12) {
        match below(r, 5) {
            0 => (0..below(r, 45)).for_each(|_| all.push(Op::Item)),
            _ => all.push(op(r)),
        }
    }
    all
}

/// Opens into memory of any length: 7 comes last, and what is past the state stays. The state, where there is one.
fn opened(case: &Case, r: &mut Random, source: &Result<decoding::Source, i64>, tally: &mut Tally) -> Option<Lent<u8>> {
    for length in [below(r, DECODER), DECODER + [0, 1, 7, 100][below(r, 4)]] {
        let mut memory = Lent::room(length, 0x5a);
        let port = port::open(case.bytes, &mut memory);
        let expected = match source {
            Err(n) => Said::Refused(*n),
            Ok(_) if length < DECODER => Said::Refused(7),
            Ok(_) => Said::Number(0),
        };
        case.same(&expected, &port);
        tally.answer(&port);
        if let (Said::Number(_), Ok(source)) = (port, source) {
            case.same_block(&source.state().written(), &memory.list()[..DECODER]);
            tally.blocks += 1;
            return Some(Lent::new(&memory.list()[..DECODER], 0x5a));
        }
    }
    None
}

/// One call on both sides. Whether it was accepted.
fn called(case: &Case, source: &mut decoding::Source, state: &mut Lent<u8>, op: Op, tally: &mut Tally) -> bool {
    let port = port::call(case.bytes, state, op);
    tally.answer(&port);
    match source.call(op) {
        Err(n) => {
            case.same(&Said::Refused(n), &port);
            false
        }
        Ok(said) => {
            case.same(&said, &port);
            if !matches!(op, Op::Facts(_) | Op::Seconds) {
                case.same_block(&source.state().written(), state.list());
                tally.blocks += 1;
            }
            true
        }
    }
}

/// A refused call hands back the state that it was given (differences 10 to 12), so the source is brought to that state by a new decoder and the
/// calls that it accepted.
fn calls_in_a_row(kind: &str, bytes: &[u8], r: &mut Random, tally: &mut Tally) {
    let ops = ops(r);
    let case = Case { kind, bytes, calls: format!("open {ops:?}"), given: Vec::new() };
    tally.input(kind);
    let mut source = decoding::Source::open(bytes);
    let Some(mut state) = opened(&case, r, &source, tally) else { return };
    let mut accepted: Vec<Op> = Vec::new();
    for op in ops {
        let now = source.as_mut().ok().unwrap();
        if called(&case, now, &mut state, op, tally) {
            accepted.push(op);
        } else {
            source = decoding::Source::open(bytes);
            let now = source.as_mut().ok().unwrap();
            accepted.iter().for_each(|op| assert!(now.call(*op).is_ok()));
        }
    }
}

/// Bytes of the kinds of tools/compare, so many; the long ones seldom.
fn each_bytes(r: &mut Random, count: usize, sink: &mut dyn FnMut(&str, &[u8], &mut Random)) {
    let mut made = 0;
    while made < count {
        let kind = match below(r, 1000) {
            0 => 11,
            1..=3 => 10,
            _ => below(r, 10),
        };
        let (name, make) = inputs::DECODE[kind];
        let seed = ((r.next() as u64) << 32) | r.next() as u64;
        let mut choice = Random(seed ^ 0x5eed);
        // of the kinds that give many inputs at once, a few
        let share = match name {
            "cut" => 200,
            "codes" => 100,
            "tail" => 8,
            "second" => 4,
            _ => 1,
        };
        make(&mut Random(seed), &mut |bytes| {
            if made < count && below(&mut choice, share) == 0 {
                made += 1;
                sink(name, bytes, &mut choice);
            }
        });
    }
}

/// Any block: 8 exactly where the state rules are broken, else what the source says, put into that state.
fn any_decoder_block(bytes: &[u8], r: &mut Random, tally: &mut Tally) {
    let mut reached = Lent::room(DECODER, 0);
    let opened = port::open(bytes, &mut reached) == Said::Number(0);
    if opened {
        (0..below(r, 4)).for_each(|_| drop(port::call(bytes, &mut reached, op(r))));
    }
    let given = any::decoder_block(r, opened.then(|| reached.list()), bytes.len());
    let ops: Vec<Op> = (0..1 + below(r, 5)).map(|_| op(r)).collect();
    let case = Case { kind: "any block", bytes, calls: format!("{ops:?}"), given: given.clone() };
    let mut state = Lent::new(&given, 0x5a);
    if given.len() != DECODER || !Decoder::read(&given).good(bytes.len()) {
        tally.input(if given.len() != DECODER { "of another length" } else { "bad by the rules" });
        for op in [Op::Into(room(r)), Op::Frame, Op::Item, Op::Facts(below(r, 5)), Op::Seconds] {
            let port = port::call(bytes, &mut state, op);
            case.same(&Said::Refused(8), &port);
            tally.answer(&port);
        }
        return;
    }
    tally.input(if Decoder::read(&given).view().written() == given { "good, and 0 where it means nothing" } else { "good, and anything where it means nothing" });
    let mut source = decoding::Source::put(bytes, &Decoder::read(&given));
    for op in ops {
        if !called(&case, &mut source, &mut state, op, tally) {
            source = decoding::Source::put(bytes, &Decoder::read(state.list()));
        }
    }
}

// ---- encoders

/// Samples: any, steep, or of a test signal.
fn samples(r: &mut Random, n: usize, c: usize) -> Vec<i16> {
    let cycle = [-8000i32, 16000, -8000, -32768].map(|s| (s + below(r, 1001) as i32 - 500).clamp(-32768, 32767) as i16);
    let ends = [i16::MIN, i16::MAX, 0, 1, -1];
    match below(r, 5) {
        0 => (0..n * c).map(|_| r.next() as i16).collect(),
        1 => (0..n * c).map(|_| ends[below(r, 5)]).collect(),
        2 | 3 => (0..n * c).map(|i| cycle[i / c % 4]).collect(),
        _ => signal(KINDS[below(r, 5)], n, c),
    }
}

/// The room that is needed, mostly; or more, one less, or any less.
fn near(r: &mut Random, need: usize) -> usize {
    match below(r, 12) {
        0 => need.saturating_sub(1),
        1 => below(r, need + 1),
        2..=6 => need + below(r, 20),
        _ => need,
    }
}

/// A frame, now and then of too many samples, none, or no multiple of the channels; or a header, or a file of `total` samples where it is small.
fn writing(r: &mut Random, c: usize, total: usize) -> Writing {
    if below(r, 20) == 0 {
        return Writing::Header(near(r, 8));
    }
    if below(r, 6) == 0 && (total <= 300 || total <= 20000 && below(r, 4) == 0) {
        let n = if below(r, 10) == 0 { below(r, 2 * total + 1) } else { total };
        let all = samples(r, n, c);
        let need = 8 + all.chunks(5120 * c).map(|f| encoding::frame_bytes(c, f.len() / c)).sum::<usize>();
        let room = near(r, need);
        return Writing::File(all, room);
    }
    let n = match below(r, 40) {
        0 => 5120 / c,
        1 if c == 1 => 5120 + below(r, 3),
        2 => 0,
        3..=9 => [1, 19, 20, 21, 40, 41][below(r, 6)],
        _ => 1 + below(r, 120),
    };
    let mut all = samples(r, n, c);
    if below(r, 30) == 0 {
        all.pop();
    }
    let room = near(r, encoding::frame_bytes(c, all.len() / c));
    Writing::Frame(all, room)
}

fn written(case: &Case, source: &mut encoding::Source, state: &mut Lent<u8>, op: &Writing, tally: &mut Tally) {
    let port = port::write(state, op);
    tally.answer(&port);
    let said = source.call(op);
    case.same(&said, &port);
    if !matches!(op, Writing::Header(_)) && matches!(said, Said::Bytes(_)) {
        case.same_block(&source.state().written(), state.list());
        tally.blocks += 1;
    }
}

/// A new encoder, and one to nine calls on it.
fn frames_in_a_row(r: &mut Random, tally: &mut Tally) {
    let c = if below(r, 40) == 0 { [0, 9, 255][below(r, 3)] } else { 1 + below(r, 8) };
    let rate = if below(r, 20) == 0 { [0, 0xff_ffff, 0x100_0000, u32::MAX][below(r, 4)] } else { 1 + r.next() % 0xff_ffff };
    let total = match below(r, 20) {
        0 => [0, 1, u32::MAX][below(r, 3)],
        1..=6 => 1 + r.next() % 200,
        7 => 5120 + r.next() % 6000,
        _ => 1 + r.next() % 100000,
    };
    let desc = QoaDesc { channels: c as u8, sample_rate: rate, samples: total };
    let ops: Vec<Writing> = (0..1 + below(r, 9)).map(|_| writing(r, c.clamp(1, 8), total as usize)).collect();
    let case = Case { kind: "encoder", bytes: &[], calls: format!("new {desc:?} {ops:?}"), given: Vec::new() };
    tally.input("new encoders");
    let source = encoding::Source::new(&desc);
    for length in [below(r, ENCODER), ENCODER + [0, 1, 7, 100][below(r, 4)]] {
        let mut memory = Lent::room(length, 0x5a);
        let port = port::new_encoder(c as u8, rate, total, &mut memory);
        tally.answer(&port);
        match &source {
            Err(n) => case.same(&Said::Refused(*n), &port),
            Ok(_) if length < ENCODER => case.same(&Said::Refused(7), &port),
            Ok(source) => {
                case.same(&Said::Number(0), &port);
                case.same_block(&source.state().written(), &memory.list()[..ENCODER]);
                tally.blocks += 1;
            }
        }
    }
    let Ok(mut source) = source else { return };
    let mut state = Lent::new(&source.state().written(), 0x5a);
    ops.iter().for_each(|op| written(&case, &mut source, &mut state, op, tally));
}

fn any_encoder_block(r: &mut Random, tally: &mut Tally) {
    let given = any::encoder_block(r);
    let read = (given.len() == ENCODER).then(|| Encoder::read(&given));
    let (c, total) = read.as_ref().map_or((1, 1), |s| ((s.channels as usize).clamp(1, 8), s.total as usize));
    let ops: Vec<Writing> = (0..3).map(|_| writing(r, c, total)).collect();
    let case = Case { kind: "any encoder's block", bytes: &[], calls: format!("{ops:?}"), given: given.clone() };
    let mut state = Lent::new(&given, 0x5a);
    match read {
        Some(s) if s.good() => {
            tally.input(if s.view() == s { "good, and 0 where it means nothing" } else { "good, and anything where it means nothing" });
            let mut source = encoding::Source::put(&s);
            ops.iter().for_each(|op| written(&case, &mut source, &mut state, op, tally));
        }
        bad => {
            tally.input(if bad.is_none() { "of another length" } else { "bad by the rules" });
            for op in ops.iter().chain(&[Writing::Header(near(r, 8)), Writing::File(vec![0; 3], 100)]) {
                let port = port::write(&mut state, op);
                case.same(&Said::Refused(8), &port);
                tally.answer(&port);
            }
        }
    }
}

fn main() {
    let args: Vec<String> = std::env::args().collect();
    let count: usize = args.get(1).map_or(20_000, |n| n.parse().unwrap());
    let seed: u64 = args.get(2).map_or(2026, |n| n.parse().unwrap());
    assert!(port::sizes() == (DECODER as i64, ENCODER as i64));
    let mut tally = Tally::default();
    each_bytes(&mut Random(seed), count, &mut |kind, bytes, r| calls_in_a_row(kind, bytes, r, &mut tally));
    tally.print("calls in a row on a decoder");
    let mut tally = Tally::default();
    each_bytes(&mut Random(seed + 1), count / 5, &mut |_, bytes, r| any_decoder_block(bytes, r, &mut tally));
    tally.print("any block handed in as a decoder's");
    let (mut tally, mut r) = (Tally::default(), Random(seed + 2));
    (0..count / 10).for_each(|_| frames_in_a_row(&mut r, &mut tally));
    tally.print("calls in a row on an encoder");
    let (mut tally, mut r) = (Tally::default(), Random(seed + 3));
    (0..count / 5).for_each(|_| any_encoder_block(&mut r, &mut tally));
    tally.print("any block handed in as an encoder's");
}
