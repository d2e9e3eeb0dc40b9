//! Compares the port with the source on inputs made by seed: every sample, count, refusal, fact, and the memory past the
//! count. A listed difference (docs/DIFFERENCES.md) is expected by its rule and counted apart. Prints how many of each kind,
//! or the first difference in full with status 1.
#[path = "../oracle/signals.rs"]
#[allow(dead_code)]
mod signals;
mod inputs;
mod listed;
mod port;
mod source;
mod written;

use inputs::below;
use listed::End;
use signals::Random;
use std::collections::BTreeMap;

#[derive(Default)]
struct Tally {
    inputs: u64,
    calls: u64,
    /// accepted at 0, refusals at their number
    answers: [u64; 16],
    /// by the number in docs/DIFFERENCES.md
    listed: BTreeMap<u32, u64>,
    samples: u64,
}

impl Tally {
    fn told(&mut self, code: i64) {
        self.calls += 1;
        self.answers[if code < 0 { -code as usize } else { 0 }] += 1;
    }

    fn list(&mut self, difference: u32) {
        *self.listed.entry(difference).or_default() += 1;
    }
}

fn differ(what: &str, bytes: &[u8], expected: String, got: String) -> ! {
    let hex: String = bytes.iter().map(|b| format!("{b:02x}")).collect();
    println!("DIFFERENCE in {what}\ninput    {hex}\nexpected {expected}\nport     {got}");
    std::process::exit(1);
}

const GUARD: usize = 8;

fn pattern(i: usize) -> i16 {
    (i as u32).wrapping_mul(40503) as i16 ^ 0x5a5a
}

/// A call into a room, with what must be in memory after it.
fn lent(what: &str, bytes: &[u8], room: usize, memory: &mut Vec<i16>, expected: Result<&[i16], i64>, call: fn(&[u8], &mut [i16]) -> i64) -> i64 {
    memory.clear();
    memory.extend((0..room + GUARD).map(pattern));
    let code = call(bytes, &mut memory[..room]);
    let (number, samples) = match expected {
        Ok(samples) => (samples.len() as i64, samples),
        Err(n) => (-n, &[][..]),
    };
    if code != number {
        differ(&format!("{what} with room {room}"), bytes, number.to_string(), code.to_string());
    }
    for (i, s) in memory.iter().enumerate() {
        let wanted = samples.get(i).copied().unwrap_or_else(|| pattern(i));
        if *s != wanted {
            differ(&format!("{what} with room {room}, place {i}"), bytes, wanted.to_string(), s.to_string());
        }
    }
    code
}

struct Compare {
    random: Random,
    memory: Vec<i16>,
}

impl Compare {
    /// The rooms for so many samples: exact, one less, more.
    fn rooms(&mut self, t: &mut Tally, what: &str, bytes: &[u8], expected: Result<&[i16], i64>, call: fn(&[u8], &mut [i16]) -> i64) {
        let extra = 1 + below(&mut self.random, 50);
        match expected {
            Err(_) => {
                let room = below(&mut self.random, 100);
                t.told(lent(what, bytes, room, &mut self.memory, expected, call));
            }
            Ok(samples) => {
                let n = samples.len();
                t.told(lent(what, bytes, n, &mut self.memory, expected, call));
                t.told(lent(what, bytes, n + extra, &mut self.memory, expected, call));
                if n > 0 {
                    for room in [n - 1, below(&mut self.random, n)] {
                        t.list(3);
                        t.told(lent(what, bytes, room, &mut self.memory, Err(7), call));
                    }
                }
                t.samples += n as u64;
            }
        }
    }

    fn whole(&mut self, t: &mut Tally, bytes: &[u8], asked: &[u8]) {
        let mut expected = source::decode_all(asked);
        if listed::file(bytes) == End::Many {
            t.list(if matches!(expected, Err(4)) { 2 } else { 1 });
            expected = Err(6);
        }
        let need = match &expected {
            Ok(a) => [a.samples.len() as i64, a.channels, a.rate],
            Err(n) => [-n; 3],
        };
        let told = port::need(bytes);
        if told != need {
            differ("need, channels, rate", bytes, format!("{need:?}"), format!("{told:?}"));
        }
        told.into_iter().for_each(|code| t.told(code.min(0)));
        self.rooms(t, "decode_all", bytes, expected.as_ref().map(|a| &a.samples[..]).map_err(|n| *n), port::decode_all);
    }

    fn frames(&mut self, t: &mut Tally, bytes: &[u8]) {
        let mut expected = source::decode_frames(bytes);
        match listed::frames(bytes) {
            End::Many => {
                t.list(1);
                expected = Err(6);
            }
            End::Left(1..) => {
                t.list(8);
                expected = Err(5);
            }
            _ => (),
        }
        self.rooms(t, "decode_frames", bytes, expected.as_ref().map(|s| &s[..]).map_err(|n| *n), port::decode_frames);
    }

    fn facts(&mut self, t: &mut Tally, bytes: &[u8]) {
        let mut expected = source::facts(bytes);
        if listed::opening(bytes) {
            t.list(1);
            expected = Err(6);
        }
        let wanted = match expected {
            Ok([0, 0, 0]) => ([0; 3], 0),
            Ok([total, c, rate]) => ([total, c, rate], (total as f64 / rate as f64).to_bits()),
            Err(n) => ([-n; 3], (-n as f64).to_bits()),
        };
        let got = port::facts(bytes);
        if got != wanted {
            differ("facts", bytes, format!("{wanted:x?}"), format!("{got:x?}"));
        }
        t.told(got.0[0].min(0));
    }

    /// The source has no frame part: it must read that part as one whole frame, and refuse it one byte short.
    fn part(&mut self, t: &mut Tally, bytes: &[u8]) {
        let at = if below(&mut self.random, 2) == 0 { 8 } else { below(&mut self.random, bytes.len() + 3) };
        let code = port::part_length(bytes, at);
        t.told(code.min(0));
        let left = bytes.get(at..).unwrap_or(&[]);
        let head = (left.len() >= 8).then(|| listed::header(left));
        let wanted = match head {
            None => -5,
            Some(h) if !h.good() => -3,
            Some(h) if h.c > 8 => -6,
            Some(h) if h.length() > left.len() => -5,
            Some(h) => h.length() as i64,
        };
        if code != wanted {
            differ(&format!("part_length at {at}"), bytes, wanted.to_string(), code.to_string());
        }
        if code > 0 {
            let h = listed::header(left);
            let whole = source::decode_frames(&left[..code as usize]).map(|s| s.len());
            let short = source::decode_frames(&left[..code as usize - 1]).map(|s| s.len());
            if whole != Ok(h.n * h.c) || short != Err(5) {
                differ(&format!("the part at {at}"), bytes, format!("{:?}", (whole, short)), code.to_string());
            }
        }
    }

    fn input(&mut self, t: &mut Tally, bytes: &[u8]) {
        t.inputs += 1;
        let total = bytes.get(4..8).map_or(0, |b| u32::from_be_bytes([b[0], b[1], b[2], b[3]]));
        if total > 1 << 20 && bytes.starts_with(b"qoaf") {
            // difference 17: the source is asked about the total 1 in its place
            t.list(17);
            let mut asked = bytes.to_vec();
            asked[4..8].copy_from_slice(&1u32.to_be_bytes());
            self.whole(t, bytes, &asked);
        } else {
            self.whole(t, bytes, bytes);
        }
        self.frames(t, bytes.get(8..).unwrap_or(bytes));
        self.facts(t, bytes);
        self.part(t, bytes);
    }
}

fn run(name: &str, make: fn(&mut Random, inputs::Sink), count: u64, seed: u64) -> Tally {
    let mut t = Tally::default();
    let mut r = Random(seed);
    let mut compare = Compare { random: Random(seed ^ 0x5eed), memory: Vec::new() };
    while t.inputs < count {
        make(&mut r, &mut |bytes| compare.input(&mut t, bytes));
    }
    println!("{name:9}{:>10}{:>11}{:>11}{:>13}", t.inputs, t.calls, t.answers[0], t.samples);
    t
}

fn encode(name: &str, make: fn(&mut Random) -> written::Request, count: u64, seed: u64) -> Tally {
    let mut t = Tally::default();
    let mut r = Random(seed);
    while t.inputs < count {
        let request = make(&mut r);
        written::compare(&mut t, &mut r, &request);
    }
    println!("{name:9}{:>10}{:>11}{:>11}{:>13}", t.inputs, t.calls, t.answers[0], t.samples);
    t
}

impl Tally {
    fn add(&mut self, t: Tally) {
        self.inputs += t.inputs;
        self.calls += t.calls;
        self.samples += t.samples;
        (0..16).for_each(|k| self.answers[k] += t.answers[k]);
        t.listed.into_iter().for_each(|(k, n)| *self.listed.entry(k).or_default() += n);
    }
}

fn main() {
    let args: Vec<String> = std::env::args().skip(1).collect();
    let long = args.first().is_some_and(|a| a == "long");
    let one = (!args.is_empty() && !long).then(|| args[0].clone());
    let count: Option<u64> = args.get(1).map(|n| n.parse().unwrap());
    let seed: u64 = args.get(2).map_or(2026, |n| n.parse().unwrap());
    println!("kind        inputs      calls   accepted      samples");
    let mut sum = Tally::default();
    let usual = |quick: u64, much: u64| count.unwrap_or(if long { much } else { quick });
    let wanted = |name: &str| one.as_ref().is_none_or(|k| k == name);
    for (i, (name, make)) in inputs::DECODE.iter().enumerate() {
        let many = if matches!(*name, "signal" | "long") { usual(300, 5_000) } else { usual(60_000, 1_100_000) };
        if wanted(name) {
            sum.add(run(name, *make, many, seed + 1000 * i as u64));
        }
    }
    for (i, (name, make)) in written::ENCODE.iter().enumerate() {
        let many = if *name == "encode" { usual(20_000, 500_000) } else { usual(200, 5_000) };
        if wanted(name) {
            sum.add(encode(name, *make, many, seed + 100 * i as u64));
        }
    }
    println!("{:9}{:>10}{:>11}{:>11}{:>13}", "all", sum.inputs, sum.calls, sum.answers[0], sum.samples);
    let refusals: Vec<String> =
        (1..16).filter(|k| sum.answers[*k] > 0).map(|k| format!("{k}: {}", sum.answers[k])).collect();
    println!("refusals    {}", refusals.join(", "));
    let listed: Vec<String> = sum.listed.iter().map(|(k, n)| format!("{k}: {n}")).collect();
    println!("listed differences, by their number in docs/DIFFERENCES.md    {}", listed.join(", "));
    println!("{} inputs compared, 0 other differences", sum.inputs);
}
