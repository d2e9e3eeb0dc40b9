//! Comparing the encoder: whole files in one shot.
use crate::inputs::below;
use crate::signals::{signal, Random, KINDS};
use crate::{differ, Tally};
use qoaudio::{EncodeError, QoaDesc};

extern "C" {
    fn qoa_encode_all(
        channels: u8,
        rate: u32,
        total: u32,
        samples: *const i16,
        count: usize,
        out: *mut u8,
        room: usize,
    ) -> i64;
    fn qoa_encode_need(channels: u8, total: u32) -> i64;
}

pub struct Request {
    pub c: u8,
    pub rate: u32,
    pub total: u32,
    pub samples: Vec<i16>,
}

fn source(q: &Request) -> Result<Vec<u8>, i64> {
    let desc = QoaDesc { channels: q.c, sample_rate: q.rate, samples: q.total };
    qoaudio::encode_all(&q.samples, &desc).map_err(|e| match e {
        EncodeError::InvalidChannels => 11,
        EncodeError::InvalidSampleRate => 12,
        EncodeError::InvalidSamples => 13,
        EncodeError::IoError(e) => panic!("{e}"),
    })
}

/// Difference 7: the first frame that starts with a weight outside of 16 bits, its place and channel. Follows the encoder's
/// predictor through the bytes of a file, by the format's rules.
fn wide(b: &[u8], c: usize) -> Option<(usize, usize)> {
    const S: [i32; 16] = [1, 7, 21, 45, 84, 138, 211, 304, 421, 562, 731, 928, 1157, 1419, 1715, 2048];
    let mut h = vec![[0i32; 4]; c];
    let mut w = vec![[0i32, 0, -8192, 16384]; c];
    let mut at = 8;
    while at < b.len() {
        if let Some(j) = (0..c).find(|j| w[*j].iter().any(|x| i16::try_from(*x).is_err())) {
            return Some((at, j));
        }
        let n = (b[at + 4] as usize) << 8 | b[at + 5] as usize;
        at += 8 + 16 * c;
        for g in 0..n.div_ceil(20) {
            for j in 0..c {
                let word = u64::from_be_bytes(b[at..at + 8].try_into().unwrap());
                at += 8;
                let s = S[(word >> 60) as usize];
                let rows = [(3 * s + 2) / 4, (5 * s + 1) / 2, (9 * s + 1) / 2, 7 * s];
                for i in 0..(n - 20 * g).min(20) {
                    let code = (word >> (57 - 3 * i)) as usize & 7;
                    let value = if code & 1 == 0 { rows[code >> 1] } else { -rows[code >> 1] };
                    let sum = (0..4).fold(0i32, |a, k| a.wrapping_add(w[j][k].wrapping_mul(h[j][k])));
                    let heard = ((sum >> 13) + value).clamp(-32768, 32767);
                    for k in 0..4 {
                        w[j][k] += if h[j][k] < 0 { -(value >> 4) } else { value >> 4 };
                    }
                    h[j] = [h[j][1], h[j][2], h[j][3], heard];
                }
            }
        }
    }
    None
}

const GUARD: usize = 8;

fn pattern(i: usize) -> u8 {
    (i as u32).wrapping_mul(197) as u8 ^ 0x5a
}

/// A call into a room: its answer, and what must be in memory after it.
fn lent(q: &Request, room: usize, code: i64, bytes: &[u8]) {
    let mut memory: Vec<u8> = (0..room + GUARD).map(pattern).collect();
    let got = unsafe {
        qoa_encode_all(q.c, q.rate, q.total, q.samples.as_ptr(), q.samples.len(), memory.as_mut_ptr(), room)
    };
    let said = || {
        let raw: Vec<u8> = q.samples.iter().flat_map(|s| s.to_le_bytes()).collect();
        (format!("encode_all {} {} {} with room {room} (input: samples)", q.c, q.rate, q.total), raw)
    };
    if got != code {
        let (what, raw) = said();
        differ(&what, &raw, code.to_string(), got.to_string());
    }
    for (i, b) in memory.iter().enumerate() {
        let wanted = bytes.get(i).copied().unwrap_or_else(|| pattern(i));
        if *b != wanted {
            let (what, raw) = said();
            differ(&format!("{what}, byte {i}"), &raw, wanted.to_string(), b.to_string());
        }
    }
}

pub fn compare(t: &mut Tally, r: &mut Random, q: &Request) {
    t.inputs += 1;
    let mut expected = source(q);
    if q.rate > 0xff_ffff && expected != Err(11) {
        t.list(6);
        expected = Err(12);
    }
    let need = unsafe { qoa_encode_need(q.c, q.total) };
    match &expected {
        Err(n) => {
            let need_too = if *n == 11 { need == -11 } else { *n == 12 || q.total > 0 || need == -13 };
            if !need_too {
                differ(&format!("encode_need {} {}", q.c, q.total), &[], (-n).to_string(), need.to_string());
            }
            lent(q, below(r, 100), -n, &[]);
            t.told(-n);
        }
        Ok(bytes) => {
            if need != bytes.len() as i64 {
                differ(&format!("encode_need {} {}", q.c, q.total), &[], bytes.len().to_string(), need.to_string());
            }
            let (code, left) = match wide(bytes, q.c as usize) {
                None => (need, &bytes[..]),
                Some((at, j)) => {
                    t.list(7);
                    (-((14 + 256 * j + 65536 * at) as i64), &bytes[..at])
                }
            };
            for room in [bytes.len(), bytes.len() + 1 + below(r, 40)] {
                lent(q, room, code, left);
                t.told(if code < 0 { -14 } else { 0 });
            }
            for room in [bytes.len() - 1, below(r, bytes.len())] {
                t.list(3);
                lent(q, room, -7, &[]);
                t.told(-7);
            }
            t.samples += q.samples.len() as u64;
        }
    }
}

// ---- the inputs

fn rate(r: &mut Random) -> u32 {
    match below(r, 8) {
        0 => [0, 1, 0xff_ffff, 0x100_0000, u32::MAX, 0x200_0001][below(r, 6)],
        _ => 1 + r.next() % 0xff_ffff,
    }
}

/// Samples of a kind: any, extreme, small, silent, a square wave, a stretch of a test signal, steep alternations.
fn fill(r: &mut Random, n: usize, c: usize) -> Vec<i16> {
    let kind = below(r, 8);
    let period = 1 + below(r, 60);
    let ends = [i16::MIN, i16::MAX, 0, -8000, 16000, 1, -1];
    let cycle: Vec<i16> = (0..1 + below(r, 6)).map(|_| ends[below(r, 7)]).collect();
    match kind {
        0 => (0..n * c).map(|_| r.next() as i16).collect(),
        1 => (0..n * c).map(|_| ends[below(r, 7)]).collect(),
        2 => (0..n * c).map(|_| (r.next() % 64) as i16 - 32).collect(),
        3 => vec![0; n * c],
        4 => (0..n * c).map(|i| if i / c / period % 2 == 0 { i16::MAX } else { i16::MIN }).collect(),
        5 | 6 => (0..n * c).map(|i| cycle[i / c % cycle.len()]).collect(),
        _ => signal(KINDS[below(r, 5)], n, c),
    }
}

/// One to a few slices, all channel counts, all refusals.
fn short(r: &mut Random) -> Request {
    let c = if below(r, 12) == 0 { [0, 9, 255][below(r, 3)] } else { 1 + below(r, 8) };
    let n = [1, 19, 20, 21, 39, 40, 41, 1 + below(r, 70), 1 + below(r, 70)][below(r, 9)];
    let mut samples = fill(r, n, c.clamp(1, 8));
    let mut total = n as u32;
    match below(r, 24) {
        0 => total = 0,
        1 => total += 1,
        2 => drop(samples.pop()),
        _ => (),
    }
    Request { c: c as u8, rate: rate(r), total, samples }
}

/// At and beside whole frames.
fn framed(r: &mut Random) -> Request {
    let c = [1, 1, 1, 2, 1 + below(r, 8)][below(r, 5)];
    let n = [5119, 5120, 5121, 5140, 10239, 10240, 10241, 5000 + below(r, 6000)][below(r, 8)];
    Request { c: c as u8, rate: rate(r), total: n as u32, samples: fill(r, n, c) }
}

/// Signals that drive weights out of 16 bits: refusal 14 before the second or the third frame, in any channel.
fn steep(r: &mut Random) -> Request {
    let c = [1, 2, 3, 1 + below(r, 8)][below(r, 4)];
    let n = [5121, 5140, 10241, 10300][below(r, 4)];
    let cycle = [-8000i32, 16000, -8000, -32768].map(|s| s + below(r, 1001) as i32 - 500);
    let quiet = below(r, 3) > 0;
    let which = below(r, c);
    let rate = 1 + r.next() % 0xff_ffff;
    let steep = |i: usize| cycle[i / c % 4].clamp(-32768, 32767) as i16;
    let samples =
        (0..n * c).map(|i| if quiet && i % c != which { (r.next() % 8) as i16 } else { steep(i) }).collect();
    Request { c: c as u8, rate, total: n as u32, samples }
}

pub const ENCODE: [(&str, fn(&mut Random) -> Request); 3] = [("encode", short), ("frames", framed), ("steep", steep)];
