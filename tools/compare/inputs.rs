//! The inputs, by seed. Each kind hands one or more inputs to `sink`.
use crate::signals::{signal, Random, KINDS};

pub type Sink<'a> = &'a mut dyn FnMut(&[u8]);

pub const DECODE: [(&str, fn(&mut Random, Sink)); 12] = [
    ("good", good),
    ("cut", cut),
    ("flipped", flipped),
    ("random", random),
    ("header", header_checks),
    ("codes", codes),
    ("second", second),
    ("channels", many_channels),
    ("tail", tails),
    ("total", totals),
    ("signal", signals),
    ("long", long),
];

pub fn below(r: &mut Random, n: usize) -> usize {
    r.next() as usize % n
}

fn word(r: &mut Random) -> u64 {
    (r.next() as u64) << 32 | r.next() as u64
}

/// A 16-bit number: any, at an end, or small.
fn short(r: &mut Random) -> u16 {
    match below(r, 4) {
        0 => [0x8000, 0x7fff, 0, 1, 0xffff, 0x8001][below(r, 6)],
        1 => (r.next() % 64) as u16,
        _ => r.next() as u16,
    }
}

pub struct Frame {
    pub c: usize,
    pub rate: usize,
    pub n: usize,
    pub size: usize,
}

pub fn put_header(b: &mut Vec<u8>, f: &Frame) {
    let w = (f.c as u64) << 56 | (f.rate as u64) << 32 | (f.n as u64) << 16 | f.size as u64;
    b.extend_from_slice(&w.to_be_bytes());
}

/// A size field that passes every check: the frame's own length where it may be that, else one group.
pub fn fit_size(c: usize, n: usize) -> usize {
    let groups = n.div_ceil(20);
    let groups = if groups == 0 || groups > 256 { 1 } else { groups };
    (8 + 16 * c + 8 * c * groups).min(65535)
}

fn put_state(r: &mut Random, b: &mut Vec<u8>, c: usize) {
    let kind = below(r, 4);
    for _ in 0..c {
        if kind == 0 {
            b.extend_from_slice(&[0, 0, 0, 0, 0, 0, 0, 0, 0, 0, 0, 0, 0xe0, 0, 0x40, 0]);
        } else {
            for _ in 0..8 {
                b.extend_from_slice(&short(r).to_be_bytes());
            }
        }
    }
}

fn put_frame(r: &mut Random, b: &mut Vec<u8>, f: &Frame) {
    put_header(b, f);
    put_state(r, b, f.c);
    for _ in 0..f.c * f.n.div_ceil(20) {
        b.extend_from_slice(&word(r).to_be_bytes());
    }
}

fn put_file_header(r: &mut Random, b: &mut Vec<u8>) {
    b.extend_from_slice(b"qoaf");
    let total = match below(r, 4) {
        0 => 0,
        1 => 1,
        _ => r.next() % 2000,
    };
    b.extend_from_slice(&total.to_be_bytes());
}

fn rate(r: &mut Random) -> usize {
    match below(r, 4) {
        0 => [1, 2, 44100, 0xffffff, 0xfffffe][below(r, 5)],
        _ => 1 + below(r, 0xffffff),
    }
}

fn samples(r: &mut Random) -> usize {
    match below(r, 6) {
        0 => 0,
        1 => [1, 19, 20, 21, 39, 40, 41][below(r, 7)],
        _ => below(r, 66),
    }
}

/// A good file: 1 to 8 channels, 1 to 4 frames, a tail of 0 to 7 bytes.
pub fn good_file(r: &mut Random) -> Vec<u8> {
    let mut b = Vec::with_capacity(512);
    put_file_header(r, &mut b);
    let (c, rate) = (1 + below(r, 8), rate(r));
    let frames = [1, 1, 1, 2, 3, 4][below(r, 6)];
    for _ in 0..frames {
        let n = samples(r);
        let size = if below(r, 8) == 0 { 8 + 16 * c + 8 * c * (1 + below(r, 200)) } else { fit_size(c, n) };
        put_frame(r, &mut b, &Frame { c, rate, n, size });
    }
    if below(r, 3) == 0 {
        for _ in 0..below(r, 8) {
            b.push(r.next() as u8);
        }
    }
    b
}

fn good(r: &mut Random, sink: Sink) {
    sink(&good_file(r));
}

/// Every prefix of a file.
fn cut(r: &mut Random, sink: Sink) {
    let b = good_file(r);
    for n in 0..b.len() {
        sink(&b[..n]);
    }
}

fn flipped(r: &mut Random, sink: Sink) {
    let mut b = good_file(r);
    for _ in 0..1 + below(r, 3) {
        // half of them in the headers
        let reach = if below(r, 2) == 0 { b.len().min(32) } else { b.len() };
        let at = below(r, reach);
        b[at] ^= 1 << below(r, 8);
    }
    small_total(&mut b);
    sink(&b);
}

/// The source reserves memory for the whole total at once.
fn small_total(b: &mut [u8]) {
    if b.len() >= 6 {
        b[4] = 0;
        b[5] = 0;
    }
}

fn random(r: &mut Random, sink: Sink) {
    let mut b: Vec<u8> = (0..below(r, 120)).map(|_| r.next() as u8).collect();
    match below(r, 4) {
        0 => (),
        1 if b.len() >= 4 => b[..4].copy_from_slice(b"qoaf"),
        _ => {
            let mut f = Vec::new();
            put_file_header(r, &mut f);
            // bytes that often look like a small frame
            f.extend_from_slice(&[below(r, 4) as u8, 0, 0, below(r, 3) as u8, 0, below(r, 50) as u8, 0, below(r, 90) as u8]);
            f.extend_from_slice(&b);
            b = f;
        }
    }
    small_total(&mut b);
    sink(&b);
}

/// A header at and beside each boundary of its checks, alone or with its whole frame.
fn header_checks(r: &mut Random, sink: Sink) {
    let c = match below(r, 3) {
        0 => below(r, 11),
        1 => 1 + below(r, 8),
        _ => below(r, 256),
    };
    let state = 8 + 16 * c;
    let groups = [0, 1, 2, 255, 256, 257, below(r, 300)][below(r, 7)];
    let beside = [-9i64, -8, -7, -1, 0, 1, 7, 8, 9][below(r, 9)];
    let size = match below(r, 4) {
        0 => below(r, 65536) as i64,
        1 => state as i64 + beside,
        _ => (state + 8 * c * groups) as i64 + beside,
    };
    let n = [0, 0, 1, 19, 20, 21, 60][below(r, 7)];
    let f = Frame { c, rate: [0, 1, 44100, 0xffffff][below(r, 4)], n, size: size.clamp(0, 65535) as usize };
    let mut b = Vec::new();
    put_file_header(r, &mut b);
    put_frame(r, &mut b, &f);
    if below(r, 4) == 0 {
        let end = 16 + below(r, b.len() - 15);
        b.truncate(end);
    }
    sink(&b);
}

/// Every scale factor and code, from every kind of predictor.
fn codes(r: &mut Random, sink: Sink) {
    let start = word(r);
    for sf in 0..16u64 {
        for code in 0..8u64 {
            let c = 1 + below(r, 2);
            let mut b = Vec::with_capacity(120);
            put_file_header(r, &mut b);
            put_header(&mut b, &Frame { c, rate: 1, n: 40, size: fit_size(c, 40) });
            put_state(r, &mut b, c);
            for _ in 0..2 * c {
                let mut w = sf;
                for i in 0..20 {
                    // one code over and over, or it and its negative in turn, or any after it
                    let next = match start % 3 {
                        0 => code,
                        1 => code ^ (i & 1),
                        _ => if i == 0 { code } else { r.next() as u64 & 7 },
                    };
                    w = w << 3 | next;
                }
                b.extend_from_slice(&w.to_be_bytes());
            }
            sink(&b);
        }
    }
}

/// A later frame with other channels or another rate, cut anywhere from its header on: 4 against 5, in both modes.
fn second(r: &mut Random, sink: Sink) {
    let mut b = Vec::new();
    put_file_header(r, &mut b);
    let f = Frame { c: 1 + below(r, 4), rate: 1 + below(r, 3), n: below(r, 25), size: 0 };
    put_frame(r, &mut b, &Frame { size: fit_size(f.c, f.n), ..f });
    let g = Frame { c: 1 + below(r, 10), rate: 1 + below(r, 3), n: below(r, 25), size: 0 };
    let at = b.len();
    put_frame(r, &mut b, &Frame { size: fit_size(g.c, g.n), ..g });
    for _ in 0..4 {
        let end = at + below(r, b.len() - at + 1);
        sink(&b[..end]);
    }
    let first: Vec<u8> = b[8..at].to_vec();
    b.extend_from_slice(&first);
    sink(&b);
}

/// Nine channels and more, and frames of up to nine.
fn many_channels(r: &mut Random, sink: Sink) {
    let c = if below(r, 3) == 0 { 1 + below(r, 9) } else { 9 + below(r, 247) };
    let n = below(r, 22);
    let mut b = Vec::new();
    put_file_header(r, &mut b);
    if below(r, 3) == 0 {
        put_frame(r, &mut b, &Frame { c: 1, rate: 1, n: 1, size: 40 });
    }
    put_frame(r, &mut b, &Frame { c, rate: 1, n, size: fit_size(c, n) });
    let end = if below(r, 2) == 0 { b.len() } else { below(r, b.len() + 1) };
    sink(&b[..end]);
}

/// Tails of 0 to 9 bytes after good frames.
fn tails(r: &mut Random, sink: Sink) {
    let mut b = Vec::new();
    put_file_header(r, &mut b);
    let c = 1 + below(r, 8);
    for _ in 0..1 + below(r, 2) {
        let n = samples(r);
        put_frame(r, &mut b, &Frame { c, rate: 7, n, size: fit_size(c, n) });
    }
    sink(&b);
    for _ in 0..9 {
        b.push(r.next() as u8);
        sink(&b);
    }
}

/// Any total. The source is asked about the same file with the total 1 (see compare.rs).
fn totals(r: &mut Random, sink: Sink) {
    let mut b = good_file(r);
    let total = if below(r, 2) == 0 { u32::MAX - (r.next() % 3) } else { r.next() | 1 };
    b[4..8].copy_from_slice(&total.to_be_bytes());
    sink(&b);
}

/// Files that the source itself wrote, whole and with one byte changed.
fn signals(r: &mut Random, sink: Sink) {
    let c = 1 + below(r, 8);
    let n = match below(r, 3) {
        0 => 5100 + below(r, 60),
        _ => 1 + below(r, 900),
    };
    let samples = signal(KINDS[below(r, 5)], n, c);
    let desc = qoaudio::QoaDesc { channels: c as u8, sample_rate: rate(r) as u32, samples: n as u32 };
    let mut b = qoaudio::encode_all(&samples, &desc).unwrap();
    sink(&b);
    for _ in 0..8 {
        let at = below(r, b.len());
        let was = b[at];
        b[at] = r.next() as u8;
        if !(4..6).contains(&at) {
            sink(&b);
        }
        b[at] = was;
    }
}

/// Frames of up to 65535 samples, far past 5120, with extreme predictors.
fn long(r: &mut Random, sink: Sink) {
    let c = 1 + below(r, 3);
    let mut b = Vec::new();
    put_file_header(r, &mut b);
    for _ in 0..1 + below(r, 2) {
        let n = [65535, 65520, 65521, 5120, 5121, 5140, 30000][below(r, 7)];
        put_header(&mut b, &Frame { c, rate: 1, n, size: fit_size(c, n) });
        put_state(r, &mut b, c);
        // one word over and over drives a weight as far as it goes
        let same = word(r);
        let kind = below(r, 3);
        for _ in 0..c * n.div_ceil(20) {
            let w = match kind {
                0 => same,
                1 => word(r) | 0xf << 60,
                _ => word(r),
            };
            b.extend_from_slice(&w.to_be_bytes());
        }
    }
    sink(&b);
    let end = below(r, b.len());
    sink(&b[..end]);
}
